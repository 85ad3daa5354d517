#!/bin/sh
# pack.sh STAGED VERSION MULTIARCH OUT: makes three Debian packages of what `make install` has put into the folder STAGED, below /usr: libkefs, what programs run with;
# kefs-dev, what they are built with; and libkefs-dbg, the symbols that are stripped from the others, where debuggers look for them by build ids.
set -eu
staged=$1 version=$2 libdir=usr/lib/$3 out=$4
architecture=$(dpkg --print-architecture)
work=$(mktemp -d) # outside of the tree, where no link may stand
trap 'rm -rf "$work"' EXIT
run=$work/libkefs dev=$work/kefs-dev dbg=$work/libkefs-dbg
mkdir -p "$run" "$dev" "$dbg"
cp -a "$staged/usr" "$run"
find "$run/usr/share/man" -type f -exec gzip -9n {} +

# Moves a path to the package of what programs are built with.
to_dev() {
  mkdir -p "$dev/$(dirname "$1")"
  mv "$run/$1" "$dev/$1"
}
for path in usr/include "$libdir/libkefs.a" "$libdir/libkefs.so" "$libdir/pkgconfig" usr/share/man/man3; do to_dev "$path"; done
strip --strip-debug "$dev/$libdir/libkefs.a"

# Keeps a file's symbols apart, by its build id, and strips it.
strip_apart() {
  id=$(readelf -n "$1" | sed -n 's/^ *Build ID: //p')
  place=$dbg/usr/lib/debug/.build-id/$(echo "$id" | cut -c1-2)/$(echo "$id" | cut -c3-).debug
  test -n "$id" && mkdir -p "$(dirname "$place")"
  objcopy --only-keep-debug --compress-debug-sections "$1" "$place"
  chmod 644 "$place"
  strip --strip-unneeded "$1"
}
find "$run/usr/bin" "$run/$libdir" -type f | while read -r path; do
  if readelf -h "$path" > /dev/null 2>&1 && readelf -n "$path" | grep -q 'Build ID'; then strip_apart "$path"; fi
done

# pack NAME SECTION DEPENDS DESCRIPTION
pack() {
  mkdir "$work/$1/DEBIAN"
  cat > "$work/$1/DEBIAN/control" <<CONTROL
Package: $1
Version: $version
Architecture: $architecture
Maintainer: Kefsdalv maintainers <maintainers@users.noreply.kefsdalv.example>
Depends: $3
Section: $2
Description: $4
CONTROL
  chmod 755 "$work/$1"
  dpkg-deb --root-owner-group --build "$work/$1" "$out/$1_${version}_$architecture.deb"
}
pack libkefs libs 'libc6 (>= 2.34)' 'failure-atomic msync over proved plans of device calls'
pack kefs-dev libdevel "libkefs (= $version)" 'failure-atomic msync: headers and static library'
pack libkefs-dbg debug "libkefs (= $version)" 'failure-atomic msync: symbols for debuggers'
