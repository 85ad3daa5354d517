#!/bin/sh
# check_package.sh PREFIX LIBDIR MANDIR: installs into a folder, builds a C++ and a C program against it by pkg-config, runs them with the shared and with
# the static library, has kefsrun take in a file, and kefsrun and kefscheck give it back, and looks at the names that the libraries show and at the manual pages.
set -eu
libdir=$2 mandir=$3
here=$(pwd) work=$(mktemp -d) # outside of the tree, where no link may stand
trap 'rm -rf "$work"' EXIT
staged=$work/staged
${MAKE:-make} -s install DESTDIR="$staged" PREFIX="$1" LIBDIR="$libdir" MANDIR="$mandir"
export PKG_CONFIG_PATH="$staged$libdir/pkgconfig" PKG_CONFIG_SYSROOT_DIR="$staged"
cat > "$work/try.cc" <<'C'
#include <kefs.h>
#include <cstdio>
int main(int, char **argv) {
  kefs_file file = {4096, 0, nullptr};
  kefs_image *image = nullptr;
  void *at = nullptr;
  if (kefs_format(argv[1], 0600, &file, 1) != KEFS_OK || kefs_open(&image, argv[1], 0) != KEFS_OK || kefs_map(image, 0, nullptr, &at, nullptr) != KEFS_OK) return 1;
  *static_cast<char *>(at) = 1;
  std::size_t taken = 0;
  return kefs_commit(image, nullptr, 0, &taken) == KEFS_OK && taken == 1 && kefs_close(image) == KEFS_OK ? 0 : 1;
}
C
sed 's/nullptr/NULL/g; s/<cstdio>/<stdio.h>/; s/kefs_file file/struct kefs_file file/; s/static_cast<char \*>(at)/(char *)at/; s/std:://' "$work/try.cc" > "$work/try.c"
sed -i 's/int main(int, char/int main(int count, char/; s/struct kefs_file/(void)count;\n  &/' "$work/try.c"
flags=$(pkg-config --cflags --libs kefs)
# shellcheck disable=SC2086
${CXX:-c++} -Wall -Wextra -Werror -o "$work/shared" "$work/try.cc" $flags
LD_LIBRARY_PATH="$staged$libdir" "$work/shared" "$work/shared.img"
# shellcheck disable=SC2086
${CC:-cc} -Wall -Wextra -Werror -o "$work/static" "$work/try.c" $(pkg-config --cflags kefs) "$staged$libdir/libkefs.a" -pthread
"$work/static" "$work/static.img"
cmp "$work/shared.img" "$work/static.img"
nm -D --defined-only "$staged$libdir/libkefs.so.2" | awk '$2 == "T" { print $3 }' | sed 's/@.*//' | sort > "$work/shared.names"
nm --defined-only --extern-only "$staged$libdir/libkefs.a" | awk 'NF == 3 { print $3 }' | sort > "$work/static.names"
grep -o 'kefs_[a-z_]*(' "$here/kefs.h" | tr -d '(' | sort -u > "$work/header.names"
cmp "$work/shared.names" "$work/header.names"
cmp "$work/static.names" "$work/header.names"
printf 'Ada 1815' > "$work/data"
kefsrun=$staged$1/bin/kefsrun
"$kefsrun" -m 4K -i "$work/run.img" "$work/data" -- true
test "$("$kefsrun" "$work/run.img" "$work/data" -- cat "$work/data")" = 'Ada 1815'
test "$("$staged$1/bin/kefscheck" dump "$work/run.img" 0 | head -c 8)" = 'Ada 1815'
"$staged$1/bin/kefscheck" "$work/run.img" | grep -qx 'would open: yes'
for page in "$staged$mandir"/man3/kefs.3 "$staged$mandir"/man1/*.1; do
  if command -v man > /dev/null; then man --warnings -l "$page" 2> "$work/warnings" > "$work/page" || true; else cp "$page" "$work/page"; fi
  test -s "$work/page" && test ! -s "$work/warnings" || { echo "check_package: $page: $(head -1 "$work/warnings")"; exit 1; }
done
if command -v dpkg-deb > /dev/null; then
  ${MAKE:-make} -s deb > "$work/deb.log"
  mkdir "$work/unpacked"
  for package in "$here"/out/*.deb; do dpkg-deb -x "$package" "$work/unpacked/$(basename "$package" | sed 's/_.*//')"; done
  cd "$work/unpacked"
  test -f "$(find libkefs -name libkefs.so.2)" && test -f kefs-dev/usr/include/kefs.h && test -z "$(find libkefs -name '*.[ah]')"
  if readelf -S "$(find libkefs -name libkefs.so.2)" | grep -q debug_info; then echo "check_package: libkefs.so.2 is not stripped"; exit 1; fi
  test "$(find libkefs-dbg -name '*.debug' | wc -l)" -ge 4
  cd "$here"
fi
lto="-O2 -flto"
rm -f "$here"/out/*.o # so that all is built with these flags, and then without them
${MAKE:-make} -s out/libkefs.a out/libkefs.so.2 out/kefscheck CFLAGS="$lto" LDFLAGS="$lto" > "$work/lto.log" 2>&1 || { cat "$work/lto.log"; exit 1; }
# shellcheck disable=SC2086
${CC:-cc} $lto -o "$work/whole" "$work/try.c" -I"$here" "$here/out/libkefs.a" -pthread
"$work/whole" "$work/whole.img"
rm -f "$here"/out/*.o
${MAKE:-make} -s out/libkefs.a out/libkefs.so.2 out/kefscheck > "$work/again.log"
echo "check_package: both libraries, kefsrun and the manual pages are whole"
