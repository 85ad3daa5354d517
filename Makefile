# make            the C library, by embed/Makefile, and where the programs are
# make install    the programs, with their manual pages and what there is to try them on, and the C library, into DESTDIR, below PREFIX (/usr/local)
# make deb        out/kefsdalv_VERSION_ARCHITECTURE.deb, the programs, and embed/out/libkefs_VERSION_ARCHITECTURE.deb, the C library
# make clean
# The programs are those of crates/ where all six are built there, else those of prebuilt/ (tools/built.py). No command here needs the kit, nor asks for it.

export PYTHONDONTWRITEBYTECODE = 1
PREFIX ?= /usr/local
MANDIR ?= $(PREFIX)/share/man
DOCDIR ?= $(PREFIX)/share/doc/kefsdalv
VERSION := $(shell sed -n 's/^.define KEFS_VERSION_\(MAJOR\|MINOR\|PATCH\) //p' $$(find embed -name kefs.h | head -n 1) | paste -sd.)
PROGRAMS := pagefmt pagerun pagelook pagecat pagestops pagesync
PAGES := $(PROGRAMS:%=out/man/%.1)

all:
	$(MAKE) -C embed all
	-tools/built.py $(PROGRAMS) > /dev/null

$(PAGES): out/man/%.1: docs/PROGRAMS.md docs/EMBEDDING.md
	mkdir -p out/man
	$(MAKE) -s -C embed out/man/$*.1
	cp embed/out/man/$*.1 $@

install: install-library install-programs

# Of the pages of programs, which embed/Makefile installs too, each package is to have its own.
install-library:
	@command -v $(CC) > /dev/null || { echo "make: there is no C compiler ($(CC)), which the C library takes; make install-programs installs the programs alone" >&2; exit 1; }
	rm -f $(PROGRAMS:%=embed/out/man/%.1)
	$(MAKE) -s -C embed install PROGRAMS= DESTDIR='$(DESTDIR)' PREFIX='$(PREFIX)'

# On a machine for which there are no programs the library alone is installed.
install-programs: $(PAGES)
	if programs=$$(tools/built.py $(PROGRAMS)); then \
	  install -d '$(DESTDIR)$(PREFIX)/bin' '$(DESTDIR)$(MANDIR)/man1' '$(DESTDIR)$(DOCDIR)/examples' && \
	  install -m 755 $$programs tools/pagehelp '$(DESTDIR)$(PREFIX)/bin' && \
	  install -m 644 $(PAGES) '$(DESTDIR)$(MANDIR)/man1' && \
	  install -m 644 docs/COMMANDS.md docs/PROGRAMS.md '$(DESTDIR)$(DOCDIR)' && \
	  install -m 644 examples/* '$(DESTDIR)$(DOCDIR)/examples'; \
	fi

# The folder that is packed lies outside of the tree, where no link may stand.
deb: $(PAGES)
	rm -f $(PROGRAMS:%=embed/out/man/%.1)
	$(MAKE) -C embed deb PROGRAMS=
	tools/built.py $(PROGRAMS) > /dev/null || exit 0; \
	  folder=$$(mktemp -d) && trap 'rm -rf "$$folder"' EXIT && architecture=$$(dpkg --print-architecture) && \
	  $(MAKE) -s install-programs DESTDIR=$$folder PREFIX=/usr && find $$folder/usr/share/man -type f -exec gzip -9n {} + && \
	  mkdir $$folder/DEBIAN && chmod 755 $$folder && printf '%s\n' \
	    'Package: kefsdalv' 'Version: $(VERSION)' "Architecture: $$architecture" \
	    'Maintainer: Kefsdalv maintainers <maintainers@users.noreply.kefsdalv.example>' 'Depends: libc6 (>= 2.34)' 'Suggests: python3' 'Section: misc' \
	    'Description: virtual memory to look into, with an msync that cannot tear' \
	    ' A simulated RISC-V machine runs traces of loads, stores and memory calls over' \
	    ' files in a disk image. The programs are proved.' > $$folder/DEBIAN/control && \
	  dpkg-deb --root-owner-group --build $$folder out/kefsdalv_$(VERSION)_$$architecture.deb

clean:
	rm -rf out
	$(MAKE) -C embed clean

.PHONY: all install install-library install-programs deb clean
