# make            proves and builds the library, and the command mve where its crates can be had
# make library    proves and builds the library alone (rt lib in crates/mve): target/staticlib/libmve.a
# make listing    proves and builds the listing program (rt run in crates/mve_list): target/bin/mve_list
# make install    installs header, archive, mve.pc and, where it is built, the command with its man pages and the shells'
#                 completions. It builds nothing
# make uninstall  removes them
# make dist       puts the same, the documents, the example players and, where ./demo has made it, the demonstration film into
#                 a tarball, $(DIST)/mve-VERSION-x86_64.tar.gz, for those who do not have rt. It builds nothing
# make boot       plays the demonstration, or FILM, by the boot stage of examples/boot on a machine of QEMU. make comes first
#
# PREFIX is /usr/local unless it is given, and DIST target/dist. DESTDIR is put in front of every path, for packages.

PREFIX ?= /usr/local
INCLUDEDIR ?= $(PREFIX)/include
LIBDIR ?= $(PREFIX)/lib
BINDIR ?= $(PREFIX)/bin
SHAREDIR ?= $(PREFIX)/share
DIST ?= target/dist
MVE_LIB_DIR ?= target/staticlib
CARGO_TARGET_DIR ?= command/target

archive = $(MVE_LIB_DIR)/libmve.a
command = $(CARGO_TARGET_DIR)/release/mve
share = $(CARGO_TARGET_DIR)/share
pages = $(shell cd $(share) 2>/dev/null && find . -type f)
version = $(shell sed -n 's/^\#define MVE_VERSION //p' include/mve.h)
tree = $(DIST)/mve-$(version)
film = target/demo/film.mve
documents = $(wildcard README.md CHANGELOG.md CONTRIBUTING.md SECURITY.md command/README.md command/*.png docs/*.md \
    docs/*.gif) examples/synopsis.c examples/play.c

# what the library and the programs are proved and made from
sources = crates.txt $(shell find crates/*/src crates/*/specs crates/*/proofs)

.PHONY: all library listing command install uninstall dist boot

all: library command

library: target/staticlib/libmve.a
listing: target/bin/mve_list

# for every x86-64 processor, as the header says
target/staticlib/libmve.a: $(sources)
	cd crates/mve && rt lib --cpu=x86-64
	install -D -m 644 crates/mve/out/libmve.a $@

target/bin/mve_list: $(sources)
	cd crates/mve_list && rt run <stdin
	install -D crates/mve_list/out/mve_list $@

# Exit status 3: the crates of the command cannot be had. The script has said so.
command: library
	command/build && command/pages $(command) $(share) || test $$? = 3

install:
	@test -e $(archive) || { echo "install: $(archive) is missing: run make first" >&2; exit 1; }
	install -d $(DESTDIR)$(INCLUDEDIR) $(DESTDIR)$(LIBDIR)/pkgconfig
	install -m 644 include/mve.h $(DESTDIR)$(INCLUDEDIR)/mve.h
	install -m 644 $(archive) $(DESTDIR)$(LIBDIR)/libmve.a
	sed -e 's|@PREFIX@|$(PREFIX)|' -e 's|@INCLUDEDIR@|$(INCLUDEDIR)|' -e 's|@LIBDIR@|$(LIBDIR)|' \
	    -e 's|@VERSION@|$(version)|' mve.pc.in >$(DESTDIR)$(LIBDIR)/pkgconfig/mve.pc
	@if test -e $(command); then \
	    set -xe; install -d $(DESTDIR)$(BINDIR); install -m 755 $(command) $(DESTDIR)$(BINDIR)/mve; \
	    for page in $(pages); do install -D -m 644 $(share)/$$page $(DESTDIR)$(SHAREDIR)/$$page; done; \
	else \
	    echo "install: without the command mve: it is not built (command/build)"; \
	fi

uninstall:
	rm -f $(DESTDIR)$(INCLUDEDIR)/mve.h $(DESTDIR)$(LIBDIR)/libmve.a $(DESTDIR)$(LIBDIR)/pkgconfig/mve.pc \
	    $(DESTDIR)$(BINDIR)/mve $(pages:%=$(DESTDIR)$(SHAREDIR)/%)

# In mve.pc the prefix is where the tarball was unpacked: two folders above the file.
dist:
	rm -rf $(tree)
	$(MAKE) --no-print-directory install DESTDIR= PREFIX=$(abspath $(tree))
	sed -i 's|$(abspath $(tree))|$${pcfiledir}/../..|' $(tree)/lib/pkgconfig/mve.pc
	for file in $(documents); do install -D -m 644 $$file $(tree)/share/doc/mve/$$file; done
	@test ! -e $(film) || install -m 644 $(film) $(tree)/share/doc/mve/film.mve
	tar -C $(DIST) --owner=0 --group=0 --sort=name -czf $(tree)-x86_64.tar.gz mve-$(version)
	@echo "dist: $(tree)-x86_64.tar.gz"

boot:
	@$(MAKE) --no-print-directory -C examples/boot boot MVE_LIB_DIR=$(abspath $(MVE_LIB_DIR)) \
	    $(if $(FILM),FILM=$(abspath $(FILM)))
