# The library and the companion, installed and packed (GNU make, x86-64 Linux).
#
#   make program         the program target/bin/timetable, which rt proves and builds
#   make lib             the static archive, which rt proves and builds too, and a shared library made from it
#   make install         install-lib and install-office
#   make install-lib     both libraries, the header, a pkg-config file, the man page, docs/FORMAT.md, and the program
#                        if it was built
#   make install-office  timetable-office, its man page and its completions for bash, zsh and fish (needs python3)
#   make uninstall       removes what this version installs
#   make dist            packs the last commit as target/dist/louvretansy-VERSION.tar.gz, with its SHA-256 beside it
#   make check           all tests (tests/all: the gate, tens of minutes)
#   make check-lib       the library's tests (tests/library.sh: seconds, once the archive is there)
#
# PREFIX (/usr/local), LIBDIR, INCLUDEDIR, BINDIR, MANDIR, DOCDIR, PACKAGEDIR and the folders of the completions say
# where to install, DESTDIR what to put in front.
# ARCHIVE=FILE takes an archive that is there; then rt is not needed. After an installation for the whole system run
# ldconfig. The shared library has the first two parts of the version in the name that programs ask for: those built
# with an older one go on with theirs, as long as its file stays.

PREFIX = /usr/local
LIBDIR = $(PREFIX)/lib
INCLUDEDIR = $(PREFIX)/include
BINDIR = $(PREFIX)/bin
MANDIR = $(PREFIX)/share/man
DOCDIR = $(PREFIX)/share/doc/louvretansy
PACKAGEDIR = $(PREFIX)/share/timetable-office
BASHDIR = $(PREFIX)/share/bash-completion/completions
ZSHDIR = $(PREFIX)/share/zsh/site-functions
FISHDIR = $(PREFIX)/share/fish/vendor_completions.d

RT = rt
CC = gcc
PYTHON = python3
INSTALL = install
BUILD = target/lib
DIST = target/dist
ARCHIVE = target/staticlib/liblouvretansy.a
PROGRAM = target/bin/timetable

VERSION := $(shell sed -n 's/^.define TIMETABLE_VERSION "\(.*\)"$$/\1/p' include/timetable.h)
NAME = liblouvretansy.so
SONAME = $(NAME).$(basename $(VERSION))
FILE = $(NAME).$(VERSION)
RELEASE = louvretansy-$(VERSION)

# A folder as the pkg-config file has it: below ${prefix} where it is
below_prefix = $(patsubst $(PREFIX)/%,$${prefix}/%,$(1))

PACKAGE = $(wildcard office/timetable_office/*.py) $(addprefix office/timetable_office/,page.css page.js py.typed)
COMPLETIONS = PYTHONPATH=office $(PYTHON) -B -m timetable_office --completions

.PHONY: program lib install install-lib install-office uninstall dist check check-lib help

lib: $(ARCHIVE) $(BUILD)/$(FILE)

ifeq ($(origin ARCHIVE),file)
$(ARCHIVE): crates.txt $(shell find crates -name out -prune -o \( -name '*.rt' -o -name '*.antt' \) -print)
	@command -v $(RT) > /dev/null || { echo "$(RT) is missing; ARCHIVE=FILE names an archive that is there"; exit 1; }
	$(PYTHON) tests/build.py library
	touch $@
endif

program:
	@command -v $(RT) > /dev/null || { echo "$(RT) is missing; it comes with the Rattle kit"; exit 1; }
	$(PYTHON) tests/build.py program

$(BUILD)/$(FILE): $(ARCHIVE) packaging/louvretansy.map include/timetable.h
	mkdir -p $(BUILD)
	$(CC) -shared -o $@ -Wl,-soname,$(SONAME) -Wl,--version-script=packaging/louvretansy.map \
	    -Wl,-z,defs -Wl,-z,relro -Wl,-z,now $(LDFLAGS) -Wl,--whole-archive $(ARCHIVE) -Wl,--no-whole-archive

install: install-lib install-office

install-lib: lib
	$(INSTALL) -d "$(DESTDIR)$(LIBDIR)/pkgconfig" "$(DESTDIR)$(INCLUDEDIR)"
	$(INSTALL) -d "$(DESTDIR)$(MANDIR)/man1" "$(DESTDIR)$(DOCDIR)"
	$(INSTALL) -m 644 $(ARCHIVE) "$(DESTDIR)$(LIBDIR)/liblouvretansy.a"
	$(INSTALL) -m 755 $(BUILD)/$(FILE) "$(DESTDIR)$(LIBDIR)/$(FILE)"
	ln -sf $(FILE) "$(DESTDIR)$(LIBDIR)/$(SONAME)"
	ln -sf $(SONAME) "$(DESTDIR)$(LIBDIR)/$(NAME)"
	$(INSTALL) -m 644 include/timetable.h "$(DESTDIR)$(INCLUDEDIR)/timetable.h"
	sed -e 's|@PREFIX@|$(PREFIX)|' -e 's|@LIBDIR@|$(call below_prefix,$(LIBDIR))|' -e 's|@VERSION@|$(VERSION)|' \
	    -e 's|@INCLUDEDIR@|$(call below_prefix,$(INCLUDEDIR))|' packaging/louvretansy.pc.in \
	    > "$(DESTDIR)$(LIBDIR)/pkgconfig/louvretansy.pc"
	chmod 644 "$(DESTDIR)$(LIBDIR)/pkgconfig/louvretansy.pc"
	$(INSTALL) -m 644 docs/timetable.1 "$(DESTDIR)$(MANDIR)/man1/timetable.1"
	$(INSTALL) -m 644 docs/FORMAT.md $(wildcard LICENSE) "$(DESTDIR)$(DOCDIR)"
	if [ -f $(PROGRAM) ]; then \
	    $(INSTALL) -d "$(DESTDIR)$(BINDIR)" && $(INSTALL) -m 755 $(PROGRAM) "$(DESTDIR)$(BINDIR)/timetable"; \
	else \
	    echo "$(PROGRAM) was not built and is not installed"; \
	fi

# The library is looked for beside the package first: a link leads to the installed one.
install-office:
	$(INSTALL) -d "$(DESTDIR)$(BINDIR)" "$(DESTDIR)$(MANDIR)/man1" "$(DESTDIR)$(PACKAGEDIR)/timetable_office"
	$(INSTALL) -d "$(DESTDIR)$(BASHDIR)" "$(DESTDIR)$(ZSHDIR)" "$(DESTDIR)$(FISHDIR)"
	$(INSTALL) -m 644 $(PACKAGE) "$(DESTDIR)$(PACKAGEDIR)/timetable_office"
	ln -srf "$(DESTDIR)$(LIBDIR)/$(SONAME)" "$(DESTDIR)$(PACKAGEDIR)/timetable_office/$(NAME)"
	sed 's|@PACKAGEDIR@|$(PACKAGEDIR)|' packaging/timetable-office.in > "$(DESTDIR)$(BINDIR)/timetable-office"
	chmod 755 "$(DESTDIR)$(BINDIR)/timetable-office"
	$(INSTALL) -m 644 office/timetable-office.1 "$(DESTDIR)$(MANDIR)/man1/timetable-office.1"
	$(COMPLETIONS) bash > "$(DESTDIR)$(BASHDIR)/timetable-office"
	$(COMPLETIONS) zsh > "$(DESTDIR)$(ZSHDIR)/_timetable-office"
	$(COMPLETIONS) fish > "$(DESTDIR)$(FISHDIR)/timetable-office.fish"

uninstall:
	for file in liblouvretansy.a $(FILE) $(SONAME) $(NAME) pkgconfig/louvretansy.pc; do \
	    rm -f "$(DESTDIR)$(LIBDIR)/$$file"; \
	done
	rm -f "$(DESTDIR)$(INCLUDEDIR)/timetable.h" "$(DESTDIR)$(BINDIR)/timetable" "$(DESTDIR)$(MANDIR)/man1/timetable.1"
	rm -f "$(DESTDIR)$(DOCDIR)/FORMAT.md" "$(DESTDIR)$(DOCDIR)/LICENSE"
	rm -f "$(DESTDIR)$(BINDIR)/timetable-office" "$(DESTDIR)$(MANDIR)/man1/timetable-office.1"
	rm -f "$(DESTDIR)$(BASHDIR)/timetable-office" "$(DESTDIR)$(ZSHDIR)/_timetable-office"
	rm -f "$(DESTDIR)$(FISHDIR)/timetable-office.fish"
	rm -rf "$(DESTDIR)$(PACKAGEDIR)/timetable_office"
	for folder in "$(DESTDIR)$(DOCDIR)" "$(DESTDIR)$(PACKAGEDIR)"; do \
	    if [ -d "$$folder" ]; then rmdir --ignore-fail-on-non-empty "$$folder"; fi; \
	done

dist:
	@git diff --quiet HEAD || { echo "there are changes that no commit has: commit them first"; exit 1; }
	mkdir -p $(DIST)
	git archive --format=tar.gz --prefix=$(RELEASE)/ -o $(DIST)/$(RELEASE).tar.gz HEAD
	cd $(DIST) && sha256sum $(RELEASE).tar.gz > $(RELEASE).tar.gz.sha256

check:
	bash tests/all

check-lib:
	bash tests/library.sh

help:
	@sed -n '/^#/!q; s/^# \{0,1\}//p' Makefile
