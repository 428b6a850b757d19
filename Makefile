# Builds, installs and removes the library and the programs; docs/INSTALL.md has more. GNU make.

PREFIX ?= /usr/local
DESTDIR ?=
BINDIR ?= $(PREFIX)/bin
LIBDIR ?= $(PREFIX)/lib
INCLUDEDIR ?= $(PREFIX)/include
DATADIR ?= $(PREFIX)/share
MANDIR ?= $(DATADIR)/man
PYTHON ?= python3
# Where it is left empty, what PYTHON says for PREFIX.
PYTHONDIR ?=
INSTALL ?= install

VERSION := $(shell cat VERSION)
SONAME := libpelshaqu.so.$(firstword $(subst ., ,$(VERSION)))
SHARED := target/lib/libpelshaqu.so.$(VERSION)
ARCHIVE := target/staticlib/libpelshaqu.a
PROGRAMS := target/bin/strips target/bin/grade

.PHONY: all shared install uninstall test help FORCE
.NOTPARALLEL:
.DELETE_ON_ERROR:

all: $(PROGRAMS) $(ARCHIVE) $(SHARED) target/version

shared: $(SHARED) target/version

# Proved and built by rt, where they are not there or a source has changed.
$(PROGRAMS) $(ARCHIVE): FORCE
	@sh scripts/build.sh $(@F)

# The whole archive, with the names of the map and no other. Its calls of its own functions stay within it; no text relocations, nothing
# left to be found or bound later.
$(SHARED): $(ARCHIVE) scripts/libpelshaqu.map VERSION Makefile
	@mkdir -p $(@D)
	$(CC) $(LDFLAGS) -shared -o $@ -Wl,-soname,$(SONAME) -Wl,--version-script=scripts/libpelshaqu.map \
	    -Wl,--whole-archive $(ARCHIVE) -Wl,--no-whole-archive \
	    -Wl,-Bsymbolic -Wl,--no-undefined -Wl,-z,text -Wl,-z,relro -Wl,-z,now -Wl,-z,noexecstack
	@ln -sf $(@F) target/lib/$(SONAME)
	@ln -sf $(SONAME) target/lib/libpelshaqu.so

target/version: $(ARCHIVE) FORCE
	@sh scripts/build.sh version

install uninstall: export PREFIX := $(PREFIX)
install uninstall: export DESTDIR := $(DESTDIR)
install uninstall: export BINDIR := $(BINDIR)
install uninstall: export LIBDIR := $(LIBDIR)
install uninstall: export INCLUDEDIR := $(INCLUDEDIR)
install uninstall: export DATADIR := $(DATADIR)
install uninstall: export MANDIR := $(MANDIR)
install uninstall: export PYTHON := $(PYTHON)
install uninstall: export PYTHONDIR := $(PYTHONDIR)
install uninstall: export INSTALL := $(INSTALL)

install: all
	@sh scripts/install.sh install

uninstall:
	@sh scripts/install.sh uninstall

test:
	.ci/run

help:
	@echo 'make            builds what is installed: proves and compiles where a source has changed'
	@echo 'make install    installs it; PREFIX=$(PREFIX) DESTDIR=$(DESTDIR)'
	@echo 'make uninstall  removes what was installed there'
	@echo 'make test       the gate: proves every crate, tries every must-fail edit and passes the tests'
	@echo
	@echo 'Variables, as they are:'
	@echo '  PREFIX      $(PREFIX)'
	@echo '  DESTDIR     $(DESTDIR)  (a folder that stands for the root)'
	@echo '  BINDIR      $(BINDIR)'
	@echo '  LIBDIR      $(LIBDIR)'
	@echo '  INCLUDEDIR  $(INCLUDEDIR)'
	@echo '  DATADIR     $(DATADIR)'
	@echo '  MANDIR      $(MANDIR)'
	@echo '  PYTHON      $(PYTHON)  (empty: without the Python package)'
	@echo '  PYTHONDIR   $(PYTHONDIR)  (empty: where PYTHON looks below PREFIX)'
	@echo '  CC          $(CC)'
	@echo '  INSTALL     $(INSTALL)'
