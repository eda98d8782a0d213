# Installs hwp from its built programs, and makes a Debian package of it (docs/INSTALL.md). Nothing is built here: bin/hwp does that.
PREFIX ?= /usr/local
DESTDIR ?=
OUT ?= out
MAINTAINER ?= hwp <hwp@localhost>
# Programs to install in place of those that stand in crates/*/out.
HWP ?=
HWP_TRACE ?=
PYTHON ?= python3
installing = $(PYTHON) -B tools/installing.py
programs = --hwp "$(HWP)" --trace "$(HWP_TRACE)"

help:
	@echo "make install [PREFIX=$(PREFIX)] [DESTDIR=]    programs, man pages, completion, vim files, documents"
	@echo "make uninstall [PREFIX=$(PREFIX)] [DESTDIR=]  removes them"
	@echo "make deb [OUT=$(OUT)]                            a Debian package of them"
	@echo "HWP=PROGRAM and HWP_TRACE=PROGRAM name programs in place of the built ones (docs/INSTALL.md)."

install:
	@$(installing) install --prefix "$(PREFIX)" --destdir "$(DESTDIR)" $(programs)

uninstall:
	@$(installing) uninstall --prefix "$(PREFIX)" --destdir "$(DESTDIR)"

deb:
	@$(installing) deb --out "$(OUT)" --maintainer "$(MAINTAINER)" $(programs)

.PHONY: help install uninstall deb
