# Installs what is built here.
#
#   make                       builds the programs that aren't there without a proof, a minute each; one that is proved is taken where it is there,
#                              as after ./build
#   ./build c                  proves and builds the library for C, about 20 minutes
#   make install PREFIX=/usr/local DESTDIR=
#                              the programs, their man pages, and the library with its headers and what pkg-config(1) reads
#   make install-programs      the same without the library, and
#   make install-library       without the programs
#   make uninstall PREFIX=/usr/local DESTDIR=
#
# The programs go to PREFIX/lib/ipcsh, with links in PREFIX/bin. They want Python 3.8 or later, and not this folder, the kit or a compiler.

PREFIX = /usr/local
DESTDIR =

export PREFIX DESTDIR

programs install-programs install-library uninstall:
	@sh lib/install.sh $@

install: install-programs install-library

.PHONY: programs install install-programs install-library uninstall
