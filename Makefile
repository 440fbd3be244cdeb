# make              proves and builds the program and libshade.a
# make install      puts them under PREFIX, with the header, the pkg-config file and the man page
# make uninstall    takes them away again: give it the same folders
# make check        the one test command, ./test; make test is the same
# make clean        takes away what was built
#
# PREFIX or prefix, bindir, libdir, includedir and mandir may be given, and DESTDIR, a folder to put before them. They
# reach tools/install in the environment, so that blanks and quotes in them are safe.
PREFIX ?= /usr/local
prefix = $(PREFIX)
bindir = $(prefix)/bin
libdir = $(prefix)/lib
includedir = $(prefix)/include
mandir = $(prefix)/share/man
export DESTDIR prefix bindir libdir includedir mandir

# two builds in one folder get in each other's way
.NOTPARALLEL:
.PHONY: all install uninstall check test clean

all:
	tools/build shadepass shade

install: all
	tools/install

uninstall:
	tools/install --remove

check test:
	./test

clean:
	tools/build --clean
