# Builds and installs the library for C and C++, and the programs that are built.
#
#   make                           proves and builds the library, by scripts/c-library
#   make install PREFIX=/usr/local installs it, by scripts/install
#   make uninstall PREFIX=..       removes what `make install` put there
#   make check                     installs into a folder, and builds and runs examples over it, by scripts/install-test
#
# DESTDIR is put before each path, for packagers. OUT is the folder of the built library.
PREFIX ?= /usr/local
override PREFIX := $(abspath $(PREFIX))
BINDIR ?= $(PREFIX)/bin
LIBDIR ?= $(PREFIX)/lib
INCLUDEDIR ?= $(PREFIX)/include
DATADIR ?= $(PREFIX)/share
OUT ?= out
export PREFIX BINDIR LIBDIR INCLUDEDIR DATADIR DESTDIR OUT

SOURCES := crates.txt $(wildcard crates/*/src/*.rt crates/*/specs/*.antt)

all: $(OUT)/libzorfelith.a

$(OUT)/libzorfelith.a: $(SOURCES)
	scripts/c-library $(OUT)

install: $(OUT)/libzorfelith.a
	scripts/install

uninstall:
	scripts/install --remove

check: $(OUT)/libzorfelith.a
	scripts/install-test $(OUT)

.PHONY: all install uninstall check
