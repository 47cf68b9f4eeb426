# Lahzavar for C.
#
#   make              proves the library and writes the archive, where a source is newer; needs rt
#   make install      puts header, archive, lahzavar.pc and CMake package below PREFIX, or into INCLUDEDIR and LIBDIR;
#                     ARCHIVE=FILE takes an archive that is there already, and needs no rt
#   make uninstall    removes what make install has put there, given the same variables
#   make test         the gate, .ci/run
#   make demo         a whole matching, ./demo
#   make clean        removes target/

PREFIX ?= /usr/local
INCLUDEDIR ?= $(PREFIX)/include
LIBDIR ?= $(PREFIX)/lib
ARCHIVE = $(built)

built = target/staticlib/liblahzavar.a
sources := $(shell find crates crates.txt -type f -not -path '*/must-fail/*' -not -path '*/out/*')
number = $(shell sed -n 's/^.define LAHZAVAR_$(1) //p' include/lahzavar.h)
version = $(call number,MAJOR).$(call number,MINOR).$(call number,PATCH)
place = DESTDIR='$(DESTDIR)' PREFIX='$(PREFIX)' INCLUDEDIR='$(INCLUDEDIR)' LIBDIR='$(LIBDIR)' ARCHIVE='$(ARCHIVE)' \
	VERSION='$(version)' packaging/place

.PHONY: all install uninstall test demo clean
.DELETE_ON_ERROR:

all: $(built)

$(built): $(sources)
	tools/proved lahzavar

install: $(if $(filter file,$(origin ARCHIVE)),$(built))
	@$(place) install

uninstall:
	@$(place) uninstall

test:
	.ci/run

demo:
	./demo

clean:
	rm -rf target
