# The archive for C, proved, and its installation, for GNU make: 'make', 'make install PREFIX=..',
# 'make uninstall PREFIX=..', 'make check', 'make bench'. It proves, tests and measures nothing
# itself: tests/build, .ci/run and bench/run do.
SHELL := bash
.SHELLFLAGS := -euo pipefail -c

PREFIX ?= /usr/local
LIBDIR ?= $(PREFIX)/lib
INCLUDEDIR ?= $(PREFIX)/include
DESTDIR ?=
VERSION := $(shell awk '$$2 ~ /^PULPHOPPER_VERSION_(MAJOR|MINOR|PATCH)$$/ { printf "%s%s", dot, $$3; dot = "." }' include/pulphopper.h)

# The recipes take the places from the environment, so that a path may have spaces, and signs that
# mean something to the shell.
export PREFIX LIBDIR INCLUDEDIR DESTDIR VERSION

archive := target/staticlib/libpulphopper.a
# what rt keeps in a crate's out/ is made, and none of them
sources := crates.txt $(shell find crates -path 'crates/*/out' -prune -o \( -name '*.rt' -o -name '*.antt' \) -print)

.PHONY: all check bench install uninstall places

all: $(archive)

$(archive): $(sources)
	bash tests/build pulphopper

check:
	bash .ci/run

bench:
	bash bench/run

# What stands in the file for pkg-config must be true from every folder.
places:
	@for place in "$$PREFIX" "$$LIBDIR" "$$INCLUDEDIR"; do \
	    case $$place in /*) ;; *) echo "make: '$$place' is no absolute path" >&2; exit 1 ;; esac; \
	done

install: places all
	install -d "$$DESTDIR$$INCLUDEDIR" "$$DESTDIR$$LIBDIR/pkgconfig"
	install -m 644 include/pulphopper.h "$$DESTDIR$$INCLUDEDIR/pulphopper.h"
	install -m 644 $(archive) "$$DESTDIR$$LIBDIR/libpulphopper.a"
	awk -F @ -v OFS= '{ for (i = 2; i < NF; i += 2) $$i = ENVIRON[$$i]; print }' include/pulphopper.pc.in | \
	    install -m 644 /dev/stdin "$$DESTDIR$$LIBDIR/pkgconfig/pulphopper.pc"

uninstall: places
	rm -f "$$DESTDIR$$INCLUDEDIR/pulphopper.h" "$$DESTDIR$$LIBDIR/libpulphopper.a" "$$DESTDIR$$LIBDIR/pkgconfig/pulphopper.pc"
