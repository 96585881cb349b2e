# The library for C and Rust: builds it, installs it and takes it away again.
#
#   make              both of the next two
#   make library      proves the library and makes target/lib: libstraightener.a and the header that belongs to it
#   make program      proves the line program and makes target/bin/straightener
#   make install      copies both below PREFIX, with a file for pkg-config
#   make uninstall    removes what install copied
#
# PREFIX is where the library is used, /usr/local if nothing is said; DESTDIR is put before it, for makers of packages.
# Once target/lib is there, install neither proves nor builds, so it needs no kit and may run as another user.

PREFIX ?= /usr/local
INCLUDEDIR ?= $(PREFIX)/include
LIBDIR ?= $(PREFIX)/lib
PKGCONFIGDIR ?= $(LIBDIR)/pkgconfig
INSTALL ?= install

MADE := target/lib
VERSION = $(shell sed -n 's/^.define STRAIGHTENER_VERSION "\(.*\)"$$/\1/p' $(MADE)/straightener.h)

all: library program

kit:
	@command -v rt > /dev/null || { echo "make: the Rattle kit's command rt is not on the PATH" >&2; exit 1; }

# The kit names an archive after its crate, and the program has the library's name. The moves come last, so that what is half made is
# never taken for the library.
library: kit
	cd crates/exports_c && rt lib
	mkdir -p $(MADE)
	cp include/straightener.h $(MADE)/header.new
	cp crates/exports_c/out/libexports_c.a $(MADE)/archive.new
	mv $(MADE)/header.new $(MADE)/straightener.h
	mv $(MADE)/archive.new $(MADE)/libstraightener.a

# The kit builds a program to run it: here with no input.
program: kit
	cd crates/straightener && rt run < /dev/null
	mkdir -p target/bin
	cp crates/straightener/out/straightener target/bin/program.new
	mv target/bin/program.new target/bin/straightener

$(MADE)/libstraightener.a:
	$(MAKE) library

install: $(MADE)/libstraightener.a
	@case "$(INCLUDEDIR):$(LIBDIR)" in /*:/*) ;; *) echo "make: PREFIX must begin with /" >&2; exit 1 ;; esac
	mkdir -p "$(DESTDIR)$(INCLUDEDIR)" "$(DESTDIR)$(LIBDIR)" "$(DESTDIR)$(PKGCONFIGDIR)"
	$(INSTALL) -m 644 $(MADE)/straightener.h "$(DESTDIR)$(INCLUDEDIR)/straightener.h"
	$(INSTALL) -m 644 $(MADE)/libstraightener.a "$(DESTDIR)$(LIBDIR)/libstraightener.a"
	printf '%s\n' 'prefix=$(PREFIX)' 'includedir=$(INCLUDEDIR)' 'libdir=$(LIBDIR)' '' 'Name: straightener' \
	    'Description: Pictures of analyser screens straightened by three proved shears in whole numbers' \
	    'Version: $(VERSION)' 'Cflags: -I$${includedir}' 'Libs: -L$${libdir} -lstraightener' \
	    > "$(DESTDIR)$(PKGCONFIGDIR)/straightener.pc"
	chmod 644 "$(DESTDIR)$(PKGCONFIGDIR)/straightener.pc"

uninstall:
	rm -f "$(DESTDIR)$(INCLUDEDIR)/straightener.h" "$(DESTDIR)$(LIBDIR)/libstraightener.a" \
	    "$(DESTDIR)$(PKGCONFIGDIR)/straightener.pc"

.PHONY: all kit library program install uninstall
