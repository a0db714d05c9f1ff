# Proves and builds the static library and the programs, and installs them. Needs the Rattle kit (command rt); README.md, "Install it".
#   make                  target/staticlib/libguavachisel.a, target/bin/listing, target/bin/explain, target/bin/teletype
#   make check            the gate: everything proved, and every test
#   make install          below PREFIX, in the folder DESTDIR if one is said
#   make uninstall        takes away what install put there
PREFIX = /usr/local
DESTDIR =

library = target/staticlib/libguavachisel.a
programs = target/bin/listing target/bin/explain target/bin/teletype
sources := crates.txt $(shell find crates -name must-fail -prune -o -name out -prune -o -type f -print)

bin = $(DESTDIR)$(PREFIX)/bin
include = $(DESTDIR)$(PREFIX)/include
lib = $(DESTDIR)$(PREFIX)/lib
libexec = $(DESTDIR)$(PREFIX)/libexec/guavachisel
share = $(DESTDIR)$(PREFIX)/share/guavachisel
version = $(shell sed -n 's/^.define GUAVACHISEL_VERSION //p' include/guavachisel.h)

all: $(library) $(programs)

# What is made of the same sources is left as it is: hence the touch.
$(programs): $(sources)
	programs/prove $(notdir $@)
	touch $@

$(library): $(sources)
	programs/prove guavachisel
	touch $@

check:
	.ci/run

install: all
	install -d '$(bin)' '$(include)' '$(lib)/pkgconfig' '$(libexec)' '$(share)'
	install -m 644 $(library) '$(lib)'
	install -m 644 include/guavachisel.h '$(include)'
	install -m 644 description/pdp8.rows description/pdp8-devices.rows '$(share)'
	install -m 755 programs/front programs/teletype-front $(programs) '$(libexec)'
	sed 's|@PREFIX@|$(PREFIX)|; s|@VERSION@|$(version)|' include/guavachisel.pc.in >'$(lib)/pkgconfig/guavachisel.pc'
	for program in listing explain teletype; do \
	    case $$program in teletype) front=teletype-front ;; *) front=front ;; esac; \
	    printf '#!/bin/sh\nexec "%s/%s" guavachisel-%s "%s/%s" "$$@"\n' '$(PREFIX)/libexec/guavachisel' $$front \
	        $$program '$(PREFIX)/libexec/guavachisel' $$program >"$(bin)/guavachisel-$$program" && \
	    chmod 755 "$(bin)/guavachisel-$$program" || exit 1; \
	done
	chmod 644 '$(lib)/pkgconfig/guavachisel.pc'

# Other folders stay, also empty ones.
uninstall:
	rm -f '$(bin)/guavachisel-listing' '$(bin)/guavachisel-explain' '$(bin)/guavachisel-teletype' '$(include)/guavachisel.h' '$(lib)/libguavachisel.a' '$(lib)/pkgconfig/guavachisel.pc'
	rm -f '$(libexec)/front' '$(libexec)/teletype-front' '$(libexec)/listing' '$(libexec)/explain' '$(libexec)/teletype' '$(share)/pdp8.rows' '$(share)/pdp8-devices.rows'
	for folder in '$(libexec)' '$(share)'; do [ ! -d "$$folder" ] || rmdir "$$folder" || exit 1; done

# Two rt at once are in each other's way.
.NOTPARALLEL:
.PHONY: all check install uninstall
