# The library for C: `make` proves and builds it, `make install PREFIX=..` puts header, archive and pkg-config file in place.
VERSION = 0.6.0
PREFIX = /usr/local
ARCHIVE = target/staticlib/libbtreap.a

.PHONY: all archive install uninstall

all: archive

# rt proves what changed, and writes the archive anew.
archive:
	cd crates/btreap && rt lib
	install -d $(dir $(ARCHIVE))
	install -m 644 crates/btreap/out/libbtreap.a $(ARCHIVE)

install: archive
	install -d "$(DESTDIR)$(PREFIX)/include" "$(DESTDIR)$(PREFIX)/lib/pkgconfig"
	install -m 644 include/btreap.h "$(DESTDIR)$(PREFIX)/include/btreap.h"
	install -m 644 $(ARCHIVE) "$(DESTDIR)$(PREFIX)/lib/libbtreap.a"
	sed -e 's|@PREFIX@|$(PREFIX)|' -e 's|@VERSION@|$(VERSION)|' btreap.pc.in >"$(DESTDIR)$(PREFIX)/lib/pkgconfig/btreap.pc"

uninstall:
	rm -f "$(DESTDIR)$(PREFIX)/include/btreap.h" "$(DESTDIR)$(PREFIX)/lib/libbtreap.a" "$(DESTDIR)$(PREFIX)/lib/pkgconfig/btreap.pc"
