# Willetcoffer. `make demo` shows it at work, `make test` is the whole gate; both set up what they need.
# `make install` puts the C library in place, below PREFIX (and DESTDIR before it, for packages).
CASES ?= 1000000
SEED ?= 1
PREFIX ?= /usr/local
INCLUDEDIR ?= $(abspath $(PREFIX))/include
LIBDIR ?= $(abspath $(PREFIX))/lib
ARCHIVE = target/staticlib/libexports.a
VERSION = $(shell sed -n 's/^version = "\(.*\)"/\1/p' host/Cargo.toml)

.PHONY: test demo owner compare install uninstall

test:
	bash tools/test.sh

demo:
	bash tools/demo.sh

# the owner's tools alone: what they need from Debian where it is missing, then their checks and tests
owner: $(ARCHIVE)
	bash tools/owner.sh

# the long comparison of both engines: make compare CASES=1000000 SEED=7
compare: $(ARCHIVE)
	cd host && cargo run --offline --release -p compare -- --cases $(CASES) --seed $(SEED)

# proved and written where it is not there yet; `tools/build.sh archive` brings it up to date
$(ARCHIVE):
	bash tools/build.sh archive

install: $(ARCHIVE)
	install -d "$(DESTDIR)$(INCLUDEDIR)" "$(DESTDIR)$(LIBDIR)/pkgconfig"
	install -m 644 include/willetcoffer.h "$(DESTDIR)$(INCLUDEDIR)/willetcoffer.h"
	install -m 644 $(ARCHIVE) "$(DESTDIR)$(LIBDIR)/libwilletcoffer.a"
	sed -e 's|@PREFIX@|$(abspath $(PREFIX))|' -e 's|@INCLUDEDIR@|$(INCLUDEDIR)|' -e 's|@LIBDIR@|$(LIBDIR)|' \
	  -e 's|@VERSION@|$(VERSION)|' include/willetcoffer.pc.in > "$(DESTDIR)$(LIBDIR)/pkgconfig/willetcoffer.pc"
	chmod 644 "$(DESTDIR)$(LIBDIR)/pkgconfig/willetcoffer.pc"

uninstall:
	rm -f "$(DESTDIR)$(INCLUDEDIR)/willetcoffer.h" "$(DESTDIR)$(LIBDIR)/libwilletcoffer.a" \
	  "$(DESTDIR)$(LIBDIR)/pkgconfig/willetcoffer.pc"
