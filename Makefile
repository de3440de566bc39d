# make            proves and builds the library and the programs, below target/ and the crates' out/ (needs the Rattle kit's rt)
# make check      the tests: .ci/run
# make install    puts them below PREFIX, or below DESTDIR and PREFIX for a package; it builds what is missing
# make uninstall  takes away what `make install` with the same PREFIX and DESTDIR put there

PREFIX = /usr/local
DESTDIR =
BINDIR = $(PREFIX)/bin
LIBDIR = $(PREFIX)/lib
INCLUDEDIR = $(PREFIX)/include
DATADIR = $(PREFIX)/share/softlode
DOCDIR = $(PREFIX)/share/doc/softlode
CFLAGS = -O2

# The header's version, as 1 0 0.
numbers := $(shell sed -n 's/^\#define SOFTLODE_VERSION_[A-Z]* \([0-9]*\)$$/\1/p' include/softlode.h)
major := $(firstword $(numbers))
version := $(word 1,$(numbers)).$(word 2,$(numbers)).$(word 3,$(numbers))

proved := crates/softlode/out/libsoftlode.a
archive := target/lib/libsoftlode.a
shared := target/lib/libsoftlode.so.$(version)
command := rust/target/release/softlode
sources := crates.txt $(shell find crates -type f -not -path '*/out/*')

.NOTPARALLEL:
.DELETE_ON_ERROR:
.PHONY: all check install uninstall

all: $(archive) target/lib/libsoftlode.so target/bin/listing $(command)

check:
	.ci/run

# rt proves a crate and all below it before it builds anything, and what it proved it keeps in the crates' out/.
$(proved): $(sources)
	cd crates/softlode && rt lib
	touch $@

# To build a program rt runs it too, here on the input that is stored beside it.
target/bin/listing: $(sources)
	cd crates/listing && rt run <stdin | cmp - stdout
	mkdir -p target/bin
	cp crates/listing/out/listing $@

$(command): $(proved) $(shell find rust/command rust/softlode rust/Cargo.toml rust/Cargo.lock -type f)
	cd rust && cargo build -q --release --offline -p command
	touch $@

target/lib/text.o: install/text.c include/softlode.h
	mkdir -p target/lib
	$(CC) -std=c11 $(CFLAGS) -fPIC -Iinclude -c install/text.c -o $@

$(archive): $(proved) target/lib/text.o
	cp $(proved) $@
	$(AR) rsD $@ target/lib/text.o

$(shared): $(archive) install/softlode.map
	$(CC) $(LDFLAGS) -shared -Wl,-soname,libsoftlode.so.$(major) -Wl,--version-script=install/softlode.map -Wl,--no-undefined \
	    -Wl,--whole-archive $(archive) -Wl,--no-whole-archive -o $@

target/lib/libsoftlode.so: $(shared)
	ln -sf $(notdir $(shared)) target/lib/libsoftlode.so.$(major)
	ln -sf libsoftlode.so.$(major) $@

bin := $(DESTDIR)$(BINDIR)
lib := $(DESTDIR)$(LIBDIR)
include := $(DESTDIR)$(INCLUDEDIR)
data := $(DESTDIR)$(DATADIR)
doc := $(DESTDIR)$(DOCDIR)

install: all
	install -d '$(bin)' '$(lib)/pkgconfig' '$(include)' '$(data)/python' '$(data)/rust/src' '$(doc)'
	install -m 755 $(command) '$(bin)'
	install -m 755 target/bin/listing '$(bin)/softlode-listing'
	install -m 644 include/softlode.h '$(include)'
	install -m 644 $(archive) '$(lib)'
	install -m 755 $(shared) '$(lib)'
	ln -sf $(notdir $(shared)) '$(lib)/libsoftlode.so.$(major)'
	ln -sf libsoftlode.so.$(major) '$(lib)/libsoftlode.so'
	sed -e 's|@PREFIX@|$(PREFIX)|' -e 's|@LIBDIR@|$(LIBDIR:$(PREFIX)/%=$${prefix}/%)|' \
	    -e 's|@INCLUDEDIR@|$(INCLUDEDIR:$(PREFIX)/%=$${prefix}/%)|' -e 's|@VERSION@|$(version)|' install/softlode.pc.in \
	    >'$(lib)/pkgconfig/softlode.pc'
	chmod 644 '$(lib)/pkgconfig/softlode.pc'
	install -m 644 python/softlode.py '$(data)/python'
	install -m 644 rust/softlode/Cargo.toml rust/softlode/build.rs '$(data)/rust'
	install -m 644 rust/softlode/src/*.rs '$(data)/rust/src'
	install -m 644 docs/COMMAND.md docs/FORMAT.md docs/HOSTING.md '$(doc)'

uninstall:
	rm -f '$(bin)/softlode' '$(bin)/softlode-listing' '$(include)/softlode.h' '$(lib)/libsoftlode.a' '$(lib)/pkgconfig/softlode.pc'
	rm -f '$(lib)/libsoftlode.so' '$(lib)/libsoftlode.so.$(major)' '$(lib)/libsoftlode.so.$(version)'
	rm -rf '$(data)' '$(doc)'
