# The script replica for a C programmer. `make` builds the library and the listing program, `make demo` runs
# one test nine times on three hosts, `make test` is the gate, `make install PREFIX=..` copies header, library,
# listing program and pkg-config file. All need the Rattle kit, whose command is `rt`: it proves before it
# builds.

PREFIX ?= /usr/local
DESTDIR ?=
CC ?= cc
CFLAGS ?= -O2
WARNINGS = -std=c11 -Wall -Wextra -Wpedantic
VERSION = 0.8.0

LIBRARY = target/staticlib/libhost.a
LISTING = target/bin/listing
HEADER = include/script_replica.h
DEMO = target/nine_runs

all: $(LIBRARY) $(LISTING)

# what is proved before it is built: where one of these is newer, it is proved again
SOURCES = crates.txt $(shell find crates -type f -not -path '*/out/*')

$(LIBRARY): $(SOURCES)
	cd crates/host_c && rt lib
	install -D -m 644 crates/host_c/out/libhost_c.a $@

$(LISTING): $(SOURCES)
	cd crates/listing && rt run < stdin > /dev/null
	install -D -m 755 crates/listing/out/listing $@

$(DEMO): examples/nine_runs.c $(HEADER) $(LIBRARY)
	$(CC) $(CFLAGS) $(WARNINGS) -Iinclude -o $@ examples/nine_runs.c $(LIBRARY)

demo: $(DEMO)
	$(DEMO)

test:
	bash .ci/run

install: all
	install -d "$(DESTDIR)$(PREFIX)/include" "$(DESTDIR)$(PREFIX)/lib/pkgconfig" "$(DESTDIR)$(PREFIX)/bin"
	install -m 644 $(HEADER) "$(DESTDIR)$(PREFIX)/include/script_replica.h"
	install -m 644 $(LIBRARY) "$(DESTDIR)$(PREFIX)/lib/libscript_replica.a"
	install -m 755 $(LISTING) "$(DESTDIR)$(PREFIX)/bin/listing"
	sed -e 's|@PREFIX@|$(abspath $(PREFIX))|' -e 's|@VERSION@|$(VERSION)|' script_replica.pc.in > target/script_replica.pc
	install -m 644 target/script_replica.pc "$(DESTDIR)$(PREFIX)/lib/pkgconfig/script_replica.pc"

clean:
	rm -rf target crates/*/out

.PHONY: all demo test install clean
