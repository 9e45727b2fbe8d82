# make: prove and build the library and show the main job; make test: the gate; make install PREFIX=..: library, header, program and pkg-config
# file; make bench: the library beside the second program, on many more files and by time; make valgrind: damaged files under valgrind.
.PHONY: all append horn lib test bench valgrind install
.DELETE_ON_ERROR:

CFLAGS ?= -O2
OURS = -std=c99 -Wall -Wextra -pedantic -Iinclude -Ibuild
LINK = $(CC) $(OURS) $(CPPFLAGS) $(CFLAGS) $(filter %.c,$^) build/libpegplanet.a $(LDFLAGS) -o $@
PREFIX ?= /usr/local
VERSION = $(shell sed -n 's/^.define PEGPLANET_VERSION "\(.*\)"/\1/p' include/pegplanet.h)

all: append horn

append: build/pegplanet
	build/pegplanet < examples/append.rules | head -n 1

# the part comes out, and where the machine is stopped there is none
horn: build/extract build/house.rules
	build/extract build/house.rules < examples/horn/score.txt
	@echo "With 10 units a question the machine is stopped, and no part is written:"
	! build/extract build/house.rules 10 < examples/horn/score.txt

# the proofs are gone through again where a file of the crates is newer than the library
lib: build/libpegplanet.a
build/libpegplanet.a: crates.txt $(shell find crates -name out -prune -o \( -name '*.rt' -o -name '*.antt' \) -print)
	cd crates/embedded_c && rt lib
	mkdir -p build
	cp crates/embedded_c/out/libembedded_c.a $@

build/libpegplanet.so: build/libpegplanet.a
	$(CC) -shared $(LDFLAGS) -Wl,-soname,libpegplanet.so -Wl,--whole-archive $< -Wl,--no-whole-archive -o $@

build/pegplanet: program/pegplanet.c
build/assemble: examples/horn/assemble.c
build/extract: examples/horn/extract.c build/house.h
build/memory: host/agreement/tests/memory.c
build/pegplanet build/assemble build/extract build/memory: include/pegplanet.h build/libpegplanet.a
	$(LINK)

build/house.rules: examples/horn/rules.txt build/assemble
	build/assemble $< > $@

build/house.h: examples/horn/rules.txt build/assemble
	build/assemble --names $< > $@

install: build/libpegplanet.a build/libpegplanet.so build/pegplanet
	mkdir -p $(DESTDIR)$(PREFIX)/lib/pkgconfig $(DESTDIR)$(PREFIX)/include $(DESTDIR)$(PREFIX)/bin
	cp build/libpegplanet.a build/libpegplanet.so $(DESTDIR)$(PREFIX)/lib
	cp include/pegplanet.h $(DESTDIR)$(PREFIX)/include
	cp build/pegplanet $(DESTDIR)$(PREFIX)/bin
	sed 's|@PREFIX@|$(PREFIX)|; s|@VERSION@|$(VERSION)|' program/pegplanet.pc.in > $(DESTDIR)$(PREFIX)/lib/pkgconfig/pegplanet.pc

test:
	bash .ci/run

bench: lib
	cd host/agreement && cargo build --release --offline && cargo test --release --offline --test rooms -- --ignored
	host/agreement/target/release/agreement 200000
	host/agreement/target/release/agreement_calls 1000000
	host/agreement/target/release/bench_reading
	host/agreement/target/release/bench_calls

# what reads behind its files must be found
WATCHED = valgrind -q --error-exitcode=9 --leak-check=full build/memory heap
valgrind: build/memory
	cd host/agreement && cargo build --release --offline
	host/agreement/target/release/memory 20000 $(WATCHED)
	! host/agreement/target/release/memory 2 $(WATCHED) past 2> build/memory.errors
