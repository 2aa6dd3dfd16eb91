# The library for C, Rust and JavaScript: proved, compiled to an archive, and installed with its header.
#     make                     the archive for this machine
#     make install PREFIX=DIR  DIR/lib/libadomvik.a, DIR/include/adomvik.h, and a pkg-config file and a CMake package for them
#     make install TARGET=thumbv7em-none-eabi PREFIX=DIR    the same for another processor (ports/targets has them all);
#                              FLAGS='-O2 -mcpu=cortex-m7' are clang's words beside those of the target, and win
# And for whoever works on it, each over a script that can be called by itself:
#     make check               proves every crate, runs the programs
#     make test                the references' own tests, the bench and the workshop against them, and the three below
#     make faces               the C and Rust faces against the reference
#     make ports               the library on every processor, on emulators
#     make fuzz                about a minute of fuzzing, the C face and the workshop's lines
#     make refused             the wrong programs that the gate leaves out; CRATES='cells board' only theirs
#     make perf                the benchmarks
#     make gate                what has to pass before anything lands
PREFIX ?= /usr/local
DESTDIR ?=
TARGET ?= $(shell uname -m)-linux-gnu
FLAGS ?=
CRATES ?=
VERSION := 1.0.0
INTO := $(DESTDIR)$(PREFIX)
BUILT := target/ports/$(TARGET)

.PHONY: all install uninstall check test faces ports fuzz refused perf gate

# what was compiled stays while nothing that it is made from has changed
all:
	ports/build $(TARGET) $(FLAGS)

install: all
	install -d $(INTO)/lib/pkgconfig $(INTO)/lib/cmake/adomvik $(INTO)/include
	install -m 644 $(BUILT)/libadomvik.a $(INTO)/lib/libadomvik.a
	install -m 644 include/adomvik.h $(INTO)/include/adomvik.h
	sed -e 's|@PREFIX@|$(PREFIX)|' -e 's|@VERSION@|$(VERSION)|' include/adomvik.pc.in >$(INTO)/lib/pkgconfig/adomvik.pc
	install -m 644 include/adomvikConfig.cmake $(INTO)/lib/cmake/adomvik/adomvikConfig.cmake
	sed -e 's|@VERSION@|$(VERSION)|' include/adomvikConfigVersion.cmake.in >$(INTO)/lib/cmake/adomvik/adomvikConfigVersion.cmake
ifeq ($(TARGET),wasm32)
	install -d $(INTO)/lib/adomvik
	install -m 644 $(BUILT)/adomvik.wasm js/adomvik.mjs js/adomvik.d.ts js/package.json $(INTO)/lib/adomvik
endif

uninstall:
	rm -f $(INTO)/lib/libadomvik.a $(INTO)/include/adomvik.h $(INTO)/lib/pkgconfig/adomvik.pc
	rm -rf $(INTO)/lib/cmake/adomvik $(INTO)/lib/adomvik

check:
	rt all check
	tools/build bench && crates/bench/out/bench <crates/bench/stdin | cmp - crates/bench/stdout
	tools/build vectors && crates/vectors/out/vectors </dev/null | cmp - crates/vectors/stdout

test: faces ports fuzz
	python3 tests/reference/selftest.py && tests/stored && tests/differential 3000
	python3 tests/reference/selftest_workshop.py && tests/workshop && tests/differential --workshop 2000

faces:
	tests/faces 400

ports:
	tests/ports 120

fuzz:
	tests/fuzz/run face 45 && tests/fuzz/run lines 15

refused:
	tests/refused $(CRATES)

perf:
	perf/face && perf/run && perf/ports

gate:
	.ci/run
