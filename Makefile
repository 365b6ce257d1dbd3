# The archive, the header and the example host, in build/: `make` builds them, `make run` runs the example.
PREFIX ?= /usr/local
SEED ?= 20261115
CALLS ?= 10000000

sources := crates.txt $(shell find crates \( -name must-fail -o -name out \) -prune -o -type f -print)
flags := -std=c11 -O2 -Wall -Wextra -Wconversion -pedantic -Werror
second := target/second/release/second

.PHONY: all run install compare speed bench check clean
.NOTPARALLEL:
.DELETE_ON_ERROR:

all: build/libfbdp.a build/fbdp.h build/host

# The crate of an archive: a library of the crates cannot be one too, so fbdp_c exports what fbdp has.
build/libfbdp.a: crate := fbdp_c
build/libprobe.a: crate := probe

build/lib%.a: $(sources)
	@command -v rt >/dev/null || { echo "make: rt, the command of the Rattle kit, is not on the path" >&2; exit 1; }
	cd crates/$(crate) && rt lib
	@mkdir -p build
	cp crates/$(crate)/out/lib$(crate).a $@

build/fbdp.h: include/fbdp.h
	@mkdir -p build
	cp $< $@

build/%: examples/%.c build/fbdp.h build/libfbdp.a
	$(CC) $(flags) -o $@ $< -Ibuild -Lbuild -lfbdp

# The press and the desk of examples/host.c.
run: all
	@build/host

install: build/libfbdp.a build/fbdp.h
	install -d "$(DESTDIR)$(PREFIX)/lib/pkgconfig" "$(DESTDIR)$(PREFIX)/include"
	install -m 644 build/libfbdp.a "$(DESTDIR)$(PREFIX)/lib/"
	install -m 644 build/fbdp.h "$(DESTDIR)$(PREFIX)/include/"
	sed 's|@PREFIX@|$(abspath $(PREFIX))|' fbdp.pc.in >"$(DESTDIR)$(PREFIX)/lib/pkgconfig/fbdp.pc"

# The second program, and the C program that makes its calls.
$(second): $(shell find second -name '*.rs' -o -name 'Cargo.*' -o -path 'second/vectors/*')
	cargo build --release --offline --quiet --manifest-path second/Cargo.toml --target-dir target/second

build/caller: second/host.c second/probe.h build/fbdp.h build/libfbdp.a build/libprobe.a
	$(CC) $(flags) -o $@ second/host.c -Isecond -Ibuild -Lbuild -lfbdp -lprobe

# Every entry against the second program: CALLS calls from SEED on; `make compare CALLS=100000000 SEED=7` is a longer run.
compare: $(second) build/caller
	$(second) compare --seed $(SEED) --calls $(CALLS) -- build/caller

# What must not grow with a body, and what plain text must not take.
speed: $(second) build/caller
	$(second) speed -- build/caller

bench:
	tools/bench

check:
	.ci/run

clean:
	rm -rf build target crates/*/out
