.PHONY: help test check fmt show streams library examples compare bench sizes

help:
	@echo 'make show      print the records of the stream on standard input: make -s show < FILE'
	@echo 'make test      the gate: .ci/run; its last line is N passed, 0 failed'
	@echo 'make check     rt all check: prove what has changed; not the verdict'
	@echo 'make fmt       rt fmt: put every source file into the layout of the toolchain'
	@echo 'make streams   run the program on every stream of tests/cases'
	@echo 'make library   the C boundary: target/library gets libmoortangle.a and its header'
	@echo 'make examples  two saves in one second, written and read back from C, Rust and Python: examples/'
	@echo 'make compare   run the writers and readers against the second program, tests/second; SEED=N: its random cases'
	@echo 'make bench     time the library beside plain Rust, tests/bench, as ratios'
	@echo 'make sizes     the crates by lines: the table of docs/ARCHITECTURE.md'

test:
	@.ci/run

check:
	@rt all check

fmt:
	@for crate in crates/*/; do (cd "$$crate" && rt fmt) || exit 1; done

# What the prover says is kept apart, so that nothing but records is printed, and it must not read the stream.
target/bin/show: $(shell find crates -name out -prune -o -name '*.rt' -print -o -name '*.antt' -print) crates.txt
	@mkdir -p target/bin
	@cd crates/show && rt run < /dev/null > ../../target/show.log 2>&1 || { cat ../../target/show.log >&2; exit 1; }
	@cp crates/show/out/show $@

show: target/bin/show
	@target/bin/show

streams: target/bin/show
	@for stream in tests/cases/*.stream; do target/bin/show < "$$stream" | cmp - "$${stream%.stream}.printed" || exit 1; done
	@echo "streams: the program prints what the second program says of each of $$(ls tests/cases/*.stream | wc -l)"

# The C library must reach no function whose contract is assumed.
library:
	@mkdir -p target/library
	@cd crates/moortangle_c && rt lib > ../../target/library.log 2>&1 || { cat ../../target/library.log >&2; exit 1; }
	@grep -q '^axioms libc: none reached' target/library.log && ! grep '^axioms ' target/library.log | grep -v ': none reached'
	@cp crates/moortangle_c/out/libmoortangle_c.a target/library/libmoortangle.a
	@cp include/moortangle.h target/library/moortangle.h

# Each must print what examples/printed has. Python loads the library as a shared one.
examples: library
	@mkdir -p target/examples
	@cc -std=c11 -Wall -Wextra -Werror -Itarget/library examples/two_saves.c target/library/libmoortangle.a -o target/examples/in_c
	@rustc --edition 2024 -D warnings -Ltarget/library examples/two_saves.rs -o target/examples/in_rust
	@cc -shared -Wl,--whole-archive target/library/libmoortangle.a -Wl,--no-whole-archive -o target/examples/libmoortangle.so
	@target/examples/in_c | diff - examples/printed
	@target/examples/in_rust | diff - examples/printed
	@python3 examples/two_saves.py target/examples/libmoortangle.so | diff - examples/printed
	@echo 'C, Rust and Python each print:' && cat examples/printed

# Each commit tries other random cases; a run that found a difference is run again by the seed it printed.
SEED ?= $(shell printf '%d' "0x$$(git rev-parse --short=8 HEAD 2>/dev/null || echo 1)")
compare: library
	@echo 'compare: seed $(SEED)'
	@MOORTANGLE_LIB_DIR='$(CURDIR)/target/library' cargo run --release --offline --locked --quiet --manifest-path tests/second/Cargo.toml --bin compare $(SEED)

bench: library
	@MOORTANGLE_LIB_DIR='$(CURDIR)/target/library' cargo run --release --offline --locked --quiet --manifest-path tests/bench/Cargo.toml --bin measure

sizes:
	@tests/sizes
