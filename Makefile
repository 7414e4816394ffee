# make bench [FILE=history]   proves and builds the bench program and runs it on document 01's example, or on a file of bench lines
# make inspect [FILE=lines]   the same with the test program, which takes test lines too (docs/TEST-LINES.md)
# make test                   everything: the second allocator's tests, the stored tests it makes, then the prover's gate, rt ci
# make soak [SEEDS=n]         n more seeds of random histories and damage through both allocators; the first difference is shown
# make speed                  what a client pays, by kind of call, beside the second allocator; fails if a goal of docs/SPEED.md is missed
# make clean                  removes what these made

FILE ?= bench/example.txt
SEEDS ?= 20
REFERENCE := reference/target/release/reference

.PHONY: bench inspect program test-program timed-programs reference reference-test stored-tests test soak speed clean

bench: program
	@target/bin/bench < $(FILE)

inspect: test-program
	@target/bin/inspect < $(FILE)

program:
	@bench/prove bench

test-program:
	@bench/prove inspect

timed-programs: program
	@bench/prove timing
	@bench/prove frames

reference:
	@cargo build --release --quiet --offline --manifest-path reference/Cargo.toml

reference-test: reference
	cargo test --release --quiet --offline --manifest-path reference/Cargo.toml

stored-tests: reference
	bench/check-tests
	bench/check-causes
	bench/check-costs

test: reference-test stored-tests
	bench/gate

soak: program test-program reference
	@bench/soak $(SEEDS)

speed: timed-programs reference
	@python3 bench/speed

clean:
	rm -rf target reference/target crates/*/out
