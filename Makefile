# make run: proves the program `paths` and prints the sheet of an example.
# make test: the gate, .ci/run: the quick checks, then every crate, edit, test and program (`rt ci`), then the cases of the programs that it built.
# make quick: the documents against the tree, the unit tests of the tools, the wrong answers run (Python 3, rt); make audit: the documents alone, in seconds.
# make cases: the cases of the programs as they are built, or built now (tools/native-program). make test-doors: the C and the Rust interface (cc, cargo).
# make compare: the proved functions against the original and slow plain models (oracle/README.md says what it needs).
# make bench: speed beside the original and other libraries; writes docs/BENCH.md and docs/bench.svg.
# make weaker: tries every listed weakening of a tool of tools/ on its unit tests, in some minutes; no part of the gate.
# make wrong: tries every wrong answer and wrong definition of tests/wrong on the prover; no part of the gate.
.PHONY: run test quick audit test-tools differ weaker cases wrong test-doors test-c test-rust compare bench

run:
	tools/run-program paths < examples/maps/carriers.map

test:
	bash .ci/run

quick: audit test-tools differ

audit:
	tools/settled
	tools/believe
	tools/statements
	tools/trace
	tools/figures
	tools/edges
	tools/wrong --list
	tools/columns
	python3 tests/c/signatures.py

wrong:
	tools/wrong --together

test-tools:
	tests/units

differ:
	tools/differ

weaker:
	tests/tools/weaker

cases:
	program=$$(tools/native-program paths) && python3 tests/mapfile/run_paths.py "$$program"
	program=$$(tools/native-program replay) && python3 tests/replay/run_replay.py "$$program"

test-doors: test-c test-rust

test-c:
	mkdir -p target/c
	archive=$$(tools/native-archive) && for p in tests/c/doors examples/c/carriers; do \
	  $(CC) -std=c99 -Wall -Wextra -pedantic -Werror -Iinclude $$p.c "$$archive/libdimetumble.a" -o target/c/$${p##*/} || exit 1; done
	target/c/doors
	target/c/carriers | diff - examples/c/carriers.stdout

test-rust:
	cd bindings/rust && cargo test --offline

compare:
	program=$$(tools/native-program mapcases) && python3 tests/mapfile/compare_program.py "$$program" 100000
	bash oracle/run

bench:
	bench/run
