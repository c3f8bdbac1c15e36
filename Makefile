DECK ?= examples/example.deck

.PHONY: help run lib hosts check fuzz bench test fmt

help:
	@echo "make run [DECK=path]   run a deck (default: document 01's example) and print its line"
	@echo "make lib               the static library for C and Rust: target/lib/libaqtovmesh.a, with aqtovmesh.h beside it"
	@echo "make hosts             build and run the example hosts in C and Rust, and the tests of the bindings"
	@echo "make check             the compiled library against the independent model: a fixed seed, demand 3, deliberate faults"
	@echo "make fuzz [SEED=n]     the same with one seed after another, until a difference or Ctrl-C"
	@echo "make bench             the library's speed beside Rust interpreters, guest by guest"
	@echo "make test              the gate: hosts, model, everything proved, must-fail edits refused, programs run (.ci/run)"
	@echo "make fmt               format the sources"

# the program is proved and built first, which takes some minutes the first time and a moment after
run:
	@mkdir -p target
	@(cd crates/deck_runner && rt run < stdin) > target/run.log 2>&1 || { cat target/run.log; exit 1; }
	@crates/deck_runner/out/deck_runner < $(DECK)

# proved first, as above; for every x86-64 processor, where the kit's own choice would ask for SSE4.2
lib:
	@mkdir -p target/lib
	@(cd crates/host_c && rt lib --cpu x86-64) > target/lib.log 2>&1 || { cat target/lib.log; exit 1; }
	@cp crates/host_c/out/libhost_c.a target/lib/libaqtovmesh.a
	@cp bindings/include/aqtovmesh.h target/lib/
	@echo "target/lib has libaqtovmesh.a and aqtovmesh.h"

hosts: lib
	@bindings/check.sh

check: lib
	@check/check.sh

# each round takes some seconds; a difference stops it with the machine, the bytes and the seed
SEED ?= 1
fuzz: lib
	@CARGO_TARGET_DIR=target/check cargo build --quiet --release --offline --locked --manifest-path check/Cargo.toml
	@seed=$(SEED); while target/check/release/differ $$seed 1000000 > target/check/fuzz.log && target/check/release/sealed $$seed 300000 >> target/check/fuzz.log; do \
		echo "seed $$seed: no difference, no leak"; seed=$$((seed + 1)); done; cat target/check/fuzz.log; exit 1

bench: lib
	@check/bench.sh

test:
	.ci/run

fmt:
	@for crate in crates/*/; do (cd $$crate && rt fmt) || exit 1; done
