#!/usr/bin/env bash
# The compiled library against the model: the harness notices every deliberate fault, a fixed seed of machines and decks, and demand 3.
# Takes the archive of `make lib`; everything built goes under target/check.
set -euo pipefail
cd "$(dirname "$0")/.."
archive=target/lib/libaqtovmesh.a
[ -f "$archive" ] || { echo "no $archive: run make lib"; exit 1; }
export CARGO_TARGET_DIR="$PWD/target/check" AQTOVMESH_LIB="$PWD/target/lib"
cargo build --quiet --release --offline --locked --manifest-path check/Cargo.toml
built=target/check/release
quietly() { "$@" >target/check/said.log 2>&1 || { cat target/check/said.log; exit 1; }; tail -n 2 target/check/said.log; }
quietly "$built/faults" 36 300000
quietly "$built/differ" 36 3000000
quietly "$built/sealed" 36 1000000
