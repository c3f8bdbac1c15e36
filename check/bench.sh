#!/usr/bin/env bash
# The library's speed: instructions a step by callgrind where valgrind is there, the stack that a run takes, and steps a second beside both yardsticks.
# The last line is `ratio: X`. Takes the archive of `make lib`; everything built goes under target/check.
set -euo pipefail
cd "$(dirname "$0")/.."
export CARGO_TARGET_DIR="$PWD/target/check" AQTOVMESH_LIB="$PWD/target/lib"
cargo build --quiet --release --offline --locked --manifest-path check/Cargo.toml
bench=target/check/release/bench
collected() { valgrind --tool=callgrind --callgrind-out-file=/dev/null "$bench" --only "$1" "$2" "$3" 2>&1 >/dev/null | sed -n 's/.*Collected : //p'; }
# of two runs the longer less the shorter, so that what comes before and after the steps doesn't count
per_step() { echo "$(($(collected "$1" "$2" 200000) - $(collected "$1" "$2" 100000)))" | sed 's/\(...\)..$/.\1/; s/^\./0./'; }
if command -v valgrind >/dev/null; then
    echo "instructions a step: library, Rust by bytes, Rust by words"
    for guest in compare registers characters logical zoned15 zoned31 issue; do
        printf '%-11s %10s %10s %10s\n' "$guest" "$(per_step "$guest" library)" "$(per_step "$guest" bytes)" "$(per_step "$guest" words)"
    done
fi
"$bench" --stack
"$bench" "$@"
