#!/usr/bin/env bash
# The bindings against the compiled library: what the archive asks for, layout and tests on both sides, and the example hosts in C and Rust, which print and write the same.
# Takes the archive of `make lib`; everything built goes under target/bindings.
set -euo pipefail
cd "$(dirname "$0")/.."
archive=target/lib/libaqtovmesh.a
[ -f "$archive" ] || { echo "no $archive: run make lib"; exit 1; }
built=target/bindings
export CARGO_TARGET_DIR="$PWD/$built/cargo" AQTOVMESH_LIB="$PWD/target/lib"
mkdir -p "$built"

# what the header says that the archive takes from the C library: a host without one supplies just these
asked=$(nm -u "$archive" | sed -n 's/^ *U //p' | sort -u | tr '\n' ' ')
[ "$asked" = "memcpy memset " ] || { echo "the archive asks for: $asked"; exit 1; }

# a C++ host includes the same header
if command -v g++ >/dev/null; then g++ -std=c++17 -Wall -Wextra -Werror -fsyntax-only -x c++ bindings/include/aqtovmesh.h; fi
compile() { gcc -std=c11 -O2 -Wall -Wextra -Werror -Ibindings/include "$1" "$archive" -o "$2"; }
compile bindings/tests/layout.c "$built/layout"
compile bindings/examples/issue.c "$built/issue"
"$built/layout"

manifest=bindings/rust/Cargo.toml
cargo build --quiet --release --offline --locked --manifest-path "$manifest" --example issue
cargo test --quiet --release --offline --locked --manifest-path "$manifest" >"$built/test.log" 2>&1 || { cat "$built/test.log"; exit 1; }
grep -h '^test result' "$built/test.log"

# both hosts on the issue program, held to the stored output and the stored deck
python3 bindings/examples/issue_deck.py | cmp - examples/issue.deck
for host in "$built/issue" "$built/cargo/release/examples/issue"; do
    "$host" examples/issue.deck "$built/after.deck" | diff - bindings/examples/issue.out
    cmp "$built/after.deck" bindings/examples/issue_after.deck
    rm "$built/after.deck"
done
# and on a deck that is refused: the end record is cut off
head -c 535 examples/issue.deck >"$built/cut.deck"
for host in "$built/issue" "$built/cargo/release/examples/issue"; do
    { "$host" "$built/cut.deck" "$built/after.deck" && exit 1 || true; } | diff - <(echo "deck refused: 11")
done
echo "bindings: both hosts print and write the same"
