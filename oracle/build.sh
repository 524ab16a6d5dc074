#!/bin/sh
# Builds the oracle: the Rust of docs/src, unchanged, over stand-ins for the two crates that cannot be had.
# Usage: build.sh [DOCS_SRC]   (default: ../shared/docs/src beside the repository)
# The Rust is copied in at build time, held to the original by cmp, and never committed.
set -eu
here=$(cd "$(dirname "$0")" && pwd)
S=$(cd "${1:-$here/../../shared/docs/src}" && pwd)/src
cd "$here"
mkdir -p dd/src/columnar
for f in columnar/trie_merger.rs columnar/updates.rs columnar/layout.rs lattice.rs; do
    cp "$S/$f" "dd/src/$f"
    cmp "$S/$f" "dd/src/$f"
done
# difference.rs without `Present`, which needs serde and columnation; it is not one of the two files
awk '/^pub use self::present::Present;/ {skip=1} !skip {print} skip && /^}/ {skip=0}' "$S/difference.rs" > dd/src/difference.rs
# a side copy with a few lines appended, for `start` and `step` only: the walker's fields are private
cat "$S/columnar/updates.rs" dd/open_tail.rs > dd/src/columnar/updates_open.rs
cargo build --offline --quiet --profile checked --bin oracle   # overflow and debug_assert panic
cargo build --offline --quiet --release                        # overflow wraps; the benchmark
echo "built target/checked/oracle, target/release/oracle, target/release/bench"
