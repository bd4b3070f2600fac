#!/usr/bin/env bash
# The second program, in plain Rust, and the program node_told over whole runs: the same lines, the same answers and files. And the
# search for a loss. (tests/reference.sh has the rest.)
set -euo pipefail
cd "$(dirname "$0")/.."
CARGO_NET_OFFLINE=true cargo build --release --quiet --manifest-path reference/Cargo.toml
compare=reference/target/release/compare
# First the plain program over its folder against itself in memory, then the proved one.
"$compare" runs reference/target/release/reference-node --count 80 --seconds 600 | tail -n 1
"$compare" runs target/bin/node_told --seconds 110
reference/target/release/search
