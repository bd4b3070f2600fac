#!/usr/bin/env bash
# The second program, in plain Rust: its own tests, and then the same lines through it and through digests and sheets.
set -eu
cd "$(dirname "$0")/.."
export CARGO_TERM_COLOR=never CARGO_NET_OFFLINE=true
cargo build --release --quiet --manifest-path reference/Cargo.toml
cargo test --release --quiet --manifest-path reference/Cargo.toml
compare=reference/target/release/compare
"$compare" digest target/bin/digests
"$compare" sheet target/bin/sheets
