#!/usr/bin/env bash
# The examples: each case in a folder of cases is lines through one node, each script is several nodes wired by pipes; what comes
# out is compared.
# usage: tests/examples.sh [PROGRAM [FOLDER..]]    the program node and examples/cases, if none is named
set -u
cd "$(dirname "$0")/.."
export NODE=$PWD/${1:-target/bin/node}
folders=("${@:2}")
[ "${#folders[@]}" -gt 0 ] || folders=(examples/cases)
place=$(mktemp -d)
trap 'rm -rf "$place"' EXIT
failures=0
same() { # NAME EXPECTED ACTUAL
    if diff "$2" "$3" >"$place/difference"; then
        printf 'examples: %s: ok\n' "$1"
    else
        printf 'examples: %s: other output than %s\n' "$1" "$2"
        cat "$place/difference" "$place/err"
        failures=$((failures + 1))
    fi
}
for folder in "${folders[@]}"; do
    for lines in "$folder"/*.lines; do
        rm -rf "$place/mill"
        cp -r crates/node/data/mill "$place/mill"
        "$NODE" "$place/mill" <"$lines" >"$place/actual" 2>"$place/err"
        same "$lines" "${lines%.lines}.expected" "$place/actual"
    done
done
for script in examples/*.sh; do
    bash "$script" >"$place/actual" 2>"$place/err"
    same "$script" "${script%.sh}.expected" "$place/actual"
done
exit "$((failures > 0))"
