#!/usr/bin/env bash
# The way in: help, an unknown program, and a program that is up to date and is not built again.
set -u
cd "$(dirname "$0")/.."
failures=0
check() { # NAME STATUS
    if [ "$2" -eq 0 ]; then printf 'helgumba: %s: ok\n' "$1"; else
        printf 'helgumba: %s: FAILED\n' "$1"
        failures=$((failures + 1))
    fi
}
./helgumba | grep -q '^usage: ./helgumba PROGRAM'
check 'alone it says what there is' $?
./helgumba --help | grep -q '^  node '
check 'help lists the programs' $?
said=$(./helgumba nothing 2>&1)
status=$?
[ "$status" -eq 2 ] && grep -q "there is no program 'nothing'" <<<"$said"
check 'an unknown program' $?
said=$(printf '616263\n' | ./helgumba digests 2>&1)
[ "$said" = ba7816bf8f01cfea414140de5dae2223b00361a396177a9cb410ff61f20015ad ]
check 'digests of "abc", with nothing built again' $?
place=$(mktemp -d)
cp crates/node/data/mill/terms "$place/"
said=$(printf '0 03%064d\n' 7 | ./helgumba node "$place" 2>&1 | tr '\n' ' ')
rm -rf "$place"
[ "$said" = 'ready ok ' ]
check 'the example of the help' $?
exit "$((failures > 0))"
