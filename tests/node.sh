#!/usr/bin/env bash
# A node program as a stranger would treat it: bad input of each kind, a folder that isn't there, and pipes.
# usage: tests/node.sh [PROGRAM]    the program node, if none is named
set -u
cd "$(dirname "$0")/.."
node=$PWD/${1:-target/bin/node}
. tests/node.bash

printf '0 %s\n' "${key%?}" | refused 'an odd number of digits'
printf '0 %sg\n' "${key%?}" | refused 'a letter that is no digit'
printf '\n' | refused 'an empty line'
{ printf '0 '; head -c 10000000 /dev/zero | tr '\0' 'a'; printf '\n'; } | refused 'a line of 10 MB'
{ head -c 10000000 /dev/zero; printf '\n'; } | refused 'ten million NUL bytes'
printf '0 %s\0\n' "$key" | refused 'a NUL at the end of a word'
printf '\377\376\n' | refused 'bytes that are no text'
expect 'no newline at the end' 'ready ok no 1' "$(printf '0 %s\n0 %s' "$key" "$key" | "$node" "$place/mill" | tr '\n' ' ' | sed 's/ $//')"
expect 'no input at all' 'ready' "$("$node" "$place/mill" </dev/null)"

# What doesn't start: status 1, nothing answered, and a message that names what is wrong.
fails() { # NAME MESSAGE ARGUMENT..
    local name=$1 message=$2
    shift 2
    "$node" "$@" </dev/null >"$place/out" 2>"$place/err"
    expect "$name: status" 1 $?
    expect "$name: nothing answered" '' "$(cat "$place/out")"
    grep -qF -- "$message" "$place/err"
    expect "$name: the message" 0 $?
}
fails 'a folder that is not there' "can't open the folder $place/none" "$place/none"
fails 'a file in the place of the folder' "can't open the folder" "$node"
fails 'no argument' 'one argument, its folder'
mkdir "$place/empty"
fails 'no terms' "$place/empty/terms" "$place/empty"

# Terms with one line that is wrong.
terms() { # NAME MESSAGE, and the terms on standard input
    rm -rf "$place/terms"
    mkdir "$place/terms"
    cat >"$place/terms/terms"
    fails "$1" "$2" "$place/terms"
}
terms 'a word that is none' 'terms, line 2: not understood' <<<$'gap 110\nwidth 5'
terms 'too large a number' 'terms, line 1: a number above 4294967295' <<<'gap 4294967296'
terms 'a word twice' 'terms, line 2: a second line with this word' <<<$'gap 110\ngap 110'
terms 'no gap' 'terms: no line with gap' <<<'look 13'
terms 'no account' 'terms: no line with account' <<<$'gap 110\nwindow 50\ndelay 5\nlook 13'
terms 'a window that is too short' 'terms, line 2: window is below look + delay + 1' <<<$'gap 110\nwindow 18\ndelay 5\nlook 13\naccount 1 1'
terms 'a gap that is too short' 'terms, line 1: gap is below window + 3 delay + 3 look' <<<$'gap 103\nwindow 50\ndelay 5\nlook 13\naccount 1 1'
terms 'deposits that are too large' 'terms, line 1: the deposits together are above 4294967295' <<<'account 4294967295 1'

# A file with records, cut at every byte, starts as the node that its whole records say; and what it was told before stands.
"$node" "$place/mill" <examples/cases/a-payment-through.lines >/dev/null 2>&1
cp "$place/mill/accounts" "$place/whole"
size=$(stat -c %s "$place/whole")
whole=0
bad=0
for ((cut = 0; cut <= size; cut++)); do
    head -c "$cut" "$place/whole" >"$place/mill/accounts"
    "$node" "$place/mill" </dev/null >"$place/out" 2>"$place/err" || bad=$((bad + 1))
    left=$(stat -c %s "$place/mill/accounts")
    cmp -s -n "$((left < cut ? left : cut))" "$place/mill/accounts" "$place/whole" || bad=$((bad + 1))
    [ "$left" -eq "$cut" ] && whole=$((whole + 1))
done
expect 'every cut of a file starts' 0 "$bad"
expect 'cuts that are between two records, from the first sheets on' 11 "$whole"

# Damage is refused with its place, and the file is left as it is.
cp "$place/whole" "$place/mill/accounts"
printf '\011' | dd of="$place/mill/accounts" bs=1 seek=32 conv=notrunc status=none
cp "$place/mill/accounts" "$place/damaged"
fails 'a damaged file' "$place/mill/accounts, byte 32: damaged" "$place/mill"
cmp -s "$place/damaged" "$place/mill/accounts"
expect 'a damaged file is left as it is' 0 $?
cp "$place/whole" "$place/mill/accounts"
sed -i 's/^account 10 10/account 11 10/' "$place/mill/terms"
fails 'terms of other accounts' 'not the accounts of terms' "$place/mill"
sed -i 's/^account 11 10/account 10 10/' "$place/mill/terms"

# Two programs on one folder: the second doesn't start. One that was killed doesn't keep the owner out.
coproc first { exec "$node" "$place/mill"; }
first_process=$first_PID
for _ in 1 2 3; do read -r -t 10 line <&"${first[0]}"; done
fails 'a second program' 'another program works with' "$place/mill"
kill -9 "$first_process"
wait "$first_process" 2>/dev/null
expect 'what a killed program left behind' 1 "$([ -f "$place/mill/running" ] && echo 1)"
"$node" "$place/mill" </dev/null >/dev/null
expect 'a start after a kill' 0 $?
expect 'nothing is left behind at the end' '' "$(ls "$place/mill/running" 2>/dev/null)"
rm -f "$place/mill/accounts"
"$node" --help | grep -q '^usage: node FOLDER'
expect 'help' 0 $?

# Another program talks to it: each answer comes before the next line is written.
coproc talk { "$node" "$place/mill"; }
talk_process=$talk_PID
read -r -t 10 first <&"${talk[0]}"
expect 'ready comes at once' ready "$first"
for turn in 1 2 3; do
    printf '0 %s\n' "$key" >&"${talk[1]}"
    read -r -t 10 answer <&"${talk[0]}"
    expect "answer $turn comes at once" ok "$answer"
    printf 'nonsense\n' >&"${talk[1]}"
    read -r -t 10 answer <&"${talk[0]}"
    expect "refusal $turn comes at once" 'no 1' "$answer"
done
eval "exec ${talk[1]}>&-"
wait "$talk_process"
expect 'status at the end of the input' 0 $?
exit "$((failures > 0))"
