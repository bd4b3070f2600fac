#!/usr/bin/env bash
# The program node_told: all that tests/node.sh asks of a node program, and looking.
set -u
cd "$(dirname "$0")/.."
node=$PWD/target/bin/node_told
. tests/node.bash
bash tests/node.sh target/bin/node_told || failures=1

# Looking. Each case begins with an in of 5 with end 300 at account 0 that was passed on to account 1 with end 190, signed
# by all; the node has looked at tick 0.
lock=48428bdb7ddd829410d6bbb924fdeb3a3d7e88c2577bffae073b990c6f061d08
in=${lock}000000050000012c
out=${lock}00000005000000be
bytes=$(printf '%064d' 7)
offer="0 010300000001000000050000000a0001$in 020300000001"
began=("tick 0" "$offer" "pass 0 1 $lock 5 190" "1 020700000001")
# The folder as new; `told` gives lines to a node there, and what it writes after `ready`, in one line, is compared.
new_folder() {
    rm -rf "$place/mill"
    cp -r crates/node/data/mill "$place/mill"
}
told() { # NAME EXPECTED LINE..
    local name=$1 expected=$2
    shift 2
    expect "$name" "$expected" "$(printf '%s\n' "$@" | "$node" "$place/mill" 2>"$place/err" | awk 'after; /^ready$/ { after = 1 }' | tr '\n' ' ' | sed 's/ $//')"
}
passed_on() { # NAME EXPECTED LINE.., with what the beginning sends left out
    local name=$1 expected=$2
    shift 2
    new_folder
    told "$name" "ok send 0 020000000001 ok send 1 010100000001000000050000000a0001$out 020100000001 ok ok${expected:+ $expected}" "${began[@]}" "$@"
}
file_bytes() { od -An -v -tx1 "$place/mill/accounts" | tr -d ' \n'; }
stderr_is() { # NAME LINE..
    local name=$1
    shift
    expect "$name" "$*" "$(tr '\n' ' ' <"$place/err" | sed 's/ $//')"
}
held_0=00000000010000000a0000000501${in}00
held_1=0100000001000000050000000a0001$out
passed_on 'a key from the register is taken, and pays' "no 8 ok send 1 010100000002000000050000000f0000 020100000002 ok" \
    "pay 1 $lock" "tick 12 1:$bytes:9" "pay 1 $lock"
passed_on 'a key is shown for the account of the in once its end is near, until it is there' \
    "ok ok ok key 0 $bytes ok key 0 $bytes ok ok" \
    "tick 12 1:$bytes:9" "tick 13 1:$bytes:9" "tick 264 1:$bytes:9 1:1:200" "tick 265 1:$bytes:9 1:1:200" "tick 265 1:$bytes:9 1:1:200" "tick 266 1:$bytes:9 0:$bytes:265 1:1:200"
passed_on 'the same key twice, and for an account that is not there' 'ok' "tick 12 7:$bytes:9 7:$bytes:9 1:$bytes:9"
expect 'a key is recorded once' 1 "$(file_bytes | grep -o "07$bytes" | wc -l)"
told 'a key from the register outlasts a stop' 'no 2 ok send 1 010100000002000000050000000f0000 020100000002 ok' "pay 1 $lock" 'tick 13' "pay 1 $lock"
passed_on 'an end that is past opens a dispute, and freezes the account' \
    "ok show 1 $held_1 ok no 2 ok show 1 $held_1 ok ok ok" \
    'tick 190' 'tick 191' "1 0107000000020000000a0000000a0000 020700000002" 'tick 196' 'tick 197' 'tick 198 1:1:247' 'tick 199 1:1:247'
passed_on 'a dispute with a lower sheet is answered with held, once in `delay` ticks' \
    "show 0 $held_0 ok ok show 0 $held_0 ok no 2 ok ok" \
    'tick 12 0:0:60' 'tick 17 0:0:60' 'tick 18 0:0:60' "give up 0 $lock" 'tick 19 0:1:60' 'tick 31 0:1:60'
passed_on 'a dispute that has ended freezes, and no sheet is shown' 'ok no 2 ok' 'tick 60 0:0:60' "give up 0 $lock" 'tick 61'
passed_on 'a dispute for an account that is not there' 'ok no 9' 'tick 12 2:0:60 4294967295:0:60' "give up 0 $lock"

# A stop forgets the look, and nothing else.
passed_on 'before a stop' ''
told 'after a start nothing is signed before a look; keys are taken' "no 2 no 2 no 2 no 2 no 2 no 2 ok ok send 1 010100000002000000050000000f0000 020100000002 ok" \
    "$offer" "1 020700000001" "pass 0 1 $lock 5 190" "pay 1 $lock" "get 0 $lock" "give up 0 $lock" "1 03$bytes" 'tick 1' "pay 1 $lock"

# Ticks, and what is said of them on standard error: the first, and one that is late. What is refused is not said.
new_folder
told 'an earlier tick, the same tick, a tick above the limit' 'no 1 no 10 ok ok no 1 ok ok no 1 ok' \
    'tick 1 x' 'tick 4294967296' 'tick 5' 'tick 5' 'tick 4' 'tick 18' 'tick 32' 'tick 31' 'tick 4294967295'
stderr_is 'the first look and late ones' 'node: first look since the start, at tick 5: when the last was is not known' \
    'node: look at tick 32 is late by 1: look is 13' 'node: look at tick 4294967295 is late by 4294967250: look is 13'
told 'after a start the first look may be at any tick' 'ok ok' 'tick 3' 'tick 16'
stderr_is 'the first look after a start' 'node: first look since the start, at tick 3: when the last was is not known'
for word in 0 0:1 0:1:2:3 0:1: 0::2 :1:2 0:1:2: 0:a:2 0:1:+2 0:4294967296:2 0:1:4294967296 4294967296:1:2 "0:${bytes%?}g:2" "0:0x$(printf '%062d' 7):2" "0:$bytes" "0:$bytes:" "0:$bytes:x"; do
    printf 'tick 1 %s\n' "$word" | refused "a look with the word $word"
done
{ printf 'tick 1'; yes ' 3:1:2' | head -n 1000000 | tr -d '\n'; printf '\n'; } >"$place/long"
expect 'a look with a million words' 'ready ok' "$("$node" "$place/mill" <"$place/long" 2>/dev/null | tr '\n' ' ' | sed 's/ $//')"

# A standard stream that is closed leaves its number to no file: the node's file has nothing but records.
new_folder
printf 'tick 0\ntick 99\n' | "$node" "$place/mill" >"$place/out" 2>&-
expect 'closed standard error: status' 0 $?
expect 'closed standard error: answers' 'ready ok ok' "$(tr '\n' ' ' <"$place/out" | sed 's/ $//')"
"$node" "$place/mill" </dev/null >&- 2>/dev/null
expect 'closed standard output: status' 1 $?
expect 'the file after closed streams' 0500000000000000000a0000000a00000501000000000000000a0000000a0000 "$(file_bytes)"

# The examples of docs/FORMATS.md: the third goes on from the passing on, the fourth is a start after it.
documented() { # which block of section 6
    awk -v want="$1" '/^## /{ inside = /^## 6\./ } inside && /^```/{ open = !open; many += open; next } inside && open && many == want' docs/FORMATS.md
}
goes_as_documented() { # NAME BLOCK, with what is told before on standard input
    local name=$1
    documented "$2" >"$place/block"
    { cat; grep '^> ' "$place/block" | cut -c3-; } | "$node" "$place/mill" 2>"$place/err" | tail -n "$(grep -c '^< ' "$place/block")" >"$place/out"
    [ -s "$place/block" ] && diff <(grep '^< ' "$place/block" | cut -c3-) "$place/out"
    expect "$name" 0 $?
}
new_folder
goes_as_documented 'FORMATS: a payment through' 1 </dev/null
expect 'FORMATS: its file' "$(documented 2 | awk '{ printf "%s", $2 }')" "$(file_bytes)"
new_folder
printf '%s\n' "${began[@]}" 'tick 190' | goes_as_documented 'FORMATS: silence' 3
passed_on 'FORMATS: before the stop' 'ok' 'tick 190'
goes_as_documented 'FORMATS: a start' 4 </dev/null
exit "$((failures > 0))"
