#!/usr/bin/env bash
# The program count: files of each kind, cut and damaged ones, a long and a full one, and its least against one by brute force.
set -u
cd "$(dirname "$0")/.."
count=$PWD/target/bin/count
place=$(mktemp -d)
trap 'rm -rf "$place"' EXIT
failures=0

# expect NAME EXPECTED ACTUAL
expect() {
    if [ "$2" = "$3" ]; then
        printf 'count: %s: ok\n' "$1"
    else
        printf 'count: %s: expected %q, got %q\n' "$1" "$2" "$3"
        failures=$((failures + 1))
    fi
}

# What can't be counted: status 1, and a message that names what is wrong.
fails() { # NAME MESSAGE ARGUMENT..
    local name=$1 message=$2
    shift 2
    "$count" "$@" >"$place/out" 2>"$place/err"
    expect "$name: status" 1 $?
    expect "$name: no least" '' "$(grep least "$place/out")"
    grep -qF -- "$message" "$place/err"
    expect "$name: the message" 0 $?
}

# An empty file, a file by its folder and by its name, and JSON.
: >"$place/empty"
expect 'an empty file' 'least 0 deposits 0 difference 0 ' "$("$count" "$place/empty" | tr '\n' ' ')"
expect 'an empty file in JSON' '{"least":0,"deposits":0,"difference":0}' "$("$count" --json "$place/empty")"
small=crates/count/data/mill/accounts
expect 'a folder' "$(cat crates/count/stdout)" "$("$count" crates/count/data/mill)"
expect 'a file' "$(cat crates/count/stdout)" "$("$count" $small)"
"$count" --json $small | python3 -c 'import json, sys; rows = [json.loads(line) for line in sys.stdin]; print(rows[1]["next"]["theirs"], rows[2]["least"])' >"$place/out"
expect 'JSON, one object a line' '15 20' "$(cat "$place/out")"
"$count" --help | grep -q '^usage: count'
expect 'help' 0 $?

fails 'no argument' 'one folder or one file'
fails 'two arguments' 'one folder or one file' $small $small
fails 'only --json' 'one folder or one file' --json
fails 'no such file' "$place/none" "$place/none"
mkdir "$place/folder"
fails 'a folder with no file' "$place/folder/accounts" "$place/folder"

# Cut at every byte: an answer each time, and a short record is said and left out. The file itself stays as it is.
size=$(stat -c %s $small)
bad=0
said=0
for ((cut = 0; cut <= size; cut++)); do
    head -c "$cut" $small >"$place/cut"
    "$count" "$place/cut" >"$place/out" 2>"$place/err" || bad=$((bad + 1))
    grep -q '^difference ' "$place/out" || bad=$((bad + 1))
    grep -q 'damaged' "$place/err" && bad=$((bad + 1))
    grep -q "$place/cut, byte [0-9]*: a short record, which is left out" "$place/err" && said=$((said + 1))
    [ "$(stat -c %s "$place/cut")" -eq "$cut" ] || bad=$((bad + 1))
done
expect "cut at each of $size bytes" 0 "$bad"
expect 'short records that were said' "$((size + 1 - $(grep -c . <(python3 tests/count_files.py ends $small))))" "$said"

# Damage at some bytes: the place is said. (A changed lock or amount may be no damage.)
damage() { # BYTE VALUE PLACE
    cp $small "$place/damaged"
    printf "\\x$2" | dd of="$place/damaged" bs=1 seek="$1" conv=notrunc status=none
    fails "byte $1 as $2" "count: $place/damaged, byte $3: damaged" "$place/damaged"
}
damage 0 08 0
damage 1 01 0
damage 16 09 16
damage 17 05 16
damage 46 21 32
damage 44 0b 32
damage "$((size - 1))" 21 "$((size - 16))"

# Sheets that no change makes: own and theirs have changed places by 3, in a next with an in more.
python3 tests/count_files.py disorder "$place/disorder"
fails 'sheets that are not in order' "count: $place/disorder: next of account 1 is not held with one change" "$place/disorder"

# Small random files, whatever the rules say of locks, against every choice and every set of keys.
mkdir "$place/random"
python3 tests/count_files.py random "$place/random" 400 "${SEED:-7}"
bad=0
i=0
while read -r want; do
    [ "$("$count" "$place/random/$i" | tail -3 | tr '\n' ' ')" = "$want " ] || {
        bad=$((bad + 1))
        cp "$place/random/$i" "/tmp/count-differs-$i"
    }
    i=$((i + 1))
done <"$place/random/expected"
expect "$i random files against brute force" 0 "$bad"

# A long file, and 16 full accounts with a next under way in each.
python3 tests/count_files.py long "$place/long" 100000
/usr/bin/time -f 'count: 100,000 records: %e s, %M KB' "$count" "$place/long" >"$place/out" 2>"$place/err"
cat "$place/err"
expect '100,000 records' 'least 2000 deposits 2000 difference 0 ' "$(tail -3 "$place/out" | tr '\n' ' ')"
python3 tests/count_files.py full "$place/full"
/usr/bin/time -f 'count: 16 full accounts: %e s, %M KB' "$count" "$place/full" >"$place/out" 2>"$place/err"
cat "$place/err"
expect '16 full accounts' 'least 63488 deposits 64000 difference -512 ' "$(tail -3 "$place/out" | tr '\n' ' ')"
expect '16 nexts under way' 16 "$(grep -c '^account.*  next 6[45]:' "$place/out")"
exit "$((failures > 0))"
