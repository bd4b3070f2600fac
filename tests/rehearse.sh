#!/usr/bin/env bash
# Plays each script of examples/rehearse and compares what is told; then scripts with one line that is wrong, of each kind.
set -u
cd "$(dirname "$0")/.."
rehearse=$PWD/target/bin/rehearse
[ -x "$rehearse" ] || { echo "tests/rehearse.sh: $rehearse is not there; ./helgumba --build rehearse builds it" >&2; exit 1; }
place=$(mktemp -d)
trap 'rm -rf "$place"' EXIT
passed=0
failed=0
expect() { # NAME WANTED GOT
    if [ "$2" = "$3" ]; then
        passed=$((passed + 1))
    else
        failed=$((failed + 1))
        printf 'FAIL %s\n  wanted: %s\n  got:    %s\n' "$1" "$2" "$3"
    fi
}

# Each script tells what its .out has; and in each, every node comes out with at least what it put in.
for script in examples/rehearse/*.script; do
    name=$(basename "$script" .script)
    "$rehearse" "$script" >"$place/out" 2>"$place/err"
    expect "$name: status" 0 $?
    cmp -s "$place/out" "examples/rehearse/$name.out"
    expect "$name: what is told" 0 $?
    expect "$name: begins with a comment" '#' "$(head -c 1 "$script")"
    expect "$name: nobody lost" '' "$(awk '/ in all put in / && ($0 ~ /not settled/ || $NF < $(NF - 2))' "$place/out")"
    "$rehearse" --json "$script" >"$place/json" 2>>"$place/err"
    expect "$name: an object for each line" "$(wc -l <"$place/out")" "$(grep -c '^{"tick":[0-9]*,"line":[0-9]*,"what":".*}$' "$place/json")"
    expect "$name: nothing on standard error" '' "$(cat "$place/err")"
done

# A look that is missed is told, and so is what follows from it.
cat >"$place/missed" <<'END'
terms gap 110 window 50 delay 5 look 13
node baker
other mill
account baker mill 10 10
baker misses looks until 30
tick 30
wait 5
END
expect 'a missed look is told' 'tick 14  baker has not looked since tick 0, too long ago: the promise does not cover this' "$("$rehearse" "$place/missed" | sed -n 3p)"
expect 'and the node looks again' 'tick 30  baker looks: ok' "$("$rehearse" "$place/missed" | sed -n 4p)"

# Arrivals at once, and late.
cat >"$place/arrivals" <<'END'
terms gap 110 window 50 delay 5 look 13
node baker
other mill
account baker mill 10 10
mill offers baker key 1 amount 5 end 10
arrivals now
tick 13
END
expect 'arrives at once' 'tick 13  register baker and mill opens with sheet 1 until 63' "$("$rehearse" "$place/arrivals" | grep opens)"
sed -i 's/arrivals now/arrivals late/; s/tick 13/tick 18/' "$place/arrivals"
expect 'arrives late' 'tick 18  register baker and mill opens with sheet 1 until 68' "$("$rehearse" "$place/arrivals" | grep opens)"
expect 'not settled is told' 'end  baker in all put in 10 not settled' "$("$rehearse" "$place/arrivals" | tail -n 1)"

# One line that is wrong: file, line and word, status 1, and nothing is played.
fails() { # MESSAGE LINE: the line comes as line 8, after a script that is right
    local head='terms gap 110 window 50 delay 5 look 13
node baker
other mill
other smith
account baker mill 10 10
account baker smith 10 10
mill offers baker key 1 amount 5 end 300'
    printf '%s\n%s\nshow\n' "$head" "$2" >"$place/wrong.script"
    (cd "$place" && "$rehearse" wrong.script >out 2>err)
    expect "$2: status" 1 $?
    expect "$2: nothing is played" '' "$(cat "$place/out")"
    expect "$2: the message" "rehearse: wrong.script, line 8: $1" "$(cat "$place/err")"
}
before() { # MESSAGE LINE: the line comes as line 5, before the play
    printf 'terms gap 110 window 50 delay 5 look 13\nnode baker\nother mill\nother smith\n%s\n' "$2" >"$place/wrong.script"
    (cd "$place" && "$rehearse" wrong.script >out 2>err)
    expect "$2: status" 1 $?
    expect "$2: nothing is played" '' "$(cat "$place/out")"
    expect "$2: the message" "rehearse: wrong.script, line 5: $1" "$(cat "$place/err")"
}
terms() { # MESSAGE LINE: the line is the first
    printf '%s\n' "$2" >"$place/wrong.script"
    (cd "$place" && "$rehearse" wrong.script >out 2>err)
    expect "$2: status" 1 $?
    expect "$2: the message" "rehearse: wrong.script$1" "$(cat "$place/err")"
}
fails "'offres' is not a word that can stand here" 'mill offres baker key 1 amount 5 end 300'
fails "'hello' is not a word that can stand here" 'hello baker'
fails "'twice' is not a word that can stand here" 'smith signs baker twice'
fails 'the line ends too early' 'mill offers baker key 1 amount 5'
fails 'the line ends too early' 'baker'
fails "'five' is not a number" 'mill offers baker key 2 amount five end 300'
fails "'4294967296' is above 4294967295" 'mill offers baker key 2 amount 4294967296 end 300'
fails "'bakre' is nobody in this script" 'mill offers bakre key 2 amount 5 end 300'
fails "'smith' is not a node" 'mill offers smith key 2 amount 5 end 300'
fails "'mill' is not a node" 'mill gives up baker key 1'
fails "'baker' is a node, which does what its rules say" 'baker offers mill key 1 amount 5 end 300'
fails "'smith' has no such account" 'mill shows key 1 for mill smith'
fails "'node' can't stand here: the play has begun" 'node inn'
fails "'account' can't stand here: the play has begun" 'account baker mill 10 10'
fails "'0f0' is not an even number of hexadecimal digits" 'mill sends baker 0f0'
fails "'1000001' is too far: a script ends by tick 1000000" 'tick 1000001'
fails "'1000001' is too far: a script ends by tick 1000000" 'wait 1000001'
printf 'terms gap 110 window 50 delay 5 look 13\nnode baker\ntick 5\ntick 3\n' >"$place/back.script"
expect 'tick backwards' "rehearse: $place/back.script, line 4: '3' is before the tick that the script has come to" "$("$rehearse" "$place/back.script" 2>&1)"
before "'mill' is in this script already" 'node mill'
before "'key' can't be a name" 'other key'
before "'7up' can't be a name" 'other 7up'
before "'the\"inn' can't be a name" 'other the"inn'
before "'baker' can't have an account with itself" 'account baker baker 1 1'
before "'smith' is no node, and neither is the other: an account needs one" 'account mill smith 1 1'
before "'1' is too much: the two together are above 4294967295" 'account baker mill 4294967295 1'
before "'terms' stands here a second time" 'terms gap 110 window 50 delay 5 look 13'
printf 'terms gap 110 window 50 delay 5 look 13\nnode a\nnode b\nnode c\nnode d\nnode e\n' >"$place/many.script"
expect 'five nodes' "rehearse: $place/many.script, line 6: 'e' is one node too many: there are at most 4" "$("$rehearse" "$place/many.script" 2>&1)"
printf 'terms gap 110 window 50 delay 5 look 13\nnode a\nother b\naccount a b 1 1\naccount b a 1 1\n' >"$place/twice.script"
expect 'an account twice' "rehearse: $place/twice.script, line 5: 'a' has this account already" "$("$rehearse" "$place/twice.script" 2>&1)"
terms ": there is no line with terms" '# nothing'
terms ", line 1: '0' is too little: look is at least 1" 'terms gap 110 window 50 delay 5 look 0'
terms ", line 1: '18' is too little: window is at least look + delay + 1" 'terms gap 110 window 18 delay 5 look 13'
terms ", line 1: '103' is too little: gap is at least window + 3 delay + 3 look" 'terms gap 103 window 50 delay 5 look 13'
"$rehearse" "$place/none.script" >"$place/out" 2>"$place/err"
expect 'no such file: status' 1 $?
"$rehearse" >"$place/out" 2>"$place/err"
expect 'no argument: status' 1 $?
"$rehearse" --help | grep -q '^usage: rehearse'
expect 'help' 0 $?
head -c 2000000 /dev/zero >"$place/long.script"
expect 'too long a text' "rehearse: $place/long.script: more than 1048576 bytes" "$("$rehearse" "$place/long.script" 2>&1)"

echo "rehearse: $passed passed, $failed failed"
[ "$failed" -eq 0 ]
