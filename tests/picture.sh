#!/usr/bin/env bash
# The drawings of rehearsals: well-formed, a lane for each party and the register, an arrow for each message, refusals told by colour and word.
set -u
cd "$(dirname "$0")/.."
rehearse=$PWD/target/bin/rehearse
place=$(mktemp -d)
trap 'rm -rf "$place"' EXIT
failures=0
fails() { # WHAT
    printf 'picture: %s\n' "$1"
    failures=$((failures + 1))
}
count() { # PATTERN FILE
    grep -c "$1" "$2"
}
same() { # WHAT EXPECTED ACTUAL
    [ "$2" = "$3" ] || fails "$1: $3, and not $2"
}
well_formed() { # FILE
    if command -v python3 >"$place/found"; then
        python3 -c 'import sys, xml.dom.minidom; xml.dom.minidom.parse(sys.argv[1])' "$1" 2>"$place/err" || fails "$1 is not well-formed"
    fi
    same "$1: roots that are closed" 1 "$(count '^</svg>$' "$1")"
    same "$1: scripts" 0 "$(count '<script' "$1")"
}

# every example has a drawing, and the usual output beside it
for script in examples/rehearse/*.script; do
    svg=$place/$(basename "$script" .script).svg
    "$rehearse" "$script" >"$place/plain" 2>"$place/err"
    "$rehearse" --picture "$svg" "$script" >"$place/drawn" 2>"$place/err" || fails "$script: no drawing: $(cat "$place/err")"
    cmp -s "$place/plain" "$place/drawn" || fails "$script: other output with a drawing"
    well_formed "$svg"
    parties=$(grep -cE '^(node|other) ' "$script")
    same "$script: lanes" $((parties + 1)) "$(count 'class="lane"' "$svg")"
    while read -r name; do
        grep -q ">$name</text>" "$svg" || fails "$script: no lane has the name $name"
    done < <(awk '$1 == "node" || $1 == "other" { print $2 }' "$script")
    # messages of the others, what is shown in the register, and messages of nodes
    told=$(grep -cE '^tick [0-9]+  [^ ]+ (offers|returns|signs|sends|shows) |^tick [0-9]+  [^ ]+ pays [^ ]+ key [0-9]+ unsigned' "$place/plain")
    others=$(awk '$1 == "other" { print $2 }' "$script" | paste -sd '|')
    paid=0
    [ -n "$others" ] && paid=$(grep -cE "^tick [0-9]+  ($others) pays [^ ]+ key [0-9]+:" "$place/plain")
    same "$script: arrows" $((told + paid)) "$(count 'class="arrow' "$svg")"
    # whatever is refused is red and has the word
    same "$script: words of refusals" "$(count '>refused: ' "$svg")" "$(grep -c 'fill="#b00020".*>refused: ' "$svg")"
    grep -q ': no [0-9]' "$place/plain" && { grep -q '>refused: ' "$svg" || fails "$script: a refusal is not drawn"; }
done

# the two of the README
cmp -s "$place/spring.svg" docs/pictures/spring-kept.svg || fails 'docs/pictures/spring-kept.svg is not the drawing of examples/rehearse/spring.script'
target/bin/spring_lost >"$place/lost.svg" && cmp -s "$place/lost.svg" docs/pictures/spring-lost.svg || fails 'docs/pictures/spring-lost.svg is not what spring_lost draws'
well_formed docs/pictures/spring-lost.svg
grep -q '>lost 5</text>' docs/pictures/spring-lost.svg || fails 'the loss is not drawn'
grep -q '>refused: .* (9)</text>' docs/pictures/spring-kept.svg || fails 'the refusal that keeps the money is not drawn'

# a path goes into the title, escaped (names of parties are letters, digits, - and _)
odd="$place/a<b>&\"c.script"
cp examples/rehearse/spring.script "$odd"
"$rehearse" --picture "$place/odd.svg" "$odd" >"$place/drawn" 2>"$place/err"
well_formed "$place/odd.svg"
grep -q 'Rehearsal of a&lt;b&gt;&amp;&quot;c.script' "$place/odd.svg" || fails 'the title is not escaped'

# a drawing that can't be written, and arguments that are wrong
"$rehearse" --picture "$place/none/x.svg" examples/rehearse/spring.script >"$place/drawn" 2>"$place/err" && fails 'no error for a file that cannot be written'
grep -q 'none/x.svg' "$place/err" || fails 'the file that cannot be written is not told'
"$rehearse" --picture "$place/x.svg" >"$place/drawn" 2>"$place/err" && fails 'no error without a script'

[ "$failures" -eq 0 ] && printf 'picture: ok\n'
exit "$((failures > 0))"
