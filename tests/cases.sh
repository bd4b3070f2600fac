#!/usr/bin/env bash
# The cases stand in two places: in crates/cases, where the checker computes them (specs/Table.antt, and their lines in
# specs/Scripts.antt), and in examples/cases and examples/cases_told, as lines through the program node_told. Each row has its lines
# and what is expected, to the letter, and all lines have their row.
set -u
cd "$(dirname "$0")/.."
place=$(mktemp -d)
trap 'rm -rf "$place"' EXIT
failures=0
wrong() { # WHAT
    printf 'cases: %s\n' "$1"
    failures=$((failures + 1))
}
rows=$(grep -o 'name = "[^"]*"' crates/cases/specs/Table.antt | cut -d '"' -f 2)
[ -n "$rows" ] || wrong 'no rows found in crates/cases/specs/Table.antt'
# The strings of each script, as the two files that they should be.
awk -v place="$place" '
    /^ *name = "/ { split($0, parts, "\""); name = parts[2]; print "ready" >place "/" name ".expected"; next }
    /^ *lines =/ { kind = "lines" }
    /^ *printed =/ { kind = "expected" }
    { for (rest = $0; match(rest, /"[^"]*"/); rest = substr(rest, RSTART + RLENGTH))
        print substr(rest, RSTART + 1, RLENGTH - 2) >place "/" name "." kind }
' crates/cases/specs/Scripts.antt
for row in $rows; do
    for file in "$row.lines" "$row.expected"; do
        [ -f "$place/$file" ] || wrong "the table has a row $row, and specs/Scripts.antt has no lines for it"
        cmp "$place/$file" examples/cases*/"$file" || wrong "examples/cases/$file is not what specs/Scripts.antt has"
    done
done
for lines in examples/cases*/*.lines; do
    name=$(basename "$lines" .lines)
    grep -qxF "$name" <<<"$rows" || wrong "$lines has no row in the table"
done
# The node of the table has the terms of the node that the lines go through.
mill=crates/node/data/mill/terms
numbers=$(sed -n 's/^terms = record { \(.*\) }$/\1/p' crates/cases/specs/Rows.antt | tr -d '=;' | xargs -n 2 | sort)
[ -n "$numbers" ] && [ "$numbers" = "$(grep -E '^(gap|window|delay|look) ' "$mill" | sort)" ] || wrong "the terms of specs/Rows.antt are not those of $mill"
[ "$failures" -eq 0 ] && printf 'cases: %s rows and their lines: ok\n' "$(wc -w <<<"$rows")"
exit "$((failures > 0))"
