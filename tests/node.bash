# What the tests of the node programs share: a folder for a node, a key as a message, and how an answer is compared.
# $node is the program.
key=03$(printf '%064d' 7)
place=$(mktemp -d)
trap 'rm -rf "$place"' EXIT
cp -r crates/node/data/mill "$place/mill"
failures=0

# expect NAME EXPECTED ACTUAL
expect() {
    if [ "$2" = "$3" ]; then
        printf 'node: %s: ok\n' "$1"
    else
        printf 'node: %s: expected %q, got %q\n' "$1" "$2" "$3"
        failures=$((failures + 1))
    fi
}

# The bytes of a line, and then a good line: the first is `no 1`, the second is answered as if nothing had happened.
refused() { # NAME, and the line on standard input
    expect "$1" 'ready no 1 ok' "$({ cat; printf '0 %s\n' "$key"; } | "$node" "$place/mill" | tr '\n' ' ' | sed 's/ $//')"
}
