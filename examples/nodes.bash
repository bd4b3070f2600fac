# Several nodes wired to each other by pipes, for the scripts beside this file. Nothing stands between two nodes but a
# renaming of accounts: a line `send I REST` of one node is given to the other as `J REST`.
set -u
root=$(cd "$(dirname "${BASH_SOURCE[0]}")/.." && pwd)
node=${NODE:-$root/target/bin/node}
place=$(mktemp -d)
trap 'rm -rf "$place"' EXIT
declare -A to from wire process
waiting=()

say() { printf '%s\n' "$*"; }

# start NAME: starts (again) the node with that name; what it sends again is kept for `deliver`.
start() {
    local name=$1 line
    mkdir -p "$place/$name"
    [ -f "$place/$name/terms" ] || cat >"$place/$name/terms" <<TERMS
gap 110
window 50
delay 5
look 13
account 10 10
account 10 10
TERMS
    mkfifo "$place/$name.in" "$place/$name.out" 2>/dev/null
    (
        # a node keeps no end of the others' pipes open
        for fd in "${to[@]}" "${from[@]}"; do exec {fd}>&-; done
        exec "$node" "$place/$name" <"$place/$name.in" >"$place/$name.out"
    ) &
    process[$name]=$!
    exec {to[$name]}>"$place/$name.in" {from[$name]}<"$place/$name.out"
    hear "$name" ready
}

# stop NAME: its input ends.
stop() {
    local name=$1
    exec {to[$name]}>&- {from[$name]}<&-
    unset "to[$name]" "from[$name]"
    wait "${process[$name]}"
    say "$name stops"
}

# What a node writes up to its answer: what it sends over a wire waits to be delivered.
hear() { # NAME LAST..
    local name=$1 line word account rest
    while IFS= read -r -t 20 line <&"${from[$name]}"; do
        say "$name writes: $(short "$line")"
        read -r word account rest <<<"$line"
        [ "$word" = send ] && [ -n "${wire["$name $account"]:-}" ] && waiting+=("${wire["$name $account"]} $rest")
        case $line in ready | ok | no\ *) return ;; esac
    done
    say "$name is silent"
    exit 1
}

# Long hexadecimal words are shortened for reading.
short() { sed -E 's/([0-9a-f]{24})[0-9a-f]{8,}/\1../g' <<<"$1"; }

# tell NAME LINE: one line to a node, and its answer.
tell() {
    local name=$1
    shift
    say "$name is told: $(short "$*")"
    printf '%s\n' "$*" >&"${to[$name]}"
    hear "$name"
}

# Hands on all that waits, and what comes of it.
deliver() {
    local next name rest
    while [ "${#waiting[@]}" -gt 0 ]; do
        next=${waiting[0]}
        waiting=("${waiting[@]:1}")
        read -r name rest <<<"$next"
        tell "$name" "$rest"
    done
}
