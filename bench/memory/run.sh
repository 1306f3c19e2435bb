#!/usr/bin/env bash
# Refuses each allocation of the program in turn, on each session of examples/ by both commands and on one of a
# thousand calls. A run must end for want of memory, with nothing written, or as the run that is refused none. Ends with 1 where one doesn't.
set -euo pipefail

here=$(cd "$(dirname "$0")" && pwd)
top=$(cd "$here/../.." && pwd)
work=$(mktemp -d)
trap 'rm -rf "$work"' EXIT

# Runs the command $1 on the session $2 with the allocation $3 refused: its status, and what it writes to the file $4.
run() {
    local status=0
    REFUSED=$3 COUNTED=$work/counted LD_PRELOAD=$work/refuse.so \
        "$top/crates/regulator/out/regulator" "$1" <"$2" >"$4" 2>/dev/null || status=$?
    echo "$status"
}

# Tries each allocation of the command $1 on the session $2, and prints how the runs ended.
try() {
    local whole status count without=0 same=0
    whole=$(run "$1" "$2" 0 "$work/whole")
    count=$(cat "$work/counted")
    for number in $(seq 1 "$count"); do
        status=$(run "$1" "$2" "$number" "$work/written")
        if [ "$status" = 1 ] && [ ! -s "$work/written" ]; then
            without=$((without + 1))
        elif [ "$status" = "$whole" ] && cmp -s "$work/written" "$work/whole"; then
            same=$((same + 1))
        else
            echo "$1 $(basename "$2"): allocation $number refused: status $status"
            exit 1
        fi
    done
    echo "$1 $(basename "$2"): $count allocations, $without runs without memory, $same the same"
}

(cd "$top/crates/regulator" && rt run -- solo <"$top/examples/first.session" >/dev/null)
cc -O2 -shared -fPIC -o "$work/refuse.so" "$here/refuse.c" -ldl
{
    printf '%%session 1\n%%board demo\n%%worker\nopen a core\n'
    for _ in $(seq 1 500); do printf 'set a 800000 800000\nset a 1000000 1000000\n'; done
    printf '%%end\n%%done\n'
} >"$work/calls.session"
for session in "$top"/examples/*.session; do
    for command in check solo; do try $command "$session"; done
done
try solo "$work/calls.session"
