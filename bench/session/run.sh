#!/usr/bin/env bash
# Times the program on sessions of 1 and 4 MiB: a board of 64 rails among nodes that are read over, lines of
# registers, lines of faults, and sixteen workers. Beside the first, dtc (device-tree-compiler) on the same board
# text, where it is installed. Prints seconds, the best of three runs, and how the time grows.
set -euo pipefail

here=$(cd "$(dirname "$0")" && pwd)
top=$(cd "$here/../.." && pwd)
work=$(mktemp -d)
trap 'rm -rf "$work"' EXIT

# The best of three runs in ns, or - where the program fails.
timed() {
    local best=- started ended took
    for _ in 1 2 3; do
        started=$(date +%s%N)
        if ! "$@" >/dev/null 2>&1; then
            echo -
            return
        fi
        ended=$(date +%s%N)
        took=$((ended - started))
        if [ "$best" = - ] || [ "$took" -lt "$best" ]; then best=$took; fi
    done
    echo "$best"
}

run() { "$top/crates/regulator/out/regulator" "$1" <"$2"; }
compile() { timeout 60 dtc -q -I dts -O dtb -o /dev/null "$1"; }

# One line of the table: the times at the two sizes and the growth.
row() {
    awk -v kind="$1" -v name="$2" -v a="$3" -v b="$4" 'BEGIN {
        printf "%-10s %-6s %8s %8s %8s\n", kind, name, seconds(a), seconds(b), (a == "-" || b == "-") ? "-" : sprintf("%.1f", b / a)
    }
    function seconds(ns) { return ns == "-" ? "-" : sprintf("%.3f", ns / 1e9) }'
}

(cd "$top/crates/regulator" && rt run -- check <"$top/examples/camera.session" >/dev/null)
printf '%-10s %-6s %8s %8s %8s\n' session command 1 4 '4 over 1'
for kind in board registers faults workers; do
    for bytes in 1048576 4194304; do
        awk -v kind=$kind -v bytes=$bytes -f "$here/sessions.awk" >"$work/$bytes"
    done
    for command in check solo; do
        row $kind $command "$(timed run $command "$work/1048576")" "$(timed run $command "$work/4194304")"
    done
    if [ $kind = board ] && command -v dtc >/dev/null; then
        for bytes in 1048576 4194304; do
            sed -n '3,/^%end$/p' "$work/$bytes" | sed '$d' >"$work/$bytes.dts"
        done
        row $kind dtc "$(timed compile "$work/1048576.dts")" "$(timed compile "$work/4194304.dts")"
    fi
done
