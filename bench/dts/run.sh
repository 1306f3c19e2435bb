#!/usr/bin/env bash
# Times the reading of devicetree texts of 0.25, 1 and 4 MiB, an ordinary one and others that are
# meant to be slow: our part_runs, and Debian's dtc (device-tree-compiler) where it is installed.
# Prints seconds, the best of three runs, and how the time grows from 1 to 4 MiB.
set -euo pipefail

here=$(cd "$(dirname "$0")" && pwd)
top=$(cd "$here/../.." && pwd)
work=$(mktemp -d)
trap 'rm -rf "$work"' EXIT

# The best of three runs in ns, or - where the program fails.
timed() {
    local best=- started ended took
    for _ in 1 2 3; do
        started=$(date +%s%N)
        if ! "$@" >/dev/null 2>&1; then
            echo -
            return
        fi
        ended=$(date +%s%N)
        took=$((ended - started))
        if [ "$best" = - ] || [ "$took" -lt "$best" ]; then best=$took; fi
    done
    echo "$best"
}

count() { "$top/crates/part_runs/out/part_runs" count <"$1"; }
compile() { timeout 60 dtc -q -I dts -O dtb -o /dev/null "$1"; }

# One line of a table: the times at the three sizes and the growth.
row() {
    awk -v name="$1" -v kind="$2" -v a="$3" -v b="$4" -v c="$5" 'BEGIN {
        printf "%-12s %-10s %8s %8s %8s %8s\n", kind, name, seconds(a), seconds(b), seconds(c),
            (b == "-" || c == "-") ? "-" : sprintf("%.1f", c / b)
    }
    function seconds(ns) { return ns == "-" ? "-" : sprintf("%.3f", ns / 1e9) }'
}

(cd "$top/crates/part_runs" && rt run -- count </dev/null >/dev/null)
if ! command -v dtc >/dev/null; then
    echo "dtc is skipped: it is not there (apt-get install device-tree-compiler)"
fi
printf '%-12s %-10s %8s %8s %8s %8s\n' text program 0.25 1 4 '4 over 1'
for kind in ordinary siblings properties scattered letters labels reopened added deep bushy names cells phandles text hexadecimal parts references; do
    for bytes in 262144 1048576 4194304; do
        awk -v kind=$kind -v bytes=$bytes -f "$here/texts.awk" >"$work/$bytes.dts"
    done
    row part_runs $kind "$(timed count "$work/262144.dts")" "$(timed count "$work/1048576.dts")" \
        "$(timed count "$work/4194304.dts")"
    if command -v dtc >/dev/null; then
        row dtc $kind "$(timed compile "$work/262144.dts")" "$(timed compile "$work/1048576.dts")" \
            "$(timed compile "$work/4194304.dts")"
    fi
done
