#!/usr/bin/env bash
# Times look-ups in a table of two ranges: ours, and Linux's lib/linear_ranges.c in user space where
# the Debian package linux-source-6.12 is installed, or LINUX_SOURCE names its archive. It takes the
# number of rounds, a million where none is given. A round is a look-up from above, one from below
# and a value. Both have the same sum, since the voltages lie where the two mean the same.
set -euo pipefail

rounds=${1:-1000000}
here=$(cd "$(dirname "$0")" && pwd)
top=$(cd "$here/../.." && pwd)
work=$(mktemp -d)
trap 'rm -rf "$work"' EXIT

ours() { echo "$1" | "$top/crates/part_runs/out/part_runs" ranges; }

# Prints the best of five runs in ns a round, less what a run of no rounds takes, and the sum.
timed() {
    local best=0 idle=0 started ended took
    for asked in 0 "$rounds"; do
        best=0
        for _ in 1 2 3 4 5; do
            started=$(date +%s%N)
            sum=$("$1" "$asked")
            ended=$(date +%s%N)
            took=$((ended - started))
            if [ "$best" = 0 ] || [ "$took" -lt "$best" ]; then best=$took; fi
        done
        if [ "$asked" = 0 ]; then idle=$best; fi
    done
    awk -v name="$2" -v ns="$((best - idle))" -v rounds="$rounds" -v sum="$sum" \
        'BEGIN { printf "%-8s %8.1f ns a round   sum %s\n", name, ns / rounds, sum }'
}

(cd "$top/crates/part_runs" && rt run -- ranges </dev/null >/dev/null)
timed ours ours

source=${LINUX_SOURCE:-/usr/src/linux-source-6.12.tar.xz}
if [ ! -e "$source" ]; then
    echo "linux    skipped: $source is not there (apt-get install linux-source-6.12)"
    exit 0
fi
tar -C "$work" --strip-components=1 -xf "$source" \
    linux-source-6.12/lib/linear_ranges.c linux-source-6.12/include/linux/linear_range.h
mkdir -p "$work/stubs/linux"
echo '#include <asm/errno.h>' >"$work/stubs/linux/errno.h"
echo '#define EXPORT_SYMBOL_GPL(name)' >"$work/stubs/linux/export.h"
echo '#define DIV_ROUND_UP(n, d) (((n) + (d) - 1) / (d))' >"$work/stubs/linux/kernel.h"
printf '#define MODULE_DESCRIPTION(text)\n#define MODULE_LICENSE(text)\n' >"$work/stubs/linux/module.h"
echo '#include <stdbool.h>' >"$work/stubs/linux/types.h"
cp "$work/include/linux/linear_range.h" "$work/stubs/linux/"
cc -O2 -I"$work/stubs" -o "$work/look_up" "$here/look_up.c" "$work/lib/linear_ranges.c"
timed "$work/look_up" linux
