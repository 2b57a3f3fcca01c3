#!/bin/sh
# Times the blur of tiles beside moving sums of columns in C. Prints nanoseconds a pixel, the least of five runs.
set -eu
top=$(cd "$(dirname "$0")/.." && pwd)
work=$(mktemp -d)
trap 'rm -rf "$work"' EXIT
program=$("$top/bench/program.sh")
cc -O3 -march=x86-64-v2 "$top/bench/blur.c" -o "$work/blur"
for round in 1 2 3 4 5; do
    "$program" blur | sed 's/^blur/Rattle/' >>"$work/times"
    "$work/blur" | sed 's/^blur/C/' >>"$work/times"
done
awk '
    { key = $2 " " $3; if (!(key in seen)) { seen[key] = 1; order[++count] = key }
      if (!((key, $1) in least) || $4 < least[key, $1]) least[key, $1] = $4 }
    END {
        printf "%-12s %9s %9s %9s\n", "side radius", "blur", "C", "ratio"
        for (i = 1; i <= count; i++) { k = order[i]
            printf "%-12s %9.3f %9.3f %9.2f\n", k, least[k, "Rattle"] / 1000, least[k, "C"] / 1000, least[k, "Rattle"] / least[k, "C"] }
    }' "$work/times"
