#!/bin/sh
# Times the life of aliases at a plain desk, where there are few and where there are many. Prints nanoseconds for the
# life of one, the least of three runs, their ratio, the most that it should be, and whether it is.
#
#     bench/desks.sh
set -eu
top=$(cd "$(dirname "$0")/.." && pwd)
work=$(mktemp -d)
trap 'rm -rf "$work"' EXIT
program=$("$top/bench/program.sh" xs_engine_times)
for _ in 1 2 3; do
    "$program" desk >>"$work/times"
done
awk '
    { if (!($2 in least)) order[++count] = $2
      if (!($2 in least) || $3 < least[$2]) least[$2] = $3 }
    END {
        printf "%9s %9s\n", "aliases", "ns a life"
        for (i = 1; i <= count; i++) printf "%9d %9.1f\n", order[i], least[order[i]] / 1000
        ratio = least[order[2]] / least[order[1]]
        printf "many beside few: %.2f, at most 3: %s\n", ratio, ratio <= 3 ? "met" : "missed"
    }' "$work/times"
