#!/bin/sh
# Times gathering frames of 1920 by 1080 from their tiles, where all are other tiles than in the row before and where all
# are the same, beside copying as many rows to the same places. Prints microseconds a frame, the least of three runs,
# the ratio to the copy, the most that it should be, and whether it is.
#
#     bench/gathers.sh
set -eu
top=$(cd "$(dirname "$0")/.." && pwd)
work=$(mktemp -d)
trap 'rm -rf "$work"' EXIT
program=$("$top/bench/program.sh" xs_engine_times)
for _ in 1 2 3; do
    "$program" gather >>"$work/times"
done
awk '
    !($2 in least) || $3 < least[$2] { least[$2] = $3 }
    function row(name, time, most) {
        ratio = time / least["copied"]
        printf "%-12s %9.1f %7.2f %7.2f  %s\n", name, time / 1000, ratio, most, ratio <= most ? "met" : "missed"
    }
    END {
        printf "%-12s %9s %7s %7s\n", "tiles", "us a frame", "ratio", "most"
        printf "%-12s %9.1f\n", "copied", least["copied"] / 1000
        row("other", least["other"], 1.3)
        row("the same", least["same"], 0.1)
    }' "$work/times"
