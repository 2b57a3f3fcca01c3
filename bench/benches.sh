#!/bin/sh
# Times each job of the bench of lanes on tiles of 64 by 64 beside the bare work that it asks for, in one program, and
# its blurs beside moving sums of columns in C. Prints nanoseconds a pixel, the least of five runs, their ratio, the most
# that it should be, and whether it is.
#
#     bench/benches.sh
set -eu
top=$(cd "$(dirname "$0")/.." && pwd)
work=$(mktemp -d)
trap 'rm -rf "$work"' EXIT
program=$("$top/bench/program.sh" xs_engine_times)
cc -O3 -march=x86-64-v2 "$top/bench/blur.c" -o "$work/blur"
for _ in 1 2 3 4 5; do
    "$program" bench >>"$work/times"
    "$work/blur" | sed -n 's/^blur 64 \([0-9]*\) /C blur-\1 /p' >>"$work/times"
done
awk '
    # a clear result stands beside the row kernel of over, a blur beside the program in C
    BEGIN {
        most["over"] = most["add"] = 1.25; most["cm32-noise"] = most["colour"] = 1.3; most["cm32-runs"] = 2
        most["far-away"] = most["in-clear"] = 0.1; most["blur-1"] = most["blur-16"] = 1.5
    }
    function lower(table, key, time) { if (!(key in table) || time < table[key]) table[key] = time }
    $1 == "C" { lower(c, $2, $3); next }
    { if (!($2 in job)) order[++count] = $2
      lower(job, $2, $3); if ($4 != "-") lower(bare, $2, $4) }
    function row(key, way, time, yard, goal) {
        printf "%-11s %9.3f %9.3f %7.2f", key, time / 1000, yard / 1000, time / yard
        if (goal) printf " %7.2f  %s", goal, time / yard <= goal ? "met" : "missed"; else printf " %7s  ", "-"
        printf "  beside %s\n", way
    }
    END {
        printf "%-11s %9s %9s %7s %7s\n", "ns a pixel", "job", "beside", "ratio", "most"
        for (i = 1; i <= count; i++) { k = order[i]
            if (k in c) { row(k, "sums in C", job[k], c[k], most[k]); row(k, "the blur alone", job[k], bare[k], 0) }
            else if (k in bare) row(k, k == "colour" ? "a tile and its rows pasted" : "the row kernel", job[k], bare[k], most[k])
            else row(k, "the row kernel of over", job[k], bare["over"], most[k])
        }
    }' "$work/times"
