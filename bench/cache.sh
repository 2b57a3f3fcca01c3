#!/bin/sh
# Times the calls of seats at the cache of words on a plan of 524,288 aliases, and prints nanoseconds a call for each
# number of threads, how many tiles were let go, and the processor with the load before and after. A finish makes its
# tile, and a read lets the tile go again; every second retire is the last of its tile. With several threads it is the
# time of all their calls together, by the seat that took longest.
#
#     bench/cache.sh
set -eu
top=$(cd "$(dirname "$0")/.." && pwd)
program=$("$top/bench/program.sh" xs_cache_times)
load() {
    cut -d' ' -f1-3 /proc/loadavg
}
sed -n 's/^model name[[:space:]]*: /processor: /p' /proc/cpuinfo | sort | uniq -c |
    sed 's/^ *\([0-9]*\) processor:/processors: \1 of/'
before=$(load)
times=$("$program" cache)
printf 'load in 1, 5 and 15 minutes: %s before, %s after\n' "$before" "$(load)"
printf '%s\n' "$times" | awk '
    { if (!($2 in wide)) { wide[$2] = 1; threads[++columns] = $2 }
      if (!($3 in seen)) { seen[$3] = 1; calls[++rows] = $3 }
      value[$3, $2] = $4 }
    END {
        printf "%-8s", "threads"
        for (j = 1; j <= columns; j++) printf " %9d", threads[j]
        printf "\n"
        for (i = 1; i <= rows; i++) {
            printf "%-8s", calls[i]
            for (j = 1; j <= columns; j++) {
                v = value[calls[i], threads[j]]
                if (calls[i] == "tiles") printf " %9d", v; else printf " %9.1f", v / 1000
            }
            printf "\n"
        }
    }'
