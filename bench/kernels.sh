#!/bin/sh
# Times the row kernels beside the plain rows, a copy and pixman, and compares bytes with pixman's.
# Without pixman (Debian's libpixman-1-dev) its columns are left out. Prints nanoseconds a pixel.
set -eu
top=$(cd "$(dirname "$0")/.." && pwd)
work=$(mktemp -d)
trap 'rm -rf "$work"' EXIT
program=$("$top/bench/program.sh")
pixman=
if pkg-config --exists pixman-1 2>/dev/null; then
    cc -O3 -march=x86-64-v2 "$top/bench/kernels.c" -o "$work/kernels" $(pkg-config --cflags --libs pixman-1)
    pixman=yes
else
    echo "pixman is missing: its columns and the comparison of bytes are left out"
fi
for round in 1 2 3 4 5; do
    "$program" kernels >>"$work/times"
    [ -z "$pixman" ] || "$work/kernels" >>"$work/times"
done
awk '
    { key = $1 " " $3; if (!(key in seen)) { seen[key] = 1; order[++count] = key }
      if (!((key, $2) in least) || $4 < least[key, $2]) least[key, $2] = $4 }
    function show(key, way) { return ((key, way) in least) ? sprintf("%9.3f", least[key, way] / 1000) : "        -" }
    function ratio(key, a, b) { return ((key, a) in least) && ((key, b) in least) && least[key, b] > 0 ? sprintf("%9.2f", least[key, a] / least[key, b]) : "        -" }
    END {
        printf "%-18s %9s %9s %9s %9s %9s\n", "ns a pixel", "lanes", "plain", "pixman", "/plain", "/pixman"
        for (i = 1; i <= count; i++) { k = order[i]
            printf "%-18s %s %s %s %s %s\n", k, show(k, "Lanes"), show(k, "Plain"), show(k, "Pixman"), ratio(k, "Lanes", "Plain"), ratio(k, "Lanes", "Pixman") }
    }' "$work/times"
if [ -n "$pixman" ]; then
    "$program" kernel-bytes | "$work/kernels" compare
fi
