#!/bin/sh
# Prints the path of a program that times parts of the renderer: xs_timing, or the one that is named. It is the one that a
# variable of its name in capitals names; else that of this checkout, which is proved and built first where it is missing
# or older than a source.
#
#     bench/program.sh [PROGRAM]
#     XS_TIMING=PATH bench/dry.sh
set -eu
top=$(cd "$(dirname "$0")/.." && pwd)
name=${1-xs_timing}
given=$(printenv "$(printf %s "$name" | tr a-z A-Z)" || true)
if [ -n "$given" ]; then
    readlink -f -- "$given"
    exit
fi
program=$top/crates/$name/out/$name

is_built() {
    [ -x "$program" ] && [ -z "$(find "$top/crates.txt" "$top"/crates/*/src "$top"/crates/*/specs \
        "$top"/crates/*/proofs -newer "$program" -print -quit)" ]
}

if ! is_built; then
    log=$(mktemp)
    trap 'rm -f "$log"' EXIT
    # Without words the program lists its parts and ends with 2.
    (cd "$top/crates/$name" && rt run >"$log" 2>&1) || grep -q '^rt: running' "$log" || { cat "$log" >&2; exit 1; }
fi
printf '%s\n' "$program"
