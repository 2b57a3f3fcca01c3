#!/bin/sh
# Renders small scenes of the tables, a cut-out one and a generated one, with each allocation of the program failing in
# turn: first that one alone, then that one and all behind it. Each run has to end with 0 and its frames, or with 6 and
# `out of memory`, a frame that is there being whole. Prints a line for each that does not, and for each scene how many
# allocations there are. Ends with 1 where one did not.
#
#     tools/failing_allocations.sh PROGRAM      PROGRAM is out/vazhettin, where the launcher has built it
set -u
[ $# = 1 ] || { echo "usage: tools/failing_allocations.sh PROGRAM" >&2; exit 2; }
program=$(readlink -f -- "$1") || exit 2
here=$(cd "$(dirname "$0")" && pwd) || exit 2
data=$here/../crates/xs_tables/data
work=$(mktemp -d) || exit 2
trap 'rm -rf "$work"' EXIT
cc -O1 -shared -fPIC "$here/failing_malloc.c" -o "$work/failing.so" || exit 2
mkdir "$work/run" && cp "$data"/*.json "$data"/*.xrl "$work/run" && cd "$work/run" || exit 2
failed=0

# The drawings of the cut-out scene, 16 pixels a side: words of an ink and a paint, and pixels of the background and matte.
python3 - <<'END' || exit 2
import json, struct

with open("a_cut_out.json") as file:
    levels = json.load(file)["levels"]
for level in levels:
    word = level["kind"] == "cm32"
    for name in level["drawings"]:
        pixel = b"\x00\x01\x10\x00" if word else b"\x20\x40\x60\xff"
        with open(name, "wb") as file:
            file.write(b"XRL1" + struct.pack("<BiiII", word, -8, -8, 16, 16) + pixel * 256)
END

# Carries out words where these allocations fail, and leaves the answer in ../status, ../out and ../err.
render() {
    failing=$1
    shift
    rm -f ./*.xfr .*.xfr*
    timeout 20 env LD_PRELOAD="$work/failing.so" FAILING="$failing" ALLOCATIONS="$work/allocations" \
        "$program" "$@" > ../out 2> ../err
    echo "$?" > ../status
}

# Whether the last answer is as good as the one without a failing allocation, whose frames and line are kept.
is_good() {
    case $(cat ../status) in
        0) cmp -s ../out ../wanted/out || return 1
           for frame in ../wanted/*.xfr; do cmp -s "$frame" "${frame##*/}" || return 1; done ;;
        6) [ "$(cat ../err)" = "out of memory" ] && for frame in *.xfr; do
               [ ! -e "$frame" ] || cmp -s "$frame" "../wanted/$frame" || return 1
           done ;;
        *) false ;;
    esac
}

try() {
    render 0 "$@"
    [ "$(cat ../status)" = 0 ] || { echo "$*: ended with $(cat ../status): $(cat ../err)"; exit 1; }
    rm -rf ../wanted && mkdir ../wanted && mv ../out ./*.xfr ../wanted
    count=$(cat ../allocations)
    fine=0 short=0
    for number in $(seq "$count"); do
        for which in "$number" "$number.."; do
            render "$which" "$@"
            is_good || { failed=1; echo "$*: $which fails: ended with $(cat ../status): $(cat ../err)"; }
            if [ "$(cat ../status)" = 0 ]; then fine=$((fine + 1)); else short=$((short + 1)); fi
        done
    done
    echo "$*: $count allocations, $fine runs came through, $short ended otherwise"
}

for scene in one.json a_node_used_twice.json ink_deleted_in_a_nested_sheet.json; do
    try render "$scene" 1 2 1 f
done
try render a_cut_out.json 1 24 1 f
try make 7 2 1
exit "$failed"
