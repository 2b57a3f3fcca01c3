#!/bin/sh
# Renders the samples in a folder that is removed afterwards, and compares their frames with the sums
# that are kept beside this script; those of hop are the sums of its drawings laid over one another. Makes nine rows of a
# generated scene too, and compares the sum of its pixels with that of tools/made_sum.py.
# Prints a line for each frame that differs, and ends with 1.
set -eu
here=$(cd "$(dirname "$0")" && pwd)
work=$(mktemp -d)
trap 'rm -rf "$work"' EXIT
cp "$here"/dusk.* "$here"/walk/* "$work"
cd "$work"
"$here/../tools/xdts_to_scene.py" "$here/hop/hop.xdts" "$here/hop/drawings" hop.json --ink 2e1e30 --colour BG
"$here/../vazhettin" render dusk.json 1 1 1 dusk
"$here/../vazhettin" render hop.json 1 40 1 hop
"$here/../vazhettin" render walk.json 1 24 1 walk
made=$("$here/../vazhettin" make 7 9 1)
if [ "${made##* }" != "$("$here/../tools/made_sum.py" 7 9)" ]; then
    echo "make 7 9 1 printed: $made"
    exit 1
fi
sha256sum --quiet -c "$here/frames.sha256"
