#!/bin/sh
# Times a stock that loads 36 drawings of 1920 by 1080, one for each of 36 rows, section by section, beside bare reads of
# the same files, each into a new list; for colour drawings and for those of CM32. Prints both times, their ratio (the goal
# is 1.5 at most), and the most memory of the process beside what a section holds and one drawing more.
# The files are made in a folder in memory, which is removed afterwards.
#
#     bench/stock.sh
set -eu
top=$(cd "$(dirname "$0")/.." && pwd)
# In memory where there is such a folder.
work=$(mktemp -d -p "$(test -d /dev/shm && echo /dev/shm || echo /tmp)")
trap 'rm -rf "$work"' EXIT
program=$("$top/bench/program.sh" xs_stock_times)
cd "$work"
python3 - <<'END'
import json, random, struct

W, H, DRAWINGS = 1920, 1080, 36

def colour(random):
    """A premultiplied pixel."""
    matte = random.randrange(256)
    return bytes([random.randint(0, matte) for _ in range(3)] + [matte])

def word(random):
    """Ink, paint and tone."""
    return struct.pack("<I", random.randrange(4) << 20 | random.randrange(4) << 8 | random.randrange(256))

for kind, (name, pixel) in enumerate((("colour", colour), ("cm32", word))):
    files = ["%s%d.xrl" % (name, number) for number in range(DRAWINGS)]
    for number, file in enumerate(files):
        chance = random.Random(number)
        row = b"".join(pixel(chance) for _ in range(W))
        with open(file, "wb") as out:
            out.write(b"XRL1" + struct.pack("<BiiII", kind, 0, 0, W, H))
            for y in range(H):
                # each row is the one before, turned by a pixel
                out.write(row[4 * y % (4 * W):] + row[:4 * y % (4 * W)])
    level = {"kind": name, "drawings": files}
    if kind == 1:
        level["palette"] = 0
    cells = [{"from": row + 1, "to": row + 1, "level": 0, "drawing": row} for row in range(DRAWINGS)]
    palettes = [{"styles": [[0, 0, 0, 0], [9, 9, 9, 255]]}]
    scene = {"format": 2, "camera": {"w": W, "h": H}, "palettes": palettes, "levels": [level],
             "sheets": [{"columns": [{"cells": cells}]}]}
    with open(name + ".json", "w") as out:
        json.dump(scene, out)
END
cut -d' ' -f1-3 /proc/loadavg | sed 's/^/load in 1, 5 and 15 minutes: /'
printf '%-8s %9s %9s %6s %12s %16s\n' kind 'stock ms' 'read ms' ratio 'memory MiB' 'held and one MiB'
for kind in colour cm32; do
    "$program" stock "$kind.json" 36 | awk -v kind="$kind" '
        $1 == "stock:" { stock = $5 }
        $1 == "files:" { files = $5 }
        $1 == "VmHWM:" { most = $2 / 1024 }
        # a section of eight rows holds eight drawings
        END { printf "%-8s %9.1f %9.1f %6.2f %12.1f %16.1f\n", kind, stock / 1000, files / 1000, stock / files, most,
              9 * (21 + 4 * 1920 * 1080) / 1048576 }'
done
