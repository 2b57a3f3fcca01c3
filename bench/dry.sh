#!/bin/sh
# Times the plan of scenes in which much is shared, of scenes at the limits, and the lines of a demand, and prints a
# table. The scenes are made in a folder that is removed afterwards. The program is proved and built first if need be.
#
#     bench/dry.sh
set -eu
top=$(cd "$(dirname "$0")/.." && pwd)
# In memory where there is such a folder.
work=$(mktemp -d -p "$(test -d /dev/shm && echo /dev/shm || echo /tmp)")
trap 'rm -rf "$work"' EXIT
program=$("$top/bench/program.sh")
cd "$work"
python3 - <<'END'
import json

CARD, COLUMN = {"op": "card", "rgba": [9, 9, 9, 255]}, {"column": 0}

def save(name, sheets, w=64, h=64, levels=None):
    colour = [{"kind": "colour", "drawings": ["a.xrl"]}]
    scene = {"format": 2, "camera": {"w": w, "h": h}, "palettes": [{"styles": [[0, 0, 0, 0], [9, 9, 9, 255]]}],
             "levels": levels or colour, "sheets": sheets}
    with open(name + ".json", "w") as file:
        json.dump(scene, file)

def node(number):
    return {"node": number} if number >= 0 else COLUMN

def drawing(rows=1):
    return {"cells": [{"from": 1, "to": rows, "level": 0, "drawing": 0}]}

def shown(sheet, rows=1, peg=None):
    column = {"cells": [{"from": 1, "to": rows, "sheet": sheet, "start": 1}]}
    return column if peg is None else dict(column, peg=peg)

# Each of 16 sheets shows the next one in eight columns.
save("sheets", [{"columns": [shown(n + 1)] * 8} for n in range(15)] + [{"columns": [drawing()]}])

# Each of 256 nodes uses the one before twice.
pairs = [{"op": "add", "first": node(n - 1), "second": node(n - 1)} for n in range(256)]
save("nodes", [{"columns": [drawing()], "nodes": pairs, "out": [node(255)]}])

# Each of 128 pairs uses the one before by itself and behind a filter for a style of its own, which no drawing has.
cm32 = [{"kind": "cm32", "palette": 0, "drawings": ["a.xrl"]}]
chain = []
for n in range(128):
    before = node(len(chain) - 1)
    chain.append({"op": "delete", "input": before, "styles": [n + 2]})
    chain.append({"op": "add", "first": before, "second": node(len(chain) - 1)})
FILTERS = {"columns": [drawing()], "nodes": chain, "out": [node(255)]}
save("filters", [FILTERS], levels=cm32)

# Three nested sheets of 160 columns: over a card, where each column has a place of its own; and over a drawing, where
# each column is behind a filter for a style that the drawing does not have.
def placed(n):
    pegs = [{"keys": [{"row": 1, "x": 400 * n + k, "y": k}]} for k in range(160)]
    return {"pegs": pegs, "columns": [shown(n + 1, peg=k) for k in range(160)]}

def filtered(n):
    filters = [{"op": "delete", "input": {"column": k}, "styles": [160 * n + k + 2]} for k in range(160)]
    return {"columns": [shown(n + 1)] * 160, "nodes": filters, "out": [node(k) for k in range(160)]}

save("wide-card", [placed(n) for n in range(3)] + [{"columns": [], "nodes": [CARD], "out": [node(0)]}])
save("wide-filters", [filtered(n) for n in range(3)] + [{"columns": [drawing()]}], levels=cm32)

# Two places of a nested sheet: a held background, and a drawing on twos that is on ones in the last rows; before the
# 510 tiles of a frame of 1920 by 1080.
exposures = [(2 * n + 1, 2 * n + 2) for n in range(251)] + [(503 + n, 503 + n) for n in range(10)]
cels = {"cells": [{"from": a, "to": b, "level": 1, "drawing": n} for n, (a, b) in enumerate(exposures)]}
places = [{"keys": [{"row": 1, "x": x, "y": 0}]} for x in (0, 99)]
twice = {"pegs": places, "columns": [shown(1, rows=512, peg=k) for k in range(2)]}
levels = [{"kind": "colour", "drawings": ["sky.xrl"]},
          {"kind": "colour", "drawings": ["cel.%04d.xrl" % n for n in range(261)]}]
save("nested", [twice, {"columns": [drawing(512), cels]}], w=1920, h=1080, levels=levels)

# Two places of a nested sheet of 82 columns, each of which moves at a speed of its own, before four tiles: nearly all
# that is demanded is new in each row.
def moving(speed):
    return {"keys": [{"row": 1, "x": 0, "y": 0, "line": True}, {"row": 513, "x": 512 * speed, "y": 0}]}

inner = {"pegs": [moving(k + 1) for k in range(82)],
         "columns": [dict(drawing(512), peg=k) for k in range(82)]}
outer = {"pegs": [{"keys": [{"row": 1, "x": 0, "y": y}]} for y in (0, 9)],
         "columns": [shown(1, rows=512, peg=k) for k in range(2)]}
save("moving", [outer, inner], w=128, h=128)
END
for scene in sheets nodes filters wide-card wide-filters; do
    printf '%-14s' "$scene"
    "$program" dry "$scene.json" 1 1 | sed -n 1p
done
for scene in nested moving; do
    for time in 1 2 3 4 5; do
        printf '%-14s' "$scene"
        "$program" dry-lines "$scene.json" 1 512 2>&1 >lines
    done
done
"$program" dry-most
