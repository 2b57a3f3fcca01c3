#!/bin/sh
# Times whole renders with files in memory, each beside a floor: a program that reads the same files and writes frames of
# the same sizes, and does nothing else. Folders are empty at the start, runs take turns, and medians of five are printed,
# with the most memory that the renderer held. Then where the time of a render by one worker goes, in milliseconds: reading
# and checking the scene, planning, the files, computing tiles, writing, and the rest; and how long the operations of the
# chain and of the blurs take to compute beside their kernel calls alone (the goal is 1.3 at most), medians of five again.
# The scenes and their files are made in a folder that is removed afterwards. The programs are proved and built first if
# need be.
#
#     bench/render.sh [WORKERS]
#     XS_MAIN=PATH XS_TIMING=PATH bench/render.sh
set -eu
top=$(cd "$(dirname "$0")/.." && pwd)
workers=${1:-1}
work=$(mktemp -d -p "$(test -d /dev/shm && echo /dev/shm || echo /tmp)")
trap 'rm -rf "$work"' EXIT
program=$("$top/bench/program.sh" xs_main)
timing=$("$top/bench/program.sh" xs_timing)
"${CC:-cc}" -O2 -o "$work/floor" "$top/bench/floor.c"
cd "$work"
python3 - <<'END'
import json, struct

def save(name, w, h, levels, sheet):
    palette = [[0, 0, 0, 0], [200, 60, 60, 255], [60, 200, 60, 255], [60, 60, 200, 128]]
    kinds = [dict({"kind": "colour"} if kind == 0 else {"kind": "cm32", "palette": 0}, drawings=files) for kind, files in levels]
    with open(name + ".json", "w") as file:
        json.dump({"format": 2, "camera": {"w": w, "h": h}, "palettes": [palette], "levels": kinds, "sheets": [sheet]}, file)

def level(name, kind, x, y, w, h, row):
    with open(name, "wb") as file:
        file.write(b"XRL1" + struct.pack("<BiiII", kind, x, y, w, h) + b"".join(row(j) for j in range(h)))

def sky(w, h):
    return lambda j: b"".join(bytes((i * 100 // w, 40 + j % 8, 200 - j * 100 // h, 255)) for i in range(w))

def cel(style, side):
    """A blob: clear outside, a line of ink, paint inside."""
    def row(j):
        r = side // 2
        half = int((r ** 2 - min(r, abs(j - r)) ** 2) ** 0.5)
        ink, paint, none = (struct.pack("<I", n) for n in (style << 20, style << 8 | 255, 255))
        line = min(3, half)
        edge = none * (r - half)
        return edge + ink * line + paint * (2 * half - 2 * line) + ink * line + edge
    return row

def held(level, rows):
    return {"cells": [{"from": 1, "to": rows, "level": level, "drawing": 0}]}

# A cut-out scene: a held background, three CM32 columns on twos that cover a third of the frame, and a held matte.
W, H, ROWS = 1920, 1080, 24
level("sky.xrl", 0, 0, 0, W, H, sky(W, H))
level("matte.xrl", 0, 200, 100, 1500, 900, lambda j: b"\xff\xff\xff\xff" * 1500)
names = [["cel%d.%02d.xrl" % (c, n) for n in range(12)] for c in range(3)]
for c in range(3):
    for n in range(12):
        level(names[c][n], 1, 300 + 420 * c + n, 180 + n, 540, 540, cel(c + 1, 540))
twos = lambda c: {"cells": [{"from": 2 * n + 1, "to": 2 * n + 2, "level": c + 1, "drawing": n} for n in range(12)]}
save("cutout", W, H, [(0, ["sky.xrl"])] + [(1, names[c]) for c in range(3)] + [(0, ["matte.xrl"])],
     {"columns": [held(0, ROWS), twos(0), twos(1), twos(2), held(4, ROWS)],
      "nodes": [{"op": "in", "first": {"column": 3}, "second": {"column": 4}}],
      "out": [{"column": 0}, {"column": 1}, {"column": 2}, {"node": 0}]})
# A held drawing over 96 rows.
save("hold", W, H, [(0, ["sky.xrl"])], {"columns": [held(0, 96)]})
# A chain of 256 nodes, and one of eight blurs, over a drawing of 640 by 360, 8 rows.
level("small.xrl", 0, 0, 0, 640, 360, sky(640, 360))
ref = lambda n: {"node": n - 1} if n else {"column": 0}
save("chain", 640, 360, [(0, ["small.xrl"])], {"columns": [held(0, 8)],
     "nodes": [{"op": "min", "first": ref(n), "second": ref(n)} for n in range(256)], "out": [{"node": 255}]})
save("blurs", 640, 360, [(0, ["small.xrl"])], {"columns": [held(0, 8)],
     "nodes": [{"op": "blur", "input": ref(n), "radius": 8} for n in range(8)], "out": [{"node": 7}]})
END
cat >time.py <<'END'
import glob, os, re, statistics, subprocess, sys, time

program, timing, workers = sys.argv[1:]
TIMES = range(5)

def clean():
    for name in glob.glob("*.xfr"):
        os.remove(name)

def run(words):
    """How many milliseconds a program takes, and the most memory that it holds, in MiB."""
    clean()
    start = time.monotonic()
    child = subprocess.Popen(words, stdout=subprocess.DEVNULL)
    _, status, usage = os.wait4(child.pid, 0)
    if status:
        sys.exit("%s ended with status %d" % (" ".join(words), status))
    return 1000 * (time.monotonic() - start), usage.ru_maxrss / 1024

def compare(name, render, floor):
    """Prints the times of a render and of its floor."""
    times = [(run(render), run(floor)) for _ in TIMES]
    most = max(it[0][1] for it in times)
    ours, theirs = (statistics.median(it[i][0] for it in times) for i in (0, 1))
    print("%-8s %10.1f %10.1f %7.2f %9.1f" % (name, ours, theirs, ours / theirs, most))

def floor(base, rows, w, h, files):
    return ["./floor", base, "1", str(rows), str(12 + 4 * w * h)] + files

def timed(words):
    """The numbers of each line that a program prints."""
    clean()
    lines = subprocess.run(words, check=True, stdout=subprocess.PIPE).stdout.decode().splitlines()
    return [[float(number) for number in re.findall(r"\d+\.\d+", line)] for line in lines]

def medians(runs, line):
    return tuple(statistics.median(numbers) for numbers in zip(*(run[line] for run in runs)))

# A scene, its rows, the sides of a frame, the files that are read, and the kind of its operations where there are many.
cels = ["sky.xrl", "matte.xrl"] + sorted(glob.glob("cel*.xrl"))
SCENES = (("cutout", 24, 1920, 1080, cels, []), ("hold", 96, 1920, 1080, ["sky.xrl"], []),
          ("chain", 8, 640, 360, ["small.xrl"], ["pairs"]), ("blurs", 8, 640, 360, ["small.xrl"], ["blurs"]))

print("%-8s %10s %10s %7s %9s" % ("scene", "ms", "floor ms", "times", "MiB"))
for scene, rows, w, h, files, _ in SCENES:
    render = [program, "render", scene + ".json", "1", str(rows), workers, "out"]
    compare(scene, render, floor("out", rows, w, h, files))
# A generated scene reads no file.
compare("made", [program, "make", "7", "240", workers], floor("make", 240, 192, 128, []))

print("\n%-8s" % "scene" + " %8s" * 7 % ("ms", "scene", "plan", "files", "compute", "write", "rest"))
beside = []
for scene, rows, _, _, _, kinds in SCENES:
    runs = [timed([timing, "render", scene + ".json", "1", str(rows)] + kinds) for _ in TIMES]
    print("%-8s" % scene + " %8.1f" * 7 % medians(runs, 0))
    beside += [(scene,) + medians(runs, 1) for _ in kinds]

print("\n%-8s %10s %10s %7s" % ("scene", "compute", "kernels", "times"))
for row in beside:
    print("%-8s %10.1f %10.1f %7.2f" % row)
END
python3 time.py "$program" "$timing" "$workers"
