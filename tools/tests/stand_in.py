#!/usr/bin/env python3
"""A stand-in for the renderer: its frames have one pixel that tells the row. BROKEN names a row at which a render
fails, LOST one whose frame it does not write; what each call rendered is added to the file calls."""
import os
import struct
import sys


def main():
    command, scene, *words = sys.argv[1:]
    if os.path.getsize(scene) == 0:
        sys.exit(tell(2, "scene S1 at (top): NotJson"))
    if command == "show":
        return 0
    first, last, workers, base = int(words[0]), int(words[1]), words[2], words[3]
    with open("calls", "a", encoding="utf-8") as calls:
        calls.write("%d %d %s\n" % (first, last, workers))
    for row in range(first, last + 1):
        if str(row) == os.environ.get("BROKEN"):
            return tell(3, "drawing 5: level code 8")
        if str(row) != os.environ.get("LOST"):
            with open("%s.%04d.xfr" % (base, row), "wb") as file:
                file.write(b"XFR1" + struct.pack("<IIHBB", 1, 1, row, 0, 255))
    print("rendered %d rows" % (last + 1 - first))
    return 0


def tell(status, line):
    print(line, file=sys.stderr)
    return status


if __name__ == "__main__":
    sys.exit(main())
