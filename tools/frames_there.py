#!/usr/bin/env python3
"""Looks whether the frames of a range of rows are there, whole and of one size.

    frames_there.py BASE FROM TO

Names each one that is not, a line each on standard error, and ends with status 1 then.
"""
import sys

from frame_pixels import paths_of, size_of


def main(base, first, last):
    faults, size = [], None
    for path in paths_of(base, int(first), int(last)):
        try:
            own = size_of(path)
            size = size or own
            if own != size:
                raise ValueError("%s has another size than the frames before it" % path)
        except (OSError, ValueError) as fault:
            faults.append(str(fault))
    for fault in faults:
        print("farm: %s" % fault, file=sys.stderr)
    return 1 if faults else 0


if __name__ == "__main__":
    sys.exit(main(*sys.argv[1:]))
