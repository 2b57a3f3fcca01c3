#!/usr/bin/env python3
"""Makes pictures of raw frame files.

    frames_to_png.py FRAME.xfr ..                        beside each frame a picture FRAME.png
    frames_to_png.py --animation MOVIE.png FRAME.xfr ..  one animated PNG, 24 frames a second
    frames_to_png.py --contact SHEET.png FRAME.xfr ..    one picture with all frames side by side

--rate N sets the frames a second of an animation, --across N the frames in a row of a contact sheet.
Colours are divided by the matte, so that the pictures are straight, as PNG wants it.
"""
import argparse
import os
import sys

import pictures


def count(text):
    number = int(text)
    if not 1 <= number <= 1000:
        raise ValueError
    return number


def contact_sheet(frames, across, gap=4):
    width, height = frames[0].width, frames[0].height
    if any((frame.width, frame.height) != (width, height) for frame in frames):
        raise ValueError("the frames differ in size")
    down = (len(frames) + across - 1) // across
    whole = across * width + (across - 1) * gap
    blank = [0, 0, 0, 0]
    rows = []
    for j in range(down):
        line = frames[j * across:(j + 1) * across]
        if j > 0:
            rows += [blank * whole] * gap
        for y in range(height):
            row = []
            for i, frame in enumerate(line):
                row += (blank * gap if i > 0 else []) + frame.rows[y]
            rows.append(row + blank * (whole - len(row) // 4))
    return pictures.Picture(whole, len(rows), rows)


def main():
    words = argparse.ArgumentParser(description="Makes pictures of raw frame files.")
    words.add_argument("frames", nargs="+", metavar="FRAME.xfr")
    words.add_argument("--animation", metavar="MOVIE.png", help="make one animated PNG")
    words.add_argument("--contact", metavar="SHEET.png", help="make one picture with all frames side by side")
    words.add_argument("--rate", type=count, default=24, metavar="N", help="frames a second of the animation, 24 by default")
    words.add_argument("--across", type=count, default=4, metavar="N", help="frames in a row of the contact sheet, 4 by default")
    given = words.parse_args()
    frames = [pictures.read_frame(path) for path in given.frames]
    if given.animation:
        pictures.write_animation(given.animation, frames, given.rate)
    if given.contact:
        pictures.write_png(given.contact, contact_sheet(frames, given.across))
    if not given.animation and not given.contact:
        for path, frame in zip(given.frames, frames):
            pictures.write_png(os.path.splitext(path)[0] + ".png", frame)


if __name__ == "__main__":
    try:
        main()
    except (OSError, ValueError) as fault:
        sys.exit("frames_to_png: %s" % fault)
