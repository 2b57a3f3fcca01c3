#!/usr/bin/env python3
"""Makes a raw level file of a PNG picture.

    png_to_level.py PICTURE.png DRAWING.xrl [--at X Y] [--cm32]

X Y is the place of the lower left pixel; without it that is 0 0. As it stands the picture is a colour
drawing: its straight colours are multiplied by their alpha. With --cm32 it is ink and paint: red is the
number of the ink's style, green that of the paint's, and blue the tone, 0 for pure ink and 255 for pure
paint. Numbers above 255 need a picture of 16 bits a sample; there too the tone is 0 to 255. A pixel of
alpha 0 is clear.
"""
import argparse
import sys

import pictures


def colour_rows(picture):
    return [pictures.premultiplied(row) for row in reversed(picture.in_8_bits().rows)]


def cm32_row(row):
    out = bytearray()
    for i in range(0, len(row), 4):
        ink, paint, tone, alpha = row[i:i + 4]
        if alpha == 0:
            ink, paint, tone = 0, 0, 255
        if ink > 4095 or paint > 4095 or tone > 255:
            raise ValueError("a style is 0 to 4095 and a tone 0 to 255")
        out += pictures.word(ink, paint, tone)
    return bytes(out)


def main():
    words = argparse.ArgumentParser(description="Makes a raw level file of a PNG picture.")
    words.add_argument("picture", metavar="PICTURE.png")
    words.add_argument("level", metavar="DRAWING.xrl")
    words.add_argument("--at", nargs=2, type=int, default=[0, 0], metavar=("X", "Y"),
                       help="the place of the lower left pixel, 0 0 by default")
    words.add_argument("--cm32", action="store_true", help="red is the ink, green the paint, blue the tone")
    given = words.parse_args()
    picture = pictures.read_png(given.picture)
    if given.cm32:
        rows = [cm32_row(row) for row in reversed(picture.rows)]
    else:
        rows = colour_rows(picture)
    kind = 1 if given.cm32 else 0
    pictures.write_level(given.level, kind, *given.at, picture.width, picture.height, rows)


if __name__ == "__main__":
    try:
        main()
    except (OSError, ValueError) as fault:
        sys.exit("png_to_level: %s" % fault)
