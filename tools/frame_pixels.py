#!/usr/bin/env python3
"""Writes the pixels of raw frames for other programs, frame after frame, each from its upper left corner.

    frame_pixels.py [--over RRGGBB] BASE FROM TO      the pixels, on standard output
    frame_pixels.py --size BASE FROM TO               width and height, when each frame was looked at

The frames are BASE.NNNN.xfr for the rows FROM to TO. Over a colour a pixel is red, green and blue, the frame's colour
and that of the background times what the matte leaves of it, to the nearest whole number, as a card under the frame
would give it. Without one it is red, green, blue and alpha, and the colours are divided by the matte.
"""
import argparse
import os
import struct
import sys

import pictures


def paths_of(base, first, last):
    """The frames of rows."""
    if not 1 <= first <= last <= 9999:
        raise ValueError("FROM is 1 to 9999, and TO is FROM to 9999")
    return ["%s.%04d.xfr" % (base, row) for row in range(first, last + 1)]


def size_of(path):
    """Width and height of a frame that is whole."""
    try:
        with open(path, "rb") as file:
            head = file.read(12)
            length = os.fstat(file.fileno()).st_size
    except FileNotFoundError:
        raise ValueError("the frame %s is missing" % path) from None
    if len(head) < 12 or head[:4] != b"XFR1":
        raise ValueError("%s is no frame" % path)
    width, height = struct.unpack("<II", head[4:])
    if length != 12 + 4 * width * height:
        raise ValueError("%s has another length than its sides say" % path)
    return width, height


def size_of_all(paths):
    """Width and height that all frames have."""
    size = size_of(paths[0])
    for path in paths:
        if size_of(path) != size:
            raise ValueError("%s has another size than %s" % (path, paths[0]))
    return size


def rows_of(path, width, height):
    """The rows of a frame, from the highest down."""
    with open(path, "rb") as file:
        data = file.read()[12:]
    return [data[4 * width * y:4 * width * (y + 1)] for y in reversed(range(height))]


def sum_of(one, other):
    """The sums of bytes, none of which is above 255."""
    total = int.from_bytes(one, "little") + int.from_bytes(other, "little")
    return total.to_bytes(len(one), "little")


def over(pixels, tables):
    """Premultiplied pixels over a colour: no colour is above its matte, so no sum is above 255."""
    out = bytearray(len(pixels) // 4 * 3)
    mattes = pixels[3::4]
    for channel, table in enumerate(tables):
        out[channel::3] = sum_of(pixels[channel::4], mattes.translate(table))
    return bytes(out)


def tables_of(colour):
    """For each channel of a colour and each matte what is left of the channel."""
    return [bytes((channel * (255 - matte) + 127) // 255 for matte in range(256)) for channel in colour]


def straight(pixels):
    if pixels[3::4].count(255) == len(pixels) // 4:
        return pixels
    return bytes(pictures.straight(pixels))


def colour(text):
    if len(text) != 6:
        raise ValueError
    return bytes.fromhex(text)


def write_pixels(paths, size, background):
    tables = tables_of(background) if background is not None else None
    for path in paths:
        pixels = b"".join(rows_of(path, *size))
        sys.stdout.buffer.write(straight(pixels) if tables is None else over(pixels, tables))


def main():
    words = argparse.ArgumentParser(description="Writes the pixels of raw frames for other programs.")
    words.add_argument("base", metavar="BASE")
    words.add_argument("first", type=int, metavar="FROM")
    words.add_argument("last", type=int, metavar="TO")
    words.add_argument("--over", type=colour, metavar="RRGGBB")
    words.add_argument("--size", action="store_true")
    given = words.parse_args()
    paths = paths_of(given.base, given.first, given.last)
    size = size_of_all(paths)
    if given.size:
        print(*size)
    else:
        write_pixels(paths, size, given.over)


if __name__ == "__main__":
    try:
        main()
    except (OSError, ValueError) as fault:
        sys.exit("film: %s" % fault)
