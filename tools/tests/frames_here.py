"""Raw frames for tests."""
import struct


def frame(width, height, pixel):
    """The bytes of a frame, by a function that gives the premultiplied pixel at x and y from the lower left corner."""
    pixels = b"".join(bytes(pixel(x, y)) for y in range(height) for x in range(width))
    return b"XFR1" + struct.pack("<II", width, height) + pixels


def pixels_of(data):
    """The pixels of a frame, from its upper left corner."""
    width, height = struct.unpack("<II", data[4:12])
    rows = [data[12 + 4 * width * y:12 + 4 * width * (y + 1)] for y in reversed(range(height))]
    return [tuple(row[i:i + 4]) for row in rows for i in range(0, len(row), 4)]
