"""Level files of PNG pictures: colour drawings, and ink and paint drawings of flat pictures."""
import struct

import pictures

MOST_STYLES = 4096
LONGEST_SIDE = 4096
CLEAR_WORD = 255


def size_of(path):
    """Width and height of a picture that may become a drawing."""
    width, height = pictures.png_size(path)
    if width > LONGEST_SIDE or height > LONGEST_SIDE:
        raise ValueError("%s: it has %d by %d pixels, and a drawing at most %d each way"
                         % (path, width, height, LONGEST_SIDE))
    return width, height


def seen_box(rows):
    """Left, top, right and bottom of what is not clear, the last two behind it; a pixel where all is clear."""
    left, top, right, bottom = None, None, 0, 0
    for y, row in enumerate(rows):
        alphas = row[3::4]
        seen = alphas.lstrip(b"\0")
        if seen:
            begin = len(alphas) - len(seen)
            left = begin if left is None else min(left, begin)
            top = y if top is None else top
            right, bottom = max(right, len(alphas.rstrip(b"\0"))), y + 1
    return (0, 0, 1, 1) if left is None else (left, top, right, bottom)


class Words(dict):
    """The CM32 word of each straight pixel. A new colour becomes the next style of the palette: ink where it is
    among the colours of inks, paint else."""

    def __init__(self, inks):
        super().__init__()
        self.inks = inks
        self.styles = [[0, 0, 0, 0]]

    def __missing__(self, pixel):
        red, green, blue, alpha = struct.pack("<I", pixel)
        if alpha == 0:
            word = CLEAR_WORD
        elif alpha < 255:
            raise LookupError(alpha)
        elif len(self.styles) == MOST_STYLES:
            raise ValueError("the column has more than %d colours, so it is not flat" % (MOST_STYLES - 1))
        else:
            style = len(self.styles)
            self.styles.append([red, green, blue, 255])
            word = style << 20 if (red, green, blue) in self.inks else style << 8 | CLEAR_WORD
        self[pixel] = word
        return word

    def row(self, pixels, y):
        """The words of a row of straight pixels, the y-th from the top."""
        numbers = struct.unpack("<%dI" % (len(pixels) // 4), pixels)
        try:
            return struct.pack("<%dI" % len(numbers), *map(self.__getitem__, numbers))
        except LookupError as half:
            x = next(i for i, alpha in enumerate(pixels[3::4]) if 0 < alpha < 255)
            raise ValueError("the pixel at x %d, y %d from the top left is half clear (alpha %d), so it is not flat"
                             % (x, y, half.args[0])) from None


class Cels:
    """Makes the level files of one column."""

    def __init__(self, inks=None):
        """Ink and paint where there are colours of inks, perhaps none; colour drawings without."""
        self.words = None if inks is None else Words(inks)

    def make(self, picture, level, camera):
        """Makes a level file of a picture that lies in the middle of the camera, without its clear borders."""
        read = pictures.read_png(picture).in_8_bits()
        rows = [bytes(row) for row in read.rows]
        left, top, right, bottom = seen_box(rows)
        x = (camera[0] - read.width) // 2 + left
        y = (camera[1] - read.height) // 2 + read.height - bottom
        try:
            lines = [self.line(rows[at], at)[4 * left:4 * right] for at in range(top, bottom)]
            kind = 0 if self.words is None else 1
            pictures.write_level(level, kind, x, y, right - left, bottom - top, lines[::-1])
        except ValueError as fault:
            raise ValueError("%s: %s" % (picture, fault)) from None

    def styles(self):
        """The styles of the palette; None in colour."""
        return None if self.words is None else self.words.styles

    def line(self, row, y):
        return pictures.premultiplied(row) if self.words is None else self.words.row(row, y)
