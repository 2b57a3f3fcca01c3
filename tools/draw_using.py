#!/usr/bin/env python3
"""Makes the pictures of docs/USING.md from the sample `hop` and its frames.

    draw_using.py HOP FRAMES PICTURES

HOP is the folder of the sample, FRAMES that in which its 40 rows were rendered with the base hop, and PICTURES where
the pictures are put.
"""
import glob
import os
import sys

import pictures
import xdts
from cels import seen_box
from frames_to_png import contact_sheet
from sheets import EMPTY, exposures

GROUND, LINES, PEN, HOLD = (250, 248, 240, 255), (196, 200, 204, 255), (46, 30, 48, 255), (150, 150, 160, 255)
GLYPHS = {"0": "75557", "1": "26227", "2": "71747", "3": "71717", "4": "55711", "5": "74717", "6": "74757", "7": "71222",
          "8": "75757", "9": "75717", "x": "55255", "*": "02720"}
CELL_WIDE, CELL_HIGH, HEAD, HALF = 56, 16, 36, 20


class Canvas:
    """A picture to draw on."""

    def __init__(self, width, height, colour):
        self.width, self.height = width, height
        self.rows = [list(colour) * width for _ in range(height)]

    def dot(self, x, y, colour):
        self.rows[y][4 * x:4 * x + 4] = colour

    def fill(self, left, top, right, bottom, colour):
        for y in range(top, bottom):
            self.rows[y][4 * left:4 * right] = list(colour) * (right - left)

    def word(self, text, middle, top):
        """Figures and signs, two pixels to a dot."""
        left = middle - 4 * len(text)
        for number, letter in enumerate(text):
            for y, bits in enumerate(GLYPHS[letter]):
                for x in range(3):
                    if int(bits) >> (2 - x) & 1:
                        at = left + 8 * number + 2 * x
                        self.fill(at, top + 2 * y, at + 2, top + 2 * y + 2, PEN)

    def put(self, picture, left, top):
        """Lays a picture over the canvas where it is not clear."""
        for y, row in enumerate(picture.rows):
            for x in range(picture.width):
                if row[4 * x + 3]:
                    self.dot(left + x, top + y, row[4 * x:4 * x + 4])

    def picture(self):
        return pictures.Picture(self.width, self.height, self.rows)


def smaller(picture, times):
    """A picture with so many times fewer pixels each way, each the mean of those that it stands for."""
    rows = []
    for y in range(0, picture.height - times + 1, times):
        row = []
        for x in range(0, picture.width - times + 1, times):
            pixels = [picture.rows[y + j][4 * (x + i):4 * (x + i) + 4] for j in range(times) for i in range(times)]
            row += mean(pixels)
        rows.append(row)
    return pictures.Picture(picture.width // times, picture.height // times, rows)


def mean(pixels):
    alpha = sum(it[3] for it in pixels)
    colour = [sum(it[c] * it[3] for it in pixels) // alpha if alpha else 0 for c in range(3)]
    return colour + [alpha // len(pixels)]


def on_ground(picture):
    """A drawing on a light ground."""
    canvas = Canvas(picture.width, picture.height, GROUND)
    rows = [[value for x in range(picture.width) for value in laid(row[4 * x:4 * x + 4])] for row in picture.rows]
    canvas.rows = rows
    return canvas.picture()


def laid(pixel):
    alpha = pixel[3]
    return [(pixel[c] * alpha + GROUND[c] * (255 - alpha)) // 255 for c in range(3)] + [255]


def head_of(picture):
    """What is seen of a drawing, so small that it fits over a column."""
    left, top, right, bottom = seen_box([bytes(row) for row in picture.rows])
    rows = [row[4 * left:4 * right] for row in picture.rows[top:bottom]]
    cut = pictures.Picture(right - left, bottom - top, rows)
    return smaller(cut, max(1, -(-cut.width // (CELL_WIDE - 8)), -(-cut.height // (HEAD - 6))))


def drawings_of(hop):
    names = ["BG/pond.png"] + sorted(glob.glob("frog/*.png", root_dir=hop + "/drawings"))
    names += sorted(glob.glob("fly_*.png", root_dir=hop + "/drawings")) + ["reeds.png"]
    return [pictures.read_png(os.path.join(hop, "drawings", name)) for name in names]


def sheet_picture(sheet, heads):
    """The exposure sheet in two halves: a figure, or a plus, where a drawing begins, a line where it is held, a cross
    where the column becomes empty."""
    wide = CELL_WIDE * (len(sheet.columns) + 1)
    canvas = Canvas(2 * wide + 24, HEAD + HALF * CELL_HIGH + 1, GROUND)
    for half in range(2):
        left = half * (wide + 24)
        for number, (column, head) in enumerate(zip(sheet.columns, heads), start=1):
            canvas.put(head, left + number * CELL_WIDE + (CELL_WIDE - head.width) // 2, (HEAD - head.height) // 2)
            draw_column(canvas, sheet, column, left + number * CELL_WIDE, half * HALF)
        for row in range(HALF + 1):
            canvas.fill(left, HEAD + row * CELL_HIGH, left + wide, HEAD + row * CELL_HIGH + 1, LINES)
        for row in range(HALF):
            canvas.word(str(half * HALF + row + 1), left + CELL_WIDE // 2, HEAD + row * CELL_HIGH + 4)
    return canvas.picture()


def draw_column(canvas, sheet, column, left, above):
    held = {row for begin, end, _ in exposures(column, sheet.rows) for row in range(begin, end + 1)}
    middle = left + CELL_WIDE // 2
    canvas.fill(left, HEAD, left + 1, HEAD + HALF * CELL_HIGH, LINES)
    for row in range(above + 1, above + HALF + 1):
        top = HEAD + (row - above - 1) * CELL_HIGH
        if row in column.entries:
            name = column.entries[row]
            canvas.word("x" if name is EMPTY else name if name.isdigit() else "*", middle, top + 4)
        elif row in held:
            canvas.fill(middle - 1, top, middle + 1, top + CELL_HIGH, HOLD)


def main(hop, frames, folder):
    os.makedirs(folder, exist_ok=True)
    drawings = drawings_of(hop)
    drawn = [on_ground(smaller(picture, 3)) for picture in drawings]
    pictures.write_png(os.path.join(folder, "drawings.png"), contact_sheet(drawn, 6))
    sheet = xdts.read(os.path.join(hop, "hop.xdts"), lambda line: None)
    heads = [head_of(drawings[number]) for number in (0, 1, 11, 15)]
    pictures.write_png(os.path.join(folder, "sheet.png"), sheet_picture(sheet, heads))
    read = [smaller(pictures.read_frame(os.path.join(frames, "hop.%04d.xfr" % row)), 2) for row in range(1, 41, 2)]
    pictures.write_animation(os.path.join(folder, "film.png"), read, 12)
    shown = [smaller(pictures.read_frame(os.path.join(frames, "hop.%04d.xfr" % row)), 2) for row in range(5, 41, 5)]
    pictures.write_png(os.path.join(folder, "frames.png"), contact_sheet(shown, 4))


if __name__ == "__main__":
    if len(sys.argv) != 4:
        sys.exit("draw_using: name the folders of the sample, of its frames and of the pictures")
    main(*sys.argv[1:])
