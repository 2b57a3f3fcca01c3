"""PNG pictures of each kind, and the level files that are made of them."""
import json
import struct
import unittest

from common import TOOLS, InAFolder
from sheets_here import flat, level, png, table, track, xdts

import pictures

MAKE = TOOLS / "xdts_to_scene.py"
CONVERT = TOOLS / "png_to_level.py"
RED, INK, GREEN, NONE = (200, 30, 20, 255), (16, 8, 24, 255), (10, 180, 40, 255), (90, 90, 90, 0)


class Kinds(InAFolder):
    def pixels(self, data):
        """The straight pixels of a picture, from the top."""
        picture = pictures.read_png(self.write("one.png", data)).in_8_bits()
        flat_row = [value for row in picture.rows for value in row]
        return [tuple(flat_row[i:i + 4]) for i in range(0, len(flat_row), 4)]

    def test_grey(self):
        self.assertEqual(self.pixels(png(2, 1, 0, [b"\0\x07\xf0"])), [(7, 7, 7, 255), (240, 240, 240, 255)])
        self.assertEqual(self.pixels(png(3, 1, 0, [b"\0\xb4"], bits=2)), [(v, v, v, 255) for v in (170, 255, 85)])
        self.assertEqual(self.pixels(png(2, 1, 0, [b"\0\x07\xf0"], more=[(b"tRNS", b"\0\x07")])),
                         [(7, 7, 7, 0), (240, 240, 240, 255)])

    def test_grey_with_alpha(self):
        self.assertEqual(self.pixels(png(2, 1, 4, [b"\0\x07\xf0\x08\x00"])), [(7, 7, 7, 240), (8, 8, 8, 0)])

    def test_colour(self):
        self.assertEqual(self.pixels(png(2, 1, 2, [b"\0\1\2\3\4\5\6"])), [(1, 2, 3, 255), (4, 5, 6, 255)])
        self.assertEqual(self.pixels(png(2, 1, 2, [b"\0\1\2\3\4\5\6"], more=[(b"tRNS", b"\0\4\0\5\0\6")])),
                         [(1, 2, 3, 255), (4, 5, 6, 0)])

    def test_colour_with_alpha(self):
        self.assertEqual(self.pixels(png(1, 2, 6, [b"\0\1\2\3\4", b"\0\5\6\7\xff"])), [(1, 2, 3, 4), (5, 6, 7, 255)])

    def test_palette(self):
        colours = [(b"PLTE", bytes(range(9))), (b"tRNS", b"\x80")]
        self.assertEqual(self.pixels(png(3, 1, 3, [b"\0\2\0\1"], more=colours)), [(6, 7, 8, 255), (0, 1, 2, 128), (3, 4, 5, 255)])
        self.assertEqual(self.pixels(png(3, 1, 3, [b"\0\x84"], bits=2, more=colours)),
                         [(6, 7, 8, 255), (0, 1, 2, 128), (3, 4, 5, 255)])

    def test_sixteen_bits(self):
        self.assertEqual(self.pixels(png(1, 1, 6, [b"\0\xff\xff\x80\x80\0\0\xff\xff"], bits=16)), [(255, 128, 0, 255)])

    def test_each_filter_is_undone(self):
        """The same line behind itself, as each filter writes it."""
        line = bytes([10, 20, 30, 255, 13, 25, 37, 250])
        left = bytes((v - (line[i - 4] if i >= 4 else 0)) & 255 for i, v in enumerate(line))
        mean = bytes((v - ((line[i - 4] if i >= 4 else 0) + line[i]) // 2) & 255 for i, v in enumerate(line))
        lines = [b"\0" + line, b"\1" + left, b"\2" + bytes(8), b"\3" + mean, b"\4" + bytes(8)]
        self.assertEqual(self.pixels(png(2, 5, 6, lines)), [tuple(line[:4]), tuple(line[4:])] * 5)

    def test_what_is_written_is_read_again(self):
        rows = [[1, 2, 3, 4, 5, 6, 7, 255], [0, 0, 0, 0, 255, 255, 255, 255]]
        pictures.write_png(self.folder / "two.png", pictures.Picture(2, 2, rows))
        self.assertEqual([list(row) for row in pictures.read_png(self.folder / "two.png").rows], rows)
        self.assertEqual(self.files(), ["two.png"])

    def test_what_is_not_read_is_told_with_its_file(self):
        whole = flat(3, 3, RED)
        for part, data in [
            ("one.png: interlaced PNG files are not read", png(1, 1, 6, [b"\0\1\2\3\4"], interlaced=1)),
            ("one.png: this is no PNG file", b"GIF89a"),
            ("one.png: this is no PNG file", b""),
            ("one.png: this PNG file is damaged", whole[:20]),
            ("one.png: this PNG file has no header", whole[:8] + whole[33:]),
            ("one.png: this PNG file is damaged", whole[:-20]),
            ("one.png: this PNG file is damaged", whole[:45] + b"\x55" + whole[46:]),
            ("one.png: this PNG file is damaged", png(2, 2, 6, [b"\0" + bytes(8)])),
            ("one.png: this PNG file is damaged", png(1, 1, 5, [b"\0\0"])),
            ("one.png: this PNG file is damaged", png(1, 1, 3, [b"\0\4"], more=[(b"PLTE", bytes(3))])),
            ("one.png: this PNG file has an unknown filter", png(1, 1, 6, [b"\5\1\2\3\4"])),
        ]:
            with self.subTest(part):
                self.write("one.png", data)
                self.refuses(part, CONVERT, "one.png", "one.xrl")
                self.assertEqual(self.files(), ["one.png"])


class Levels(InAFolder):
    def rows(self, *rows):
        return png(len(rows[0]), len(rows), 6, [b"\0" + b"".join(bytes(it) for it in row) for row in rows])

    def make(self, *options, drawings=1):
        tracks = [track(0, **{"f%d" % i: str(i + 1) for i in range(drawings)})]
        self.write("shot.xdts", xdts(table(drawings, ["A"], tracks)))
        self.runs(MAKE, "shot.xdts", "cels", "out/shot.json", *options)
        return json.loads((self.folder / "out/shot.json").read_text())

    def words(self, name):
        kind, x, y, width, height, data = level((self.folder / "out" / name).read_bytes())
        self.assertEqual(kind, 1)
        words = struct.unpack("<%dI" % (width * height), data)
        return (x, y, width, height), [(word >> 20, word >> 8 & 4095, word & 255) for word in words]

    def test_colours_are_multiplied_and_borders_cut(self):
        half = (255, 128, 0, 128)
        self.write("cels/A/1.png", self.rows([NONE] * 4, [NONE, RED, NONE, NONE], [NONE, NONE, half, NONE]))
        self.make()
        self.assertEqual(level((self.folder / "out/A.0001.xrl").read_bytes()),
                         (0, 1, 0, 2, 2, bytes([0] * 4 + [128, 64, 0, 128] + list(RED) + [0] * 4)))

    def test_a_clear_picture_is_one_clear_pixel(self):
        self.write("cels/A/1.png", self.rows([NONE] * 3, [NONE] * 3))
        self.make()
        self.assertEqual(level((self.folder / "out/A.0001.xrl").read_bytes()), (0, 0, 1, 1, 1, bytes(4)))
        self.make("--cm32")
        self.assertEqual(self.words("A.0001.xrl"), ((0, 1, 1, 1), [(0, 0, 255)]))

    def test_flat_pictures_become_ink_and_paint(self):
        self.write("cels/A/1.png", self.rows([INK, INK, NONE], [INK, RED, NONE]))
        self.write("cels/A/2.png", self.rows([RED, GREEN, INK]))
        scene = self.make("--ink", "#%02x%02x%02x" % INK[:3], drawings=2)
        self.assertEqual(scene["levels"], [{"kind": "cm32", "palette": 0, "drawings": ["A.0001.xrl", "A.0002.xrl"]}])
        self.assertEqual(scene["palettes"], [[[0, 0, 0, 0], list(INK), list(RED), list(GREEN)]])
        self.assertEqual(self.words("A.0001.xrl"), ((0, 0, 2, 2), [(1, 0, 0), (0, 2, 255), (1, 0, 0), (1, 0, 0)]))
        self.assertEqual(self.words("A.0002.xrl")[1], [(0, 2, 255), (0, 3, 255), (1, 0, 0)])

    def test_an_ink_that_no_drawing_has_is_told(self):
        self.write("cels/A/1.png", self.rows([INK, RED, (0, 0, 0, 0)]))
        self.write("shot.xdts", xdts(table(1, ["A"], [track(0, f0="1")])))
        ran = self.run_here(MAKE, "shot.xdts", "cels", "out/shot.json", "--ink", "100818,000000", "--ink", "C81E14")
        self.assertEqual((ran.returncode, ran.stderr), (0, "xdts_to_scene: no drawing has the ink 000000\n"))
        self.assertEqual(self.words("A.0001.xrl")[1], [(1, 0, 0), (2, 0, 0)])

    def test_without_inks_all_is_paint(self):
        self.write("cels/A/1.png", self.rows([INK, RED]))
        self.make("--cm32")
        self.assertEqual(self.words("A.0001.xrl")[1], [(0, 1, 255), (0, 2, 255)])

    def test_a_column_may_stay_in_colour(self):
        self.write("cels/A/1.png", self.rows([INK, RED]))
        scene = self.make("--ink", "100818", "--colour", "A")
        self.assertEqual((scene["levels"][0]["kind"], scene["palettes"]), ("colour", []))
        self.refuses("--colour B: the sheet has no such column", MAKE, "shot.xdts", "cels", "out/shot.json", "--colour", "B")

    def refused(self, part, *options):
        self.write("shot.xdts", xdts(table(1, ["A"], [track(0, f0="1")])))
        self.refuses(part, MAKE, "shot.xdts", "cels", "out/shot.json", *options)
        self.assertFalse((self.folder / "out").exists())

    def test_half_clear_pixels_are_refused_with_their_place(self):
        self.write("cels/A/1.png", self.rows([RED, RED, NONE], [RED, (1, 2, 3, 7), (1, 2, 3, 9)]))
        self.refused("cels/A/1.png: the pixel at x 1, y 1 from the top left is half clear (alpha 7), so it is not flat", "--cm32")

    def test_too_many_colours_are_refused(self):
        self.write("cels/A/1.png", self.rows(*[[(x, y, 0, 255) for x in range(64)] for y in range(64)]))
        self.refused("cels/A/1.png: the column has more than 4095 colours, so it is not flat", "--cm32")


if __name__ == "__main__":
    unittest.main()
