"""Pictures of raw frames."""
import struct
import unittest

from common import TOOLS, InAFolder
from frames_here import frame

import pictures

MAKE = TOOLS / "frames_to_png.py"


class Pictures(InAFolder):
    def setUp(self):
        super().setUp()
        for row in (1, 2, 3):
            self.write("a.%04d.xfr" % row, frame(2, 2, lambda x, y: (0, 0, 0, 0) if x == y else (40, 20, 10 * row, 80)))

    def rows(self, name):
        return [list(row) for row in pictures.read_png(self.folder / name).rows]

    def test_colours_are_divided_by_the_matte(self):
        self.runs(MAKE, "a.0001.xfr", "a.0002.xfr")
        clear, first = [0, 0, 0, 0], [128, 64, 32, 80]
        self.assertEqual(self.rows("a.0001.png"), [first + clear, clear + first])
        self.assertEqual(self.rows("a.0002.png")[0][:4], [128, 64, 64, 80])

    def test_a_contact_sheet_has_gaps(self):
        self.runs(MAKE, "--contact", "all.png", "--across", 2, "a.0001.xfr", "a.0002.xfr", "a.0003.xfr")
        rows = self.rows("all.png")
        self.assertEqual((len(rows), len(rows[0])), (2 + 4 + 2, 4 * (2 + 4 + 2)))
        self.assertEqual(rows[6][:4], [128, 64, 96, 80])
        self.assertEqual(rows[6][8:], [0] * 24)

    def test_an_animation_has_each_frame(self):
        self.runs(MAKE, "--animation", "all.png", "--rate", 12, "a.0001.xfr", "a.0002.xfr", "a.0003.xfr")
        data = (self.folder / "all.png").read_bytes()
        self.assertIn(b"acTL" + struct.pack(">II", 3, 0), data)
        self.assertEqual((data.count(b"fcTL"), data.count(b"fdAT"), data.count(b"IDAT")), (3, 2, 1))
        self.assertEqual(self.rows("all.png")[0][:4], [128, 64, 32, 80])

    def test_broken_frames_are_told(self):
        self.refuses("no.xfr", MAKE, "no.xfr")
        self.write("b.xfr", frame(2, 2, lambda x, y: (0, 0, 0, 0))[:-1])
        self.refuses("b.xfr has another length than its sides say", MAKE, "b.xfr")
        self.write("b.xfr", frame(3, 2, lambda x, y: (0, 0, 0, 0)))
        self.refuses("the frames differ in size", MAKE, "--contact", "all.png", "a.0001.xfr", "b.xfr")
        self.assertFalse((self.folder / "all.png").exists())


if __name__ == "__main__":
    unittest.main()
