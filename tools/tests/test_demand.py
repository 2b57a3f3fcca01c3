"""The picture of a demand."""
import unittest
import xml.etree.ElementTree

from common import TOOLS, InAFolder

# A clear alias for eight rows, then a drawing for one row and another one for the rest, held over sections.
PROGRAM = """#!/usr/bin/env python3
import sys

def rows(first, last):
    return max(0, min(last, TO) - max(first, FROM) + 1)

command, scene, FROM, TO = sys.argv[1], sys.argv[2], int(sys.argv[3]), int(sys.argv[4])
assert command == "dry"
if scene == "broken.json":
    sys.stderr.write("scene S1 at (top): NotJson\\n")
    sys.exit(2)
lines = []
for job, first, last in (("clear", 1, 8), ("leaf 4 at 0 0", 9, 9), ("tinted 2 at 3 -1 by 0", 10, 24)):
    if rows(first, last):
        lines.append("%d: %s; tile 0 0 64 32; readers %d" % (len(lines), job, rows(first, last)))
print("\\n".join(lines))
print("%d rows, %d aliases, %d reads" % (TO - FROM + 1, len(lines), TO - FROM + 1))
"""


class Demands(InAFolder):
    """demand.py with a program that stands in for the renderer."""

    def setUp(self):
        super().setUp()
        self.program = self.write("program", PROGRAM)
        self.program.chmod(0o755)

    def draw(self, *words):
        """Runs demand.py with the program."""
        return self.run_here(TOOLS / "demand.py", *words, VAZHETTIN=str(self.program))

    def test_sums_of_tiles_are_told_and_drawn(self):
        ran = self.draw("scene.json", 1, 24, "picture.svg")
        self.assertEqual((ran.returncode, ran.stderr), (0, ""))
        self.assertEqual(ran.stdout, "tiles take at most 0.0 MiB, in section 1, rows 9 to 16: "
                                     "0.0 held before it and 0.0 made in it\n")
        picture = xml.etree.ElementTree.fromstring((self.folder / "picture.svg").read_text(encoding="utf-8"))
        titles = [title.text for title in picture.iter("{http://www.w3.org/2000/svg}title")]
        self.assertEqual(titles[::2], [
            "section 0, rows 1 to 8: 0.00 MiB held before it, 0.01 MiB made in it, 0 drawings",
            "section 1, rows 9 to 16: 0.00 MiB held before it, 0.02 MiB made in it, 2 drawings",
            "section 2, rows 17 to 24: 0.01 MiB held before it, 0.00 MiB made in it, 0 drawings"])

    def test_a_picture_has_the_name_of_the_scene(self):
        self.assertEqual(self.draw("scene.json", 9, 10).returncode, 0)
        self.assertIn("scene.json.demand.svg", self.files())

    def test_a_refusal_is_passed_on_without_a_picture(self):
        ran = self.draw("broken.json", 1, 24, "picture.svg")
        self.assertEqual((ran.returncode, ran.stdout), (2, ""))
        self.assertEqual(ran.stderr, "scene S1 at (top): NotJson\n")
        self.assertEqual(self.files(), ["program"])

    def test_rows_out_of_range_are_refused(self):
        self.refuses("rows are 1 to 9999", TOOLS / "demand.py", "scene.json", 2, 1)


if __name__ == "__main__":
    unittest.main()
