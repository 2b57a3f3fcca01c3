"""The sample hop, from its sheets and drawings to its film."""
import os
import shutil
import unittest

from common import TOOLS, TOP, InAFolder
from frames_here import pixels_of

import draw_hop
import pictures

HOP = TOP / "examples/hop"
OPTIONS = ["--ink", "2e1e30", "--colour", "BG"]


class Sample(InAFolder):
    def make(self, script, sheet, scene):
        return self.runs(TOOLS / script, HOP / sheet, HOP / "drawings", scene, *OPTIONS)

    def test_both_sheets_make_the_same_files(self):
        told = self.make("xdts_to_scene.py", "hop.xdts", "one/hop.json")
        self.make("sheet.py", "hop.csv", "two/hop.json")
        self.assertIn("field 3, dialogue, is left out", told)
        names = sorted(os.listdir(self.folder / "one"))
        self.assertEqual(len(names), 17)
        self.assertEqual(names, sorted(os.listdir(self.folder / "two")))
        for name in names:
            self.assertEqual((self.folder / "one" / name).read_bytes(), (self.folder / "two" / name).read_bytes())

    def test_the_sample_is_what_the_script_draws(self):
        self.assertEqual((HOP / "hop.xdts").read_text(), draw_hop.xdts())
        self.assertEqual((HOP / "hop.csv").read_text(), draw_hop.table())
        fly = draw_hop.flat_picture(draw_hop.fly(*draw_hop.FLIES[0]), (290, 180, 334, 234))
        self.assertEqual([list(row) for row in pictures.read_png(HOP / "drawings/fly_0001.png").rows], fly.rows)


def layer(name):
    """The pixels of a drawing of the sample, from the upper left corner."""
    rows = pictures.read_png(HOP / "drawings" / name).rows
    return [tuple(row[i:i + 4]) for row in rows for i in range(0, len(row), 4)]


def shown(entries, row):
    """What a column of the sample shows at a row; x for nothing."""
    begins = [begin for begin in entries if begin <= row]
    return entries[max(begins)] if begins else "x"


FILES = {"BG": "BG/pond.png", "frog": "frog/%04d.png", "fly": "fly_%04d.png", "reeds": "reeds.png"}


@unittest.skipUnless(os.environ.get("VAZHETTIN"), "VAZHETTIN names no program")
class Rendered(InAFolder):
    def frame_wanted(self, row):
        """The drawings of a row, opaque or clear everywhere, over one another."""
        pixels = [(0, 0, 0, 0)] * (draw_hop.WIDTH * draw_hop.HEIGHT)
        for column, entries in draw_hop.SHEET.items():
            name = shown(entries, row)
            if name != "x":
                file = FILES[column] % int(name) if name.isdigit() else FILES[column]
                pixels = [above if above[3] else below for above, below in zip(layer(file), pixels)]
        return pixels

    def test_frames_are_the_drawings_over_one_another(self):
        self.runs(TOOLS / "xdts_to_scene.py", HOP / "hop.xdts", HOP / "drawings", "hop.json", *OPTIONS)
        self.runs(os.environ["VAZHETTIN"], "show", "hop.json")
        said = self.runs(os.environ["VAZHETTIN"], "render", "hop.json", 1, 40, 1, "hop")
        self.assertEqual(said, "rendered 40 rows\n")
        for row in (1, 6, 7, 15, 16, 17, 34, 35, 40):
            frame = (self.folder / ("hop.%04d.xfr" % row)).read_bytes()
            self.assertEqual(pixels_of(frame) == self.frame_wanted(row), True, row)

    @unittest.skipUnless(shutil.which("ffmpeg"), "ffmpeg is missing: apt-get install ffmpeg")
    def test_the_commands_of_the_page_make_the_film(self):
        """Those of its numbered steps, as they stand there, in a copy of what they need."""
        for name in ("tools", "examples"):
            os.symlink(TOP / name, self.folder / name)
        os.symlink(os.path.abspath(os.environ["VAZHETTIN"]), self.folder / "vazhettin")
        steps = (TOP / "docs/USING.md").read_text().partition("\n## 1.")[2].partition("\n## On many machines")[0]
        commands = [line for line in steps.splitlines() if line.startswith("    ") and line.split()[0] != "xdts_to_scene:"]
        commands = [line for line in commands if ": 40 rows," not in line]
        self.assertEqual(len(commands), 5)
        self.runs("sh", "-ec", "\n".join(commands))
        made = os.listdir(self.folder / "out/hop")
        self.assertEqual(len([name for name in made if name.endswith(".xfr")]), 40)
        self.assertLessEqual({"hop.json", "hop.png", "hop.mp4"}, set(made))


if __name__ == "__main__":
    unittest.main()
