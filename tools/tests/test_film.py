"""Films and pictures of raw frames."""
import os
import shutil
import subprocess
import unittest

from common import TOOLS, InAFolder
from frames_here import frame, pixels_of

import pictures

FILM = TOOLS / "film.sh"
WIDE, HIGH, ROWS = 32, 20, 5
BACK = (0x30, 0x50, 0x80)


def mixed(row):
    """Each matte from 0 on in the lower half, opaque above."""
    def pixel(x, y):
        matte = (8 * x + 3 * row + y) % 256 if y < HIGH // 2 else 255
        return (x * row % (matte + 1), 5 * y % (matte + 1), (x + y) % (matte + 1), matte)
    return frame(WIDE, HIGH, pixel)


def over(pixel, back):
    return tuple(colour + (under * (255 - pixel[3]) + 127) // 255 for colour, under in zip(pixel, back))


class Pixels(InAFolder):
    def test_each_colour_and_matte_over_each_background(self):
        self.write("a.0001.xfr", frame(256, 4, lambda x, y: (x if y > 1 else 0, x // 2, 0 if y % 2 else x, x)))
        for back in ((0, 0, 0), (255, 255, 255), (1, 128, 254)):
            ran = subprocess.run(["python3", TOOLS / "frame_pixels.py", "--over", bytes(back).hex(), "a", "1", "1"],
                                 cwd=self.folder, capture_output=True, check=True)
            wanted = [over(it, back) for it in pixels_of((self.folder / "a.0001.xfr").read_bytes())]
            self.assertEqual(ran.stdout, b"".join(bytes(it) for it in wanted))


@unittest.skipUnless(shutil.which("ffmpeg"), "ffmpeg is missing: apt-get install ffmpeg")
class Film(InAFolder):
    def setUp(self):
        super().setUp()
        for row in range(1, ROWS + 1):
            self.write("a.%04d.xfr" % row, mixed(row))
        self.before = self.files()

    def wanted(self, back):
        """The pixels of all frames over a background."""
        frames = [pixels_of(mixed(row)) for row in range(1, ROWS + 1)]
        return [over(pixel, back) for one in frames for pixel in one]

    def decoded(self, film):
        """The pixels of a film, as ffmpeg reads them."""
        ran = subprocess.run(["ffmpeg", "-v", "error", "-i", film, "-f", "rawvideo", "-pix_fmt", "rgb24", "-"],
                             cwd=self.folder, capture_output=True, check=True)
        return [tuple(ran.stdout[i:i + 3]) for i in range(0, len(ran.stdout), 3)]

    def told(self, film, what):
        ran = self.runs("ffprobe", "-v", "error", "-show_entries", "stream=" + what, "-of", "csv=p=0", film)
        return ran.strip()

    def test_a_lossless_film_has_the_pixels_of_the_frames(self):
        self.runs(FILM, "--background", "305080", "a", 1, ROWS, "a.mkv")
        self.assertEqual(self.decoded("a.mkv"), self.wanted(BACK))
        self.runs(FILM, "a", 1, ROWS, "a.mkv")
        self.assertEqual(self.decoded("a.mkv"), self.wanted((0, 0, 0)))
        self.assertEqual(self.files(), sorted(self.before + ["a.mkv"]))

    def test_a_film_to_show_is_near_the_frames(self):
        for row in range(1, ROWS + 1):
            self.write("b.%04d.xfr" % row, frame(33, 21, lambda x, y: (10 * row, 40, 90, 180)))
        for name in ("b.mp4", "b.mov"):
            self.runs(FILM, "--background", "305080", "--rate", "24000/1001", "b", "01", ROWS, name)
            self.assertEqual(self.told(name, "codec_name,width,height,pix_fmt,color_space,r_frame_rate"),
                             "h264,34,22,yuv420p,bt709,24000/1001")
            seen = self.decoded(name)
            self.assertEqual(len(seen), ROWS * 34 * 22)
            for row in range(ROWS):
                middle = seen[row * 34 * 22 + 10 * 34 + 16]
                wanted = over((10 * (row + 1), 40, 90, 180), BACK)
                self.assertLessEqual(max(abs(a - b) for a, b in zip(middle, wanted)), 4)

    def test_pictures_keep_their_alpha(self):
        self.runs(FILM, "a", 2, 4, "picture.%03d.png")
        self.assertEqual(self.files(), sorted(self.before + ["picture.%03d.png" % row for row in (2, 3, 4)]))
        for row in (2, 3, 4):
            seen = pictures.read_png(self.folder / ("picture.%03d.png" % row))
            wanted = pictures.read_frame(str(self.folder / ("a.%04d.xfr" % row)))
            self.assertEqual([bytes(it) for it in seen.rows], [bytes(it) for it in wanted.rows])

    def test_pictures_may_lie_over_a_background(self):
        self.runs(FILM, "--background", "305080", "a", 1, ROWS, "%d.png")
        seen = []
        for row in range(1, ROWS + 1):
            flat_rows = [value for it in pictures.read_png(self.folder / ("%d.png" % row)).rows for value in it]
            seen += [tuple(flat_rows[i:i + 3]) for i in range(0, len(flat_rows), 4)]
        self.assertEqual(seen, self.wanted(BACK))

    def refused(self, part, *words, **more):
        before = self.files()
        self.refuses(part, FILM, *words, **more)
        self.assertEqual(self.files(), before)

    def test_broken_frames_are_told(self):
        self.refused("film: the frame a.0006.xfr is missing", "a", 4, 6, "a.mp4")
        self.write("a.0002.xfr", mixed(2)[:-1])
        self.refused("film: a.0002.xfr has another length than its sides say", "a", 1, 5, "a.mp4")
        self.write("a.0002.xfr", b"XFR")
        self.refused("film: a.0002.xfr is no frame", "a", 1, 5, "%04d.png")
        self.write("a.0002.xfr", frame(2, 2, lambda x, y: (0, 0, 0, 0)))
        self.refused("film: a.0002.xfr has another size than a.0001.xfr", "a", 1, 5, "a.mkv")

    def test_words_are_told(self):
        self.refused("the words are BASE FROM TO FILM", "a", 1, 5)
        self.refused("FROM and TO are rows", "a", "x", 5, "a.mp4")
        self.refused("FROM is 1 to 9999, and TO is FROM to 9999", "a", 5, 1, "a.mp4")
        self.refused("a.avi ends in none of .mp4, .mov and .mkv", "a", 1, 5, "a.avi")
        self.refused("a.png ends in none of", "a", 1, 5, "a.png")
        self.refused("has more than one number", "a", 1, 5, "%d.%d.png")
        self.refused("--rate needs a number", "--rate", "0", "a", 1, 5, "a.mp4")
        self.refused("--rate needs a number", "--rate", "24/", "a", 1, 5, "a.mp4")
        self.refused("--background needs a colour", "--background", "red", "a", 1, 5, "a.mp4")
        self.refused("there is no option --x", "--x", "a", 1, 5, "a.mp4")
        self.refused("there is no folder no", "a", 1, 5, "no/a.mp4")

    def test_an_old_film_stays_where_ffmpeg_fails(self):
        self.write("a.mp4", "old")
        stand_in = self.write("bin/ffmpeg", "#!/bin/sh\ncat > /dev/null\necho no room >&2\nexit 1\n")
        stand_in.chmod(0o755)
        path = "%s:%s" % (stand_in.parent, os.environ["PATH"])
        self.refused("film: ffmpeg failed: no room", "a", 1, 5, "a.mp4", PATH=path)
        self.assertEqual((self.folder / "a.mp4").read_text(), "old")

    def test_ffmpeg_is_named_where_it_lacks(self):
        (self.folder / "bin").mkdir()
        for name in ("sh", "dirname", "sed"):
            os.symlink(shutil.which(name), self.folder / "bin" / name)
        path = str(self.folder / "bin")
        self.refuses("film: ffmpeg is missing: apt-get install ffmpeg", FILM, "a", 1, 5, "a.mp4", PATH=path)


if __name__ == "__main__":
    unittest.main()
