"""Renders in parts. A stand-in for the renderer shows how parts are cut and how their faults are told; where
VAZHETTIN names a program, parts are compared with one run of it."""
import os
import shutil
import unittest

from common import TOOLS, TOP, InAFolder

FARM = TOOLS / "farm.sh"
STAND_IN = TOOLS / "tests/stand_in.py"
ALONE = TOOLS / "tests/slurm_alone.sh"
HAS_PARALLEL = shutil.which("parallel")
SBIN = os.environ["PATH"] + ":/usr/sbin"
HAS_SLURM = all(shutil.which(it, path=SBIN) for it in ("munged", "slurmctld", "slurmd", "sbatch")) and os.getuid() == 0

# A stand-in for ssh: the host's name is kept, and its command runs here.
SSH = """#!/bin/sh
while :; do
    case $1 in
        -[bcDEeFIiJLlmOopQRSWw]) shift 2 ;;
        -*) shift ;;
        *) break ;;
    esac
done
echo "$1" >> %s
shift
[ "$1" != -- ] || shift
exec sh -c "$*"
"""


class Farm(InAFolder):
    def setUp(self):
        super().setUp()
        self.write("shot a.json", "{}")
        self.words = ["shot a.json", 1, 40, 2, "f"]

    def farm(self, *words, **more):
        return self.run_here(FARM, *words, **{"VAZHETTIN": str(STAND_IN), "HOME": str(self.folder), **more})

    def parts(self):
        """The first row, the last row and the workers of each part that was rendered."""
        lines = (self.folder / "calls").read_text().splitlines()
        return sorted(tuple(int(number) for number in line.split()) for line in lines)

    def frames(self):
        return [name for name in self.files() if name.endswith(".xfr")]


class WithoutEngines(Farm):
    def test_engines_are_named_where_they_lack(self):
        (self.folder / "bin").mkdir()
        for name in ("sh", "dirname", "sed"):
            os.symlink(shutil.which(name), self.folder / "bin" / name)
        more = {"PATH": str(self.folder / "bin"), "VAZHETTIN": str(STAND_IN)}
        self.refuses("farm: GNU Parallel is missing: apt-get install parallel", FARM, *self.words, **more)
        self.refuses("farm: Slurm is missing: apt-get install slurm-client", FARM, "--slurm", *self.words, **more)


@unittest.skipUnless(HAS_PARALLEL, "GNU Parallel is missing: apt-get install parallel")
class ByParallel(Farm):
    def test_parts_begin_at_a_multiple_of_eight_behind_the_first_row(self):
        ran = self.farm(*self.words)
        self.assertEqual((ran.returncode, ran.stdout, ran.stderr), (0, "farm: rows 1 to 40 are rendered, in 2 parts\n", ""))
        self.assertEqual(self.parts(), [(1, 24, 2), (25, 40, 2)])
        self.assertEqual(self.frames(), ["f.%04d.xfr" % row for row in range(1, 41)])
        self.assertEqual([it for it in os.listdir(self.folder) if it.startswith(".farm")], [])

    def test_parts_of_other_lengths(self):
        self.assertEqual(self.farm("--rows", 8, "--jobs", 2, "shot a.json", "013", 30, 1, "f").returncode, 0)
        self.assertEqual(self.parts(), [(13, 20, 1), (21, 28, 1), (29, 30, 1)])

    def test_more_rows_than_one_render_has(self):
        ran = self.farm("--rows", 4096, "shot a.json", 1, 9999, 1, "f")
        self.assertEqual((ran.returncode, ran.stderr), (0, ""))
        self.assertEqual(self.parts(), [(1, 4096, 1), (4097, 8192, 1), (8193, 9999, 1)])

    def test_a_failed_part_is_named(self):
        ran = self.farm("--rows", 8, *self.words, BROKEN="20")
        self.assertEqual((ran.returncode, ran.stdout), (1, ""))
        self.assertEqual(ran.stderr, "farm: part 3, rows 17 to 24, failed with status 3: drawing 5: level code 8\n")

    def test_a_missing_frame_is_named(self):
        ran = self.farm("--rows", 8, *self.words, LOST="33")
        self.assertEqual((ran.returncode, ran.stderr), (1, "farm: the frame f.0033.xfr is missing\n"))

    def test_a_frame_of_another_length_is_named(self):
        self.write("f.0009.xfr", "short")
        ran = self.farm(*self.words, LOST="9")
        self.assertEqual((ran.returncode, ran.stderr), (1, "farm: f.0009.xfr is no frame\n"))

    def test_an_old_frame_does_not_hide_a_failed_part(self):
        self.assertEqual(self.farm(*self.words).returncode, 0)
        self.assertEqual(self.farm(*self.words, BROKEN="3").returncode, 1)

    def with_ssh(self, text):
        stand_in = self.write("bin/ssh", text)
        stand_in.chmod(0o755)
        return "%s:%s" % (stand_in.parent, os.environ["PATH"])

    def test_parts_go_to_hosts(self):
        path = self.with_ssh(SSH % (self.folder / "hosts"))
        ran = self.farm("--rows", 8, "--jobs", 1, "--hosts", "one,two", *self.words, PATH=path)
        self.assertEqual((ran.returncode, ran.stderr), (0, ""))
        self.assertEqual(len(self.parts()), 5)
        self.assertEqual(set((self.folder / "hosts").read_text().split()), {"one", "two"})

    def test_a_host_that_cannot_be_reached_is_told(self):
        path = self.with_ssh("#!/bin/sh\necho no route >&2\nexit 255\n")
        ran = self.farm("--hosts", "one", *self.words, PATH=path)
        self.assertEqual(ran.returncode, 1)
        self.assertEqual([line.partition(":")[2].partition(":")[0] for line in ran.stderr.splitlines()],
                         [" part 1, rows 1 to 24, did not end", " part 2, rows 25 to 40, did not end"])

    def test_words_are_told(self):
        for part, words in [
            ("the words are SCENE FROM TO WORKERS BASE", ["shot a.json", 1, 2, "f"]),
            ("FROM, TO and WORKERS are numbers", ["shot a.json", 1, "x", 1, "f"]),
            ("FROM is at least 1", ["shot a.json", 5, 4, 1, "f"]),
            ("--rows needs a multiple of eight", ["--rows", 12, *self.words]),
            ("--jobs needs a number", ["--jobs", 0, *self.words]),
            ("there is no option --x", ["--x", *self.words]),
            ("there is no scene no.json", ["no.json", 1, 2, 1, "f"]),
        ]:
            self.refuses(part, FARM, *words, VAZHETTIN=str(STAND_IN))

    def test_a_bad_scene_is_told_before_any_part(self):
        self.write("shot a.json", "")
        self.refuses("scene S1 at (top): NotJson", FARM, *self.words, VAZHETTIN=str(STAND_IN))
        self.assertEqual(self.files(), ["shot a.json"])


@unittest.skipUnless(HAS_SLURM, "Slurm is missing, or this is not root: apt-get install slurmctld slurmd slurm-client munge")
class BySlurm(Farm):
    def test_parts_are_an_array_of_jobs(self):
        ran = self.run_here(ALONE, FARM, "--rows", 8, "--slurm", "shot a.json", 3, 40, 1, "f", VAZHETTIN=str(STAND_IN))
        self.assertEqual((ran.returncode, ran.stdout, ran.stderr), (0, "farm: rows 3 to 40 are rendered, in 5 parts\n", ""))
        self.assertEqual(self.parts(), [(3, 10, 1), (11, 18, 1), (19, 26, 1), (27, 34, 1), (35, 40, 1)])
        self.assertEqual(self.frames(), ["f.%04d.xfr" % row for row in range(3, 41)])

    def test_a_failed_part_is_named(self):
        ran = self.run_here(ALONE, FARM, "--slurm", "shot a.json", 1, 40, 1, "f", VAZHETTIN=str(STAND_IN), BROKEN="30")
        self.assertEqual((ran.returncode, ran.stderr),
                         (1, "farm: part 2, rows 25 to 40, failed with status 3: drawing 5: level code 8\n"))

    def test_without_daemons_no_part_ends(self):
        ran = self.farm("--slurm", *self.words, SLURM_CONF=str(self.folder / "none"))
        self.assertEqual(ran.returncode, 1)
        self.assertEqual(len(ran.stderr.splitlines()), 2)


@unittest.skipUnless(os.environ.get("VAZHETTIN"), "VAZHETTIN names no program")
class ByTheProgram(InAFolder):
    def setUp(self):
        super().setUp()
        for path in (TOP / "examples/walk").iterdir():
            shutil.copy(path, self.folder)
        self.runs(os.environ["VAZHETTIN"], "render", "walk.json", 1, 24, 1, "one")

    def same(self):
        for row in range(1, 25):
            one, other = ((self.folder / ("%s.%04d.xfr" % (base, row))).read_bytes() for base in ("one", "parts"))
            self.assertEqual(one, other, row)

    @unittest.skipUnless(HAS_PARALLEL, "GNU Parallel is missing: apt-get install parallel")
    def test_parts_by_parallel_are_the_frames_of_one_run(self):
        self.runs(FARM, "--rows", 8, "walk.json", 1, 24, 1, "parts")
        self.same()

    @unittest.skipUnless(HAS_SLURM, "Slurm is missing, or this is not root")
    def test_parts_by_slurm_are_the_frames_of_one_run(self):
        self.runs(ALONE, FARM, "--rows", 8, "--slurm", "walk.json", 1, 24, 1, "parts")
        self.same()


if __name__ == "__main__":
    unittest.main()
