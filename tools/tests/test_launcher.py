"""The launcher answers its own words without a program, and hands all others on."""
import os
import shutil
import unittest

from common import TOP, InAFolder

COMMANDS = ["render SCENE FROM TO WORKERS BASE", "show SCENE", "dry SCENE FROM TO", "make SEED ROWS WORKERS",
            "again OLD NEW FROM TO WORKERS BASE", "help", "--version"]


class Launcher(InAFolder):
    def setUp(self):
        super().setUp()
        shutil.copy(TOP / "vazhettin", self.folder)
        self.launcher = self.folder / "vazhettin"
        bare = self.folder / "bare"
        bare.mkdir()
        for tool in ("sh", "dirname", "readlink", "cat", "find", "mkdir", "git"):
            if shutil.which(tool):
                os.symlink(shutil.which(tool), bare / tool)
        self.bare = str(bare)

    def with_program(self):
        """Puts a program in its place that prints each of its words on a line."""
        self.write("crates.txt", "")
        for name in ("src", "specs", "proofs"):
            (self.folder / "crates/one" / name).mkdir(parents=True)
        program = self.write("out/vazhettin", "#!/bin/sh\nprintf '<%s>\\n' \"$@\"\n")
        program.chmod(0o755)
        os.utime(program, (2e9, 2e9))

    def test_help_needs_no_program(self):
        for word in ("help", "--help"):
            said = self.runs(self.launcher, word, PATH=self.bare)
            for command in COMMANDS:
                self.assertIn("\n  vazhettin %s\n" % command, said)
            self.assertIn(str(self.folder / "docs/USING.md"), said)
        self.assertFalse((self.folder / "out").exists())

    def test_version_needs_no_program(self):
        said = self.runs(self.launcher, "--version", PATH=self.bare).splitlines()
        self.assertEqual(said, ["vazhettin, commit unknown", "the Rattle toolchain is missing"])
        self.assertFalse((self.folder / "out").exists())

    @unittest.skipUnless(shutil.which("git") and (TOP / ".git").exists(), "no checkout")
    def test_version_tells_the_commit(self):
        commit = self.runs("git", "-C", TOP, "rev-parse", "--short=12", "HEAD").strip()
        self.assertIn("commit " + commit, self.runs(TOP / "vazhettin", "--version"))

    def test_other_words_go_to_the_program_as_they_are(self):
        self.with_program()
        for words in (["render", "a b.json", "1", "2", "", "*"], ["-h"], ["help", "render"], ["--version", "x"]):
            said = self.runs(self.launcher, *words).splitlines()
            self.assertEqual(said, ["<%s>" % word for word in words])

    def test_without_the_toolchain_nothing_is_built(self):
        ran = self.run_here(self.launcher, "show", "a.json", PATH=self.bare)
        self.assertEqual(ran.returncode, 70)
        self.assertIn("the command rt of the Rattle toolchain is missing", ran.stderr)


if __name__ == "__main__":
    unittest.main()
