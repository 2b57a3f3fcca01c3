"""What the tests of the scripts share."""
import os
import pathlib
import subprocess
import sys
import tempfile
import unittest

TOOLS = pathlib.Path(__file__).resolve().parent.parent
TOP = TOOLS.parent
sys.path.insert(0, str(TOOLS))


class InAFolder(unittest.TestCase):
    """A test that begins in an empty folder, which is removed afterwards."""

    def setUp(self):
        room = tempfile.TemporaryDirectory()
        self.addCleanup(room.cleanup)
        self.folder = pathlib.Path(room.name).resolve()

    def run_here(self, *words, **more):
        """Runs a command in the folder; gives its status, output and errors."""
        environment = dict(os.environ, **more)
        return subprocess.run([str(word) for word in words], cwd=self.folder, stdin=subprocess.DEVNULL,
                              capture_output=True, text=True, env=environment, check=False)

    def runs(self, *words, **more):
        """Runs a command that is to end well, and gives what it printed, on both outputs."""
        ran = self.run_here(*words, **more)
        self.assertEqual(ran.returncode, 0, ran.stdout + ran.stderr)
        return ran.stdout + ran.stderr

    def refuses(self, part, *words, **more):
        """Runs a command that is to end with status 1 and one line, which has this part."""
        ran = self.run_here(*words, **more)
        self.assertEqual(ran.returncode, 1, ran.stdout + ran.stderr)
        self.assertEqual(len(ran.stderr.splitlines()), 1, ran.stderr)
        self.assertIn(part, ran.stderr)

    def write(self, name, text):
        """Writes a file, and the folders before it."""
        path = self.folder / name
        path.parent.mkdir(parents=True, exist_ok=True)
        path.write_bytes(text if isinstance(text, bytes) else text.encode("utf-8"))
        return path

    def files(self):
        """The names of all files below the folder."""
        return sorted(str(path.relative_to(self.folder)) for path in self.folder.rglob("*") if path.is_file())
