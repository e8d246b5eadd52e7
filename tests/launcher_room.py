"""A repository of a program and two libraries with this one's launcher, and a program in the place of rt."""

import os
import pathlib
import shutil
import subprocess
import tempfile
import unittest

from tests.program import ROOT

HELPERS = pathlib.Path(__file__).resolve().parent / "helpers"
ROWS = "low:\ncrashmap may_wait=1: low clap\n"
FILES = ("low/src/lib.rt", "low/proofs/Lib.antt", "low/must-fail/wrong.edit", "low/out/kept", "crashmap/src/main.rt",
         "crashmap/stdin", "crashmap/stdout", "beside/src/lib.rt")


class LauncherTest(unittest.TestCase):
    """What each test of the launcher begins with: nothing is built, and proofs and unproved runs succeed."""

    def setUp(self):
        folder = tempfile.TemporaryDirectory()
        self.addCleanup(folder.cleanup)
        self.room = pathlib.Path(folder.name).resolve()
        self.top, self.fake, self.temporary = (self.room / name for name in ("top", "fake", "temporary"))
        for path in (self.fake, self.temporary, self.room / "bin"):
            path.mkdir()
        for name in FILES:
            (self.top / "crates" / name).parent.mkdir(parents=True, exist_ok=True)
            (self.top / "crates" / name).write_text(f"{name}\n")
        shutil.copytree(ROOT / "launch", self.top / "launch", ignore=shutil.ignore_patterns("__pycache__"))
        shutil.copy(ROOT / "crashmap", self.top)
        shutil.copy(HELPERS / "rt", self.room / "bin")
        (self.top / "HANDLES").write_text("Handles allowed: none.\n")
        (self.top / "crates.txt").write_text(f"# a program, a library below it and one beside\n{ROWS}beside: low\n")
        self.environment = os.environ | {"PATH": f"{self.room / 'bin'}:{os.environ['PATH']}", "FAKE": str(self.fake),
                                         "TMPDIR": str(self.temporary)}
        for name in ("CRASHMAP_PROGRAM", "CRASHMAP_IMAGES", "CRASHMAP_UNPROVED"):
            self.environment.pop(name, None)
        self.set_mode("passes")

    def set_mode(self, mode):
        """Says what rt does from here on."""
        (self.fake / "mode").write_text(mode)

    def launch(self, *words, text="", folder=None, **added):
        """Runs ./crashmap with these words, and gives its status, standard output and the lines of standard error."""
        run = subprocess.run([self.top / "crashmap", *words], input=text, capture_output=True, text=True,
                             cwd=folder or self.top, env=self.environment | added, check=False)
        return run.returncode, run.stdout, run.stderr.splitlines()

    def path_without_rt(self):
        """A folder of links to the commands that the launcher calls before it needs rt."""
        folder = self.room / "commands"
        folder.mkdir()
        for name in ("bash", "cat", "dirname", "find", "grep", "python3", "env", "head", "od", "sed", "tr"):
            (folder / name).symlink_to(shutil.which(name))
        return str(folder)

    def calls(self):
        """What rt was asked, one call a line."""
        calls = self.fake / "calls"
        return calls.read_text().splitlines() if calls.exists() else []

    def prove(self):
        """Proves and builds the program."""
        self.assertEqual(self.launch("--prove")[0], 0)
        (self.fake / "calls").unlink()

    def assert_nothing_left(self):
        """No temporary file is left."""
        self.assertEqual(list(self.temporary.iterdir()), [])
