"""A directory in which a command is recorded, and the recorder run there."""

import os
import pathlib
import re
import shutil
import subprocess
import sys
import tempfile
import unittest

from saves.judge import MODULES, crash_of, needed, reference_report, report
from tests.program import ROOT

RECORDER = ROOT / "crashmap-record"
PYTHON = sys.executable


def can_trace():
    """Whether strace is there and may trace."""
    try:
        return subprocess.run(["strace", "-o", os.devnull, "true"], capture_output=True, check=False).returncode == 0
    except OSError:
        return False


def steps_of(script):
    """The lines of a script that are no comments, and the real paths that its comments name."""
    lines = script.splitlines()
    names = dict(re.fullmatch(r"# (/\S+) is (.*)", it).groups() for it in lines if re.fullmatch(r"# /\S+ is .*", it))
    return [it for it in lines if not it.startswith("#")], names


class Recording(unittest.TestCase):
    """A directory with a file `f`, and the recorder run in it."""

    def setUp(self):
        # In memory, where it takes no time to force a file.
        room = tempfile.TemporaryDirectory(dir="/dev/shm" if os.access("/dev/shm", os.W_OK) else None)
        self.addCleanup(room.cleanup)
        self.folder = pathlib.Path(room.name)
        (self.folder / "f").write_text("hello\n")

    def record(self, *words, within=".", **more):
        """Runs the recorder in the directory, or in one below it."""
        return subprocess.run([RECORDER, *words], cwd=self.folder / within, capture_output=True, text=True, check=False,
                              stdin=subprocess.DEVNULL, timeout=600, errors="surrogateescape", **more)

    def script(self, *words):
        """The script of a recording that must succeed."""
        answer = self.record(*words)
        self.assertEqual((answer.returncode, answer.stderr), (0, ""))
        self.assertTrue(answer.stdout.startswith("# crashmap: --blocks 128 --journal 62\n"))
        return answer.stdout

    def assert_steps(self, words, *steps, base=("create /f", "write /f", "overwrite /f", "start", "hold /f")):
        """The script that is recorded. Where a step has `?`, any name of a new file fits."""
        script = self.script(*words)
        pattern = "\n".join(re.escape(it).replace(r"\?", "[a-z0-9]+") for it in (*base, *steps))
        self.assertRegex("\n".join(steps_of(script)[0]), f"^{pattern}$")
        return script

    def assert_refused(self, words, text, status=2, **more):
        """The recorder says that, and writes no script. Nothing of its own is left in the directory."""
        before = set(os.listdir(self.folder))
        answer = self.record(*words, **more)
        self.assertEqual((answer.returncode, answer.stdout), (status, ""))
        self.assertRegex(answer.stderr, text)
        self.assertEqual({it for it in os.listdir(self.folder) if "crashmap" in it or "trace" in it} - before, set())

    def make_directory(self):
        """The file `f` and the directory `d` with a file, as if nothing had been recorded."""
        for path in self.folder.iterdir():
            shutil.rmtree(path) if path.is_dir() and not path.is_symlink() else path.unlink()
        (self.folder / "d").mkdir()
        for name in ("f", "d/g"):
            (self.folder / name).write_text("hello\n")


class Judged(Recording):
    """Recordings that are judged without an ordering, under soft updates, and under the journals of metadata and of
    everything. Where `is_compared` the reference must give the same reports."""

    is_compared = False

    def assert_judged(self, script, *wanted):
        """In these words the program says what a crash leaves of the file, or None where the promise is kept."""
        for module, left in zip(MODULES, wanted, strict=True):
            with self.subTest(module):
                crash = crash_of(self.report_of(script, module))
                self.assertEqual(crash and crash.left(), left)

    def report_of(self, script, module):
        found = report(script, module)
        if self.is_compared:
            self.assertEqual(found, reference_report(script, module))
        self.assertIn("\nclosed ", found)
        return found

    def assert_broken(self, script, *wanted):
        """Which lines have a promise that a crash breaks, for each ordering."""
        for module, lines in zip(MODULES, wanted, strict=True):
            with self.subTest(module):
                found = self.report_of(script, module)
                broken = re.findall(r"^fault 10 broken promise: line (\d+)$", found, re.MULTILINE)
                self.assertEqual([script.split("\n")[int(it) - 1] for it in broken], lines)

    def assert_kept(self, script):
        self.assert_judged(script, *[None] * len(MODULES))

    def assert_needed(self, script, **wanted):
        """The waits that a program needs under an ordering."""
        lines = script.split("\n")
        self.assertEqual({it: [lines[wait] for wait in needed(script, it)] for it in wanted}, wanted)
