"""Runs the built program over a malloc that counts requests for memory and refuses some of them."""

import os
import pathlib
import subprocess
import tempfile
import unittest

from tests.program import needs_a_proved_program, program

HELPER = pathlib.Path(__file__).resolve().parent / "helpers/refuse.c"


def compiler():
    """The kit's own compiler, or the system's."""
    kit = pathlib.Path(subprocess.run(["rt", "doc"], capture_output=True, text=True, check=True).stdout.strip()).parent
    clang = kit / "toolchain/bin/clang"
    return str(clang) if clang.exists() else "cc"


@needs_a_proved_program("an unproved program has a malloc of its own, which finds mistakes")
class MemoryTest(unittest.TestCase):
    """Tests that run the program over the malloc of `helpers/refuse.c`."""

    @classmethod
    def setUpClass(cls):
        folder = tempfile.TemporaryDirectory()
        cls.addClassCleanup(folder.cleanup)
        cls.folder = pathlib.Path(folder.name)
        cls.library, cls.mark, cls.counts = (cls.folder / name for name in ("refuse.so", "mark", "counts"))
        subprocess.run([compiler(), "-O1", "-shared", "-fPIC", "-nostdlib", "-o", cls.library, HELPER], check=True)

    def answer(self, words, text, **added):
        """The program's exit status and what it writes, with these variables of the environment."""
        run = subprocess.run([program(), *words], input=text, capture_output=True, env=os.environ | added, check=False)
        return run.returncode, run.stdout, run.stderr

    def refused_answer(self, words, text, first, last):
        """The answer while the requests from one number to another are refused, and whether there was one of them."""
        self.mark.unlink(missing_ok=True)
        got = self.answer(words, text, REFUSED_REQUEST=str(first), REFUSED_LAST=str(last), REFUSED_MARK=str(self.mark),
                          LD_PRELOAD=str(self.library))
        return got, self.mark.exists()

    def counted_answer(self, words, text):
        """The answer, how many requests for memory it took, and for how many bytes in all."""
        self.counts.unlink(missing_ok=True)
        got = self.answer(words, text, COUNTED_REQUESTS=str(self.counts), LD_PRELOAD=str(self.library))
        requests, size = map(int, self.counts.read_text().split())
        return got, requests, size
