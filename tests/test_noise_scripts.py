"""The built program answers scripts of noise as the reference does, with 1 to 16 workers."""

import concurrent.futures
import functools
import itertools
import pathlib
import sys
import unittest

HERE = pathlib.Path(__file__).resolve().parent
sys.path[:0] = [str(HERE.parent), str(HERE)]

from program import needs_a_proved_program, program
from reference.noise.scripts import COUNT, KINDS
from reference.noise.seeded import Noise
from reference.rules import MODULES
from reference.runs import differences, run_program, run_reference

TIMEOUT = 60
"""The most seconds of one run."""

JOBS = 4

ALONE = [()]
"""The words that name no number of workers."""

EVERY_WAY = [("--workers", workers) for workers in ("1", "2", "8", "16")]


def differences_of(kind, forms, ways, seed):
    """How the program's answers to one script differ from the reference's, in each form and by each way."""
    script = KINDS[kind](Noise(seed), seed)
    found = []
    for form in forms:
        words = ["--module", MODULES[seed % 4], "--blocks", "24", "--journal", "12", *form]
        wanted = run_reference(words, script)
        for way in ways:
            got = run_program((str(program()),), [*words, *way], script, TIMEOUT)
            found += ["seed %d, %s: %s" % (seed, " ".join([*words, *way]), one) for one in differences(got, wanted)]
    return found


class ScriptsOfNoise(unittest.TestCase):
    """Scripts that are made from the seeds 0 on."""

    def compare(self, kind, forms, ways):
        """Compares the answers to all scripts of a kind."""
        self.assertTrue(program().exists(), "%s is not built" % program())
        with concurrent.futures.ProcessPoolExecutor(JOBS) as pool:
            found = list(pool.map(functools.partial(differences_of, kind, forms, ways), range(COUNT), chunksize=10))
        self.assertEqual(len(found), COUNT)
        self.assertEqual(list(itertools.chain(*found)), [])

    def test_any_bytes(self):
        self.compare("AnyBytes", [()], ALONE)

    def test_letters_of_scripts(self):
        self.compare("TellingBytes", [()], ALONE)

    @needs_a_proved_program()
    def test_known_lines(self):
        self.compare("KnownLines", [(), ("--json",), ("--decide",)], EVERY_WAY)

    @needs_a_proved_program()
    def test_lines_apart(self):
        self.compare("LinesApart", [(), ("--json",), ("--decide",)], EVERY_WAY)


class AWrongProgram(unittest.TestCase):
    """A program that answers wrongly is found."""

    def test_another_answer_is_a_difference(self):
        wanted = run_reference(["--module", "async"], b"start\ncreate /a\n")
        self.assertEqual(differences(wanted, wanted), [])
        for field, wrong in (("status", 0), ("out", wanted.out[:-1]), ("err", b"x")):
            self.assertNotEqual(differences(wanted._replace(**{field: wrong}), wanted), [])


if __name__ == "__main__":
    unittest.main()
