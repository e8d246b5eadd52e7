"""The worked rows of the reference, and its own limits."""

import importlib
import io
import pathlib
import pkgutil
import sys
import unittest

sys.path.insert(0, str(pathlib.Path(__file__).resolve().parent.parent))

from reference import rows
from reference.command_line import TOO_MUCH, program
from reference.rows.support import TWO_WRITES, script_of


def load_tests(loader, tests, _pattern):
    """Adds the rows, which are in a folder of the reference."""
    for module in pkgutil.iter_modules(rows.__path__):
        tests.addTests(loader.loadTestsFromModule(importlib.import_module("reference.rows." + module.name)))
    return tests


class TooMuch(unittest.TestCase):
    """A question that is too big for the reference."""

    def answered(self, words):
        """(status, standard output, standard error) of a script with 793,881 closed sets."""
        out, err = io.BytesIO(), io.BytesIO()
        status = program(words, io.BytesIO(script_of(TWO_WRITES)), out, err)
        return status, out.getvalue(), err.getvalue()

    def test_more_than_200000_closed_sets_have_a_status_of_their_own(self):
        for words in (["--decide"], ["--enough"], ["--decide", "--json"], ["--enough", "--explain"]):
            self.assertEqual(self.answered(words), (
                TOO_MUCH, b"", b"reference: too much to enumerate: more than 200000 closed sets\n"))
        self.assertNotIn(TOO_MUCH, (0, 1, 2))

    def test_more_than_the_limit_is_an_answer(self):
        for words in ([], ["--limit", "1"], ["--limit", "32768"]):
            self.assertEqual(self.answered(words), (2, b"", b"crashmap: 30 too many closed sets\n"))


if __name__ == "__main__":
    unittest.main()
