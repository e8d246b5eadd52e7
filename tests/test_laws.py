"""The laws of the reference on a few random cases."""

import contextlib
import io
import pathlib
import sys
import unittest

sys.path.insert(0, str(pathlib.Path(__file__).resolve().parent.parent))

from reference.laws import Laws, try_laws


class TheReference(unittest.TestCase):
    """The reference against itself."""

    def test_keeps_its_laws(self):
        laws = try_laws("laws", 24)
        self.assertEqual(laws.failed, 0)
        self.assertEqual({law.split(",")[0] for law in laws.done} - {"left out"},
                         {"decide", "enough", "search", "full", "before", "two ways", "full journal keeps promises",
                          "syncs", "durable"})


class TheLaws(unittest.TestCase):
    """A law that does not hold is counted."""

    def test_count_what_differs(self):
        laws = Laws()
        with contextlib.redirect_stdout(io.StringIO()) as out:
            laws.check("one", 1, 1)
            laws.check("one", 1, 2)
        self.assertEqual(out.getvalue(), "one\n  got    1\n  wanted 2\n")
        self.assertEqual((laws.done["one"], laws.failed), (2, 1))


if __name__ == "__main__":
    unittest.main()
