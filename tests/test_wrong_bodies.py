"""WRONG_BODIES.md names the edits that the prover must refuse: each once, and no other."""

import pathlib
import re
import unittest

ROOT = pathlib.Path(__file__).resolve().parent.parent
CRATES = ROOT / "crates"
PAGE = (ROOT / "docs/WRONG_BODIES.md").read_text()

EDITS = re.compile(r"`(\w+)`: ((?:`\w+`(?:, )?)+)")
FUNCTION = re.compile(r"\bfn (\w+)")
MOST_EDITS, MOST_CRATES = 140, 30


def edits_there():
    return sorted((path.parts[-3], path.stem) for path in CRATES.glob("*/must-fail/*.edit"))


def edits_named():
    """The edits of the page's tables, each as its crate and its name."""
    rows = [line.split("|")[-2] for line in PAGE.splitlines() if line.startswith("| ")]
    return sorted((crate, edit) for row in rows for crate, names in EDITS.findall(row)
                  for edit in re.findall(r"\w+", names))


class WrongBodies(unittest.TestCase):
    def test_the_page_names_each_edit_once(self):
        self.assertEqual(edits_named(), edits_there())

    def test_there_are_few(self):
        self.assertLessEqual(len(edits_there()), MOST_EDITS)
        self.assertLessEqual(len({crate for crate, _ in edits_there()}), MOST_CRATES)

    def test_each_name_is_there(self):
        """A word of the page that looks like a name is one of a crate, of an edit or of a function."""
        there = {path.name for path in CRATES.iterdir()} | {edit for _, edit in edits_there()}
        for source in CRATES.glob("*/src/**/*.rt"):
            there.update(FUNCTION.findall(source.read_text()))
        words = set(re.findall(r"`(?:\w+::)?([a-z][a-z0-9]*_\w+)`", PAGE))
        self.assertEqual(words - there, set())


if __name__ == "__main__":
    unittest.main()
