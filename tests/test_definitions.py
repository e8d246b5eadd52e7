"""DEFINITIONS.md lists the files that one must read and counts their lines; this compares it with the sources."""

import pathlib
import re
import sys
import unittest

sys.path.insert(0, str(pathlib.Path(__file__).resolve().parent))
from definitions import ADDS, ASKED_FOR, CRATES, INSIDE, LAST_TABLE, PAGE, ROWS
from definitions import definition_rows, files, imports_of, lines_of, page_made, plain_run

MOST_OF_A_PLAIN_RUN = 1_170

MODELS = ("state_space", "patch_sets", "crash_model", "question_model", "report")
GHOST = re.compile(r"\s*ghost use Rattle\.(\w+)\.specs\.(\w+)\.\{")


class Definitions(unittest.TestCase):
    """The page of definitions."""

    maxDiff = None

    def test_the_page_is_the_one_that_is_made(self):
        """`python3 tests/definitions.py` makes it again."""
        page = PAGE.read_text()
        self.assertEqual(page_made(page).splitlines(), page.splitlines())

    def test_each_file_that_the_page_names_is_there(self):
        named = re.findall(r"`(\w+/(?:specs|src)/[\w/]+\.\w+)`", PAGE.read_text())
        self.assertGreater(len(named), 90)
        self.assertEqual([path for path in named if not (CRATES / path).exists()], [])

    def test_a_file_that_is_gone(self):
        """A file that is not there is taken out, and a row with no other file."""
        gone = "| nothing | says nothing | `question_model/specs/NotThere.antt` |"
        both = "| lists | two files | `report/specs/NotThere.antt`, `Parts.antt` |"
        made = definition_rows("\n".join([LAST_TABLE, gone, both]))
        self.assertEqual(made[0], "| lists | two files | `report/specs/Parts.antt` |")

    def test_a_file_that_no_row_names(self):
        """Its row has its own words."""
        rows = definition_rows(LAST_TABLE)
        self.assertEqual(len(rows), len(files()))
        self.assertIn("| rule texts | how a rule is written | `crash_model/specs/RuleTexts.antt` |", rows)

    def test_a_plain_run(self):
        self.assertLessEqual(lines_of(plain_run()), MOST_OF_A_PLAIN_RUN)

    def test_each_file_stands_once(self):
        self.assertEqual(len(plain_run()), len(set(plain_run())))
        for name, row in ROWS.items():
            with self.subTest(name):
                self.assertFalse(set(row) & set(plain_run()))
        for name, names in INSIDE.items():
            with self.subTest(name):
                self.assertLessEqual(set(names), set(plain_run()))
        self.assertLessEqual(set(ADDS), set(ROWS))


class Citations(unittest.TestCase):
    """What the files of a plain run cite."""

    def passed_on(self, name, item):
        """The file that has a definition, where the file that is named passes it on."""
        crate, _, stem = name.partition("/")
        for line in (CRATES / crate / "specs" / f"{stem}.antt").read_text().splitlines():
            found = re.match(r"pub use Rattle\.(\w+)\.specs\.(\w+)\.\{(.*)\}", line)
            if found and item in found.group(3).split(", "):
                return f"{found.group(1)}/{found.group(2)}"
        return name

    def cited(self, name):
        return [(self.passed_on(other, item), item) for other, item in imports_of(name)
                if other.split("/")[0] in MODELS]

    def test_only_what_an_option_asks_for_stands_elsewhere(self):
        plain = plain_run()
        found = {name: {item for other, item in self.cited(name) if other not in plain} for name in plain}
        self.assertEqual({name: items for name, items in found.items() if items},
                         {name: set(items.split()) for name, items in ASKED_FOR.items()})

    def test_each_file_uses_those_before_it(self):
        plain = plain_run()
        late = [(name, item) for k, name in enumerate(plain) for other, item in self.cited(name)
                if other in plain[k:]]
        self.assertEqual(late, [])

    def test_each_file_that_is_used_is_named(self):
        unknown = [(name, item) for name in files() for other, item in self.cited(name) if other not in files()]
        self.assertEqual(unknown, [])

    def test_devices(self):
        """The contracts of `serve` and `answer_call` cite no definition of this repository that is not named."""
        for stem in ("serve", "answer"):
            for line in (CRATES / f"crash_text/src/{stem}.rt").read_text().splitlines():
                found = GHOST.match(line)
                if found and (CRATES / found.group(1)).is_dir():
                    self.assertIn(f"{found.group(1)}/{found.group(2)}", files())


if __name__ == "__main__":
    unittest.main()
