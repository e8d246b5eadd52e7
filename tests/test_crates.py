"""Each row of crates.txt names exactly the libraries that the files of its crate use."""

import re
import unittest

from tests.program import ROOT

CRATES = ROOT / "crates"

# The folders of a crate whose files use libraries, and what starts a comment in them.
FOLDERS = {"src": (".rt", "//"), "specs": (".antt", "--"), "proofs": (".antt", "--")}

# A library stands in code before `::`, and in definitions and proofs behind `Rattle.`.
IN_CODE = re.compile(r"(?<![\w:.])([a-z]\w*)::")
IN_PROOFS = re.compile(r"\bRattle\.([a-z]\w*)\.")
MODULE = re.compile(r"^ *(?:pub )?mod (\w+);", re.MULTILINE)


def rows(text):
    """The libraries of each crate, by the crate's name."""
    lines = (line.partition(":") for line in text.splitlines() if line and not line.startswith("#"))
    return {head.split()[0]: set(libraries.split()) for head, _, libraries in lines}


def text_of(crate):
    """The text of all files of a crate, without comments."""
    texts = []
    for folder, (suffix, comment) in FOLDERS.items():
        for path in sorted((CRATES / crate / folder).rglob(f"*{suffix}")):
            texts.append(re.sub(f"{comment}.*", "", path.read_text()))
    return "\n".join(texts)


def used_by(crate, libraries, text):
    """Which of these libraries the text of a crate uses. A module of its own may have the name of a library."""
    in_code = set(IN_CODE.findall(text)) - set(MODULE.findall(text))
    return libraries & (in_code | set(IN_PROOFS.findall(text))) - {crate}


class Rows(unittest.TestCase):
    """The rows of crates.txt."""

    def test_each_names_the_libraries_that_are_used(self):
        listed = rows((ROOT / "crates.txt").read_text())
        libraries = set(listed).union(*listed.values())
        for crate, named in listed.items():
            with self.subTest(crate):
                used = used_by(crate, libraries, text_of(crate))
                self.assertEqual(sorted(named), sorted(used))

    def test_what_counts_as_use(self):
        libraries = {"low", "middle", "json", "high"}
        self.assertEqual(used_by("high", libraries, "use low::f;\nfn g() { middle::h() }"), {"low", "middle"})
        self.assertEqual(used_by("high", libraries, "ghost use Rattle.low.specs.Lib.{f};"), {"low"})
        self.assertEqual(used_by("high", libraries, "use high::f;\nuse crate::low::g;\nlet low = 1;"), set())
        self.assertEqual(used_by("high", libraries, "mod json;\nuse json::f;"), set())
        self.assertEqual(used_by("high", libraries, "mod json;\nuse Rattle.json.specs.Print.{escape}"), {"json"})


if __name__ == "__main__":
    unittest.main()
