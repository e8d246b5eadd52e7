"""docs/SAVES.md is what the program gives for the scripts in saves/, and the reference gives the same."""

import concurrent.futures
import unittest

from saves import page
from saves.judge import Crash, crash_of, judge, needed, reference_report, report, waits_of
from saves.programs import PROGRAMS
from tests.program import needs_a_proved_program


# The name and the ordering of each verdict of the page, and of those that say which waits are needed.
ASKED = list(dict.fromkeys((f"{it.name}{suffix}.script", ordering) for it in PROGRAMS
                           for ordering, suffixes in page.COLUMNS.values() for suffix in suffixes))
NEEDS = [(f"{it.name}.script", ordering) for it in PROGRAMS for ordering, suffixes in page.COLUMNS.values()
         if len(suffixes) == 1]


def answers(name, module):
    """What the program and the reference report on a script of saves/."""
    text = (page.FOLDER / name).read_text()
    return report(text, module), reference_report(text, module)


def is_kept_with(text, module, waits):
    """Whether the reference says that a script keeps its promise without all but these waits."""
    left = set(waits_of(text)) - set(waits)
    lines = ["#" if at in left else line for at, line in enumerate(text.split("\n"))]
    return judge("\n".join(lines), module, reference_report) is None


def needs_are_right(name, module):
    """Whether the waits that a script of saves/ needs are enough, and none of them can be left out, where it has any
    and keeps its promise with all."""
    text = (page.FOLDER / name).read_text()
    if not waits_of(text) or judge(text, module) is not None:
        return True
    waits = needed(text, module)
    return is_kept_with(text, module, waits) and not any(
        is_kept_with(text, module, set(waits) - {it}) for it in waits)


class Saves(unittest.TestCase):
    @needs_a_proved_program()
    def test_page(self):
        self.assertGreaterEqual(len(PROGRAMS), 20)
        self.assertEqual(page.PAGE.read_text(), page.page(), "python3 -m saves.page --write")

    def test_reports(self):
        """The program and the reference give the same reports on all scripts, with their crashes and promises."""
        with concurrent.futures.ProcessPoolExecutor() as pool:
            for one, (found, wanted) in zip(ASKED, pool.map(answers, *zip(*ASKED))):
                with self.subTest(one):
                    self.assertEqual(found, wanted)

    @needs_a_proved_program()
    def test_needs(self):
        """The reference judges the scripts without waits as the program says."""
        with concurrent.futures.ProcessPoolExecutor() as pool:
            for one, is_right in zip(NEEDS, pool.map(needs_are_right, *zip(*NEEDS))):
                with self.subTest(one):
                    self.assertTrue(is_right)

    def test_each_script_is_of_a_program(self):
        names = {f"{it.name}{suffix}.script" for it in PROGRAMS for suffix in page.SUFFIXES.values()}
        self.assertEqual({it.name for it in page.FOLDER.glob("*.script")}, names)

    def test_crash(self):
        report = ("module soft\npatch 0 line 4 create /g: InodeInit block 2 offset 16 length 16\n"
                  "patch 1 line 4 create /g: EntrySet block 4 offset 8 length 12\n"
                  "patch 2 line 5 unlink /f: EntryClear block 4 offset 20 length 12\n"
                  "promise line 3 hold /f\nshows file\nfault 10 broken promise: line 3\nshows nothing\nset 0 1 2\n")
        crash = crash_of(report)
        self.assertEqual(crash, Crash("nothing", (("create /g", ("InodeInit", "EntrySet"), 2),
                                                  ("unlink /f", ("EntryClear",), 1))))
        self.assertEqual((crash.left(), crash.size()), ("gone", 3))
        self.assertIsNone(crash_of("module soft\npatches 0\n"))

    def test_a_script_that_is_refused(self):
        script = "# crashmap: --blocks 128 --journal 62\nstart\nunlink /a\n"
        self.assertEqual([judge(script, "soft", it) for it in (report, reference_report)],
                         ["crashmap: line 3: 10 not found"] * 2)

    def test_needed_waits(self):
        """The wait for the new file alone, of two."""
        script = ("# crashmap: --blocks 128 --journal 62\ncreate /a\nwrite /a\nstart\nhold /a\ncreate /t\nwrite /t\n"
                  "fsync /t\nreplace /t /a\nspare /a /a\nfsync /a\n")
        self.assertEqual([needed(script, it) for it in ("soft", "meta", "async")], [[7], [], None])
        self.assertEqual(needed(script + "fsync /a\n" * 63, "soft"), "crashmap: line 74: 23 too many syncs")


if __name__ == "__main__":
    unittest.main()
