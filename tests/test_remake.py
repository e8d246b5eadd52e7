"""Every expected value that the repository keeps is what the reference makes, and what is not is found."""

import pathlib
import sys
import tempfile
import types
import unittest
from unittest import mock

sys.path.insert(0, str(pathlib.Path(__file__).resolve().parent.parent))

from reference import kept, kept_cases, remake
from reference.runs import Run

SCRIPT = "# A bug\n#\n# ./crashmap gallery/bug.script --module async\nstart\ncreate /a\n"
REPORT = ("module async\npatches 2\nclosed 4\nfailing 1\nset 1\nwrite block 4: 1\n"
          "fault 1 dangling entry: directory 0 entry 0 inode 1\n")
TABLE = "| a bug | [bug](bug.script) | `EntrySet:InodeInit` | 1 of 4 | 1 of 4 | |\n"


class Kept(unittest.TestCase):
    """The repository keeps what the reference makes."""

    def check_part(self, name, at_least):
        """Nothing of a part differs, and it has at least this many values."""
        values = remake.PARTS[name]()
        self.assertEqual([(value.name, value.problem) for value in values if value.problem], [])
        self.assertGreaterEqual(len(values), at_least)

    def test_cases(self):
        self.check_part("cases", 300)

    def test_gallery(self):
        self.check_part("gallery", 54)

    def test_page(self):
        self.check_part("page", 11)

    def test_images_of_noise(self):
        self.check_part("images", 1)


class Found(unittest.TestCase):
    """A value that is not what the reference makes is found, and can be written."""

    def setUp(self):
        folder = tempfile.TemporaryDirectory()
        self.addCleanup(folder.cleanup)
        self.top = pathlib.Path(folder.name)
        for module in (kept, kept_cases):
            patch = mock.patch.object(module, "TOP", self.top)
            patch.start()
            self.addCleanup(patch.stop)

    def file(self, name, text):
        """Writes a file."""
        path = self.top / name
        path.parent.mkdir(exist_ok=True)
        path.write_text(text)
        return path

    def gallery(self, script=SCRIPT, report=REPORT, table=TABLE):
        """The problems of a gallery of one script."""
        self.file("gallery/bug.script", script)
        self.file("gallery/bug.report", report)
        self.file("gallery/README.md", table)
        return [value.problem for value in kept.gallery() if value.problem]

    def test_a_gallery_that_is_right(self):
        self.assertEqual(self.gallery(), [])

    def test_a_report_of_the_gallery(self):
        self.assertEqual(self.gallery(report=REPORT.replace("closed 4", "closed 5")),
                         ["standard output: line 3: got b'closed 5', wanted b'closed 4'"])
        kept.gallery()[0].write()
        self.assertEqual((self.top / "gallery/bug.report").read_text(), REPORT)

    def test_a_row_of_the_gallery(self):
        self.assertEqual(self.gallery(table=TABLE.replace("1 of 4 | |", "2 of 4 | |")),
                         ["has no row with 1 of 4 | 1 of 4"])

    def test_a_script_without_a_command(self):
        self.assertEqual(self.gallery(script="start\n"), ["its comment has no single command that runs it"])

    def test_a_report_without_a_script(self):
        self.gallery()
        self.file("gallery/other.report", "")
        self.assertEqual([value.problem for value in kept.gallery() if value.problem], ["has no script"])

    def test_a_file_that_is_missing(self):
        value = kept.file_value(self.top / "none", b"new")
        self.assertEqual(value.problem, "is missing")
        value.write()
        self.assertEqual((self.top / "none").read_bytes(), b"new")

    def test_page_cases_that_cannot_be_read(self):
        self.assertIn("cannot be read", kept.page()[0].problem)

    def test_no_cases(self):
        self.assertEqual([value.problem for value in kept_cases.cases()], ["is missing"])

    def test_a_case(self):
        case = types.SimpleNamespace(output=b"a\n", errors=b"", status=0, fault=None,
                                     has_output=lambda output: output == b"a\n")
        self.assertIsNone(kept_cases.problem_of(case, Run(0, b"a\n", b"")))
        for run in (Run(1, b"a\n", b""), Run(0, b"b\n", b""), Run(0, b"a\n", b"x"), Run(3, b"", b"too much")):
            self.assertIsNotNone(kept_cases.problem_of(case, run))

    def test_the_command_says_what_differs(self):
        wrong = kept.Value("name", "differs", mock.Mock())
        right = kept.Value("other", None, mock.Mock())
        with mock.patch.dict(remake.PARTS, {"cases": lambda: [wrong, right]}), mock.patch("builtins.print") as out:
            self.assertEqual(remake.main(["cases"]), 1)
            wrong.write.assert_not_called()
            self.assertEqual(remake.main(["--write", "cases"]), 1)
        wrong.write.assert_called_once_with()
        right.write.assert_not_called()
        printed = [call.args[0] for call in out.call_args_list]
        self.assertEqual(printed, ["name: differs", "cases: 2 values, 1 differ", "1 passed, 1 failed",
                                   "name: differs (written)", "cases: 2 values, 1 differ", "1 passed, 1 failed"])


if __name__ == "__main__":
    unittest.main()
