"""The built program answers as each case file says, with several numbers of workers.

`rt ci` builds the program by two compilers, and each of the two is tried. Where `CRASHMAP_PROGRAM` names a program,
that one alone is.
"""

import concurrent.futures
import difflib
import os
import pathlib
import subprocess
import tempfile
import unittest

from tests import case_files
from tests.program import is_unproved, program

WORKERS = ("1", "2", "8", "16")
SECONDS = 120
UNPROVED_SECONDS = 5
"""How long an unproved program may take for a run of a case before the case is left out."""

MOST_LINES = 20
MOST_LETTERS = 160


def names_option(words, option):
    return any(word == option or word.startswith(option + "=") for word in words)


class TooLong(Exception):
    """An unproved program took too long for a case."""


def further_words(case):
    """What is added to the words of a case, in each of its runs."""
    if is_unproved() or case.fault is not None or names_option(case.words, "--workers"):
        return [()]
    return [()] + [("--workers", one) for one in WORKERS]


def difference(name, wanted, got):
    """The first lines in which two outputs differ."""
    lines = [data.decode(errors="backslashreplace").splitlines() for data in (wanted, got)]
    told = list(difflib.unified_diff(*lines, f"expected {name}", name, lineterm="", n=1))[:MOST_LINES]
    return [line[:MOST_LETTERS] for line in told] or [f"{name} differs in its last line feed"]


def wrong(case, status, out, err):
    """The lines that say how an answer differs from the case's; none where it does not."""
    told = []
    if status != case.status:
        told.append(f"expected status {case.status}, not {status}")
    if not case.has_output(out):
        told += ["another output than that of the digest"] if case.output is None \
            else difference("output", case.output, out)
    if not case.has_errors(err):
        told += [f"expected a fault that names {case.fault!r}, not {err[:MOST_LETTERS]!r}"] if case.fault is not None \
            else difference("errors", case.errors, err)
    return told


def run_case(case, binary, folder):
    """The lines that say how the first run that differs does so."""
    for words in further_words(case):
        try:
            run = subprocess.run([binary, *case.words, *words], input=case.script, capture_output=True, cwd=folder,
                                 timeout=UNPROVED_SECONDS if is_unproved() else SECONDS)
            told = wrong(case, run.returncode, run.stdout, run.stderr)
        except subprocess.TimeoutExpired as error:
            if is_unproved():
                raise TooLong from error
            told = [f"no answer within {SECONDS} seconds"]
        if told:
            return [f"with {' '.join(words) or 'no further words'}:"] + told
    return []


def try_case(path, binary, folder):
    """What is wrong with the case in this file, or nothing."""
    try:
        told = run_case(case_files.read_case(path), binary, folder)
    except case_files.BadCase as fault:
        return str(fault)
    return "\n".join([f"case {path.stem} ({path})"] + told) if told else ""


class Answers:
    """A test for each case file; they run side by side in threads."""

    @classmethod
    def setUpClass(cls):
        binary = str(cls.program())
        if not os.access(binary, os.X_OK):
            raise AssertionError(f"there is no program {binary}: rt ci builds it")
        cls.folder = tempfile.TemporaryDirectory()
        cls.pool = concurrent.futures.ThreadPoolExecutor(os.cpu_count())
        cls.told = {path: cls.pool.submit(try_case, path, binary, cls.folder.name) for path in PATHS}

    @classmethod
    def tearDownClass(cls):
        cls.pool.shutdown(cancel_futures=True)
        cls.folder.cleanup()


def test_of(path):
    def test(self):
        try:
            told = self.told[path].result()
        except TooLong:
            self.skipTest("it takes an unproved program too long")
        if told:
            self.fail(told)
    return test


PATHS = case_files.case_paths()
for one_path in PATHS:
    setattr(Answers, f"test_{one_path.parent.name}__{one_path.stem}".replace("-", "_"), test_of(one_path))


class Cases(Answers, unittest.TestCase):
    """The program as LLVM builds it."""

    @staticmethod
    def program():
        return program()

    def test_there_are_cases_and_each_has_a_name_of_its_own(self):
        self.assertTrue(PATHS)
        self.assertEqual(case_files.double_names(PATHS), [])
        self.assertEqual(case_files.stray_files(), [])


if "CRASHMAP_PROGRAM" not in os.environ:
    class CasesBySecondCompiler(Answers, unittest.TestCase):
        """The program as Rattle's own compiler builds it."""

        @staticmethod
        def program():
            return program().with_name("crashmap.by-rattle")


class BadCases(unittest.TestCase):
    """A case file that says nothing, or too much, or that the program does not meet, is a failed case."""

    def setUp(self):
        folder = tempfile.TemporaryDirectory()
        self.addCleanup(folder.cleanup)
        self.folder = pathlib.Path(folder.name)

    def told(self, data, name="one", binary="/bin/true"):
        """What is wrong with a case file of these bytes, where `binary` is the program."""
        path = self.folder / f"{name}.case"
        path.write_bytes(data)
        return try_case(path, binary, self.folder)

    def test_a_file_that_cannot_be_read(self):
        (self.folder / "folder.case").mkdir()
        self.assertIn("folder.case: cannot be read", try_case(self.folder / "folder.case", "/bin/true", self.folder))
        self.assertIn("none.case: cannot be read", try_case(self.folder / "none.case", "/bin/true", self.folder))
        self.assertIn("one.case: not UTF-8", self.told(b"output:\n    \xff\n"))
        self.assertIn("one.case: no line feed at the end", self.told(b"status: 0"))
        self.assertIn("one.case: no line feed at the end", self.told(b""))

    def test_an_unknown_field(self):
        self.assertIn("one.case:2: unknown field 'outptu'", self.told(b"status: 1\noutptu:\n    a\n"))

    def test_no_expected_output(self):
        self.assertIn("one.case: no expected output", self.told(b"words: --json\nscript:\n    start\n"))

    def test_a_name_that_stands_twice(self):
        paths = [pathlib.Path("a/one.case"), pathlib.Path("a/two.case"), pathlib.Path("b/one.case")]
        self.assertEqual(case_files.double_names(paths), ["one"])

    def test_a_file_that_is_no_case(self):
        for name in ("one.case", "one.script", "two.script", "three.cases"):
            (self.folder / name).write_bytes(b"")
        strays = [self.folder / "three.cases", self.folder / "two.script"]
        self.assertEqual(case_files.stray_files(self.folder), strays)

    def test_a_name_with_other_letters(self):
        self.assertIn("has other letters", self.told(b"output:\n    a\n", "One_1"))

    def test_fields_that_are_no_fields(self):
        for text, fault in (("output:\n  a\n", "one.case:2: neither a field nor a line of a block"),
                            ("output: a\n", "one.case:1: the lines of output stand below it"),
                            ("status:\noutput:\n", "one.case:1: status has no text"),
                            ("status: 3\noutput:\n", "no status: '3'"),
                            ("words: 'a\noutput:\n", "words: No closing quotation"),
                            ("output:\nwords: a\n", "one.case:2: words stands twice or behind a later field"),
                            ("status: 1\nstatus: 1\noutput:\n", "one.case:2: status stands twice"),
                            ("output:\noutput-digest: " + 64 * "0" + "\n", "both output and output-digest"),
                            ("output-digest: 0\n", "output-digest is no SHA-256 digest"),
                            ("script-file: ../x\noutput:\n", "script-file is no name of a file beside it"),
                            ("script-file: x\noutput:\n", "x: cannot be read"),
                            ("errors:\nfault: a\n", "both errors and fault")):
            with self.subTest(text=text):
                self.assertIn(fault, self.told(text.encode()))

    def test_an_answer_that_differs(self):
        self.assertEqual(self.told(b"output:\n"), "")
        told = self.told(b"status: 1\noutput:\n    a\n    b\n", binary="/bin/cat")
        self.assertIn("case one ", told)
        self.assertIn("with no further words:", told)
        self.assertIn("expected status 1, not 0", told)
        self.assertIn("-a\n-b", told)
        self.assertIn("expected a fault that names 'a'", self.told(b"fault: a\n"))
        self.assertIn("-e", self.told(b"errors:\n    e\n"))
        self.assertIn("another output than", self.told(f"output-digest: {64 * '0'}\n".encode()))

    def test_a_later_run_that_differs(self):
        program_file = self.folder / "program"
        program_file.write_text('#!/bin/sh\ncase "$*" in *8) echo x;; esac\n')
        program_file.chmod(0o755)
        for words in (b"", b"words: --decide\n"):
            self.assertIn("with --workers 8:", self.told(words + b"output:\n", binary=str(program_file)))
        for words in (b"words: --workers 2\n", b"words: --workers=2 --decide\n"):
            self.assertEqual(self.told(words + b"output:\n", binary=str(program_file)), "")

    def test_what_is_written_is_read(self):
        for number, case in enumerate((
                case_files.Case("n0", "About", ("--with", "", "a b"), 2, b"", b"", None, b"e\n"),
                case_files.Case("n1", "", (), 0, b"start", b"a\n\n b\n\n", None, b""),
                case_files.Case("n2", "", (), 1, b"\xff\n", b"a\tb\n", None, b"\n"),
                case_files.Case("n3", "", ("-V",), 0, b"#\n", None, 64 * "a", b""),
                case_files.Case("n4", "", ("a",), 2, b"\n", b"", None, b"", "a"))):
            with self.subTest(number=number):
                path = self.folder / f"n{number}.case"
                case_files.write_case(path, case)
                self.assertEqual(case_files.read_case(path), case)


if __name__ == "__main__":
    unittest.main()
