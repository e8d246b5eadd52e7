"""The built program answers random cases and big scripts as the reference does, with one and four workers."""

import concurrent.futures
import pathlib
import re
import sys
import unittest

HERE = pathlib.Path(__file__).resolve().parent
sys.path[:0] = [str(HERE.parent), str(HERE)]

from program import is_unproved, needs_a_proved_program, program
from reference.compare import BIG, Plan, compare, run_case
from reference.explore import start
from reference.level import LEVEL
from reference.random_cases.big import LEAST_PATCHES, make_big_case
from reference.runs import Run, differences, run_program, run_reference
from reference.settings import MOST_PATCHES
from reference.trace import trace

CASES = 40 if is_unproved() else 400
BIG_CASES = 16
SEED = "gate"
JOBS = 4

REPORT = 17
"""The number of a case of the seed that is a short report in text, and a decision where the options have one."""

ENOUGH = 24
"""The number of a case of the seed that asks which rules are enough, where the options have that question."""

SMALLEST = 5
"""The number of a big case of the seed that the reference answers within a second or two."""


class TheProgram(unittest.TestCase):
    """The built program."""

    def test_answers_random_cases_as_the_reference(self):
        self.assertTrue(program().exists(), "%s is not built" % program())
        results = compare(Plan((str(program()),), SEED, LEVEL, (1, 4), 120), CASES, JOBS)
        differing = ["case %d, %s: %s" % (one.index, " ".join(one.words), one.differences)
                     for one in results if one.differences]
        self.assertEqual(differing, [])
        self.assertEqual(len(results), CASES)
        self.assertGreater(sum(one.runs for one in results), 1.5 * CASES)

    @needs_a_proved_program()
    def test_decides_big_scripts_as_the_reference(self):
        self.assertTrue(program().exists(), "%s is not built" % program())
        results = compare(Plan((str(program()),), SEED, BIG, (1, 4), 120), BIG_CASES, JOBS)
        self.assertEqual([(one.index, one.differences) for one in results if one.differences], [])
        self.assertEqual(sum(one.runs for one in results), 2 * BIG_CASES)

    @needs_a_proved_program()
    def test_explores_big_scripts_as_the_reference(self):
        scripts = sorted((HERE.parent / "bench" / "scripts").glob("*.script"))
        self.assertGreaterEqual(len(scripts), 7)
        with concurrent.futures.ProcessPoolExecutor(JOBS) as pool:
            self.assertEqual(list(pool.map(differences_of_big, scripts)), [[]] * len(scripts))


def differences_of_big(path):
    """How the program's answers to a big script differ from the reference's."""
    words = re.search(r"^# ./crashmap \S+ (.*)$", path.read_text(), re.M)[1].split()
    wanted = run_reference(words, path.read_bytes())
    return [found for workers in ("1", "2", "4", "16") for found in differences(
        run_program((str(program()),), words + ["--workers", workers], path.read_bytes(), 120), wanted)]


class TheComparison(unittest.TestCase):
    """A program that answers wrongly is found."""

    def compared(self, mode, timeout=60, level="extended", case=REPORT):
        """The differences of a stub from the reference, on one case."""
        stub = (sys.executable, str(HERE / "helpers" / "wrong_program.py"), mode)
        result = run_case(Plan(stub, SEED, level, (1, 4), timeout), case)
        self.assertEqual(result.runs, 2)
        return result.differences

    def ways(self, mode, timeout=60):
        """The ways to run the case in which the stub differs."""
        return sorted(set(one.split(":")[0] for one in self.compared(mode, timeout)))

    def test_finds_nothing_wrong_with_a_right_program(self):
        self.assertEqual(self.compared("right"), [])

    def test_finds_a_program_that_says_nothing(self):
        self.assertEqual(len(self.ways("silent")), 2)

    def test_finds_another_status(self):
        self.assertEqual(len(self.ways("status")), 2)

    def test_finds_more_on_standard_error(self):
        self.assertEqual(len(self.ways("errors")), 2)

    def test_finds_a_wrong_number(self):
        self.assertEqual(len(self.ways("digit")), 2)

    def test_finds_a_wrong_number_of_workers(self):
        self.assertEqual(self.ways("workers"), ["--workers 4"])

    def test_compares_decisions(self):
        self.assertEqual(self.compared("right", level="deciding"), [])
        self.assertEqual(len(self.compared("status", level="deciding")), 2)
        found = self.compared("workers", level="deciding")
        self.assertEqual([one.split(":")[0] for one in found], ["--workers 4"])

    def test_compares_which_rules_are_enough(self):
        self.assertEqual(self.compared("right", level="choosing", case=ENOUGH), [])
        self.assertEqual(len(self.compared("status", level="choosing", case=ENOUGH)), 2)
        found = self.compared("workers", level="choosing", case=ENOUGH)
        self.assertEqual([one.split(":")[0] for one in found], ["--workers 4"])

    def test_compares_decisions_of_big_scripts(self):
        self.assertEqual(self.compared("right", level=BIG, case=SMALLEST), [])
        found = self.compared("workers", level=BIG, case=SMALLEST)
        self.assertEqual([one.split(":")[0] for one in found], ["--workers 4"])

    def test_finds_a_program_that_does_not_end(self):
        found = self.compared("slow", 0.2)
        self.assertEqual(len(found), 2)
        self.assertTrue(all("no answer in time" in one for one in found))


class BigScripts(unittest.TestCase):
    """The cases of decisions of big scripts."""

    def test_each_has_many_patches(self):
        for index in range(16):
            case, words = make_big_case(SEED, index)
            base, steps, _ = start(case.script, case.settings())
            self.assertIn(len(trace(base, steps, case.settings())), range(LEAST_PATCHES, MOST_PATCHES + 1))
            self.assertIn("--decide", words)

    def test_a_case_is_the_same_each_time(self):
        for index in range(4):
            (one, words), (other, again) = make_big_case(SEED, index), make_big_case(SEED, index)
            self.assertEqual((one.script, words), (other.script, again))


class Differences(unittest.TestCase):
    """What is said of two runs that differ."""

    def test_equal_runs_do_not_differ(self):
        self.assertEqual(differences(Run(1, b"a\n", b""), Run(1, b"a\n", b"")), [])

    def test_the_first_line_that_differs_is_named(self):
        self.assertEqual(differences(Run(0, b"a\nc\n", b""), Run(0, b"a\nb\n", b"")),
                         ["standard output: line 2: got b'c', wanted b'b'"])

    def test_missing_lines_are_found(self):
        self.assertEqual(differences(Run(0, b"a", b""), Run(0, b"a\n", b"")),
                         ["standard output: got 1 lines, wanted 2"])

    def test_the_place_in_json_is_named(self):
        self.assertEqual(differences(Run(0, b'{"a":[1,{"b":2}]}', b""), Run(0, b'{"a":[1,{"b":3}]}', b"")),
                         ["standard output: .a[1].b: got 2, wanted 3"])

    def test_json_that_is_written_in_another_way_is_found(self):
        self.assertEqual(len(differences(Run(0, b'{"a": 1}', b""), Run(0, b'{"a":1}', b""))), 1)

    def test_true_is_not_one(self):
        self.assertEqual(len(differences(Run(0, b'{"a":1}', b""), Run(0, b'{"a":true}', b""))), 1)

    def test_a_fault_of_the_command_line_says_something(self):
        self.assertEqual(differences(Run(2, b"", b""), Run(2, b"", b"x"), False), ["standard error is empty"])
        self.assertEqual(differences(Run(2, b"", b"y"), Run(2, b"", b"x"), False), [])
