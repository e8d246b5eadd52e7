"""Runs the suite: `run.py [NAME..]` runs tests/test_NAME.py for each name, or all of them.

It says of each file how it went, and what it took of the processors. The last line is 'N passed, M failed', and the
exit status is 0 only where M is 0 and N is not. A test that is skipped counts as failed, and so does a name that has no
file and a file without a test.

Where CRASHMAP_UNPROVED is set, the program is an unproved one. Then what takes such a program too long is skipped, each
part that is skipped is named, and the last line is 'N passed, M failed, K skipped'.
"""

import os
import pathlib
import resource
import sys
import unittest

FOLDER = pathlib.Path(__file__).resolve().parent


class Result(unittest.TestResult):
    """Counts the tests that passed. The parts of a test (`subTest`) count beside it."""

    def __init__(self):
        super().__init__()
        self.passed = 0

    def addSuccess(self, test):
        super().addSuccess(test)
        self.passed += 1

    def addSubTest(self, test, subtest, err):
        super().addSubTest(test, subtest, err)
        self.passed += err is None

    def broken(self):
        """What to say of each test that did not pass."""
        for test, text in self.failures + self.errors:
            yield f"{test}\n{text}"
        for test in self.unexpectedSuccesses:
            yield f"{test}: passes, and should not"

    def left_out(self):
        """What to say of each test that was skipped."""
        for test, reason in self.skipped:
            yield f"{test}: skipped: {reason}"


def processor_seconds():
    """What this process and those that it has waited for have used so far."""
    used = [resource.getrusage(who) for who in (resource.RUSAGE_SELF, resource.RUSAGE_CHILDREN)]
    return sum(it.ru_utime + it.ru_stime for it in used)


def run(name, may_skip):
    """Runs one file, says what did not pass, and returns how many tests passed, failed and were skipped."""
    result, before = Result(), processor_seconds()
    unittest.TestLoader().discover(str(FOLDER), f"test_{name}.py").run(result)
    broken, left_out = list(result.broken()), list(result.left_out())
    if not may_skip:
        broken, left_out = broken + left_out, []
    if not result.passed and not broken and not left_out:
        broken = ["there is no test"]
    for text in broken + left_out:
        print(f"tests, {name}: {text}")
    skipped = f", {len(left_out)} skipped" if left_out else ""
    seconds = processor_seconds() - before
    print(f"tests, {name}: {result.passed} passed, {len(broken)} failed{skipped}, {seconds:.0f} processor seconds",
          flush=True)
    return result.passed, len(broken), len(left_out)


def main(names):
    sys.path.insert(0, str(FOLDER.parent))
    may_skip = "CRASHMAP_UNPROVED" in os.environ
    names = names or sorted(path.stem.removeprefix("test_") for path in FOLDER.glob("test_*.py"))
    counts = [run(name, may_skip) for name in names]
    passed, failed, skipped = (sum(count[kind] for count in counts) for kind in range(3))
    print(f"{passed} passed, {failed} failed" + (f", {skipped} skipped" if may_skip else ""))
    return 0 if passed and not failed else 1


if __name__ == "__main__":
    sys.exit(main(sys.argv[1:]))
