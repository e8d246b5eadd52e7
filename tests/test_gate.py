"""The gate and the suite count as failed whatever did not run to its end and say so."""

import os
import pathlib
import shutil
import subprocess
import sys
import tempfile
import unittest

from tests.program import ROOT

GATE = ROOT / ".ci/gate.py"

# A test that passes, as lines of a class.
PASSES = "    def test_that_passes(self): pass\n"

# The commands that the suite needs and that are installed where they are missing.
COMMANDS = ("chromium", "node", "strace", "sqlite3", "xz")


class Gate(unittest.TestCase):
    def setUp(self):
        folder = tempfile.TemporaryDirectory()
        self.addCleanup(folder.cleanup)
        self.folder = pathlib.Path(folder.name)
        self.parts = []

    def part(self, *lines):
        """Makes a part of the gate, a script of these lines."""
        path = self.folder / f"part{len(self.parts)}"
        path.write_text("#!/bin/sh\n" + "".join(f"{line}\n" for line in lines))
        path.chmod(0o755)
        self.parts.append(str(path))
        return str(path)

    def gate(self, *parts):
        """Runs the gate with these parts, and gives its exit status and last line."""
        run = subprocess.run([sys.executable, GATE, *parts], capture_output=True, text=True, check=False)
        return run.returncode, run.stdout.splitlines()[-1]

    def assert_fails(self, *lines, counts="7 passed, 1 failed"):
        """A part of these lines fails, beside one that passes 7 tests, whichever of the two comes first."""
        good, bad = self.part("echo 7 passed, 0 failed"), self.part(*lines)
        self.assertEqual(self.gate(good, bad), (1, counts))
        self.assertEqual(self.gate(bad, good), (1, counts))

    def test_parts_that_pass_are_added_up(self):
        three, four = self.part("echo some words", "echo 3 passed, 0 failed"), self.part("echo 4 passed, 0 failed")
        self.assertEqual(self.gate(three, four), (0, "7 passed, 0 failed"))

    def test_failures_are_added_up(self):
        self.assert_fails("echo 2 passed, 3 failed", "exit 1", counts="9 passed, 3 failed")

    def test_a_part_that_is_missing(self):
        good, missing = self.part("echo 7 passed, 0 failed"), str(self.folder / "missing")
        self.assertEqual(self.gate(good, missing), (1, "7 passed, 1 failed"))

    def test_a_part_that_cannot_be_started(self):
        good, plain = self.part("echo 7 passed, 0 failed"), self.folder / "plain"
        plain.write_text("echo 1 passed, 0 failed\n")
        self.assertEqual(self.gate(good, str(plain)), (1, "7 passed, 1 failed"))

    def test_a_part_that_prints_nothing(self):
        self.assert_fails("exit 0")

    def test_a_part_that_prints_nothing_and_fails(self):
        self.assert_fails("exit 1")

    def test_a_part_that_is_cut_off_before_its_last_line(self):
        self.assert_fails("echo one test was tried", "kill -9 $$")

    def test_a_part_that_is_cut_off_in_its_last_line(self):
        self.assert_fails("printf '3 passed'")

    def test_a_part_that_is_killed_after_its_last_line(self):
        self.assert_fails("echo 2 passed, 0 failed", "kill -9 $$", counts="9 passed, 1 failed")

    def test_a_part_that_goes_on_after_its_counts(self):
        self.assert_fails("echo 2 passed, 0 failed", "echo and more")

    def test_a_part_that_passes_and_ends_with_another_status(self):
        self.assert_fails("echo 2 passed, 0 failed", "exit 3", counts="9 passed, 1 failed")

    def test_a_part_that_tries_nothing(self):
        self.assert_fails("echo 0 passed, 0 failed")

    def test_a_part_that_is_no_command(self):
        good = self.part("echo 7 passed, 0 failed")
        for part in ("", "'"):
            with self.subTest(part):
                self.assertEqual(self.gate(part, good), (1, "7 passed, 1 failed"))

    def test_a_part_that_counts_something_else(self):
        self.assert_fails("echo 3 passed")
        self.assert_fails("echo 3 passed, 0 failed, 1 skipped")
        self.assert_fails("echo it has 3 passed, 0 failed")

    def test_a_part_whose_output_is_passed_on(self):
        part = self.part("echo some words", "echo some more", "echo 1 passed, 0 failed")
        run = subprocess.run([sys.executable, GATE, part], capture_output=True, text=True, check=False)
        self.assertEqual(run.stdout, "some words\nsome more\n" + 2 * "1 passed, 0 failed\n")

    def test_a_gate_without_parts(self):
        self.assertEqual(self.gate(), (1, "0 passed, 1 failed"))

    def test_the_gate_ends_with_status_1_where_a_part_says_that_it_failed(self):
        self.assert_fails("echo 0 passed, 1 failed")


class Suite(unittest.TestCase):
    """The suite's own last line and status, tried on a copy of run.py with other tests."""

    def suite(self, text, *names, **added):
        """Runs a suite whose only file has a class of these lines, and gives its status and last line. The suite
        takes the program for a proved one, unless `added` sets CRASHMAP_UNPROVED in its environment."""
        folder = tempfile.TemporaryDirectory()
        self.addCleanup(folder.cleanup)
        tests = pathlib.Path(folder.name) / "tests"
        tests.mkdir()
        shutil.copy(ROOT / "tests/run.py", tests)
        (tests / "test_it.py").write_text(f"import unittest\nclass It(unittest.TestCase):\n{text}")
        environment = {name: value for name, value in os.environ.items() if name != "CRASHMAP_UNPROVED"} | added
        run = subprocess.run([sys.executable, tests / "run.py", *names], env=environment, capture_output=True, text=True,
                             check=False)
        return run.returncode, run.stdout.splitlines()[-1]

    def test_a_test_that_passes(self):
        self.assertEqual(self.suite(PASSES), (0, "1 passed, 0 failed"))
        self.assertEqual(self.suite(PASSES, "it"), (0, "1 passed, 0 failed"))

    def test_a_test_that_fails(self):
        self.assertEqual(self.suite(f"    def test_it(self): self.fail()\n{PASSES}"), (1, "1 passed, 1 failed"))

    def test_a_test_that_cannot_run_to_its_end(self):
        for line in ("raise OSError", "raise SystemExit(0)"):
            with self.subTest(line):
                self.assertEqual(self.suite(f"    def test_it(self): {line}\n{PASSES}"), (1, "1 passed, 1 failed"))

    def test_parts_of_a_test(self):
        lines = ("    def test_it(self):\n        for number in range(5):\n"
                 "            with self.subTest(number): self.assertLess(number, 3)\n")
        self.assertEqual(self.suite(lines), (1, "3 passed, 2 failed"))

    def test_a_test_that_is_skipped(self):
        self.assertEqual(self.suite(f"    def test_it(self): self.skipTest('')\n{PASSES}"), (1, "1 passed, 1 failed"))

    def test_a_test_that_is_skipped_on_an_unproved_program(self):
        skips = "    def test_it(self): self.skipTest('')\n"
        for lines, wanted in ((skips + PASSES, (0, "1 passed, 0 failed, 1 skipped")),
                              (PASSES, (0, "1 passed, 0 failed, 0 skipped")),
                              (skips, (1, "0 passed, 0 failed, 1 skipped"))):
            self.assertEqual(self.suite(lines, CRASHMAP_UNPROVED="1"), wanted)

    def test_a_file_without_a_test(self):
        self.assertEqual(self.suite("    pass\n"), (1, "0 passed, 1 failed"))

    def test_a_name_without_a_file(self):
        self.assertEqual(self.suite(PASSES, "it", "other"), (1, "1 passed, 1 failed"))

    def test_a_file_that_cannot_be_read(self):
        self.assertEqual(self.suite("    def test_it(self)\n"), (1, "0 passed, 1 failed"))


class Install(unittest.TestCase):
    """What is installed is what is missing, and nothing where nothing is."""

    def setUp(self):
        folder = tempfile.TemporaryDirectory()
        self.addCleanup(folder.cleanup)
        self.folder = pathlib.Path(folder.name)
        (self.folder / "bash").symlink_to(shutil.which("bash"))
        self.have("apt-get", f'echo "$*" >>{self.folder}/calls')

    def have(self, name, line="exit 0"):
        """Makes a command of one line."""
        (self.folder / name).write_text(f"#!{shutil.which('bash')}\n{line}\n")
        (self.folder / name).chmod(0o755)

    def install(self):
        """Runs the step, and gives its exit status and what apt-get was asked."""
        run = subprocess.run([shutil.which("bash"), ROOT / ".ci/install"], env={"PATH": str(self.folder)}, check=False)
        calls = self.folder / "calls"
        return run.returncode, calls.read_text().splitlines() if calls.exists() else []

    def test_all_are_there(self):
        for name in (*COMMANDS, "dpkg"):
            self.have(name)
        self.assertEqual(self.install(), (0, []))

    def test_one_is_missing(self):
        for name in (*COMMANDS[1:], "dpkg"):
            self.have(name)
        self.assertEqual(self.install(), (0, ["update", "install -y --no-install-recommends chromium"]))

    def test_a_package_is_missing(self):
        for name in COMMANDS:
            self.have(name)
        self.have("dpkg", "exit 1")
        self.assertEqual(self.install(), (0, ["update", "install -y --no-install-recommends python3-jsonschema"]))

    def test_all_are_missing(self):
        wanted = "chromium nodejs strace sqlite3 xz-utils python3-jsonschema"
        self.assertEqual(self.install(), (0, ["update", f"install -y --no-install-recommends {wanted}"]))

    def test_they_cannot_be_installed(self):
        self.have("apt-get", f'echo "$*" >>{self.folder}/calls; [ "$1" != update ] || exit 100')
        self.assertEqual(self.install(), (100, ["update"]))


if __name__ == "__main__":
    unittest.main()
