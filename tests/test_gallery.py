"""Each script of the gallery, run by the command in its comment, answers as the report beside it and the table say."""

import re
import shlex
import subprocess
import unittest

from tests.program import ROOT, program

GALLERY = ROOT / "gallery"
COMMAND = re.compile(r"^# \./crashmap (.*)$", re.MULTILINE)

# Ways to read a report, in each of which several workers answer as one does.
READINGS = ("", "--json", "--decide", "--enough", "--explain --decide --json", "--explain --enough")


def run(words):
    """Runs the program with these words at the top of the repository. Gives its status, output and errors."""
    answer = subprocess.run([program().resolve(), *words], stdin=subprocess.DEVNULL, capture_output=True, text=True,
                            cwd=ROOT, check=False)
    return answer.returncode, answer.stdout, answer.stderr


def number_of(word, report):
    """The number on the report's first line that begins with the word."""
    return int(re.search(rf"^{word} (\d+)$", report, re.MULTILINE)[1])


def parts_of(report, word):
    """The parts of a report that begin with a line of this word."""
    return re.split(rf"^(?={word}\b)", report, flags=re.MULTILINE)[1:]


def faults_of(decision):
    """Each fault of a decision with what follows it: a set and its writes."""
    return dict(part.split("\n", 1) for part in parts_of(decision, "fault"))


def first_sets(report):
    """Each fault of a report's failing sets with the first set that has it and its writes."""
    first = {}
    for part in parts_of(report, "set"):
        lines = part.splitlines(keepends=True)
        written = "".join(line for line in lines if not line.startswith("fault "))
        for line in lines:
            if line.startswith("fault "):
                first.setdefault(line.rstrip("\n"), written)
    return first


class Gallery(unittest.TestCase):
    def test_each_script_has_a_report_and_each_report_a_script(self):
        names = {kind: {path.stem for path in GALLERY.glob(f"*.{kind}")} for kind in ("script", "report")}
        self.assertEqual(names["script"], names["report"])
        self.assertTrue(names["script"])

    def test_scripts(self):
        for script in sorted(GALLERY.glob("*.script")):
            with self.subTest(script.stem):
                self.assert_answers(script)

    def assert_answers(self, script):
        commands = COMMAND.findall(script.read_text())
        self.assertEqual(len(commands), 1, "one command in its comment")
        words = shlex.split(commands[0])
        self.assertEqual(words[0], f"gallery/{script.name}")
        report = script.with_suffix(".report").read_text()
        failing, closed = number_of("failing", report), number_of("closed", report)
        self.assertEqual(run(words), (int(failing > 0), report, ""))
        whole = run([*words, "--whole-blocks"])[1]
        left = f"{number_of('failing', whole)} of {number_of('closed', whole)}"
        row = rf"\({re.escape(script.name)}\) .* {failing} of {closed} \| {left} \|"
        self.assertRegex((GALLERY / "README.md").read_text(), row)
        self.assert_workers_agree(words)
        self.assertEqual(faults_of(run([*words, "--decide"])[1]), first_sets(report))

    def assert_workers_agree(self, words):
        for reading in READINGS:
            one, three = (run([*words, *reading.split(), "--workers", workers]) for workers in ("1", "3"))
            self.assertEqual(one, three, reading)
            self.assertTrue(one[1], reading)


if __name__ == "__main__":
    unittest.main()
