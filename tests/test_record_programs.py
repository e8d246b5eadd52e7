"""What real programs do to a file: recorded, judged by the program, and compared with the reference."""

import os
import pathlib
import re
import shutil
import subprocess
import tempfile
import unittest

from tests.program import ROOT, program
from tests.recording import PYTHON, Judged, Recording, can_trace, steps_of

SAVE = "import os; g = open('g', 'w'); g.write('new'); g.flush(); {} g.close(); os.replace('g', 'f')"
FORCE = "os.fsync(g.fileno());"
EXAMPLES = [ROOT / "README.md", ROOT / "docs/RECORDING.md"]


class Programs(Judged):
    """The verdicts without an ordering, under soft updates, and under the journals of metadata and of everything."""

    is_compared = True

    def test_shell(self):
        script = self.assert_steps(["--", "sh", "-c", "echo new > f"], "truncate /f", "write /f", "spare /f /f")
        self.assert_judged(script, "empty", "empty", "empty", "empty")
        script = self.assert_steps(["--", "sh", "-c", "echo new >> f"], "overwrite /f 0", "spare /f /f")
        self.assert_judged(script, None, None, None, None)

    def test_sed(self):
        script = self.assert_steps(["--", "sed", "-i", "s/h/H/", "f"], "create /?", "write /?", "replace /? /f",
                                   "spare /f /f")
        self.assert_judged(script, "gone", "empty", None, None)

    def test_mv(self):
        script = self.assert_steps(["--", "sh", "-c", "echo new > g && mv g f"], "create /g", "write /g",
                                   "replace /g /f", "spare /f /f")
        self.assert_judged(script, "gone", "empty", None, None)

    def test_python(self):
        script = self.assert_steps(["--", PYTHON, "-c", SAVE.format("")], "create /g", "write /g", "replace /g /f",
                                   "spare /f /f")
        self.assert_judged(script, "gone", "empty", None, None)

    def test_python_with_fsync(self):
        script = self.assert_steps(["--", PYTHON, "-c", SAVE.format(FORCE)], "create /g", "write /g", "fsync /g",
                                   "replace /g /f", "spare /f /f")
        self.assert_judged(script, "gone", None, None, None)
        self.assert_needed(script, soft=["fsync /g"], meta=[], full=[])

    def test_delayed(self):
        """With delayed allocation a journal of metadata alone leaves an empty file, and an fsync prevents it."""
        for force, left in (("", "empty"), (FORCE, None)):
            script = self.script("--delay", "--", PYTHON, "-c", SAVE.format(force))
            self.assert_judged(script, "gone", left, left, left)
            (self.folder / "f").write_text("hello\n")

    def test_lasting(self):
        """The new file is there once the command has ended, if the directory is forced too."""
        save = "echo new > g; sync g; mv g f"
        script = self.script("--lasting", "--", "sh", "-c", save)
        self.assert_broken(script, ["hold /f", "keep /f"], ["keep /f"], ["keep /f"], ["keep /f"])
        script = self.script("--lasting", "--", "sh", "-c", f"{save}; sync f .")
        self.assert_broken(script, ["hold /f"], [], [], [])

    def test_together(self):
        """Two files that are written one after the other are not one update under any ordering."""
        (self.folder / "g").write_text("hello\n")
        script = self.script("--together", "--", "sh", "-c", "echo new >> f; echo new >> g")
        self.assert_broken(script, *[["keep /f /g"]] * 4)

    def test_git(self):
        if not shutil.which("git"):
            return
        environment = {**os.environ, "HOME": str(self.folder), "GIT_CONFIG_NOSYSTEM": "1"}
        subprocess.run(["sh", "-c", "git init -q -b main . && git config core.logAllRefUpdates false && git add f"],
                       cwd=self.folder, env=environment, check=True)
        answer = self.record("--keep", ".git/refs/heads/main", "--ignore", ".git/index*", "--ignore", ".git/COMMIT*",
                             "--ignore", ".git/HEAD.lock", "--merge", "--", "git", "-c", "user.name=a",
                             "-c", "user.email=a@b",
                             "-c", "maintenance.auto=false", "-c", "core.fsync=all", "commit", "-qm", "one",
                             env=environment)
        self.assertEqual((answer.returncode, answer.stderr), (0, ""))
        steps, names = steps_of(answer.stdout)
        self.assertEqual(names["/git/refs/heads/mainlock"], ".git/refs/heads/main.lock")
        self.assertEqual(steps[-4:], [f"{word} /git/refs/heads/main{rest}" for word, rest in (
            ("write", "lock"), ("fsync", "lock"), ("rename", "lock /git/refs/heads/main"),
            ("spare", " /git/refs/heads/main"))])
        self.assert_judged(answer.stdout, None, None, None, None)


class OneLine(Recording):
    """A recording goes into ./crashmap on the same line, and no size of the disk is named."""

    def setUp(self):
        super().setUp()
        room = tempfile.TemporaryDirectory()
        self.addCleanup(room.cleanup)
        self.top = pathlib.Path(room.name)
        for name in ("crashmap", "crashmap-record", "crashmap-page", "HANDLES", "launch", "record"):
            (self.top / name).symlink_to(ROOT / name)
        (self.top / "crates.txt").write_text("crashmap:\n")
        kept = self.top / "out/proved"
        kept.mkdir(parents=True)
        (kept / "crashmap").symlink_to(program().resolve())
        (kept / "crashmap.built").write_text("crashmap:\n")

    def shell(self, command):
        """What a command prints, where `top` is this repository with a built program."""
        return subprocess.run(["bash", "-c", f"set -o pipefail; {command}"], cwd=self.folder, capture_output=True,
                              text=True, check=False, timeout=600, stdin=subprocess.DEVNULL,
                              env=os.environ | {"top": str(self.top)})

    def test_one_line(self):
        for command, status in (("echo new > g; mv g f", 0), ("echo new > f", 1)):
            answer = self.shell(f"$top/crashmap-record -- sh -c '{command}' | $top/crashmap --module meta --decide")
            self.assertEqual((answer.returncode, answer.stderr), (status, ""))
            self.assertRegex(answer.stdout, r"^module meta\npatches \d+\nclosed \d+\n")
            self.assertEqual("fault 10 broken promise: line 8" in answer.stdout, status == 1)

    def test_page(self):
        """The page has the text of the script, and so the real names."""
        answer = self.shell("$top/crashmap-record -- sh -c 'echo new > G; mv G f' | "
                            "CRASHMAP_PROGRAM=$top/crashmap $top/crashmap-page --module soft --decide")
        self.assertEqual((answer.returncode, answer.stderr), (1, ""))
        self.assertIn("# /g is G\\ncreate /f\\n", answer.stdout)

    def test_no_script(self):
        """Where nothing is recorded, crashmap says that there is no script."""
        answer = self.shell("$top/crashmap-record -- true | $top/crashmap --module meta --decide")
        self.assertEqual((answer.returncode, answer.stdout), (2, ""))
        self.assertRegex(answer.stderr, "crashmap-record: the command changed nothing in this directory\n")

    def test_examples(self):
        """The examples in the documents, where the program that they record is installed."""
        for document in EXAMPLES:
            for command, output in examples_in(document):
                if shutil.which(re.search(r" -- (\S+)", command)[1]):
                    with self.subTest(document.name, command=command):
                        (self.folder / "f").write_text("hello\n")
                        answer = self.shell(command.replace("../crashmap", "$top/crashmap"))
                        self.assertEqual(steps_with_any_name(answer.stdout), steps_with_any_name(output))
                        self.assertEqual(answer.stderr, "")


def examples_in(document):
    """The commands of a document that record something, each with what it prints."""
    blocks = re.findall(r"^```\n(.*?)^```$", document.read_text(), re.MULTILINE | re.DOTALL)
    found = re.findall(r"^\$ (.*)\n((?:(?!\$ ).*\n)*)", "".join(blocks), re.MULTILINE)
    return [it for it in found if "crashmap-record" in it[0]]


def steps_with_any_name(output):
    """The output, with one name in place of those that `sed -i` makes up.

    The comment that gives the real name is left out. A name of small letters and digits alone has none.
    """
    steps = re.sub(r"^# /sed\w{6} is sed\w{6}\n", "", output, flags=re.MULTILINE)
    return re.sub(r"\bsed\w{6}\b", "sed", steps)


class Documents(unittest.TestCase):
    def test_examples_are_found(self):
        self.assertEqual([len(examples_in(it)) for it in EXAMPLES], [2, 2])

    def test_any_name(self):
        """Two recordings of one program are alike, whether its made-up name needs a comment or not."""
        self.assertEqual(steps_with_any_name("start\n# /sedab1cde is sedAb1cdE\ncreate /sedab1cde\n"),
                         steps_with_any_name("start\ncreate /sedx2yz34\n"))


def load_tests(loader, tests, _):
    """All tests, or those alone that need no strace where it cannot trace."""
    if can_trace():
        return tests
    print("tests, record_programs: strace cannot trace here, so nothing is recorded")
    return loader.loadTestsFromTestCase(Documents)


if __name__ == "__main__":
    unittest.main()
