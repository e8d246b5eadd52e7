"""crashmap-judge: the table of file systems, the forms of an outcome, and what is said of commands."""

import json
import os
import re
import subprocess
import types
import unittest
from xml.etree import ElementTree

from judge.asking import Asker, Refused
from judge.cures import smallest_meeting
from judge.formats import FORMATS
from judge.outcome import BROKEN, KEPT, Cure, Outcome, Verdict, baseline
from judge.systems import systems
from judge.telling import Telling
from record.command import ERROR, NOTHING
from record.recording import Promise
from record.script import Cause, Line
from tests.program import ROOT, program
from tests.recording import PYTHON, Recording, can_trace

JUDGE = ROOT / "crashmap-judge"
REFERENCE = ROOT / "page/test/reference"
EXAMPLE = r"^\$ \.\./crashmap-judge (.*)\n((?:(?!```).*\n)*)```$"
NAMES = ("unordered", "ffs", "ext3", "xfs", "ext4", "writeback", "journal")
SIZES = ("--blocks", "128", "--journal", "62")
SAVE = ("g = open('g', 'w'); g.write('new'); g.flush()", "g.close(); os.replace('g', 'f')")


def save(*between):
    """A program that saves `f` by a new file and a rename, with these statements before the rename."""
    return PYTHON, "-c", "; ".join(["import os", SAVE[0], *between, SAVE[1]])


def environment():
    return {**os.environ, "CRASHMAP_PROGRAM": str(program() if program().exists() else ROOT / "crashmap")}


class Systems(unittest.TestCase):
    def test_names(self):
        self.assertEqual(tuple(systems()), NAMES)

    def test_each_says_what_is_known(self):
        for it in systems().values():
            with self.subTest(it.name):
                self.assertTrue(all((it.title, it.mounts, it.known, it.sources, it.left_out)))
                self.assertEqual(it.recordings[0], ())

    def test_crashmap_takes_the_options(self):
        for it in systems().values():
            run = subprocess.run([environment()["CRASHMAP_PROGRAM"], *SIZES, *it.options, "--decide"],
                                 input=b"start\ncreate /a\n", capture_output=True, check=False)
            with self.subTest(it.name):
                self.assertIn(run.returncode, (0, 1))

    def test_the_document_has_the_table(self):
        text = (ROOT / "docs/JUDGING.md").read_text()
        for it in systems().values():
            late = f"none, and `{' '.join(it.recordings[1])}` " if it.recordings[1:] else ""
            front = f"| {it.name} | {it.title} | {', '.join(it.mounts)} | `{' '.join(it.options)}` | {late}|"
            self.assertIn(f"{front}\n", text)


def outcome(known=frozenset()):
    """An outcome with a broken promise on one file system, and one that was not judged."""
    chosen = tuple(systems()[it] for it in ("ffs", "ext3", "journal"))
    fsync = types.SimpleNamespace(path="g", cause=Cause(2, 'write("g", 3)'))
    verdicts = (Verdict("ffs", ("f",), "empty", told="f is empty"), Verdict("ffs", ("n|m",), "kept", False),
                Verdict("ext3", ("f",), "kept"), Verdict("ext3", ("n|m",), "kept", False),
                Verdict("journal", ("f",), "unknown", told="no room"), Verdict("journal", ("n|m",), "kept", False))
    return Outcome("cp g f", chosen, verdicts, Cure((fsync,), ("ffs",)), ("Note: a note.",), known)


class Forms(unittest.TestCase):
    SENTENCES = ["On ffs: f is empty.", "On journal: no room.",
                 'What helps on ffs: fsync g behind call 2, write("g", 3).', "Note: a note."]

    def test_text(self):
        table = ["         f             n|m", "ffs      may be empty  absent or whole",
                 "ext3     old or new    absent or whole", "journal  not judged    absent or whole", ""]
        self.assertEqual(FORMATS["text"](outcome()).splitlines(), table + self.SENTENCES)

    def test_a_table_that_is_too_wide(self):
        """Files that do not fit beside each other are in two tables."""
        many = [Verdict("ffs", (f"a file with a rather long name {it}",), "kept") for it in range(4)]
        made = Outcome("x", (systems()["ffs"],), tuple(many), Cure(), ())
        lines = FORMATS["text"](made).splitlines()
        self.assertEqual([it.count("old or new") for it in lines], [0, 2, 0, 0, 2])

    def test_json(self):
        found = json.loads(FORMATS["json"](outcome()))
        self.assertEqual((found["command"], found["status"], found["notes"]), ("cp g f", BROKEN, ["Note: a note."]))
        self.assertEqual(found["systems"][0]["verdicts"][0], {
            "files": ["f"], "state": "empty", "verdict": "may be empty", "known": False, "sentence": "f is empty"})
        self.assertEqual(found["cure"]["fsyncs"], [{"file": "g", "call": 2, "behind": 'write("g", 3)'}])

    def test_markdown(self):
        lines = FORMATS["markdown"](outcome()).splitlines()
        self.assertEqual(lines[2:5], ["| file system | `f` | `n\\|m` |", "|---|---|---|",
                                      "| ffs (soft updates) | **may be empty** | absent or whole |"])
        self.assertEqual(lines[-4:], [f"- {it}" for it in self.SENTENCES])

    def test_junit(self):
        root = ElementTree.fromstring(FORMATS["junit"](outcome()).encode())
        self.assertEqual([(it.get("name"), it.get("tests"), it.get("failures"), it.get("errors")) for it in root],
                         [("ffs", "2", "1", "0"), ("ext3", "2", "0", "0"), ("journal", "2", "0", "1")])
        self.assertEqual(root.find(".//failure").get("message"), "may be empty: f is empty")

    def test_status(self):
        known = baseline(FORMATS["json"](outcome()))
        self.assertEqual((outcome().status(), outcome(known).status()), (BROKEN, ERROR))
        self.assertIn("may be empty (known)", FORMATS["text"](outcome(known)))
        self.assertEqual(ElementTree.fromstring(FORMATS["junit"](outcome(known)).encode())[0].get("skipped"), "1")

    def test_no_baseline(self):
        for text in ("", "[]", "{}", '{"systems": [1]}'):
            with self.subTest(text), self.assertRaises(ValueError):
                baseline(text)

    def test_smallest_set(self):
        self.assertEqual(smallest_meeting([{1, 2}, {2, 3}], [1, 2, 3]), (2,))
        self.assertEqual(smallest_meeting([{1}, {3}, {2, 3}], [1, 2, 3]), (1, 3))
        self.assertEqual((smallest_meeting([], [1]), smallest_meeting([set()], [1])), ((), None))

    def test_refusals(self):
        self.assertEqual([Refused(it).is_no_room() for it in ("crashmap: line 9: 2 too many patches",
                                                              "crashmap: line 9: 20 journal full",
                                                              "crashmap: line 9: 10 not found")], [True, True, False])
        with self.assertRaises(Refused):
            Asker().ask("start\nunlink /a\n", (*SIZES, "--decide"))


class Tellings(unittest.TestCase):
    """What is said of a promise whose crash is known, of a script that no command was recorded for."""

    SCRIPT = "create /f\nwrite /f\noverwrite /f\nstart\nhold /f\noverwrite /f 0\nspare /f /f\nhold /f\n"

    def verdict(self, promise):
        call = Cause(7, 'write("f", 4)')
        recording = types.SimpleNamespace(lines={6: Line("overwrite /f 0", ("f",), (call,))})
        report = json.loads(subprocess.run(
            [environment()["CRASHMAP_PROGRAM"], *SIZES, *"--faults 10 --decide --explain --json --numbers".split()],
            input=self.SCRIPT.encode(), capture_output=True, check=False).stdout)
        return Telling(systems()["ffs"], recording, report, promise, {}).verdict()

    def test_older_than_its_fsync(self):
        """What an earlier promise of the file allows is older."""
        told = "if the power fails behind call 7, write(\"f\", 4), before it is on the disk"
        found = [self.verdict(Promise(8, kind, ("f",), True)) for kind in ("fsync", "lasting", "hold")]
        self.assertEqual([(it.state, it.told) for it in found], [
            ("older", f"f is older than its fsync {told}"),
            ("undone", f"f is old although the command has ended {told}"), ("torn", f"f is torn {told}")])


class Judged(Recording):
    """Commands that run in a directory with a file `f`."""

    def judge(self, *words, **more):
        return subprocess.run([JUDGE, *words], cwd=self.folder, capture_output=True, text=True, check=False,
                              stdin=subprocess.DEVNULL, timeout=1200, env={**environment(), **more})

    def found(self, *words, status=BROKEN, **more):
        """The outcome of a command that is judged, with the words of each file's verdicts."""
        answer = self.judge("--format", "json", *words, **more)
        self.assertEqual(answer.returncode, status, answer.stderr)
        found = json.loads(answer.stdout)
        found["words"] = {}
        for it in found["systems"]:
            for verdict in it["verdicts"]:
                found["words"].setdefault(" ".join(verdict["files"]), []).append(verdict["verdict"])
        found["sentences"] = [it["sentence"] for row in found["systems"] for it in row["verdicts"] if it["sentence"]]
        return found

    def test_rename_without_fsync(self):
        found = self.found("--", *save())
        self.assertEqual(found["words"], {"f": ["may be gone", "may be empty", "old or new", "may be empty",
                                                "old or new", "may be empty", "old or new"]})
        self.assertRegex(found["sentences"][1], r'^f is empty if the power fails behind call \d+, rename\("g", "f"\), '
                         "before the data of g are on the disk$")
        cure = found["cure"]
        self.assertEqual((cure["systems"], [(it["file"], it["behind"]) for it in cure["fsyncs"]]),
                         (["ffs", "xfs", "writeback"], [("g", 'write("g", 3)')]))
        self.assertEqual(list(cure["hopeless"].values()), [["unordered"]])

    def test_rename_with_fsync(self):
        found = self.found("--on", "ffs,ext3,xfs,ext4,writeback,journal", "--", *save("os.fsync(g.fileno())"),
                           status=KEPT)
        self.assertEqual(found["words"], {"f": ["old or new"] * 6})

    def test_truncation(self):
        """No file system keeps a file that is emptied and written, and no fsync helps."""
        found = self.found("--", "sh", "-c", "echo new > f")
        self.assertEqual(found["words"], {"f": ["may be empty"] * 7})
        self.assertRegex(found["sentences"][0], r'^f is empty if the power fails behind call \d+, openat\("f", .*TRUNC'
                         r'.*before call \d+, write\("f", 4\), is on the disk$')
        (why, names), = found["cure"]["hopeless"].items()
        self.assertEqual((tuple(names), found["cure"]["fsyncs"]), (NAMES, []))
        self.assertRegex(why, "empties the file itself: write a new file, fsync it, and rename it over f")

    def test_delete_and_rename(self):
        """ext4 writes a file out where it is renamed onto another one, but not where that was deleted before."""
        found = self.found("--on", "ext3,ext4", "--spare", "f", "g", "--", "sh", "-c", "echo new > g; rm f; mv g f")
        self.assertEqual(found["words"], {"f": ["old or new", "may be gone"]})

    def test_a_backup_that_is_late(self):
        """A copy stands in for the file that is emptied, where it has its blocks by then."""
        found = self.found("--on", "ext3,xfs", "--spare", "f", "g", "--", "sh", "-c", "cp f g; echo new > f; rm g")
        self.assertEqual(found["words"], {"f": ["old or new", "may be empty"]})
        self.assertRegex(found["sentences"][0], "before call .* is on the disk")
        self.assertEqual([it["file"] for it in found["cure"]["fsyncs"]], ["g", "f"])

    def test_kept(self):
        self.assertEqual(self.found("--", "sh", "-c", "echo new >> f", status=KEPT)["words"],
                         {"f": ["old or new"] * 7})

    def test_nothing(self):
        answer = self.judge("--", "true")
        self.assertEqual((answer.returncode, answer.stdout), (NOTHING, ""))
        self.assertIn("changed nothing", answer.stderr)

    def test_new_file(self):
        found = self.found("--on", "ext3,xfs", "--", "sh", "-c", "echo new > n.tmp; mv n.tmp n")
        self.assertEqual(found["words"], {"n": ["absent or whole", "may be empty"]})

    def test_lasting(self):
        found = self.found("--on", "ext3", "--lasting", "--", *save("os.fsync(g.fileno())"))
        self.assertEqual(found["words"], {"f": ["may be old at the end"]})
        self.assertRegex(found["sentences"][0], "f is old although the command has ended if the power fails behind "
                         r'call \d+, rename\("g", "f"\), before it is on the disk')
        self.assertEqual([it["file"] for it in found["cure"]["fsyncs"]], ["f"])

    def test_together(self):
        (self.folder / "e").write_text("old\n")
        found = self.found("--on", "journal", "--together", "--", "sh", "-c", "echo new >> e; echo new >> f")
        self.assertEqual(found["words"], {"e f": ["may be torn"]})
        self.assertRegex(found["sentences"][0], r"e is new and f is old if the power fails behind call \d+, .*, before "
                         r'call \d+, write\("f", 4\), is on the disk')

    def test_a_directory_that_is_renamed(self):
        """It becomes several lines of one call, and behind that there is nothing of the old name to force."""
        (self.folder / "d").mkdir()
        (self.folder / "d/g").write_text("old\n")
        found = self.found("--on", "ffs", "--lossy", "--", "mv", "d", "e")
        self.assertEqual(found["words"], {"d/g": ["may be gone"], "e/g": ["absent or whole"]})

    def test_in_order(self):
        """Where data may be written in any order, an fsync of the first file helps."""
        (self.folder / "e").write_text("old\n")
        found = self.found("--on", "ext3,journal", "--in-order", "e", "f", "--", "sh", "-c", "echo x >> e; echo x >> f")
        self.assertEqual(found["words"], {"e f": ["may be torn", "old or new"]})
        self.assertEqual([it["file"] for it in found["cure"]["fsyncs"]], ["e"])

    def test_merged(self):
        """More writes than the patches hold are put together, and the outcome says so."""
        code = "import os; d = os.open('f', os.O_WRONLY | os.O_APPEND); [os.write(d, b'x') for _ in range(70)]"
        found = self.found("--on", "unordered,journal", "--", PYTHON, "-c", code, status=KEPT)
        self.assertRegex(found["notes"][0], "^On unordered and journal there is no room for each write")

    def test_baseline(self):
        before = self.folder.parent / f"{self.folder.name}-before"
        self.addCleanup(lambda: before.unlink(missing_ok=True))
        words = ("--format", "json", "--on", "ffs", "--", "sh", "-c", "echo new > f")
        self.assertEqual(self.judge("-o", str(before), *words).returncode, BROKEN)
        self.assertEqual(self.judge("--baseline", str(before), *words).returncode, KEPT)
        other = (*words[:-1], "echo new > n; mv n f")
        self.assertEqual(self.judge("--baseline", str(before), *other).returncode, KEPT)
        self.assertEqual(self.judge("--baseline", str(before), *words[:-1], "rm f; echo new > f").returncode, BROKEN)

    def test_errors(self):
        for words, text in ((("--", "no-such-command"), "there is no command no-such-command"),
                            (("--on", "zfs", "--", "true"), "'zfs' is none of unordered, ffs"),
                            (("--baseline", "f", "--", "true"), "f cannot be read"), ((), "there is no COMMAND"),
                            (("--delay", "--", "true"), "is none of the judge's options")):
            with self.subTest(words):
                answer = self.judge(*words)
                self.assertEqual((answer.returncode, answer.stdout), (ERROR, ""))
                self.assertIn(text, answer.stderr)

    def test_reference(self):
        """The reference program gives the same verdicts and the same cure."""
        words = ("--on", "ffs,ext4", "--", "sh", "-c", "echo new > g; mv g f")
        found = [self.found(*words)]
        (self.folder / "f").write_text("hello\n")
        found.append(self.found(*words, CRASHMAP_PROGRAM=str(REFERENCE)))
        same = [(it["words"], [one["file"] for one in it["cure"]["fsyncs"]], it["cure"]["systems"]) for it in found]
        self.assertEqual(same[0], same[1])
        self.assertEqual(same[0], ({"f": ["may be empty", "old or new"]}, ["g"], ["ffs"]))

    def test_examples(self):
        """The documents show what the judge prints, but for numbers of calls and made-up names."""
        for name in ("README.md", "docs/JUDGING.md"):
            text = (ROOT / name).read_text()
            command, wanted = re.search(EXAMPLE, text, re.MULTILINE).groups()
            (self.folder / "f").write_text("hello\n")
            answer = subprocess.run(["sh", "-c", f"{JUDGE} {command}"], cwd=self.folder, capture_output=True, text=True,
                                    check=False, env=environment())
            plain = [re.sub(r"sed\w{6}|call \d+", "X", it) for it in (answer.stdout, wanted)]
            with self.subTest(name):
                self.assertEqual(plain[0], plain[1])


def load_tests(loader, tests, _):
    """All tests, or those alone that need no strace where it cannot trace."""
    if can_trace():
        return tests
    print("tests, judge: strace cannot trace here, so nothing is judged")
    return unittest.TestSuite(map(loader.loadTestsFromTestCase, (Systems, Forms)))


if __name__ == "__main__":
    unittest.main()
