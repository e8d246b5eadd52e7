"""What a recorded script promises: old or new, what stands in, absent or whole, and what must be told."""

import os
import shutil
import subprocess
import tempfile
import unittest

from record.merging import merged
from record.tree import Node
from record.world import Event
from tests.recording import PYTHON, Judged, can_trace, steps_of

LOG = """
import os
log = open('f', 'a')
for _ in range(5):
    log.write('line')
    log.flush()
    os.fsync(log)
"""
NAMELESS = """
import os
new = os.open('.', os.O_TMPFILE | os.O_RDWR)
os.write(new, b'new')
FORCE
os.link(f'/proc/self/fd/{new}', 'g', src_dir_fd=new)
"""
TABLE = "create table t(x); insert into t values(1);"


class OldOrNew(Judged):
    """A file holds what it held before the command, or what it holds in the end."""

    BETWEEN = (": > f; echo new >> f", "truncate -s 0 f; echo new > f", "mv $(mktemp -p .) f; echo new > f",
               f"{PYTHON} -c 'open(\"f\", \"w\").close(); open(\"f\", \"a\").write(\"new\")'")

    def test_between(self):
        """Whatever the file held in between is not allowed, though it was closed for a while."""
        for command in self.BETWEEN:
            with self.subTest(command):
                self.make_directory()
                script = self.script("--", "sh", "-c", command)
                self.assert_judged(script, "gone" if "mktemp" in command else "empty", "empty", "empty", "empty")

    def test_each_close(self):
        """What it held when it was closed is allowed, if that is asked for."""
        for command in self.BETWEEN[:2]:
            with self.subTest(command):
                self.make_directory()
                script = self.script("--each-close", "--", "sh", "-c", command)
                self.assertEqual(steps_of(script)[0].count("spare /f /f"), 2)
                self.assert_kept(script)
        self.make_directory()
        # A process ends with two descriptors of one file.
        twice = "sh -c 'exec >> f 2>&1; echo a'; echo b >> f; echo c >> f"
        script = self.script("--each-close", "--", "sh", "-c", twice)
        self.assertEqual(steps_of(script)[0].count("spare /f /f"), 3)
        script = self.script("--each-close", "--", "sh", "-c", "(echo a; echo b) >> f")
        self.assert_judged(script, *["torn"] * 4)

    def test_each_fsync(self):
        """A log keeps what an fsync acknowledged, and loses nothing of it later."""
        words = ["--", PYTHON, "-c", LOG]
        self.assert_steps(["--each-fsync", *words], *["overwrite /f 0", "fsync /f", "spare /f /f", "hold /f"] * 5)
        self.assert_kept(self.script("--each-fsync", *words))
        self.assert_judged(self.script(*words), *["torn"] * 4)
        self.assert_judged(self.script("--each-fsync", "--", "sh", "-c", "echo a >> f; echo b >> f"), *["torn"] * 4)

    def test_nothing_older_after_an_fsync(self):
        """What was acknowledged by an fsync is not lost to something older, by an fsync that forces too little."""
        save = "echo {0} > g; sync g; mv g f; sync {1};"
        script = self.script("--each-fsync", "--", "sh", "-c", "".join(save.format(it, ".") for it in "ab"))
        self.assertEqual(steps_of(script)[0].count("hold /f"), 3)
        self.assert_broken(script, ["hold /f"] * 2, [], [], [])
        (self.folder / "f").write_text("hello\n")
        script = self.script("--each-fsync", "--", "sh", "-c", "echo a > g; sync g; mv g f; echo b > g; mv g f; sync f")
        self.assert_judged(script, "gone", "empty", None, None)

    def test_a_new_log(self):
        """A log that the command begins may be empty until the first fsync, and a file with one close may not."""
        (self.folder / "f").unlink()
        script = self.script("--each-fsync", "--", PYTHON, "-c", LOG)
        self.assert_judged(script, "torn", None, None, None)
        (self.folder / "f").unlink()
        script = self.script("--each-close", "--", "sh", "-c", "echo new > f")
        self.assert_judged(script, *["empty"] * 4)

    def test_contents_that_would_read_alike(self):
        """A file that is cut to nothing twice does not read the second time as it read the first time."""
        (self.folder / "f").write_text("")
        script = self.assert_steps(
            ["--", "sh", "-c", "echo a > f; echo b > f"], "write /f", "truncate /f", "write /f", "overwrite /f 0",
            "spare /f /f", base=("create /f", "start", "hold /f"))
        self.assert_judged(script, *["torn"] * 4)
        self.make_directory()
        script = self.script("--lasting", "--", "sh", "-c", "(echo a; echo b) > f")
        self.assertEqual(steps_of(script)[0][:7], ["create /f", "write /f", "overwrite /f", "overwrite /f", "start",
                                                   "hold /f", "truncate /f"])
        script = self.script("--", "sh", "-c", "for i in 1 2 3; do echo $i > g; mv g f; done")
        self.assertIn("write /g\n# written over once more, so that it reads unlike", script)

    def test_in_order(self):
        """The new contents of one file are never there with the old ones of another."""
        (self.folder / "g").write_text("hello\n")
        command = "echo new >> f; {} echo new >> g"
        script = self.script("--in-order", "f", "g", "--", "sh", "-c", command.format(""))
        self.assert_broken(script, *[["keep /f /g"]] * 3, [])
        script = self.script("--in-order", "f", "g", "--", "sh", "-c", command.format("sync f;"))
        self.assert_kept(script)
        self.assert_refused(["--in-order", "f", "h", "--", "sh", "-c", "echo > f"], "--in-order h: there is no such")


class StandIns(Judged):
    """What a backup or a journal is worth, and from when on."""

    def test_a_copy(self):
        """It counts with what it holds when the file is about to be changed."""
        self.assert_steps(["--spare", "f", "f~", "--", "sh", "-c", "cp f f~; sync f~; echo new > f"],
                          "create /ftilde", "write /ftilde", "fsync /ftilde", "spare /f /ftilde", "truncate /f",
                          "write /f", "spare /f /f")

    def test_a_copy_that_is_emptied(self):
        """It counts no more."""
        script = self.script("--spare", "f", "f~", "--", "sh", "-c", "cp f f~; sync f~; echo new > f; : > f~")
        self.assert_broken(script, ["hold /f"], ["hold /f"], [], [])
        self.assertEqual(steps_of(script)[0].count("spare /f /ftilde"), 1)

    def test_a_name(self):
        """It counts from the rename or the link that gives it the contents."""
        for command, word in (("mv f f~; echo new > f", "rename"), ("ln f f~; echo new > g; mv g f", "link")):
            with self.subTest(command):
                self.make_directory()
                steps = steps_of(self.script("--spare", "f", "f~", "--", "sh", "-c", command))[0]
                self.assertEqual(steps[steps.index(f"{word} /f /ftilde") + 1], "spare /f /ftilde")

    def test_a_file_of_two_names(self):
        """A second name is no backup where the file itself is written."""
        script = self.script("--spare", "f", "f~", "--", "sh", "-c", "ln f f~; echo a >> f; echo b >> f")
        self.assertEqual(steps_of(script)[0].count("spare /f /ftilde"), 1)
        self.assert_judged(script, *["torn"] * 4)
        self.assert_refused(["--spare", "f", "f~", "--", "sh", "-c", "echo c >> f"], "f and f~ are one file")

    def test_one_journal_for_two_files(self):
        (self.folder / "g").write_text("hello\n")
        command = "cat f g > wal; sync wal; echo new > f; echo new > g; sync f g; rm wal"
        script = self.script("--spare", "f", "wal", "--spare", "g", "wal", "--", "sh", "-c", command)
        self.assertEqual([it for it in steps_of(script)[0] if "spare" in it and "wal" in it],
                         ["spare /f /wal", "spare /g /wal"])
        self.assert_kept(script)

    def test_one_that_was_there_before(self):
        """It counts from the change that the command makes to it."""
        (self.folder / "f~").write_text("stale\n")
        self.assert_refused(["--spare", "f", "f~", "--", "sh", "-c", "echo new > f; cp f f~"],
                            "the command does not change f~ before f")
        self.assert_steps(["--spare", "f", "f~", "--", "sh", "-c", "cp f f~; echo new > f"], "truncate /ftilde",
                          "write /ftilde", "spare /f /ftilde", "truncate /f", "write /f", "spare /f /f",
                          base=("create /f", "write /f", "overwrite /f", "create /ftilde", "write /ftilde",
                                "overwrite /ftilde", "start", "hold /f"))

    def test_one_that_never_counts(self):
        (self.folder / "g").write_text("hello\n")
        for words, why in ((["--spare", "f", "f.bak"], "there is no f.bak when f is changed"),
                           (["--spare", "h", "f~"], "the command does not change h"),
                           (["--spare", "f", "g"], "the command does not change g before f"),
                           (["--spare", "f", "e"], "e is empty when f is changed"),
                           (["--spare", "f", "f~", "--keep", "g"], "no promise is made of f"),
                           (["--spare", "f", "f~", "--together", "--keep", "f", "--keep", "g"], "with --together no")):
            with self.subTest(why):
                command = "cp f f~; : > e; echo new > f; rm e"
                self.assert_refused([*words, "--", "sh", "-c", command],
                                    f"^crashmap-record: --spare {words[1]} {words[2]} never counts: {why}")

    def test_delayed(self):
        """A backup counts though its blocks come too late, and then nothing stands in for the file."""
        words = ["--delay", "--spare", "f", "f~", "--", "sh", "-c"]
        self.assert_steps([*words, "cp f f~; echo new > f; rm f~"], "create /ftilde", "truncate /f", "unlink /ftilde",
                          "write /f", "spare /f /f")
        self.assert_steps([*words, "cp f f~; sync f~; echo new > f; rm f~"], "create /ftilde", "write /ftilde",
                          "fsync /ftilde", "spare /f /ftilde", "truncate /f", "unlink /ftilde", "write /f",
                          "spare /f /f")

    def test_no_promise_of_its_own(self):
        script = self.script("--spare", "f", "f.gz", "--", "gzip", "f")
        self.assertEqual([it for it in steps_of(script)[0] if it.startswith("hold")], ["hold /f"])

    @unittest.skipUnless(shutil.which("sqlite3"), "sqlite3 is not installed")
    def test_sqlite(self):
        """A journal that is cut to nothing counts no more, so the database has to be forced before that."""
        for mode in ("delete", "truncate", "persist"):
            with self.subTest(mode):
                self.make_directory()
                (self.folder / "f").unlink()
                subprocess.run(["sqlite3", "f", TABLE], cwd=self.folder, check=True)
                answer = self.record("--spare", "f", "f-journal", "--merge", "--", "sqlite3", "-init", "/dev/null", "f",
                                     f"pragma journal_mode={mode}; update t set x = x + 1;")
                self.assertEqual((answer.returncode, answer.stderr), (0, f"{mode}\n"))
                both = ["fsync /fjournal", "fsync /f"]
                self.assert_needed(answer.stdout, soft=both, meta=both)


class NewFiles(Judged):
    """A file that was not there before is absent or whole."""

    def test_a_new_file(self):
        script = self.assert_steps(["--", "sh", "-c", "echo new > g"], "create /g", "write /g", "spare /g /g",
                                   base=("start", "hold /g"))
        self.assert_judged(script, *["empty"] * 4)

    def test_whole_at_once(self):
        """A first crontab, and a message in a Maildir: what is forced gets its name at once."""
        (self.folder / "d").mkdir()
        for command in ("echo new > t; sync t; mv t g", "echo new > d/t; sync d/t; ln d/t g; rm d/t"):
            with self.subTest(command):
                self.assert_kept(self.script("--", "sh", "-c", command))
                (self.folder / "g").unlink()

    @unittest.skipUnless(shutil.which("xz"), "xz is not installed")
    def test_xz(self):
        script = self.assert_steps(["--", "xz", "f"], "create /fxz", "write /fxz", "unlink /f", "spare /fxz /fxz",
                                   base=("create /f", "write /f", "overwrite /f", "start", "hold /fxz"))
        self.assertIn("# no promise is made of f, which is deleted (--spare names what stands in for it)", script)
        self.assert_judged(script, *["empty"] * 4)

    def test_moved_from_another_file_system(self):
        with tempfile.NamedTemporaryFile(dir="/var/tmp", delete=False) as other:
            other.write(b"new")
        if os.stat(other.name).st_dev == os.stat(self.folder).st_dev:
            return
        answer = self.record("--", "mv", other.name, "g")
        self.assertEqual(steps_of(answer.stdout)[0][:4], ["start", "hold /g", "create /g", "write /g"])
        self.assertIn(f"{other.name} is outside the directory", answer.stderr)

    def test_moved(self):
        """A file that has another name in the end is never lost."""
        script = self.assert_steps(["--", "mv", "f", "g"], "rename /f /g", "spare /f /g", "spare /g /g",
                                   base=("create /f", "write /f", "overwrite /f", "start", "hold /f", "hold /g"))
        self.assert_broken(script, ["hold /f"], [], [], [])
        self.make_directory()
        steps = steps_of(self.script("--", "sh", "-c", "mv f g; echo more >> g"))[0]
        self.assertEqual(steps[-4:], ["spare /f /g", "overwrite /g 0", "spare /f /g", "spare /g /g"])

    def test_most_new(self):
        command = "for i in 1 2 3; do echo > n$i; done; echo new >> f"
        self.assertEqual(self.script("--", "sh", "-c", command).count("\nhold"), 4)
        for path in self.folder.glob("n*"):
            path.unlink()
        script = self.script("--most-new", "2", "--", "sh", "-c", command)
        self.assertEqual([it for it in steps_of(script)[0] if it.startswith("hold")], ["hold /f"])
        self.assertIn("# no promise is made of the 3 files that are new, since they are more than --most-new 2", script)


class Merging(unittest.TestCase):
    def test_neighbours(self):
        """Writes of one file right behind each other become one for each block, and nothing else changes."""
        one, other = Node("file"), Node("file")
        events = [Event("block", number, node, slot=slot, pages=pages) for number, node, slot, pages in (
            (1, one, 0, 2), (1, one, 1, 1), (2, one, 0, 1), (3, other, 0, 1), (4, one, 0, 1))]
        events += [Event("fsync", 5, one), Event("fsync", 6, one), Event("block", 7, one, slot=0)]
        self.assertEqual([(it.kind, it.call, it.slot, it.pages, it.writes, it.merged) for it in merged(events)], [
            ("block", 1, 0, 1, 3, (2,)), ("block", 1, 1, 1, 1, ()), ("block", 3, 0, 1, 1, ()),
            ("block", 4, 0, 1, 1, ()), ("fsync", 5, None, 1, 1, ()), ("fsync", 6, None, 1, 1, ()),
            ("block", 7, 0, 1, 1, ())])


class Merged(Judged):
    def test_merge(self):
        """Neighbouring writes become one line, and a comment says where and whose."""
        script = self.script("--merge", "--", "sh", "-c", "(echo a; echo b) > g; mv g f")
        self.assertRegex(script, r"\ncreate /g\n# merged: the next line stands for 2 writes, by the calls: \d+ \d+\n"
                                 r"write /g\nreplace /g /f\n")
        self.assertIn("\n# merged: 1 of the lines, each for several writes, between which no crash comes\n", script)
        self.assert_judged(script, "gone", "empty", None, None)
        self.assert_judged(self.script("--", "sh", "-c", "(echo a; echo b) > g; mv g f"), "gone", "empty", "torn", None)

    def test_what_is_not_neighbouring(self):
        """A close, or a write of another file, stands between."""
        for command in ("echo a >> f; echo b >> f", "exec >> f 2>> g; echo a; echo b >&2; echo c"):
            with self.subTest(command):
                script = self.script("--merge", "--", "sh", "-c", command)
                self.assertEqual(steps_of(script)[0].count("overwrite /f 0"), 2)

    def test_pages(self):
        (self.folder / "f").write_bytes(bytes(16384))
        program = "import os; os.pwrite(os.open('f', os.O_WRONLY), bytes(16384), 0)"
        words = ["--block", "16384", "--", PYTHON, "-c", program]
        self.assert_judged(self.script(*words), *["torn"] * 4)
        script = self.script("--merge", *words)
        self.assertRegex(script, r"# merged: the next line stands for 4 writes, by the calls: \d+\noverwrite /f 0\n")
        self.assert_kept(script)


class Lossy(Judged):
    def test_a_file_without_a_name(self):
        """It is written where it is, and then gets its name at once."""
        for force, forced, left in (("", [], "empty"), ("os.fsync(new)", ["fsync /nameless1"], None)):
            with self.subTest(force):
                program = NAMELESS.replace("FORCE", force)
                self.assert_refused(["--", PYTHON, "-c", program], "a file without a name .O_TMPFILE.")
                (self.folder / "g").unlink()
                answer = self.record("--lossy", "--", PYTHON, "-c", program)
                self.assertEqual(steps_of(answer.stdout)[0], [
                    "start", "hold /g", "create /nameless1", "write /nameless1", *forced, "rename /nameless1 /g",
                    "spare /g /g"])
                self.assert_judged(answer.stdout, left, left, None, None)
                (self.folder / "g").unlink()

    def test_a_file_from_outside(self):
        """It takes the name of a file that is there at once."""
        (self.folder / "in").mkdir()
        for place, *steps in (("f", "replace /outside1 /f"), ("g", "rename /outside1 /g")):
            with self.subTest(place):
                (self.folder / "in/f").write_text("hello\n")
                (self.folder / "out").write_text("new\n")
                answer = self.record("--lossy", "--", "mv", "-f", "../out", place, within="in")
                self.assertEqual(answer.stderr, f"crashmap-record: {self.folder}/out is outside the directory, and is "
                                                "changed or renamed: the script does not have it\n")
                self.assertEqual(steps_of(answer.stdout)[0][-4:], ["create /outside1", "write /outside1", *steps,
                                                                   f"spare /{place} /{place}"])


def load_tests(loader, tests, _):
    """All tests, or those alone that need no strace where it cannot trace."""
    if can_trace():
        return tests
    print("tests, record_promises: strace cannot trace here, so nothing is recorded")
    return loader.loadTestsFromTestCase(Merging)


if __name__ == "__main__":
    unittest.main()
