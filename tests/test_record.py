"""`./crashmap-record` writes the script of what a command does to files, or says in a line why it cannot."""

import json
import os
import pathlib
import re
import shutil
import signal
import subprocess
import tempfile
import unittest

from tests.program import ROOT
from tests.recording import PYTHON, RECORDER, Recording, can_trace, steps_of


class Calls(Recording):
    """Which file and which block a call is about."""

    def test_two_names_of_a_directory(self):
        """Names that a program makes by descriptors of directories, after chdir, and by children."""
        (self.folder / "d").mkdir()
        program = ("import ctypes, os\nd = os.open('d', 0)\nos.mkdir('e', dir_fd=d)\nos.chdir('d')\n"
                   "if os.fork() == 0:\n  os.link('../f', 'e/g')\n  os._exit(0)\nos.wait()\n"
                   "os.fsync(d)\nos.unlink('e/g')\nos.rmdir('e')\nctypes.CDLL(None).syncfs(d)")
        self.assert_steps(["--keep", "f", "--", PYTHON, "-c", program], "mkdir /d/e", "link /f /d/e/g", "fsync /d",
                          "unlink /d/e/g", "rmdir /d/e", "sync",
                          base=("mkdir /d", "create /f", "write /f", "overwrite /f", "start", "hold /f"))

    def test_blocks(self):
        """Which block a write goes to: by the offset, at the end, by pwrite and by copies.

        What `g` holds at last would read like what it held before, so there is one line more.
        """
        program = ("import os\nf = os.open('f', os.O_RDWR | os.O_SYNC)\nos.write(f, bytes(9000))\n"
                   "os.pwrite(f, b'x', 4096)\n"
                   "g = os.open('g', os.O_RDWR | os.O_CREAT | os.O_EXCL | os.O_APPEND)\n"
                   "os.writev(g, [b'a', bytes(4096)])\n"
                   "h = os.dup(g)\nos.ftruncate(h, 0)\nos.lseek(f, 0, 0)\n"
                   "os.sendfile(os.open('g', os.O_WRONLY), f, None, 4097)")
        self.assert_steps(["--", PYTHON, "-c", program], "overwrite /f 0", "write /f", "write /f", "fsync /f",
                          "overwrite /f 1", "fsync /f", "create /g", "write /g", "write /g", "truncate /g", "write /g",
                          "overwrite /g 0", "write /g", "spare /f /f", "spare /g /g",
                          base=("create /f", "write /f", "overwrite /f", "start", "hold /f", "hold /g"))

    def test_each_write_is_a_line(self):
        """Calls that write one block are as many lines, and so are the pages of a block that --block made."""
        self.assert_steps(["--", "sh", "-c", "(echo a; echo b) >> f; echo c >> f"], *["overwrite /f 0"] * 3,
                          "spare /f /f")
        (self.folder / "f").write_bytes(bytes(16384))
        program = "import os; os.pwrite(os.open('f', os.O_WRONLY), bytes(16384), 0)"
        self.assert_steps(["--block", "16384", "--", PYTHON, "-c", program], *["overwrite /f 0"] * 4, "spare /f /f")

    def test_lengths(self):
        """A new length is a new end of the last block, or new blocks; the same length is nothing."""
        for command, *steps in (("truncate -s 4096 f", "overwrite /f 0"), ("truncate -s 8192 f", "write /f"),
                                ("truncate -s 8000 f", "overwrite /f 1"), ("truncate -s 8192 f", "overwrite /f 1"),
                                ("truncate -s 10000 f", "write /f"), ("truncate -s 0 f", "truncate /f")):
            with self.subTest(command):
                self.assertEqual(steps_of(self.script("--", "sh", "-c", command))[0][-2:], [*steps, "spare /f /f"])
        self.assert_refused(["--", "truncate", "-s", "0", "f"], "changed nothing", status=3)
        self.make_directory()
        program = "f = open('f', 'r+'); f.write('HELLO!'); f.truncate()"
        self.assert_steps(["--", PYTHON, "-c", program], "overwrite /f 0", "spare /f /f")

    def test_a_mapping_that_is_only_read(self):
        read = ("import mmap, os; f = os.open('f', os.O_RDWR); m = mmap.mmap(f, 0, prot=mmap.PROT_READ); "
                "os.pwrite(f, m[:2], 0)")
        self.assert_steps(["--", PYTHON, "-c", read], "overwrite /f 0", "spare /f /f")
        later = ("import ctypes, os; c = ctypes.CDLL(None); c.mmap.restype = ctypes.c_void_p; f = os.open('f', "
                 "os.O_RDWR); m = ctypes.c_void_p(c.mmap(None, 4096, 1, 1, f, 0)); c.mprotect(m, 4096, 3)")
        self.assert_refused(["--", PYTHON, "-c", later], "mprotect.*: the writes through a mapping are not seen")


class Options(Recording):
    def test_delay(self):
        save = "echo new > g; mv g f"
        self.assert_steps(["--delay", "--", "sh", "-c", save], "create /g", "replace /g /f", "write /f", "spare /f /f")
        self.assert_steps(["--delay", "--", "sh", "-c", save.replace(";", "; sync g;")], "create /g", "write /g",
                          "fsync /g", "replace /g /f", "spare /f /f")

    def test_delay_as_ext4(self):
        """A file is also written out where it is renamed onto another one, or closed after it was cut to nothing."""
        self.assert_steps(["--delay-as-ext4", "--", "sh", "-c", "echo new > g; mv g f"], "create /g", "write /g",
                          "replace /g /f", "spare /f /f")
        self.assert_steps(["--delay-as-ext4", "--", "sh", "-c", "echo new > f; echo > h; rm h"], "truncate /f",
                          "write /f", "create /h", "unlink /h", "spare /f /f")
        self.assert_steps(["--delay-as-ext4", "--", "sh", "-c", "rm f; echo new > f; mkdir d"], "unlink /f",
                          "create /f", "mkdir /d", "write /f", "spare /f /f")

    def test_together_and_lasting(self):
        (self.folder / "g").write_text("hello\n")
        base = [f"{word} /{name}" for name in "fg" for word in ("create", "write", "overwrite")]
        self.assert_steps(["--together", "--lasting", "--keep", "f", "--keep", "g", "--", "rm", "f", "g"], "unlink /f",
                          "unlink /g", "end", "keep /f", "keep /g", base=(*base, "start", "keep /f /g", "group SAVE"))

        self.assert_refused(["--together", "--", "mkdir", "h"], "no file is changed or made", status=3)
        self.assert_refused(["--together", "--", "sh", "-c", "for i in 1 2 3 4 5; do echo > $i; done"],
                            "a promise of up to 4 files, and here are 5")
        for option in (["--each-close"], ["--each-fsync"], ["--in-order", "f", "g"]):
            self.assert_refused(["--together", *option, "--", "true"], "--together goes with none of")

    def test_ignore_and_block(self):
        script = self.script("--ignore", "g*", "--block", "8192", "--", "sh", "-c",
                             "head -c 9000 /dev/zero > f; echo > gg")
        self.assertEqual(steps_of(script)[0][-5:], ["truncate /f", "write /f", "overwrite /f 0", "write /f",
                                                    "spare /f /f"])
        self.assertIn("# left out by --ignore g*: 2 changes", script)

    def test_output_and_trace(self):
        with tempfile.TemporaryDirectory() as room:
            answer = self.record("-o", f"{room}/script", "--trace", f"{room}/trace", "--", "sh", "-c", "echo a | tee f")
            self.assertEqual((answer.returncode, answer.stdout, answer.stderr), (0, "a\n", ""))
            self.assertTrue(pathlib.Path(room, "script").read_text().startswith("# crashmap: "))
            self.assertIn("execve", pathlib.Path(room, "trace").read_text())

    def test_a_trace_in_the_directory(self):
        """The recorder's own files may be there, and are none of the command's."""
        for words, environment in ((["--trace", "t"], {}), ([], {"TMPDIR": str(self.folder)})):
            answer = self.record(*words, "--", "sh", "-c", "echo new > f", env=os.environ | environment)
            self.assertEqual((answer.returncode, answer.stderr), (0, ""))
            self.assertEqual(steps_of(answer.stdout)[0][3:], ["start", "hold /f", "truncate /f", "write /f",
                                                              "spare /f /f"])
            self.assertEqual({it.name for it in self.folder.iterdir()}, {"f", "t"})

    def test_lossy(self):
        """A comment and the line that comes nearest, where the recorder refuses otherwise."""
        for command, text, *steps in (
                ("ln -s f h; echo > f", "a symbolic link", "create /h"),
                ("head -c 5000 /dev/zero > f; truncate -s 3 f", "is cut to 3, and loses blocks", "overwrite /f 0"),
                ("mv d e", "rename a directory", "mkdir /e", "rename /d/g /e/g", "rmdir /d"),
                ("head -c 20000 /dev/zero > h", "more than 4 blocks", *["write /h"] * 4)):
            with self.subTest(command):
                self.make_directory()
                self.assert_refused(["--", "sh", "-c", command], f"{text}.*\\(--lossy: ")
                self.make_directory()
                answer = self.record("--lossy", "--", "sh", "-c", command)
                self.assertRegex(answer.stdout, f"# lossy: call .*{text}")
                self.assertRegex(answer.stdout, "\n(# .*\n|.*\n)*".join(map(re.escape, steps)))


class ForOtherPrograms(Recording):
    """What a program gets that judges a recording."""

    PROGRAM = """
import json, sys
from record.candidates import with_candidates
from record.command import parse
from record.recording import observe
observed = observe(parse(sys.argv[1:]))
recording = observed.recording()
asked, candidates = with_candidates(recording)
delayed = observed.recording(delay=True, fsyncs=[(line.causes[-1].number, "g") for line in recording.lines.values()
                                                  if line.text == "write /g"])
print(json.dumps({
    "script": recording.script, "delayed": delayed.script,
    "merged": [it.text for it in observed.recording(merge=True).lines.values() if it.writes > 1],
    "asked": asked, "names": recording.names,
    "promises": [(it.kind, it.line, it.paths, it.was_there, [(spare.line, spare.other) for spare in it.spares])
                 for it in recording.promises],
    "lines": [(number, it.text, it.causes[-1].text, it.forced) for number, it in recording.lines.items()],
    "candidates": [(number, it.path, it.behind) for number, it in candidates.items()]}))
"""

    def ask(self, *words):
        run = subprocess.run([PYTHON, "-c", self.PROGRAM, *words], cwd=self.folder, capture_output=True, text=True,
                             check=True, stdin=subprocess.DEVNULL, env=os.environ | {"PYTHONPATH": str(ROOT)})
        return json.loads(run.stdout)

    def test_recording(self):
        program = "import os; g = open('g', 'w'); g.write('a'); g.flush(); g.write('b'); g.close(); os.rename('g', 'f')"
        found = self.ask("--", PYTHON, "-c", program)
        lines = {text: number for number, text in enumerate(found["script"].split("\n"), 1)}
        hold, spare = lines["hold /f"], lines["spare /f /f"]
        self.assertEqual(found["promises"], [["hold", hold, ["f"], True, [[spare, "f"]]]])
        self.assertEqual(found["names"], {"/": ".", "/f": "f", "/g": "g"})
        self.assertEqual([[text, cause.split(",")[0], forced] for _, text, cause, forced in found["lines"]], [
            ["create /g", 'openat("g"', ["g"]], ["write /g", 'write("g"', ["g"]],
            ["overwrite /g 0", 'write("g"', ["g"]], ["replace /g /f", 'rename("g"', ["f"]]])
        self.assertEqual(found["merged"], ["write /g"])
        asked = [it for it in found["asked"].split("\n") if it[:1] not in ("#", "")]
        self.assertEqual(asked[asked.index("create /g"):], [
            "create /g", "write /g", "overwrite /g 0", "fsync /g", "replace /g /f", "fsync /f", "spare /f /f"])
        self.assertEqual(found["candidates"], [[spare - 1, "g", spare - 2], [spare + 1, "f", spare - 1]])
        delayed = steps_of(found["delayed"])[0]
        self.assertEqual(delayed[delayed.index("create /g"):], [
            "create /g", "write /g", "fsync /g", "overwrite /g 0", "replace /g /f", "spare /f /f"])


class Refusals(Recording):
    def test_commands(self):
        self.assert_refused(["--", "no-such-command"], "^crashmap-record: there is no command no-such-command\n$")
        self.assert_refused([], "there is no COMMAND")

    def test_nothing_is_promised(self):
        """Where there would be no promise there is no script, since it could only be kept."""
        nothing = "the command changed nothing in this directory"
        for command, told in (("true", f"^crashmap-record: {nothing}\n$"), ("mkdir e", "no file is changed or made"),
                              ("exit 1", f"^crashmap-record: the command ended with status 1\n.*{nothing}\n$"),
                              ("rm f", "no promise is made: none of f, which is deleted .--spare names what"),
                              ("for i in 1 2 3 4 5 6 7 8 9; do echo > $i; done", "none of the 9 files that are new, "
                               "since they are more than --most-new 8")):
            with self.subTest(command):
                self.make_directory()
                self.assert_refused(["--", "sh", "-c", command], told, status=3)

    def test_outside(self):
        """Files outside the directory that are changed, or renamed to or from."""
        (self.folder / "in").mkdir()
        (self.folder / "in/f").write_text("hello\n")
        for command, *named in (("echo >> ../f; echo > f", "f"), ("cp f ../g; echo > f", "g"),
                                ("truncate -s 3 ../f; rm ../g; echo > f", "f", "g"), ("cat ../f > f",),
                                ("echo > ../h; cp ../h f; rm ../h",), ("echo > ../h; mv ../h f", "h"),
                                ("echo > /dev/null; cp f g; mv g ../g; echo > f", "g")):
            with self.subTest(command):
                answer = self.record("--lossy", "--", "sh", "-c", command, within="in")
                self.assertEqual(answer.returncode, 0)
                self.assertEqual(answer.stderr, "".join(
                    f"crashmap-record: {self.folder}/{it} is outside the directory, and is changed or renamed: the "
                    "script does not have it\n" for it in named))

    def test_a_command_that_fails_or_is_killed(self):
        for command, told in (("exit 3", "the command ended with status 3"),
                              ("kill -9 $$", "signal 9 ended the command")):
            answer = self.record("--", "sh", "-c", f"echo new > f; {command}")
            self.assertEqual((answer.returncode, answer.stderr), (0, f"crashmap-record: {told}\n"))
            self.assertIn(f"\n# {told}\n", answer.stdout)

    def with_strace(self, text):
        """The environment with another strace, which does this."""
        room = tempfile.TemporaryDirectory()
        self.addCleanup(room.cleanup)
        other = pathlib.Path(room.name, "strace")
        other.write_text(f"#!/bin/sh\n{text}\n")
        other.chmod(0o755)
        return os.environ | {"PATH": f"{room.name}:{os.environ['PATH']}"}

    def test_nothing_is_traced(self):
        """strace is there, and may not trace."""
        for text in ('while [ "$1" != -o ]; do shift; done\n: > "$2"\nexit 1', "exit 1"):
            self.assert_refused(["--", "true"], "strace could not trace the command", env=self.with_strace(text))

    def test_a_directory_that_changes(self):
        """Something else changes the directory between the look at it and the recording."""
        for change, told in (("rm f", "f is gone, and no call that was followed removed it"),
                             ("echo > g", "g is there, and no call that was followed made it"),
                             ("echo > f", "f has 1 bytes, and the calls that were followed leave 6"),
                             ("rm f; mkdir f", "f is another file than the one that was followed")):
            with self.subTest(change):
                self.make_directory()
                text = f'{change}\nexec {shutil.which("strace")} "$@"'
                self.assert_refused(["--", "mkdir", "h"], f"^crashmap-record: {told}\n$", env=self.with_strace(text))

    def test_a_directory_that_is_gone(self):
        command = 'mkdir gone; cd gone; rmdir ../gone; exec "$@"'
        answer = subprocess.run(["sh", "-c", command, "sh", PYTHON, RECORDER, "--", "true"], cwd=self.folder,
                                capture_output=True, text=True, check=False)
        self.assertEqual((answer.returncode, answer.stdout), (2, ""))
        self.assertRegex(answer.stderr,
                         r"^crashmap-record: the directory cannot be read, or .*/gone \(deleted\): No such ")

    def test_interrupted(self):
        """Ctrl-C is for the command, and the recorder tells what it did until then."""
        command = "echo new > f; echo; exec sleep 60"
        with subprocess.Popen([PYTHON, RECORDER, "--", "sh", "-c", command], cwd=self.folder, stdin=subprocess.DEVNULL,
                              stdout=subprocess.PIPE, stderr=subprocess.PIPE, text=True, start_new_session=True) as run:
            self.assertEqual(run.stderr.readline(), "\n")
            os.killpg(run.pid, signal.SIGINT)
            output, errors = run.communicate(timeout=600)
        self.assertEqual((run.returncode, errors), (0, "crashmap-record: signal 2 ended the command\n"))
        self.assertIn("\ntruncate /f\nwrite /f\nspare /f /f\n# signal 2 ended the command\n", output)

    def test_paths(self):
        self.assert_refused(["--keep", "../x", "--", "true"], "../x is not below the current directory")
        self.assert_refused(["--keep", "x", "--", "sh", "-c", "echo > f"], "--keep x: there is no such file")
        self.assert_refused(["--keep", "", "--", "true"], "an empty path is not below the current directory")

    def test_places(self):
        """A file that cannot be written is refused before the command runs, but for what is found out in the end."""
        for place, told in (("/nonexistent/x", "/nonexistent/x"), (".", r"\."), ("", "an empty path")):
            for option in ("-o", "--trace"):
                self.assert_refused([option, place, "--", "sh", "-c", "echo new > f"], f": {told} cannot be written\n$")
        self.assertEqual((self.folder / "f").read_text(), "hello\n")
        self.assert_refused(["-o", "/dev/full", "--", "sh", "-c", "echo new > f"],
                            "^crashmap-record: /dev/full: No space left on device\n$")

    def test_room(self):
        many = "mkdir d; for i in 1 2 3 4 5 6 7 8; do : > a$i; : > d/a$i; done"
        self.assert_refused(["--", "sh", "-c", many], "call .*, by sh: .*: more than 16 files and directories")
        self.assert_refused(["--", "sh", "-c", "for i in 1 2 3 4 5 6 7 8 9 10 11; do : > b$i; done"],
                            "more than 10 names")
        self.assert_refused(["--", "sh", "-c", "mkdir -p 1/2/3/4/5"], "a path of more than 4 names")
        self.assert_refused(["--", "sh", "-c", "for i in $(seq 70); do echo > f; : > f; done"], "more than 124 patches")

    def test_what_is_not_seen(self):
        mapped = "import mmap, os; m = mmap.mmap(os.open('f', os.O_RDWR), 0); m[0:1] = b'H'"
        self.assert_refused(["--", PYTHON, "-c", mapped], "call .*, by python.*: mmap.*: the writes through a mapping")
        handed = ("import os, subprocess\nf = os.open('f', os.O_RDWR)\nsubprocess.run(['RECORDER', '--', 'sh', '-c', "
                  "f'echo new >&{f}'], pass_fds=[f])").replace("RECORDER", str(RECORDER))
        run = subprocess.run([PYTHON, "-c", handed], cwd=self.folder, capture_output=True, text=True, check=False)
        self.assertIn("this descriptor was open before the recording", run.stderr)

    def test_odd_paths(self):
        """Paths with spaces, quotes, line feeds and bytes that are no UTF-8."""
        odd = b"a 'b\n\xff>\"\\(,)"
        (self.folder / os.fsdecode(odd)).write_text("x")
        script = self.script("--", "sh", "-c", 'for it in a*; do echo new > "$it"; mv "$it" "$it."; done')
        steps, names = steps_of(script)
        self.assertEqual(steps[:7], ["create /ab", "write /ab", "overwrite /ab", "start", "hold /ab", "hold /ab2",
                                     "truncate /ab"])
        self.assertEqual(set(names.values()), {"a 'b\\n\\udcff>\"\\\\(,)", "a 'b\\n\\udcff>\"\\\\(,)."})


class WithoutStrace(Recording):
    def test_no_strace(self):
        answer = subprocess.run([PYTHON, RECORDER, "--", "/bin/true"], cwd=self.folder, check=False,
                                capture_output=True, text=True, env={"PATH": "/nonexistent"})
        self.assertEqual((answer.returncode, answer.stdout), (2, ""))
        self.assertIn("strace is not installed", answer.stderr)


def load_tests(loader, tests, _):
    """All tests, or those alone that need no strace where it cannot trace."""
    if can_trace():
        return tests
    print("tests, record: strace cannot trace here, so nothing is recorded")
    return loader.loadTestsFromTestCase(WithoutStrace)


if __name__ == "__main__":
    unittest.main()
