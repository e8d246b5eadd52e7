"""The parts of the recorder: reading a trace, names, and how large it is."""

import ast
import io
import pathlib
import subprocess
import tempfile
import tokenize
import unittest

from record import Stop
from record.names import Names
from record.trace import arguments_of, descriptor_of, printable, read
from record.tree import difference, snapshot
from tests.program import ROOT

MOST_LINES = 1269  # Of code, in the recorder.
MOST_JUDGE_LINES = 699  # Of all kinds, in the judge.


def calls(*lines):
    return [(it.process, it.name, it.arguments, it.result, it.first, it.last) for it in read(lines)]


def code_lines(path):
    """How many lines of a file have code: not those that are empty, or that have a comment or a docstring alone."""
    text = path.read_text()
    found = {line for token in tokenize.generate_tokens(io.StringIO(text).readline)
             if token.type not in (tokenize.COMMENT, tokenize.NL, tokenize.NEWLINE, tokenize.INDENT, tokenize.DEDENT)
             for line in range(token.start[0], token.end[0] + 1) if token.string}
    for node in ast.walk(ast.parse(text)):
        if isinstance(node, ast.Expr) and isinstance(node.value, ast.Constant) and isinstance(node.value.value, str):
            found -= set(range(node.lineno, node.end_lineno + 1))
    return len(found)


class Trace(unittest.TestCase):
    def test_calls(self):
        self.assertEqual(calls("7 close(3</a>) = 0\n", "7 read(3, \"\"..., 5) = -1 EINTR (Interrupted)\n"),
                         [(7, "close", ["3</a>"], 0, 1, 1), (7, "read", ["3", '""...', "5"], -1, 2, 2)])
        self.assertEqual(calls("7 exit_group(0) = ?\n", "7 +++ killed by SIGKILL +++\n", "8 --- SIGCHLD {} ---\n"),
                         [(7, "exit_group", ["0"], None, 1, 1), (7, "exit", [], 0, 2, 2)])

    def test_names_of_a_call(self):
        """A call as a message shows it, with names below the directory."""
        def in_hexadecimal(text):
            return "".join(f"\\x{ord(it):02x}" for it in text)
        folder, file, name = map(in_hexadecimal, ("/top", "/top/a/n", "./n"))
        for line, named in ((f'7 write(3<{file}>, ""..., 5) = 5\n', 'write("a/n", 5)'),
                            (f'7 rename("{name}", "{file}") = 0\n', 'rename("n", "a/n")'),
                            (f'7 openat(AT_FDCWD<{folder}>, "{name}", O_RDWR) = 3\n', 'openat("n", O_RDWR)'),
                            ("7 fsync(3) = 0\n", "fsync(3)")):
            self.assertEqual([it.named("/top") for it in read([line])], [named])

    def test_a_call_that_another_one_interrupts(self):
        lines = ("7 fsync(3</a> <unfinished ...>\n", "8 close(4) = 0\n", "7 <... fsync resumed>) = 0\n")
        self.assertEqual(calls(*lines), [(8, "close", ["4"], 0, 2, 2), (7, "fsync", ["3</a>"], 0, 1, 3)])

    def test_arguments(self):
        self.assertEqual(arguments_of("[{a, b}, \")\"], f(1, 2) /* , */, 3<\\x29>) = 4"),
                         (["[{a, b}, \")\"]", "f(1, 2) /* , */", "3<\\x29>"], " = 4"))
        self.assertEqual(descriptor_of("AT_FDCWD<\\x2f\\x61>"), (None, "/a"))
        self.assertEqual(descriptor_of("3<\\x2f>(deleted)"), (3, "/"))

    def test_what_is_no_trace(self):
        for line in ("what is this\n", "7 close(3\n"):
            with self.assertRaisesRegex(Stop, "line 1 of the trace is not understood"):
                calls(line)

    def test_printable(self):
        self.assertEqual([printable(it) for it in ("a é", "a\nb", "\udcff")], ["a é", "a\\nb", "\\udcff"])


class Paths(unittest.TestCase):
    def test_names(self):
        names = Names(["f~", "f-", "F", ".f", "a.longer.name", "a.longer.name2"], set())
        self.assertEqual([names.path(it) for it in ("", "f~", "F", ".f", "a.longer.name", "a.longer.name2", "-")],
                         ["/", "/ftilde", "/f", "/f2", "/alongernam", "/alongerna2", "/x"])

    def test_directories_of_which_nothing_changes(self):
        names = Names(["a/b/c/d/e", "a/b/f"], {"a/b/c/d"})
        self.assertEqual([names.path(it) for it in ("a/b/c/d/e", "a/b/f")], ["/d/e", "/f"])
        self.assertEqual(Names(["a/b/c/d"], set()).path("a/b/c/d"), "/a/b/c/d")


class Tree(unittest.TestCase):
    def test_difference(self):
        with tempfile.TemporaryDirectory() as top:
            file = pathlib.Path(top, "f")
            file.write_bytes(bytes(9000))
            nodes = snapshot(top, 4096)
            self.assertIsNone(difference(top, 4096, nodes))
            file.write_bytes(bytes(5000) + b"x" + bytes(3999))
            self.assertIn("f has changed where no call", difference(top, 4096, nodes))
            nodes["f"].written.add(1)
            self.assertIsNone(difference(top, 4096, nodes))
            file.write_bytes(b"")
            self.assertIn("f has 0 bytes", difference(top, 4096, nodes))
            file.unlink()
            self.assertIn("f is gone", difference(top, 4096, nodes))
            pathlib.Path(top, "g").mkdir()
            self.assertIn("f is gone", difference(top, 4096, nodes))


class Sizes(unittest.TestCase):
    """The launcher adds the sizes that a script's first line names, and changes nothing else."""

    SCRIPT = b"# crashmap: --blocks 128 --journal 62\nstart\ncreate /a\n"
    ADDED = ["--blocks", "128", "--journal", "62"]

    def words(self, *words, given=None):
        """The words that the program gets, and what it can read."""
        command = ('set -eu; top=$0; . "$0/launch/words.sh"; . "$0/launch/geometry.sh"; read_words "$@"; add_sizes; '
                   'printf "%s\\n" "${words[@]}"; exec cat')
        run = subprocess.run(["bash", "-c", command, ROOT, *words], check=True, capture_output=True,
                             timeout=600, **({"stdin": subprocess.DEVNULL} if given is None else {"input": given}))
        words, found = run.stdout[:-len(given) or None] if given else run.stdout, given and run.stdout[-len(given):]
        return words.decode().split("\n")[:-1], found

    def test_a_file(self):
        with tempfile.TemporaryDirectory() as folder:
            script = pathlib.Path(folder, "a script")
            script.write_bytes(self.SCRIPT)
            for words in ((script, "--module", "meta"), ("--decide", script), ("--", script)):
                self.assertEqual(self.words(*words)[0], [*self.ADDED, *map(str, words)])
            for words in ((script, "--blocks", "20"), (script, "--journal=9"), (script, "--help")):
                self.assertEqual(self.words(*words)[0], [*map(str, words)])
            script.write_bytes(b"start\n" + self.SCRIPT)
            self.assertEqual(self.words(script)[0], [str(script)])

    def test_standard_input(self):
        self.assertEqual(self.words("--module", "soft", given=self.SCRIPT),
                         ([*self.ADDED, "--module", "soft"], self.SCRIPT))
        for other in (b"start\n", bytes(range(256)) * 9, b"%s\\n\n", b"#", b"\0", b"a\0\0b", bytes(64), b"x" * 64,
                      b"x" * 63 + b"\0y", b"\n" * 100, self.SCRIPT.replace(b"62", b"6x")):
            self.assertEqual(self.words("--decide", given=other), (["--decide"], other))
        self.assertEqual(self.words("--blocks", "20", given=self.SCRIPT), (["--blocks", "20"], self.SCRIPT))


class Size(unittest.TestCase):
    def test_lines_of_code(self):
        files = [ROOT / "crashmap-record", *(ROOT / "record").glob("*.py")]
        self.assertLessEqual(sum(map(code_lines, files)), MOST_LINES)

    def test_lines_of_the_judge(self):
        files = list((ROOT / "judge").glob("*.py"))
        self.assertTrue(files)
        self.assertLessEqual(sum(len(it.read_text().splitlines()) for it in files), MOST_JUDGE_LINES)


if __name__ == "__main__":
    unittest.main()
