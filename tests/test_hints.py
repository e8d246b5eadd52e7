"""Hints and warnings by the launcher: each case of cases/hints with `--hints always`, some of them on a terminal, and
what no case file can hold.

The same cases run in test_cases.py, where the program alone answers and standard error has the refusal's one line.
"""

import concurrent.futures
import importlib.util
import os
import pathlib
import re
import signal
import subprocess
import tempfile
import time
import unittest

from tests.case_files import CASES, read_case
from tests.program import LAUNCHER, ROOT, launching, program
from tests.terminal import on_terminal, typed_on_terminal
from tests.test_record_parts import code_lines

MOST_LINES = 900
MOST_SCRIPT_BYTES = 1 << 20
CREATE = b"start\ncreate /a\n"
CREATED = b"module soft\npatches 2\nclosed 3\nfailing 0\n"
READS_INPUT = b"crashmap: reads a script from standard input, up to Ctrl-D; --help lists the options\r\n"
PATIENCE = 20


def shown_by(text):
    """What the terminal shows of a text: it begins each line at its left edge."""
    return text.replace(b"\n", b"\r\n")


def launched(words, script=b"", **environment):
    """A run of the launcher without a terminal."""
    return subprocess.run([LAUNCHER, *words], input=script, capture_output=True, env=launching(**environment),
                          check=False)


def launched_on_terminal(words, script=b"", environment=None, **options):
    """A run of the launcher on a terminal."""
    return on_terminal([LAUNCHER, *words], script, env=environment or launching(), **options)


class Folder(unittest.TestCase):
    """A folder for files of a test."""

    def setUp(self):
        folder = tempfile.TemporaryDirectory()
        self.addCleanup(folder.cleanup)
        self.folder = pathlib.Path(folder.name)

    def program_that(self, *lines):
        """The environment in which the launcher runs a program of these lines of bash."""
        path = self.folder / "program"
        path.write_text("#!/usr/bin/env bash\n" + "".join(f"{line}\n" for line in lines))
        path.chmod(0o755)
        return launching(CRASHMAP_PROGRAM=str(path))


def with_hints(case):
    """A run of a case with `--hints always`."""
    return launched([*case.words, "--hints", "always"], case.script)


class Hints(unittest.TestCase):
    # A hint on a line, one for which the program is asked more, a warning, and a hint on a report that is kept.
    ON_TERMINAL = ("unknown-word", "no-block-left", "rule-that-orders-nothing", "smallest-crash-of-a-decision")

    def test_cases(self):
        cases = [read_case(path) for path in sorted((CASES / "hints").glob("*.case"))]
        self.assertTrue(cases)
        with concurrent.futures.ThreadPoolExecutor(os.cpu_count()) as pool:
            for case, run in zip(cases, pool.map(with_hints, cases)):
                with self.subTest(case.name):
                    self.assertEqual(run.stderr.decode(), case.terminal.decode())
                    self.assertEqual((run.returncode, run.stdout), (case.status, case.output))

    def test_cases_on_a_terminal(self):
        """A terminal shows what comes with `--hints always`, and no hint with `--hints never`."""
        for name in self.ON_TERMINAL:
            case = read_case(CASES / "hints" / f"{name}.case")
            for words, wanted in (((), case.terminal), (("--hints=never",), case.errors)):
                with self.subTest(name, words=words):
                    run = launched_on_terminal([*case.words, *words], case.script)
                    self.assertEqual((run.status, run.output, run.terminal),
                                     (case.status, case.output, shown_by(wanted)))

    def test_a_report_as_json_has_the_same_hints(self):
        for name in ("smallest-crash-of-a-decision", "failing-workloads-left-out", "rules-that-exclude-a-crash",
                     "rules-are-enough", "crash-that-all-lines-allow"):
            case = read_case(CASES / "hints" / f"{name}.case")
            run = launched([*case.words, "--json", "--hints", "always"], case.script)
            wanted = re.sub(rb" (--search 1)`", rb" \1 --json`", case.terminal)
            self.assertEqual((run.returncode, run.stderr), (case.status, wanted), name)

    def test_a_script_in_a_file(self):
        """A hint that gives a command names the file, and a pipe in the place of a file is read once."""
        case = read_case(CASES / "hints/more-sets-than-the-limit.case")
        with tempfile.NamedTemporaryFile() as file:
            file.write(case.script)
            file.flush()
            wanted = case.terminal.replace(b"--decide`", b"--decide %s`" % file.name.encode())
            self.assertEqual(launched([file.name, "--hints", "always"]).stderr, wanted)
        command = f"'{LAUNCHER}' --hints always <(printf 'start\\ncreate a\\n')"
        run = subprocess.run(["bash", "-c", command], capture_output=True, env=launching(), check=False)
        self.assertIn(b"hint: `create a`: `a` does not begin with a slash\n", run.stderr)

    def test_help_has_no_hints(self):
        with tempfile.NamedTemporaryFile() as file:
            file.write(b"start\n")
            file.flush()
            for words in (["--help"], ["--rules", file.name]):
                run = launched_on_terminal(words)
                self.assertEqual((run.status, run.terminal), (0, b""), words)

    def test_a_warning_for_scripts_and_other_programs(self):
        run = launched(["--with", "InodeInit:EntrySet", "--hints", "always"], CREATE)
        wanted = ("warning: --with InodeInit:EntrySet orders no two patches of this script, and never can: "
                  "under soft no operation has EntrySet before InodeInit\n")
        self.assertEqual(run.stderr.decode(), wanted)

    def test_defaults_are_those_of_the_help(self):
        spec = importlib.util.spec_from_file_location("call", ROOT / "launch/hints/call.py")
        call = importlib.util.module_from_spec(spec)
        spec.loader.exec_module(call)
        help_text = (ROOT / "launch/pages/help").read_text()
        for option, default in call.DEFAULTS.items():
            self.assertRegex(help_text, rf"{option} <\w+> .*\[default: {default}\]")

    def test_lines_of_code(self):
        files = list((ROOT / "launch/hints").glob("*.py"))
        self.assertTrue(files)
        self.assertLessEqual(sum(map(code_lines, files)), MOST_LINES)


class Off(Folder):
    """Where hints are off no Python starts, and where there is no Python there are no hints."""

    def setUp(self):
        super().setUp()
        self.python = self.folder / "python3"
        self.python.write_text("#!/bin/sh\necho python >&2\nexit 99\n")
        self.python.chmod(0o755)
        self.environment = launching(PATH=f"{self.folder}:{os.environ['PATH']}")

    def test_no_python_starts(self):
        for words in ((), ("--hints", "auto"), ("--hints=never",), ("--hints", "never")):
            run = launched(words, CREATE, **self.environment)
            self.assertEqual((run.returncode, run.stdout, run.stderr), (0, CREATED, b""), words)
        run = launched_on_terminal(["--hints", "never"], b"start\nx\n", self.environment)
        self.assertEqual((run.status, run.terminal), (2, b"crashmap: line 2: 41 bad line\r\n"))

    def test_python_starts_for_hints(self):
        self.assertEqual(launched(["--hints", "always"], CREATE, **self.environment).returncode, 99)
        self.assertEqual(launched_on_terminal([], CREATE, self.environment).status, 99)

    def test_no_python(self):
        commands = self.folder / "commands"
        commands.mkdir()
        for name in ("bash", "cat", "dirname", "env"):
            (commands / name).symlink_to(f"/usr/bin/{name}")
        run = launched(["--hints", "always"], CREATE, PATH=str(commands))
        self.assertEqual((run.returncode, run.stdout, run.stderr), (0, CREATED, b""))


class Words(unittest.TestCase):
    """What the launcher and the program say of a command line that is refused."""

    def assert_refused(self, words, wanted):
        run = launched(words, CREATE)
        self.assertEqual((run.returncode, run.stdout), (2, b""))
        self.assertTrue(run.stderr.decode().startswith(f"error: {wanted}"), run.stderr)
        self.assertTrue(run.stderr.endswith(b"\n\nFor more information, try '--help'.\n"), run.stderr)

    def test_hints_takes_one_of_three_words_once(self):
        values = "\n  [possible values: auto, always, never]\n"
        for words in (["--hints", "sometimes"], ["--strict", "--hints=sometimes"]):
            self.assert_refused(words, f"invalid value 'sometimes' for '--hints <WHEN>'{values}")
        for words in (["--hints"], ["--hints="], ["--hints", "--strict"]):
            self.assert_refused(words, f"a value is required for '--hints <WHEN>' but none was supplied{values}")
        self.assert_refused(["--hints", "auto", "--hints=never"],
                            "the argument '--hints <WHEN>' cannot be used multiple times\n")

    def assert_hints(self, words, *hints):
        """The program refuses the words, and these hints follow."""
        run = launched([*words, "--hints", "always"], CREATE)
        self.assertEqual((run.returncode, run.stdout, run.stderr[:7]), (2, b"", b"error: "))
        self.assertEqual(re.findall("^hint: (.*)$", run.stderr.decode(), re.MULTILINE), list(hints))

    def test_a_part_is_misspelled(self):
        for option, rule, likely in (
                ("--without", "Ptr:InitFle", "InitFile"), ("--with", "Entryset:Ptr", "EntrySet"),
                ("--with", "EntryClr:Ptr", "EntryClear"), ("--with", "LinkDwn:EntryClear", "LinkDown"),
                ("--with", "Done:previous-Comit", "Commit")):
            self.assert_hints([option, rule], f"did you mean `{likely}`?")

    def test_a_rule_that_the_module_does_not_have(self):
        meta = ("FileData:previous-Commit Commit:Copy Commit:FileData Commit:previous-Commit InPlace:Commit "
                "Done:InPlace Done:previous-Done")
        self.assert_hints(["--module", "meta", "--without", "Ptr:MapSet"], f"the rules of meta are {meta}")
        self.assert_hints(["--module", "async", "--without", "Ptr:MapSet"], "async has no rules")

    def test_a_word_of_the_launcher(self):
        ending = "--prove and --proved come first, and --hints is followed by auto, always or never"
        for word, likely in (("--hint", "--hints"), ("--prove", "--prove"), ("--provd", "--proved")):
            self.assert_hints(["--strict", word], f"did you mean `{likely}`? {ending}")

    def test_words_with_which_no_hint_helps(self):
        for words in (["--foo"], ["a", "b"], ["--limit", "0"], ["--with", "Ptr:MapSet", "--with", "Ptr:MapSet"],
                      ["--with", "Sideways:Ptr"], ["--with", "Ptr:Foo"], ["--with", "Ptr:"], ["--with", "Ptr"],
                      ["--without", "Ptr:MapSet", "--with", "Ptr:MapSet"]):
            self.assert_hints(words)


class Devices(unittest.TestCase):
    """Where a script cannot be read or a report cannot be written, the terminal shows why."""

    UNWRITTEN = ("crashmap: 51 cannot write the report$", "hint: standard output did not take the whole report$",
                 "hint: see that its disk has room, and that the program which reads it still runs$")

    def assert_refused(self, run, *lines):
        """The run is refused, and the terminal shows lines that begin with these."""
        shown = run.terminal.decode().split("\r\n")
        self.assertEqual((run.status, run.output, shown[-1]), (2, b"", ""))
        self.assertEqual(len(shown), len(lines) + 1, shown)
        for line, wanted in zip(shown, lines):
            self.assertRegex(line, f"^{wanted}")

    def test_a_script_that_is_missing(self):
        run = launched_on_terminal(["no/such/script"])
        self.assert_refused(run, "crashmap: 50 cannot read the script$", "hint: no/such/script: No such file")

    def test_a_folder_as_a_script(self):
        with tempfile.TemporaryDirectory() as folder:
            run = launched_on_terminal([folder])
            self.assert_refused(run, "crashmap: 50 cannot read the script$", f"hint: {folder}: Is a directory")

    def test_a_folder_as_standard_input(self):
        folder = os.open("/", os.O_RDONLY)
        self.addCleanup(os.close, folder)
        run = launched_on_terminal([], stdin=folder)
        self.assert_refused(run, "crashmap: 50 cannot read the script$",
                            "hint: standard input cannot be read: name a file that has the script$")

    def test_a_script_that_is_too_long(self):
        run = launched_on_terminal([], b"\n" * (MOST_SCRIPT_BYTES + 1))
        self.assert_refused(run, "crashmap: 52 script too long$", "hint: a script has at most 1048576 bytes$",
                            "hint: leave lines out; comments and empty lines count too$")

    def test_a_full_device_as_standard_output(self):
        for words in ((), ("--decide",), ("--help",)):
            with open("/dev/full", "wb") as full:
                run = launched_on_terminal(words, CREATE, stdout=full)
            self.assert_refused(run, *self.UNWRITTEN)

    def test_a_report_that_standard_output_takes_only_at_the_end(self):
        """A report that is kept for hints is written whole, to a pipe too."""
        words = ["--decide", "--explain", "--json", "--numbers", "--blocks", "128"]
        wanted = subprocess.run([program(), *words], input=CREATE, capture_output=True, check=True).stdout
        self.assertGreater(len(wanted), 1 << 15)
        self.assertEqual(launched_on_terminal(words, CREATE).output, wanted)


class StandardInput(unittest.TestCase):
    """Where a script is to be typed, the terminal says so."""

    def typed(self, *words, script=CREATE):
        run = typed_on_terminal([LAUNCHER, *words], script, env=launching())
        return run.status, run.output, run.terminal

    def test_words_that_ask_for_an_answer(self):
        for words in ((), ("--module", "soft")):
            self.assertEqual(self.typed(*words), (0, CREATED, READS_INPUT))

    def test_hints_on_what_is_typed(self):
        status, _, terminal = self.typed(script=b"start\nsync /\n")
        self.assertEqual((status, terminal.split(b"\r\n")[2]),
                         (2, b"hint: `sync /`: nothing follows `sync` on its line"))

    def test_words_that_ask_for_none(self):
        status, output, terminal = self.typed("--version")
        self.assertEqual((status, output[:8], terminal), (0, b"crashmap", b""))
        status, output, terminal = self.typed("--strict=1")
        self.assertEqual((status, output, terminal[:7]), (2, b"", b"error: "))

    def test_no_words_and_a_pipe(self):
        run = launched_on_terminal([], CREATE)
        self.assertEqual((run.status, run.output, run.terminal), (0, CREATED, b""))


class Search(unittest.TestCase):
    """A search tries the lines of a pool, and not the script itself."""

    def test_a_search_has_no_warnings(self):
        words, script = ["--with", "Copy:Copy"], b"start\ncreate /a\nunlink /a\n"
        self.assertIn(b"warning: ", launched_on_terminal(words, script).terminal)
        for search in (["--search", "1"], ["--search", "1", "--enough"]):
            self.assertEqual(launched_on_terminal([*words, *search], script).terminal, b"")


class Terminals(Folder):
    """The program's standard error is a terminal where the launcher's is one."""

    ASKED_FIRST = '[ -s /dev/stdin ] || { echo "crashmap: line 1: 43 no start line" >&2; exit 2; }'

    def test_progress_comes_as_the_program_writes_it(self):
        environment = self.program_that(
            self.ASKED_FIRST, '[ ! -t 2 ] || printf "\\r\\033[K7 workloads judged, 0 failing" >&2',
            f"until [ -e '{self.folder}/go' ]; do sleep 0.05; done", '[ ! -t 2 ] || printf "\\r\\033[K" >&2',
            'echo "crashmap: line 2: 41 bad line" >&2', "exit 2")
        terminal, other_end = os.openpty()
        self.addCleanup(os.close, terminal)
        with subprocess.Popen([LAUNCHER], stdin=subprocess.PIPE, stderr=other_end, env=environment) as run:
            os.close(other_end)
            run.stdin.write(b"start\nx\n")
            run.stdin.close()
            self.assertEqual(os.read(terminal, 4096), b"\r\x1b[K7 workloads judged, 0 failing")
            (self.folder / "go").touch()
            rest = b""
            while not rest.endswith(b"or #\r\n"):
                rest += os.read(terminal, 4096)
            self.assertTrue(rest.startswith(b"\r\x1b[Kcrashmap: line 2: 41 bad line\r\nhint: `x`: no line"), rest)
            self.assertEqual(run.wait(), 2)

    def end_by(self, number):
        """Sends a signal to the launcher while the program runs, and gives the launcher's status."""
        environment = self.program_that(self.ASKED_FIRST, f"echo $$ >'{self.folder}/new'",
                                        f"mv '{self.folder}/new' '{self.folder}/running'", "exec sleep 60")
        with subprocess.Popen([LAUNCHER, "--hints", "always"], stdin=subprocess.PIPE, stderr=subprocess.DEVNULL,
                              env=environment) as run:
            run.stdin.write(CREATE)
            run.stdin.close()
            running, latest = self.folder / "running", time.monotonic() + PATIENCE
            while not running.exists() and time.monotonic() < latest:
                time.sleep(0.05)
            run.send_signal(number)
            status = run.wait(timeout=PATIENCE)
        self.assertFalse(pathlib.Path("/proc", running.read_text().strip()).exists())
        return status

    def test_a_signal_ends_the_program_too(self):
        for number in (signal.SIGINT, signal.SIGTERM):
            self.assertEqual(self.end_by(number), -number)
            (self.folder / "running").unlink()


if __name__ == "__main__":
    unittest.main()
