"""What ./crashmap does where the program is built, where it is not, and where it cannot be.

It is tried on a small repository, with a program in the place of rt (tests/helpers/rt), so that no test proves
anything. What rt itself does is not tried here.
"""

import os
import pathlib
import re
import shutil
import signal
import subprocess
import time
import unittest

from launch import pages
from tests.launcher_room import ROWS, LauncherTest
from tests.program import program
from tests.terminal import typed_on_terminal

PROVES = r"\./crashmap --prove proves it once, in \d+ to \d+ minutes on four processors"
COMPILES = re.compile(r"crashmap: compiles a program without proofs, in one to four minutes, and keeps it for later"
                      rf" answers; {PROVES}")
UNPROVED = re.compile(rf"crashmap: this answer's program was not proved here; {PROVES}")
LONG = ("crashmap: a search of four operations or more is some hundred times as fast with the proved program;"
        " ./crashmap --prove makes it")
NO_RT = "crashmap: the command rt of the Rattle kit is needed to build the program"


def is_running(process):
    """Whether there is a process of that number that has not ended."""
    try:
        return pathlib.Path(f"/proc/{process}/stat").read_text().rpartition(")")[2].split()[0] != "Z"
    except FileNotFoundError:
        return False


class UnprovedAnswers(LauncherTest):
    """Where nothing is proved, an unproved program is compiled once, and one line says that it answers."""

    def words(self):
        """The words that the unproved program was run with."""
        return (self.fake / "words").read_text().splitlines()

    def assert_unproved(self, *words, line=UNPROVED, **options):
        status, output, errors = self.launch(*words, **options)
        self.assertEqual(status, 1)
        self.assertRegex(errors[0], line)
        self.assertEqual(errors[1:], ["crashmap: what the program says"])
        self.assert_nothing_left()
        return output

    def test_the_first_answer_compiles_and_later_ones_do_not(self):
        words, said = ("--strict", "--module", "async"), "unproved: --strict --module async\n"
        self.assertEqual(self.assert_unproved(*words, line=COMPILES), said)
        self.assertEqual(len(self.calls()), 1)
        self.assertTrue(self.calls()[0].startswith("try "))
        self.assertEqual(self.assert_unproved(*words), said)
        self.assertEqual(self.assert_unproved(*words, PATH=self.path_without_rt()), said)
        self.assertEqual(len(self.calls()), 1)

    def test_a_script_on_standard_input(self):
        for line in (COMPILES, UNPROVED):
            self.assertEqual(self.assert_unproved(text="start\n", line=line), "unproved: \nstart\n")

    def test_a_script_that_is_typed(self):
        run = typed_on_terminal([self.top / "crashmap"], b"start\n", cwd=self.top, env=self.environment)
        first, second, rest = run.terminal.decode().split("\r\n")
        self.assertEqual((run.status, rest), (1, ""))
        self.assertRegex(run.output, rb"^unproved: .*\nstart\n$")
        self.assertRegex(first, COMPILES)
        self.assertEqual(second, "crashmap: what the program says")

    def test_the_program_gets_the_words_as_they_are_in_the_same_folder(self):
        words = ["--module", "a b *", "", "some/script", "--", "--strict"]
        for line in (COMPILES, UNPROVED):
            self.assert_unproved(*words, line=line, folder=self.room)
            self.assertEqual(self.words(), words)
            self.assertEqual((self.fake / "folder").read_text(), f"{self.room}\n")

    def test_a_long_search_says_once_that_a_proved_program_is_faster(self):
        self.assert_unproved(line=COMPILES)
        for words in (("--search", "4"), ("a", "--search=8", "--atomic"), ("--module", "meta", "--search", "5", "a")):
            errors = self.launch(*words)[2]
            self.assertEqual(errors[1:], [LONG, "crashmap: what the program says"], words)
        for words in (("--search", "3"), ("--search=2",), ("--limit", "4"), ("4",), ("--search", "--limit", "5")):
            self.assert_unproved(*words)
        self.prove()
        self.assertEqual(self.launch("--search", "4"), (1, "proved: --search 4\n", []))

    def test_a_change_of_a_source_compiles_again(self):
        self.assert_unproved(line=COMPILES)
        (self.top / "crates/beside/src/lib.rt").write_text("changed\n")
        self.assert_unproved()
        (self.top / "crates/low/src/lib.rt").write_text("changed\n")
        self.assert_unproved(line=COMPILES)
        self.assert_unproved()

    def test_a_source_that_changes_while_the_program_is_compiled(self):
        self.set_mode("changes")
        self.assert_unproved(line=COMPILES)
        self.assert_unproved(line=COMPILES)

    def test_the_gate_takes_no_program_away(self):
        """The gate empties the folders out/ of all crates when it begins."""
        self.assert_unproved(line=COMPILES)
        self.empty_crates_out()
        self.assert_unproved()
        self.prove()
        self.empty_crates_out()
        self.assertEqual(self.launch("a"), (1, "proved: a\n", []))

    def empty_crates_out(self):
        for folder in (self.top / "crates").glob("*/out"):
            shutil.rmtree(folder)

    def test_a_program_that_does_not_compile(self):
        self.set_mode("does-not-compile")
        status, output, errors = self.launch()
        self.assertEqual((status, output), (2, ""))
        self.assertIn("error[E0425]: cannot find value", errors)
        self.assert_nothing_left()
        self.assertEqual([it for it in (self.top / "out").rglob("*") if it.is_file()], [])

    def test_without_rt(self):
        self.assertEqual(self.launch(PATH=self.path_without_rt()), (2, "", [NO_RT]))


class Pages(LauncherTest):
    """Help, rules and version are shown from files at once, whether a program is there or not."""

    def assert_shown(self, page, *words):
        """These words show the page, without a program and without rt."""
        wanted = (0, (self.top / "launch/pages" / page).read_text(), [])
        self.assertEqual(self.launch(*words, PATH=str(self.commands)), wanted, words)

    def setUp(self):
        super().setUp()
        self.commands = self.path_without_rt()

    def test_each_page_by_its_words(self):
        for page, words in pages.WORDS.items():
            self.assert_shown(page, *words)
        for page, words in (("help", ["-h"]), ("version", ["-V"]), ("rules-soft", ["--rules"])):
            self.assert_shown(page, *words)
        for module in pages.MODULES:
            self.assert_shown(f"rules-{module}", "--rules", f"--module={module}")
            self.assert_shown(f"rules-{module}", f"--module={module}", "--rules")
            self.assert_shown(f"rules-{module}", "--module", module, "--rules")
        self.assertEqual(self.calls(), [])

    def test_other_words_are_the_programs(self):
        for words in (["--rules", "--module", "other"], ["--rules", "--module=../help"], ["--rules --module", "soft"],
                      ["--help", "--strict"], ["--", "--help"], ["--strict", "--rules"]):
            self.assertEqual(self.launch(*words)[1], f"unproved: {' '.join(words)}\n")

    def test_the_proved_program_answers_for_itself(self):
        self.prove()
        self.assertEqual(self.launch("--help"), (1, "proved: --help\n", []))
        self.assertEqual(self.launch("--proved", "--help"), (1, "proved: --help\n", []))

    def test_the_pages_are_what_the_program_prints(self):
        """launch/pages.py writes them anew."""
        self.assertEqual(sorted(it.name for it in pages.FOLDER.iterdir()), sorted(pages.WORDS))
        for page, words in pages.WORDS.items():
            self.assertEqual(pages.printed(program(), words), (pages.FOLDER / page).read_bytes(), page)


class Reading(LauncherTest):
    """The command line is read in one place: which words are options, with which values, and which name a script."""

    def read(self, *words):
        """Returns the first word, when hints are given, and the options and scripts."""
        parts = '"$first" "$hints" "${#options[@]}" "${options[@]}" "${scripts[@]}"'
        command = f'set -eu; top=$0; . "$0/launch/words.sh"; read_words "$@"; printf "%s\\n" {parts}'
        run = subprocess.run(["bash", "-c", command, self.top, *words], capture_output=True, text=True, check=True)
        first, hints, number, *rest = run.stdout.split("\n")[:-1]
        return first, hints, rest[:int(number)], rest[int(number):]

    def test_options_and_scripts(self):
        for words, options, scripts in (
                (["--module", "meta", "a", "--strict"], ["--module=meta", "--strict"], ["a"]),
                (["--strict", "a", "--with=b:c"], ["--strict", "--with=b:c"], ["a"]),
                (["--limit", "--strict", "a"], ["--limit", "--strict"], ["a"]),
                (["--explain", "a", "--", "--strict"], ["--explain"], ["a", "--strict"]),
                (["-V", "-", "", "--blocks"], ["-V", "--blocks"], ["-", ""]),
                (["--other", "a b"], ["--other"], ["a b"])):
            self.assertEqual(self.read(*words), ("", "", options, scripts), words)

    def test_words_of_the_launcher(self):
        for words, wanted in (
                (["--prove"], ("--prove", "", [], [])),
                (["--proved", "--hints", "never", "a"], ("--proved", "never", [], ["a"])),
                (["--strict", "--hints=always"], ("", "always", ["--strict"], [])),
                (["a", "--prove", "--", "--hints"], ("", "", ["--prove"], ["a", "--hints"])),
                (["--module", "--hints", "auto"], ("", "auto", ["--module"], []))):
            self.assertEqual(self.read(*words), wanted, words)


class NamedPrograms(LauncherTest):
    """CRASHMAP_PROGRAM names another program that answers."""

    def setUp(self):
        super().setUp()
        self.named = self.room / "named"
        self.named.write_text('#!/bin/sh\necho "named: $*"\n')
        self.named.chmod(0o755)

    def test_it_answers_without_a_word_on_proofs(self):
        answer = self.launch("--strict", "a", "--hints", "auto", CRASHMAP_PROGRAM=str(self.named))
        self.assertEqual(answer, (0, "named: --strict a\n", []))
        self.assertEqual(self.launch("--help", CRASHMAP_PROGRAM=str(self.named))[1], "named: --help\n")
        self.assertEqual(self.calls(), [])

    def test_the_proved_program_is_asked_for(self):
        self.assertEqual(self.launch("--proved", "a", CRASHMAP_PROGRAM=str(self.named))[:2], (2, ""))
        self.assertEqual(self.launch("--prove", "a", CRASHMAP_PROGRAM=str(self.named))[:2], (1, "proved: a\n"))

    def test_the_launcher_does_not_call_itself(self):
        self.prove()
        self.assertEqual(self.launch("a", CRASHMAP_PROGRAM=str(self.top / "crashmap")), (1, "proved: a\n", []))


class Suite(LauncherTest):
    """--test runs the suite of the repository on the program that is there."""

    RUN = """import os, pathlib, sys
print(os.environ["CRASHMAP_PROGRAM"], os.environ.get("CRASHMAP_IMAGES"), os.environ.get("CRASHMAP_UNPROVED"))
sys.exit(0 if pathlib.Path("installed").exists() else 1)
"""

    def setUp(self):
        super().setUp()
        for path, text in ((".ci/install", "#!/bin/sh\necho done >installed\n"), ("tests/run.py", self.RUN)):
            (self.top / path).parent.mkdir()
            (self.top / path).write_text(text)
        (self.top / ".ci/install").chmod(0o755)

    def test_on_an_unproved_program(self):
        status, output, errors = self.launch("--test")
        self.assertEqual((status, output), (0, f"{self.top}/out/unproved/crashmap None 1\n"))
        self.assertRegex(errors[0], COMPILES)

    def test_on_the_proved_program(self):
        self.launch("--prove")
        images = self.top / "out/proved/hostile_images"
        shutil.copy(self.top / "out/proved/crashmap", images)
        images.with_name("hostile_images.built").write_text("low:\n")
        self.assertEqual(self.launch("--test"), (0, f"{self.top}/out/proved/crashmap {images} None\n", []))


class Proofs(LauncherTest):
    """--prove proves and builds the program once, by the gate's command, in a copy."""

    def test_what_it_says(self):
        status, output, errors = self.launch("--prove")
        self.assertEqual((status, output), (0, ""))
        self.assertEqual(errors, ["crashmap: proving and building crashmap: 2 crates",
                                  "crashmap: proved low, 1 of 2", "crashmap: proved crashmap, 2 of 2",
                                  "crashmap: built crashmap"])
        self.assert_nothing_left()

    def test_the_gate_is_given_what_is_proved_and_nothing_else(self):
        self.launch("--prove")
        self.assertEqual(self.calls(), ["ci"])
        wanted = ["./HANDLES", "./crates.txt", "./crates/crashmap/src/main.rt", "./crates/crashmap/stdin",
                  "./crates/crashmap/stdout", "./crates/low/proofs/Lib.antt", "./crates/low/src/lib.rt"]
        self.assertEqual((self.fake / "files").read_text().splitlines(), wanted)
        self.assertEqual((self.fake / "rows").read_text(), ROWS)

    def test_with_more_words_it_answers(self):
        status, output, errors = self.launch("--prove", "1", "2")
        self.assertEqual((status, output), (1, "proved: 1 2\n"))
        self.assertEqual(errors[-1], "crashmap: built crashmap")

    def test_later_calls_are_immediate(self):
        self.prove()
        self.assertEqual(self.launch("--strict", "a"), (1, "proved: --strict a\n", []))
        self.assertEqual(self.launch("--proved", "a"), (1, "proved: a\n", []))
        self.assertEqual(self.launch("--prove", "a")[:2], (1, "proved: a\n"))
        self.assertEqual(self.calls(), [])

    def test_proved_refuses_where_nothing_is_built(self):
        status, output, errors = self.launch("--proved", "a")
        self.assertEqual((status, output, len(errors)), (2, "", 1))
        self.assertIn("./crashmap --prove", errors[0])
        self.assertEqual(self.calls(), [])

    def test_a_crate_that_is_not_proved(self):
        self.set_mode("fails")
        status, output, errors = self.launch("--prove", "a")
        self.assertEqual((status, output), (2, ""))
        self.assertIn("fn low::f: not proved", errors)
        self.assertIn("rt: low NOT PROVED", errors)
        self.assertEqual([it for it in (self.top / "out").rglob("*") if it.is_file()], [])
        self.assert_nothing_left()
        self.assertEqual(self.launch("--proved")[0], 2)

    def test_without_rt(self):
        self.assertEqual(self.launch("--prove", PATH=self.path_without_rt()), (2, "", [NO_RT]))


class Changes(LauncherTest):
    """A change of what the program is built of makes it unproved; another change does not."""

    def setUp(self):
        super().setUp()
        self.prove()

    def assert_proved(self, is_proved):
        self.assertEqual(self.launch("--proved", "a")[:2], (1, "proved: a\n") if is_proved else (2, ""))
        self.assertEqual(self.launch()[1], "proved: \n" if is_proved else "unproved: \n")

    def test_a_source(self):
        (self.top / "crates/low/src/lib.rt").write_text("changed\n")
        self.assert_proved(False)
        self.assertEqual(self.launch("--prove")[0], 0)
        self.assert_proved(True)

    def test_a_source_that_is_new(self):
        (self.top / "crates/low/src/more.rt").write_text("new\n")
        self.assert_proved(False)

    def test_a_source_that_is_gone(self):
        (self.top / "crates/low/proofs/Lib.antt").unlink()
        self.assert_proved(False)

    def test_a_row_of_a_crate_that_the_program_stands_on(self):
        (self.top / "crates.txt").write_text(f"{ROWS}beside: low\n".replace("low:", "low may_wait=1:"))
        self.assert_proved(False)

    def test_the_handles(self):
        (self.top / "HANDLES").write_text("Handles allowed: Net.\n")
        self.assert_proved(False)

    def test_the_program_is_gone(self):
        (self.top / "out/proved/crashmap").unlink()
        self.assert_proved(False)

    def test_a_crate_beside_the_program(self):
        (self.top / "crates/beside/src/lib.rt").write_text("changed\n")
        (self.top / "crates.txt").write_text(f"{ROWS}beside tests_may=Threads: low\nnew: beside\n")
        self.assert_proved(True)

    def test_what_is_not_built_into_the_program(self):
        (self.top / "crates/low/must-fail/wrong.edit").write_text("changed\n")
        (self.top / "crates/low/out/kept").write_text("changed\n")
        self.assert_proved(True)

    def test_a_source_that_changes_while_the_program_is_built(self):
        (self.top / "out/proved/crashmap").unlink()
        self.set_mode("changes")
        self.assertEqual(self.launch("--prove")[0], 0)
        self.assert_proved(False)


def hear_interrupts():
    """Takes interrupts as a program of a terminal does, even where the suite itself was started to ignore them."""
    signal.signal(signal.SIGINT, signal.SIG_DFL)


class Interrupts(LauncherTest):
    """A call that is broken off ends at once, with all that it started."""

    def start(self, *words):
        """Starts a call that waits for rt, and gives it with the numbers of who called rt, of rt and of what rt has
        started."""
        self.set_mode("waits")
        run = subprocess.Popen([self.top / "crashmap", *words], stdin=subprocess.DEVNULL, stderr=subprocess.DEVNULL,
                               env=self.environment, start_new_session=True, preexec_fn=hear_interrupts)
        self.addCleanup(self.end, run)
        processes, latest = self.fake / "processes", time.monotonic() + 20
        while not processes.exists() and time.monotonic() < latest:
            time.sleep(0.05)
        return run, [int(number) for number in processes.read_text().split()]

    def end(self, run):
        if run.poll() is None:
            os.killpg(run.pid, signal.SIGKILL)
            run.wait()

    def assert_ended(self, run, processes):
        began = time.monotonic()
        self.assertEqual(run.wait(timeout=20), 2)
        self.assertLess(time.monotonic() - began, 10)
        latest = time.monotonic() + 5
        while any(map(is_running, processes)) and time.monotonic() < latest:
            time.sleep(0.05)
        self.assertEqual([number for number in processes if is_running(number)], [])
        self.assert_nothing_left()

    def test_the_proof_is_ended(self):
        run, processes = self.start("--prove")
        self.assertTrue(all(map(is_running, processes)))
        os.kill(processes[0], signal.SIGTERM)
        self.assert_ended(run, processes)

    def test_an_interrupt_from_the_terminal(self):
        run, processes = self.start("--prove")
        os.killpg(run.pid, signal.SIGINT)
        self.assert_ended(run, processes)

    def test_an_interrupt_of_an_unproved_answer(self):
        run, processes = self.start()
        os.killpg(run.pid, signal.SIGINT)
        self.assert_ended(run, processes)


if __name__ == "__main__":
    unittest.main()
