"""What the built program answers that no case file can hold: its help, long scripts, and devices of its own."""

import pathlib
import re
import subprocess
import tempfile
import unittest

from tests.program import ROOT, needs_a_proved_program, program

MOST_SCRIPT_BYTES = 1 << 20
CREATE = b"start\ncreate /a\n"
CREATED = b"module soft\npatches 2\nclosed 3\nfailing 0\n"

# What is in the help, in this order.
HELP = ("Finds every state", "Usage: crashmap", "\nWhat to run:\n", "[SCRIPT]", "--blocks <N>", "--journal <JL>",
        "\nThe ordering:\n", "--module <M>", "--without <RULE>", "--with <RULE>", "--whole-blocks",
        "\nWhat fails:\n", "--strict", "--atomic",
        "\nHow far:\n", "--limit <L>", "--workers <W>", "--decide", "--enough", "--search <N>",
        "\nHow to read it:\n", "--explain", "--json", "--numbers",
        "--options", "--hints always")


def answer(*words, script=b""):
    """The exit status, standard output and standard error."""
    run = subprocess.run([program(), *words], input=script, capture_output=True, timeout=60)
    return run.returncode, run.stdout, run.stderr


class Help(unittest.TestCase):
    def test_each_option_stands_under_its_head(self):
        for word in ("--help", "-h"):
            status, out, err = answer(word)
            self.assertEqual((status, err), (0, b""))
            rest = out.decode()
            for piece in HELP:
                self.assertIn(piece, rest)
                rest = rest.partition(piece)[2]

    def test_words_of_reports_are_explained(self):
        help_text = answer("--help")[1].decode()
        explained = help_text.partition("\nWords of reports:\n")[2].partition("\n\n")[0]
        self.assertEqual([line[:10].strip() for line in explained.splitlines()],
                         ["base", "closed", "in place"])
        self.assertTrue(all(len(line) > 30 for line in explained.splitlines()), explained)

    def test_a_strict_run_is_explained_by_what_a_user_loses(self):
        loses = "a crash loses a file or directory that is there before `start` and that the script never removes"
        self.assertIn(loses, " ".join(answer("--help")[1].decode().split()))

    def test_the_faults_that_can_count_are_those_that_help_and_the_error_name(self):
        named = re.search(r"Count only faults of these numbers, 1 to (\d+),", answer("--help")[1].decode())
        most = int(named[1])
        for number, status in ((0, 2), (1, 0), (most, 0), (most + 1, 2)):
            answered, _, err = answer(f"--faults={number}", script=b"start\n")
            self.assertEqual((answered, f"numbers from 1 to {most}, each" in err.decode()), (status, status == 2))


class Options(unittest.TestCase):
    """The list of options that other programs read."""

    def listed(self):
        """The lines of the list."""
        status, out, err = answer("--options")
        self.assertEqual((status, err), (0, b""))
        return out.decode().splitlines()

    def test_help_and_the_readme_have_each_option_with_its_value(self):
        help_text = answer("--help")[1].decode()
        table = (ROOT / "README.md").read_text().partition("\n## Options\n")[2].partition("\n## ")[0]
        for line in self.listed():
            name, *value = line.partition(" not with ")[0].split()
            self.assertIn(" ".join([name, *(f"<{it}>" for it in value)]).replace("SCRIPT", "[SCRIPT]"), help_text)
            self.assertRegex(table, f"`{name}[ `]")

    def test_options_that_do_not_go_together_are_refused(self):
        values = {"N": "3", "L": "9"}
        symbols = {"--limit": "L", "--search": "N"}
        for line in self.listed():
            front, _, others = line.partition(" not with ")
            name, *value = front.split()
            for other in others.split():
                given = [name, *(values[it] for it in value), other]
                given += [values[symbols[other]]] if other in symbols else []
                status, _, err = answer(*given, script=CREATE)
                self.assertEqual((status, b"cannot be used with" in err), (2, True), given)

    def test_an_option_takes_the_numbers_that_its_help_names(self):
        ranges = re.findall(r"(--[a-z]+) <[A-Z]> .*, (\d+) to (\d+)", answer("--help")[1].decode())
        self.assertEqual([name for name, _, _ in ranges], ["--blocks", "--limit", "--workers", "--search"])
        for name, least, most in ranges:
            for number, status in ((int(least) - 1, 2), (int(least), 0), (int(most), 0), (int(most) + 1, 2)):
                self.assertEqual(answer(f"{name}={number}", script=b"start\n")[0], status, (name, number))

    def test_a_word_after_dashes_is_no_option(self):
        status, _, err = answer("--", "--search-me")
        self.assertEqual((status, err), (2, b"crashmap: 50 cannot read the script\n"))


class Rules(unittest.TestCase):
    def assert_refused(self, words, *pieces):
        """The words are refused, and standard error has these pieces."""
        status, out, err = answer(*words)
        self.assertEqual((status, out), (2, b""))
        for piece in pieces:
            self.assertIn(piece, err.decode())

    def test_a_list_of_the_modules_rules_and_of_all_parts(self):
        status, out, err = answer("--rules", "--module", "meta")
        self.assertEqual((status, err), (0, b""))
        rules, _, parts = out.decode().partition("The parts are:\n")
        self.assertEqual([line.split()[0] for line in rules.splitlines() if line.startswith("  ")],
                         ["FileData:previous-Commit", "Commit:Copy", "Commit:FileData", "Commit:previous-Commit",
                          "InPlace:Commit", "Done:InPlace", "Done:previous-Done"])
        self.assertEqual([line.split()[0] for line in parts.splitlines()],
                         ["InodeInit", "EntrySet", "EntryClear", "MapSet", "MapClear", "InitFile", "InitDir", "Ptr",
                          "LinkUp", "LinkDown", "InodeFree", "PtrClear", "NewData", "Touch", "InPlace", "FileData",
                          "Copy", "Commit", "Done"])

    def test_each_rule_and_part_has_a_sentence(self):
        for module in ("soft", "meta", "full"):
            page = answer("--rules", "--module", module)[1].decode()
            listed = [line for line in page.splitlines() if line.startswith("  ")]
            self.assertTrue(all(len(line.split()) > 3 for line in listed), listed)

    def test_a_list_without_rules(self):
        self.assertTrue(answer("--rules", "--module", "async")[1].startswith(b"async has no rules.\n\nA rule LATER"))

    def test_a_word_that_is_no_rule(self):
        for word in ("Ptr:InitFle", "Ptr:", "Ptr", "Sideways:Ptr"):
            self.assert_refused(["--with", word], f"'{word}'", "it is no rule; --rules lists what a rule can name")

    def test_a_rule_of_another_module(self):
        self.assert_refused(["--without", "Commit:Copy"], "'Commit:Copy'",
                            "the module has no such rule; --rules lists its rules")


class Scripts(unittest.TestCase):
    def test_a_script_in_a_file(self):
        with tempfile.TemporaryDirectory() as folder:
            script = pathlib.Path(folder, "a.txt")
            script.write_bytes(CREATE)
            self.assertEqual(answer(script, "--limit=32768"), (0, CREATED, b""))

    def test_options_that_there_are_not(self):
        """Whatever the script is, and whatever other words there are."""
        for gone in (["--summary"], ["--needs"], ["--explorer", "board"], ["--explorer=sweep"], ["--limit", "32769"]):
            for others in ([], ["--module", "async"], ["--json"]):
                for script in (CREATE, b"start\n", b"no script\n"):
                    status, out, err = answer(*others, *gone, script=script)
                    self.assertEqual((status, out, err[:7]), (2, b"", b"error: "), (gone, others))

    def test_a_refusal_that_cannot_be_printed_keeps_its_status(self):
        with open("/dev/full", "wb") as full:
            run = subprocess.run([program()], input=b"", stdout=subprocess.PIPE, stderr=full, timeout=60)
        self.assertEqual((run.returncode, run.stdout), (2, b""))


class LongScripts(unittest.TestCase):
    def refuses(self, script, line):
        self.assertEqual(answer(script=script), (2, b"", line + b"\n"))

    @needs_a_proved_program()
    def test_the_longest_script(self):
        self.refuses(b"\n" * MOST_SCRIPT_BYTES, b"crashmap: line 1048577: 43 no start line")

    def test_a_longer_script(self):
        self.refuses(b"\n" * (MOST_SCRIPT_BYTES + 1), b"crashmap: 52 script too long")

    def test_a_long_line(self):
        self.refuses(b"a" * 1_000_000, b"crashmap: line 1: 41 bad line")

    def test_many_lines(self):
        self.refuses(b"\n" * 100_000, b"crashmap: line 100001: 43 no start line")


if __name__ == "__main__":
    unittest.main()
