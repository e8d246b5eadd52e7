"""The page: what a browser shows of reports, good ones and bad ones, and what `crashmap-page` and `page/stitch` write.

It needs Debian's chromium and node; `.ci/install` installs them. `tests/program.py` says which program is run.
"""

import json
import os
import pathlib
import pty
import re
import shutil
import subprocess
import sys
import tempfile
import unittest

sys.path.insert(0, str(pathlib.Path(__file__).resolve().parent))
from program import ROOT, program

PAGE = ROOT / "page"
sys.path.insert(0, str(PAGE))
from stitching import StitchError, joined, page_of

SECONDS = 400
MOST_LETTERS = 6000
CREATE = b"start\ncreate /a\n"
CLEAN = b"start\ncreate /a\nwrite /a\n"


def cases():
    """The scripts and words of the page's reports, by name."""
    return json.loads((PAGE / "test/cases.json").read_text())


def report_of(name):
    return (PAGE / "test/reports" / f"{name}.json").read_bytes()


def script_of(case):
    return "".join(line + "\n" for line in case["script"]).encode()


def run(words, given=b"", **environment):
    """Status, standard output and standard error of a command."""
    done = subprocess.run([str(word) for word in words], input=given, capture_output=True, timeout=SECONDS,
                          env={**os.environ, **environment}, check=False)
    return done.returncode, done.stdout, done.stderr


class InABrowser(unittest.TestCase):
    """Each file of tests in JavaScript passes in chromium."""

    def passes(self, name, **environment):
        for needed in ("chromium", "node"):
            self.assertIsNotNone(shutil.which(needed), f"{needed} is not installed; .ci/install installs it")
        status, out, err = run(["node", PAGE / "test" / name], **environment)
        said = (out + err).decode(errors="replace")
        counts = re.fullmatch(r"(\d+) passed, 0 failed", out.decode(errors="replace").rstrip().split("\n")[-1])
        self.assertTrue(counts and int(counts[1]) > 0 and status == 0, said[:MOST_LETTERS])

    def test_reports_are_shown(self):
        self.passes("test_reports.mjs")

    def test_the_page_says_what_it_shows(self):
        self.passes("test_words.mjs")

    def test_paper_has_all_of_it(self):
        self.passes("test_paper.mjs")

    def test_bad_reports_leave_a_page_that_says_what_is_wrong(self):
        self.passes("test_bad.mjs")

    def test_what_is_enough_is_shown(self):
        self.passes("test_enough.mjs")

    def test_lines_that_have_to_wait_are_shown(self):
        self.passes("test_syncs.mjs")

    def test_searches_are_shown(self):
        self.passes("test_search.mjs")

    def test_promises_and_real_paths_are_shown(self):
        self.passes("test_promises.mjs")

    def test_the_gallery_is_shown(self):
        scripts = sorted((ROOT / "gallery").glob("*.script"))
        self.assertTrue(scripts)
        with tempfile.TemporaryDirectory() as folder:
            for script in scripts:
                text, questions = script.read_text(), [["--limit", "32768"], ["--decide"], ["--enough"]]
                words = re.search(r"^# \./crashmap gallery/\S+ (.*)$", text, re.MULTILINE)[1].split()
                if re.search(r"^f?sync\b", text, re.MULTILINE):
                    questions.append(["--enough", "--syncs"])
                for question in questions:
                    command = [ROOT / "crashmap-page", script, *words, *question]
                    status, page, err = run(command, CRASHMAP_PROGRAM=str(program()))
                    self.assertIn(status, (0, 1), (script, err))
                    pathlib.Path(folder, " ".join([script.stem, *question])).write_bytes(page)
            self.passes("test_made.mjs", PAGES=folder)


class Reports(unittest.TestCase):
    """The reports that the browser is tried on are those of the program."""

    def test_each_report_is_the_programs(self):
        for name, case in cases().items():
            with self.subTest(name):
                words = [program(), *case["words"], "--json", "--explain"]
                status, out, err = run(words, script_of(case))
                self.assertEqual((status in (0, 1), err), (True, b""))
                self.assertTrue(out == report_of(name), "another report than the reference's")

    def test_each_report_has_a_case(self):
        self.assertEqual(sorted(cases()), sorted(path.stem for path in (PAGE / "test/reports").glob("*.json")))


class CrashmapPage(unittest.TestCase):
    """`crashmap-page` writes the page of the program's report, or else what the program prints."""

    def setUp(self):
        folder = tempfile.TemporaryDirectory()
        self.addCleanup(folder.cleanup)
        self.folder = pathlib.Path(folder.name)
        self.script = self.folder / "a script"
        self.script.write_bytes(CREATE)

    def make(self, *words, given=b"", of=None):
        """What crashmap-page answers to these words, over the built program or another."""
        return run([ROOT / "crashmap-page", *words], given, CRASHMAP_PROGRAM=str(of or program()))

    def page_of_case(self, name, script, text, words):
        return page_of(report_of(name), {"script": script, "text": text.decode(), "words": [str(one) for one in words]})

    def is_the_programs(self, *words, given=b""):
        """crashmap-page writes nothing of its own: the program's answer to the words, byte for byte."""
        wanted = run([program(), *words], given)
        self.assertEqual(self.make(*words, given=given), wanted)
        return wanted

    def test_a_set_fails(self):
        words = [self.script, "--module", "async"]
        page = self.page_of_case("create", "a script", CREATE, words)
        self.assertEqual(self.make(*words), (1, page, b""))

    def test_no_set_fails(self):
        self.script.write_bytes(CLEAN)
        words = ["--module", "soft", self.script]
        self.assertEqual(self.make(*words), (0, self.page_of_case("safe", "a script", CLEAN, words), b""))

    def test_options_that_it_adds_are_given(self):
        words = [self.script, "--decide", "--module=async", "--json", "--explain"]
        self.assertEqual(self.make(*words), (1, self.page_of_case("create", "a script", CREATE, words), b""))

    def test_options_end(self):
        words = ["--module", "async", "--", self.script]
        self.assertEqual(self.make(*words), (1, self.page_of_case("create", "a script", CREATE, words), b""))

    def test_rules(self):
        case = cases()["needed"]
        self.script.write_bytes(script_of(case))
        words = ["--enough", "--module", "soft", self.script]
        self.assertEqual(self.make(*words), (0, self.page_of_case("needed", "a script", script_of(case), words), b""))

    def test_every_failing_set(self):
        """A run with a limit is no decision, so the page lists the sets."""
        case = cases()["all_sets"]
        self.script.write_bytes(script_of(case))
        words = [self.script, "--module", "async", "--strict", "--atomic", "--limit", "12"]
        self.assertEqual(self.make(*words), (1, self.page_of_case("all_sets", "a script", script_of(case), words), b""))

    def test_standard_input(self):
        words = ["--module", "async"]
        page = self.page_of_case("create", "standard input", CREATE, words)
        self.assertEqual(self.make(*words, given=CREATE), (1, page, b""))

    def test_a_script_that_can_be_read_but_once(self):
        command = 'exec "$0" --module async <(cat "$1") 2>&1'
        words = ["bash", "-c", command, ROOT / "crashmap-page", self.script]
        status, out, _ = run(words, CRASHMAP_PROGRAM=str(program()))
        self.assertEqual((status, out[:15], b'"text": null' in out), (1, b"<!doctype html>", True))

    def test_a_script_with_html_in_it(self):
        text = b"# </script><!--<script>\xff\n" + CREATE
        self.script.write_bytes(text)
        printing = self.stand_in(f"cat '{PAGE}/test/reports/create.json'\nexit 1\n")
        status, out, err = self.make(self.script, of=printing)
        self.assertEqual((status, err, out.count(b"</script>"), out.count(b"<script")), (1, b"", 3, 3))
        self.assertNotIn(b"<!--", out)

    def test_help(self):
        status, out, _ = self.is_the_programs("--help")
        self.assertEqual((status, b"--module" in out), (0, True))

    def test_help_beside_other_words(self):
        self.is_the_programs(self.script, "-h")

    def test_version(self):
        status, out, _ = self.is_the_programs("--version")
        self.assertEqual((status, out.startswith(b"crashmap ")), (0, True))

    def test_a_script_is_refused(self):
        status, out, err = self.is_the_programs(self.script, "--limit", "1")
        self.assertEqual((status, out, err), (2, b"", b"crashmap: 30 too many closed sets\n"))

    def test_standard_input_is_refused(self):
        self.assertEqual(self.is_the_programs("--module", "async", given=b"create /a\n")[:2], (2, b""))

    def test_a_word_is_refused(self):
        status, out, err = self.is_the_programs("--nope")
        self.assertEqual((status, out, err != b""), (2, b"", True))

    def test_a_search_for_rules_is_one_question(self):
        words = ["--search", "2", "--enough"]
        printed = self.make(*words, of=self.stand_in('echo "$@"\n'))[1].decode()
        self.assertEqual(printed.split(), [*words, "--json", "--explain"])

    def test_words_that_do_not_go_together(self):
        """The program names all that it was given, so the page adds nothing."""
        for words in (["--limit", "5", "--enough"], ["--decide", "--limit=5"], ["--search", "1", "--limit=5"],
                      ["--decide", "--enough"], ["--search", "2", "--enough", "--decide"]):
            with self.subTest(words):
                status, out, err = self.is_the_programs(self.script, *words)
                self.assertEqual((status, out, err != b""), (2, b"", True))
                words = [str(self.script), *words]
                self.assertEqual(self.make(*words, of=self.stand_in('echo "$@"\n'))[1].decode().split(), [
                    part for word in words for part in word.split()])

    def test_the_rules_of_a_module(self):
        status, out, _ = self.is_the_programs("--rules", "--module", "meta")
        self.assertEqual((status, b"Commit:Copy" in out), (0, True))

    def test_there_is_no_such_script(self):
        self.assertEqual(self.is_the_programs(self.folder / "none")[:2], (2, b""))

    def stand_in(self, text, path="prints"):
        """A program in place of crashmap."""
        made = self.folder / path
        made.write_text("#!/bin/sh\n" + text)
        made.chmod(0o755)
        return made

    def test_what_is_no_report_is_passed_on(self):
        printing = self.stand_in("echo rules\necho said >&2\n")
        self.assertEqual(self.make(self.script, of=printing), (0, b"rules\n", b"said\n"))

    def test_the_launcher_beside_it_is_run(self):
        """Its first words stay first, and what the page needs comes last."""
        shutil.copytree(PAGE, self.folder / "page")
        shutil.copytree(ROOT / "launch", self.folder / "launch")
        shutil.copy(ROOT / "crashmap-page", self.folder)
        self.stand_in('echo "$@"\n', "crashmap")
        environment = {name: value for name, value in os.environ.items() if name != "CRASHMAP_PROGRAM"}
        words = [self.folder / "crashmap-page", "--unproved", "a", "--strict"]
        said = subprocess.run(words, env=environment, stdout=subprocess.PIPE, timeout=SECONDS, check=True).stdout
        self.assertEqual(said, b"--unproved a --strict --json --explain --decide\n")

    def test_other_questions_go_without_a_decision(self):
        """A report that begins with a brace is made a page, so what this program prints is passed on."""
        printing = self.stand_in('echo "$@"\n')
        for question in ("--limit=9", "--decide", "--enough", "--search=2"):
            said = f"a {question} --json --explain\n".encode()
            self.assertEqual(self.make("a", question, of=printing), (0, said, b""))

    def test_a_decision(self):
        printing = self.stand_in(f"cat '{PAGE}/test/reports/decided.json'\nexit 1\n")
        self.script.write_bytes(CLEAN)
        words = [self.script, "--module", "async", "--decide"]
        page = self.page_of_case("decided", "a script", CLEAN, words)
        self.assertEqual(self.make(*words, of=printing), (1, page, b""))

    def test_what_is_enough(self):
        self.script.write_bytes(CLEAN)
        words = ["--enough", self.script]
        self.assertEqual(self.make(*words), (0, self.page_of_case("enough", "a script", CLEAN, words), b""))

    def workload(self, name, *steps):
        """A workload of a search's case, with what the program answers about it."""
        case = cases()[name]
        begin = case["script"][:case["script"].index("start") + 1]
        words = [word for word in case["words"] if word not in ("--search", "2", "--enough")]
        script = script_of({"script": [*begin, *steps]})
        status, out, _ = run([program(), *words, "--decide", "--json", "--explain"], script)
        self.assertIn(status, (0, 1))
        return {"steps": list(steps), "report": json.loads(out)}

    def is_the_search(self, name, *shown):
        """The page of a search's case has the reports on its workloads, and first that on no operation."""
        case = cases()[name]
        self.script.write_bytes(script_of(case))
        words = [*case["words"], "--", str(self.script)]
        run_of = {"script": "a script", "text": script_of(case).decode(), "words": words,
                  "workloads": [self.workload(name, *steps) for steps in ((), *shown)]}
        self.assertEqual(self.make(*words), (1 if name == "search" else 0, page_of(report_of(name), run_of), b""))

    def test_a_search(self):
        self.is_the_search("search", ("link /a /b", "unlink /a"))

    def test_a_search_for_rules(self):
        """A workload that shows more than one group is asked about once."""
        self.is_the_search("search_enough", ("mkdir /d",), ("unlink /a",))

    def test_a_search_that_finds_nothing(self):
        self.is_the_search("search_clean")

    def test_a_search_of_a_pool_that_can_be_read_but_once(self):
        """The page has the report alone, since the pool's lines are gone."""
        self.script.write_bytes(script_of(cases()["search"]))
        command = 'exec "$0" --search=2 --strict <(cat "$1")'
        words = ["bash", "-c", command, ROOT / "crashmap-page", self.script]
        status, out, err = run(words, CRASHMAP_PROGRAM=str(program()))
        self.assertEqual((status, err, b"workloads\": [" in out), (1, b"", False))

    def test_a_terminal(self):
        """With no words, on a terminal, it says that it reads standard input; elsewhere it says nothing."""
        ours, theirs = pty.openpty()
        environment = {**os.environ, "CRASHMAP_PROGRAM": str(program())}
        with subprocess.Popen([ROOT / "crashmap-page"], stdin=theirs, stderr=theirs, stdout=subprocess.PIPE,
                              env=environment) as child:
            os.write(ours, CREATE + b"\x04")
            page = child.stdout.read()
        os.close(theirs)
        said = os.read(ours, MOST_LETTERS)
        os.close(ours)
        self.assertEqual((child.returncode, page[:15]), (0, b"<!doctype html>"))
        self.assertIn(b"crashmap-page: reading the script from standard input\r\n", said)
        self.assertEqual(self.make(given=CREATE)[2], b"")

    def test_there_is_no_program(self):
        status, out, err = self.make(self.script, of=self.folder / "none")
        self.assertEqual((status, out, err.startswith(b"crashmap-page: cannot run ")), (2, b"", True))

    def test_the_page_cannot_be_written(self):
        command = 'exec "$0" --module async "$1" >/dev/full'
        words = ["bash", "-c", command, ROOT / "crashmap-page", self.script]
        wanted = b"crashmap-page: cannot write the page: No space left on device\n"
        self.assertEqual(run(words, CRASHMAP_PROGRAM=str(program())), (2, b"", wanted))

    def test_a_reader_that_leaves_early(self):
        """The page is longer than a pipe holds, so writing it fails where nobody reads on."""
        for reader, wanted in (("head -1", b"<!doctype html>\n"), ("true", b"")):
            with self.subTest(reader):
                command = f'set -o pipefail; "$0" --module async "$1" | {reader}'
                words = ["bash", "-c", command, ROOT / "crashmap-page", self.script]
                self.assertEqual(run(words, CRASHMAP_PROGRAM=str(program())), (1, wanted, b""))


class Stitch(unittest.TestCase):
    """`page/stitch` joins modules, and refuses those that it cannot join."""

    def setUp(self):
        folder = tempfile.TemporaryDirectory()
        self.addCleanup(folder.cleanup)
        self.folder = pathlib.Path(folder.name)

    def refuses(self, words, **modules):
        for name, text in modules.items():
            (self.folder / f"{name}.js").write_text(text)
        with self.assertRaisesRegex(StitchError, words):
            joined(self.folder)

    def test_modules_are_joined(self):
        (self.folder / "start.js").write_text('import { two, one } from "./low.js";\nconsole.log(one, two());\n')
        (self.folder / "low.js").write_text("const one = 1;\nexport { one };\n\nexport function two() { return 2; }\n")
        status, out, _ = run(["node", "-e", joined(self.folder)])
        self.assertEqual((status, out), (0, b"1 2\n"))

    def test_the_code_is_modules_without_stitch_too(self):
        """Node links the files as they are: each name that one imports is exported by another."""
        shutil.copytree(PAGE / "src", self.folder / "src")
        (self.folder / "src/package.json").write_text('{"type": "module"}')
        start = (self.folder / "src/start.js").as_uri()
        said = run(["node", "--input-type=module", "-e", f"await import({json.dumps(start)})"])[2]
        self.assertIn(b"ReferenceError", said, "node has no document")
        self.assertNotIn(b"SyntaxError", said)

    def test_a_name_is_seen_in_its_module_alone(self):
        (self.folder / "start.js").write_text('import { one } from "./low.js";\nconsole.log(one, typeof hidden);\n')
        (self.folder / "low.js").write_text("const hidden = 2;\nexport const one = 1;\n")
        self.assertEqual(run(["node", "-e", joined(self.folder)])[:2], (0, b"1 undefined\n"))

    def test_a_circle(self):
        self.refuses("in a circle: start -> low -> start", start='import { a } from "./low.js";\nexport const b = 1;\n',
                     low='import { b } from "./start.js";\nexport const a = 1;\n')

    def test_a_name_that_is_not_exported(self):
        self.refuses("start.js imports a from low.js, which does not export it",
                     start='import { a } from "./low.js";\n', low="const a = 1;\n")

    def test_a_file_that_is_not_there(self):
        self.refuses("start.js imports from low.js, and there is no such file", start='import { a } from "./low.js";\n')

    def test_a_file_that_nothing_imports(self):
        self.refuses("nothing imports low.js", start="", low="export const a = 1;\n")

    def test_another_form(self):
        self.refuses("does not know this form: export default", start="export default 1;\n")

    def test_the_end_of_a_script_in_the_code(self):
        self.refuses("would end the script", start='const end = "</script>";\n')

    def test_no_such_report(self):
        status, out, err = run([PAGE / "stitch", self.folder / "none"])
        self.assertEqual((status, out, err.startswith(b"stitch: ")), (1, b"", True))

    def test_two_reports(self):
        self.assertEqual(run([PAGE / "stitch", "one", "two"])[:2], (1, b""))


if __name__ == "__main__":
    unittest.main()
