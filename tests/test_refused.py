"""Each request for memory refused in turn: the program says that it is out of memory, and nothing else.

A run is repeated with its first request refused, then its second, until none is refused. These are all requests of the
program, those of the command line, of clap and of JSON too. An unknown option is left out: clap answers it as ever
though one of its requests is refused.
"""

import unittest

from tests.memory import MemoryTest

OUT_OF_MEMORY = (2, b"", b"crashmap: 99 out of memory\n")
SILENT = (2, b"", b"")
MOST_REQUESTS = 100_000
SCRIPT = b"start\ncreate /a\n"
TO_AND_FRO = b"link /a /b\nunlink /b\n"

ASYNC, SOFT = ("--module", "async"), ("--module", "soft")
RUNS = {
    "creates": (ASYNC, SCRIPT),
    "uses a block again": (ASYNC, b"create /a\nwrite /a\ncreate /b\nstart\nunlink /a\nwrite /b\n"),
    "makes as many patches as there can be": (SOFT, b"create /a\nstart\n" + 31 * TO_AND_FRO),
    "makes half as many": (SOFT, b"create /a\nstart\n" + 15 * TO_AND_FRO + b"link /a /b\n"),
    "is behind a journal": (("--module", "meta", "--blocks", "24", "--journal", "12"),
                            b"mkdir /d\ncreate /d/x\ncreate /f\nstart\nunlink /d/x\nrmdir /d\nwrite /f\n"),
    "is before a strict checker": ((*ASYNC, "--strict"), b"create /a\nstart\nrename /a /b\n"),
    "has too many sets": ((*ASYNC, "--limit", "23"), b"start\ncreate /a\nwrite /a\n"),
}
"""Scripts and the words that they are run with, by what a script does."""


class RefusedMemory(MemoryTest):
    @classmethod
    def setUpClass(cls):
        super().setUpClass()
        cls.script = cls.folder / "create"
        cls.script.write_bytes(SCRIPT)

    def assert_out_of_memory(self, *words, text=b"", may_report=False, for_good=False):
        """Each request refused in turn makes the run out of memory. With `may_report` the answer may be the usual one,
        as where a thread cannot start and another does its work. With `for_good` all later requests are refused too,
        and then the line on standard error may be lacking."""
        usual = self.answer(words, text)
        for number in range(1, MOST_REQUESTS):
            got, was_refused = self.refused_answer(words, text, number, MOST_REQUESTS if for_good else number)
            if not was_refused:
                self.assertEqual(got, usual, "without a refused request")
                self.assertGreater(number, 1, "no request was made")
                return
            if may_report and got == usual:
                continue
            if not (for_good and got == SILENT):
                self.assertEqual(got, OUT_OF_MEMORY, f"request {number} refused")
        self.fail("it makes more requests than were tried")

    def assert_all_out_of_memory(self, workers, *more):
        """So many workers are out of memory where a request of a run is refused, whatever the script."""
        for name, (words, text) in RUNS.items():
            with self.subTest(name):
                self.assert_out_of_memory(*words, *more, "--workers", str(workers), text=text, may_report=workers > 1)

    def test_text(self):
        self.assert_out_of_memory(str(self.script), "--module", "async")

    def test_json(self):
        self.assert_out_of_memory(str(self.script), "--module", "async", "--json")

    def test_standard_input(self):
        self.assert_out_of_memory("--module", "async", "--limit", "4", text=SCRIPT)

    def test_one_worker(self):
        self.assert_all_out_of_memory(1)

    def test_one_worker_in_json(self):
        self.assert_all_out_of_memory(1, "--json")

    def test_two_workers(self):
        self.assert_all_out_of_memory(2)

    def test_two_workers_in_json(self):
        self.assert_all_out_of_memory(2, "--json")

    def test_four_workers(self):
        self.assert_all_out_of_memory(4)

    def test_four_workers_in_json(self):
        self.assert_all_out_of_memory(4, "--json")

    def test_memory_that_is_lost_for_good(self):
        for workers in (1, 2, 4):
            for name in ("creates", "uses a block again"):
                words, text = RUNS[name]
                with self.subTest(name, workers=workers):
                    self.assert_out_of_memory(*words, "--workers", str(workers), text=text, may_report=workers > 1,
                                              for_good=True)

    def test_a_strict_checker(self):
        self.assert_out_of_memory(str(self.script), "--module", "async", "--strict")

    def test_whole_operations(self):
        self.assert_out_of_memory(str(self.script), "--module", "async", "--atomic")

    def test_a_decision_on_whole_operations(self):
        self.assert_out_of_memory(str(self.script), "--module", "async", "--decide", "--atomic")

    def test_a_decision(self):
        self.assert_out_of_memory(str(self.script), "--module", "async", "--decide", "--strict")

    def test_a_decision_in_json(self):
        self.assert_out_of_memory(str(self.script), "--module", "async", "--decide", "--explain", "--json")

    def test_a_decision_by_two_workers(self):
        self.assert_out_of_memory(str(self.script), "--module", "async", "--decide", "--workers", "2", may_report=True)

    def test_a_safe_script_with_the_highest_limit(self):
        self.assert_out_of_memory(str(self.script), "--limit", "32768", "--explain")

    def test_a_failing_script_with_the_highest_limit(self):
        self.assert_out_of_memory(str(self.script), "--module", "async", "--limit", "32768", "--explain", "--json")

    def test_rules_that_are_enough(self):
        self.assert_out_of_memory(str(self.script), "--enough", "--strict")

    def test_rules_that_are_enough_in_json(self):
        self.assert_out_of_memory(str(self.script), "--enough", "--explain", "--json")

    def test_a_refused_script(self):
        self.assert_out_of_memory("--limit", "1", text=SCRIPT)

    def test_a_limit_of_0(self):
        self.assert_out_of_memory("--limit", "0", text=SCRIPT)

    def test_a_word_too_many(self):
        self.assert_out_of_memory("a", "b", text=SCRIPT)

    def test_help(self):
        self.assert_out_of_memory("--help", text=SCRIPT)


if __name__ == "__main__":
    unittest.main()
