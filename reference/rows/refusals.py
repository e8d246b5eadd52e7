"""Scripts and command lines that are refused, and scripts at the edge of a limit."""

import unittest

from ..answer import report
from .support import (
    CREATE, CREATE_WRITE, EIGHT_NAMES, EMPTY_GROUP, EMPTY_REPORT, LOW, counts, failing_ids, parts, program,
    refused, run, script_of, settings, toggles)


class Refusals(unittest.TestCase):
    """What is refused, and what just is not."""

    def test_the_most_patches_can_be_set_lower(self):
        self.assertEqual(run(toggles(31), module="soft", max_patches=62), (
            "module soft\npatches 62\nclosed 63\nfailing 0\n", 0))
        self.assertEqual(run(toggles(31), module="soft"), ("module soft\npatches 62\nclosed 63\nfailing 0\n", 0))
        self.assertEqual(run(toggles(32), module="soft", max_patches=62), refused(
            "crashmap: line 34: 2 too many patches"))

    def test_a_script_has_124_patches_at_most(self):
        self.assertEqual(run(toggles(62), module="soft"), ("module soft\npatches 124\nclosed 125\nfailing 0\n", 0))
        self.assertEqual(run(toggles(63), module="soft"), refused("crashmap: line 65: 2 too many patches"))

    def test_the_longest_script_of_links_without_ordering(self):
        found = parts(toggles(62))
        self.assertEqual((len(found.patches), len(found.closed), len(found.failing)), (124, 3969, 992))
        self.assertEqual((failing_ids(found)[0], found.failing[0].faults), ([1], [LOW]))
        self.assertEqual((failing_ids(found)[-1], found.failing[-1].faults), ([k for k in range(124) if k != 122], [
            LOW]))
        self.assertEqual(run(toggles(62), limit=3969), (report(found, settings()), 1))
        self.assertEqual(run(toggles(62), limit=3968), refused("crashmap: 30 too many closed sets"))

    def test_half_of_the_longest_script(self):
        rows = toggles(31)
        found = parts(rows)
        everything = list(range(62))
        self.assertEqual(counts(rows), (62, 1024, 256))
        self.assertEqual((failing_ids(found)[0], found.failing[0].faults), ([1], [LOW]))
        self.assertEqual((failing_ids(found)[-1], found.failing[-1].faults), ([k for k in everything if k != 60], [
            LOW]))

    def test_groups_are_opened_once_and_ended(self):
        self.assertEqual(run("start ; group A ; create /a ; depend B A"), refused("crashmap: line 4: 21 group fault"))
        self.assertEqual(run("group A ; start"), refused("crashmap: line 1: 21 group fault"))
        self.assertEqual(run("start ; depend B A"), refused("crashmap: line 2: 21 group fault"))
        self.assertEqual(run(EMPTY_GROUP + " ; depend B A"), refused("crashmap: line 7: 21 group fault"))

    def test_a_group_without_a_patch_orders_nothing(self):
        self.assertEqual((counts(EMPTY_GROUP), failing_ids(parts(EMPTY_GROUP))), ((2, 4, 1), [[1]]))

    def test_a_script_needs_a_start_line(self):
        self.assertEqual(run("create /a"), refused("crashmap: line 2: 43 no start line"))
        self.assertEqual(run(b""), refused("crashmap: line 1: 43 no start line"))
        self.assertEqual(run(b"\n" * 100000), refused("crashmap: line 100001: 43 no start line"))

    def test_all_lines_are_read_before_one_is_done(self):
        self.assertEqual(run("start ; create /x/y ; crate /a"), refused("crashmap: line 3: 41 bad line"))
        self.assertEqual(run("start ; create /x/y"), refused("crashmap: line 2: 10 not found"))
        self.assertEqual(run("start ; create /a ; create /a/b"), refused("crashmap: line 3: 11 not a directory"))

    def test_a_file_has_eight_names_at_most(self):
        for act in ("link", "rename"):
            self.assertEqual(run(EIGHT_NAMES + " ; %s /a /i" % act), refused("crashmap: line 10: 19 too many links"))

    def test_a_file_has_four_blocks_at_most(self):
        self.assertEqual(run("create /a ; write /a ; write /a ; write /a ; write /a ; start ; write /a"), refused(
            "crashmap: line 7: 18 file full"))

    def test_a_disk_can_be_full(self):
        self.assertEqual(run("create /a ; write /a ; start ; write /a", journal=10), refused(
            "crashmap: line 4: 16 no free block"))

    def test_a_journal_leaves_six_blocks(self):
        self.assertEqual(run("start", journal=11), refused("crashmap: 1 bad geometry"))
        self.assertEqual(run("start", journal=10), (EMPTY_REPORT, 0))
        self.assertEqual(run("start", blocks=128, journal=122), (EMPTY_REPORT, 0))

    def test_paths_and_lines_that_are_none(self):
        self.assertEqual(run("start ; mkdir /"), refused("crashmap: line 2: 42 bad path"))
        self.assertEqual(run("start ; mkdir /a/b/c/d/e"), refused("crashmap: line 2: 42 bad path"))
        self.assertEqual(run("start ; mkdir  /a"), refused("crashmap: line 2: 41 bad line"))
        self.assertEqual(run(b"start\n\xff"), refused("crashmap: line 2: 40 not UTF-8"))

    def test_a_long_line_and_bytes_that_are_no_text(self):
        self.assertEqual(run(b"a" * 1000000), refused("crashmap: line 1: 41 bad line"))
        self.assertEqual(run(b"#\xff\n"), refused("crashmap: line 1: 40 not UTF-8"))

    def test_lines_that_are_none(self):
        for line in (b"start\r", b"start x", b" start", b"create", b"create a b", b"group ABCDEFGHIJK"):
            self.assertEqual(run(line + b"\n"), refused("crashmap: line 1: 41 bad line"))

    def test_paths_that_are_none(self):
        for line in (b"create /A", b"create //a", b"create /a/", b"create /abcdefghijk", b"link a /b"):
            self.assertEqual(run(line + b"\n"), refused("crashmap: line 1: 42 bad path"))

    def test_a_name_that_is_taken(self):
        self.assertEqual(run("start ; create /a ; link /a /a"), refused("crashmap: line 3: 12 exists"))

    def test_the_longest_script(self):
        self.assertEqual(program([], b"\n" * 1048576), ("", "crashmap: line 1048577: 43 no start line\n", 2))
        self.assertEqual(program([], b"\n" * 1048577), ("", "crashmap: 52 script too long\n", 2))

    def test_a_script_that_is_not_there(self):
        self.assertEqual(program(["no_such_script"], b""), ("", "crashmap: 50 cannot read the script\n", 2))

    def test_workers_change_nothing(self):
        for workers in ("1", "2", "8", "16"):
            words = ["--module", "async", "--workers", workers, "--limit"]
            self.assertEqual(program(words + ["24"], script_of(CREATE_WRITE)), (run(CREATE_WRITE)[0], "", 1))
            self.assertEqual(program(words + ["23"], script_of(CREATE_WRITE)), ("",
                "crashmap: 30 too many closed sets\n", 2))

    def test_reports_of_the_program(self):
        self.assertEqual(program(["--module", "async", "--json"], script_of("start")), (
            '{"closed":1,"failing":[],"module":"async","patches":0}\n', "", 0))
        self.assertEqual(program(["--module", "async", "--json"], script_of("create /a ; start ; link /a /b")), (
            '{"closed":4,"failing":[{"faults":["4 low link count: inode 1 entries 2 links 1"],"set":[1],'
            '"writes":[{"block":4,"patches":[1]}]}],"module":"async","patches":2}\n', "", 1))
        self.assertEqual(program([], script_of(CREATE)), ("module soft\npatches 2\nclosed 3\nfailing 0\n", "", 0))

    def test_words_of_the_command_line_that_are_none(self):
        for words in (["--limit", "0"], ["--journal", "123"], ["--workers", "17"], ["one", "two"], ["--summary"],
                      ["--needs"], ["--explorer", "board"], ["--limit", "32769"], ["--limit", "1000000000"]):
            for script in ("start", CREATE, "no script"):
                out, err, status = program(words, script_of(script))
                self.assertEqual((out, bool(err), status), ("", True, 2), words)
        self.assertEqual(program(["--limit", "32768"], script_of(CREATE)), program([], script_of(CREATE)))
