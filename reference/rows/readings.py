"""How a report is read: with patches, and with rules that are put in and taken out."""


from ..rules import PARTS, rules_of
from .support import (
    BLOCK_REUSE, CREATE, DANGLING, DIRECTORY_REUSE, META_WORDS, Rows, answered, lines, reuse_report, run, whole)


class Readings(Rows):
    """What `--explain` shows, and rules that are put in and taken out."""

    def test_a_create_with_its_patches(self):
        wanted_text = lines("module async", "patches 2", "closed 4", "failing 1",
            "patch 0 line 2 create /a: InodeInit block 2 offset 16 length 16",
            "patch 1 line 2 create /a: EntrySet block 4 offset 8 length 12", "set 1", "write block 4: 1", "fault "
            + DANGLING)
        self.assertEqual(answered(CREATE, "--module async --explain"), (wanted_text, 1))
        wanted_json = ('{"base":["5310' + "0" * 252 + '","0101010101' + "0" * 246 + '","0201000004' + "0" * 246
            + '","' + "0" * 256 + '","4400' + "0" * 252 + '"' + (',"' + "0" * 256 + '"') * 11
            + '],"closed":4,"failing":[{"faults":["' + DANGLING
            +
            '"],"replay":[],"set":[1],"writes":[{"block":4,"patches":[1]}]}],"module":"async","patches":2,'
            '"trace":[{"after":[],"block":2,"line":2,"new":"01010000000000000000000000000000","offset":16,'
            '"part":"InodeInit","step":"create /a","undo":"00000000000000000000000000000000"},{"after":[],'
            '"block":4,"line":2,"new":"020161000000000000000000","offset":8,"part":"EntrySet","step":"create '
            '/a","undo":"000000000000000000000000"}]}\n')
        self.assertEqual(answered(CREATE, "--module async --explain --json"), (wanted_json, 1))

    def test_groups_are_reasons(self):
        self.answers("start ; group A ; create /a ; end ; depend B A ; group B ; write /a", "--explain", 0, """
            module soft
            patches 5
            closed 6
            failing 0
            patch 0 line 3 create /a: InodeInit block 2 offset 16 length 16
            patch 1 line 3 create /a: EntrySet block 4 offset 8 length 12
            after 0: EntrySet:InodeInit
            patch 2 line 7 write /a: MapSet block 1 offset 5 length 1
            after 0: group
            after 1: group
            patch 3 line 7 write /a: InitFile block 5 offset 0 length 128
            after 0: group
            after 1: group
            after 2: InitFile:MapSet
            patch 4 line 7 write /a: Ptr block 2 offset 20 length 1
            after 0: overlap, group
            after 1: group
            after 2: Ptr:MapSet
            after 3: Ptr:InitFile
            """)

    def test_a_journal_with_its_patches_and_replay(self):
        report_text, first_set, first_fault = reuse_report()
        text, status = answered(DIRECTORY_REUSE, META_WORDS, "--explain")
        self.assertEqual(text.split("\n")[4:13], ["patch 0 line 5 unlink /d/x: Copy block 5 offset 0 length 128",
            "patch 1 line 5 unlink /d/x: Copy block 6 offset 0 length 128",
            "patch 2 line 5 unlink /d/x: Commit block 4 offset 0 length 5", "after 0: Commit:Copy",
            "after 1: Commit:Copy", "patch 3 line 5 unlink /d/x: EntryClear block 17 offset 8 length 12",
            "after 2: InPlace:Commit", "patch 4 line 5 unlink /d/x: InodeFree block 2 offset 32 length 16",
            "after 2: InPlace:Commit"])
        for rows in (("patch 14 line 7 write /f: FileData block 17 offset 0 length 128", "after 3: overlap",
            "after 9: FileData:previous-Commit", "patch 15 line 7 write /f: Copy block 12 offset 0 length 128"), (
            "patch 20 line 7 write /f: Done block 11 offset 0 length 1", "after 13: Done:previous-Done",
            "after 17: overlap", "after 18: Done:InPlace", "after 19: Done:InPlace")):
            self.assertEqual(lines(*rows) in text, True)
        self.assertEqual("set " + text.split("\nset ")[1] + "\n", first_set + whole(lines("replay block 2: 0201000010"
            + "00" * 43 + "0101000011~", "replay block 16: 44" + "00" * 19 + "040166~", "replay block 17: 4401~"))
            + "fault " + first_fault + "\n")
        self.assertEqual("".join((line for line in text.splitlines(True) if line.split()[0] not in ("patch", "after",
            "replay"))), report_text)
        self.assertEqual(status, 1)

    def test_rules_put_in_and_taken_out(self):
        rules = rules_of("soft")
        self.assertEqual(answered(BLOCK_REUSE, "--module async", *("--with " + rule for rule in rules)), (lines(
            "module async", *("with " + rule for rule in rules)) + lines("patches 6", "closed 7", "failing 0"),
            0))
        self.assertEqual(answered(BLOCK_REUSE, *("--without " + rule for rule in reversed(rules))), (lines(
            "module soft", *("without " + rule for rule in rules)) + run(BLOCK_REUSE)[0].split("\n", 1)[1], 1))

    def test_data_that_waits_for_done_is_safe(self):
        self.answers(DIRECTORY_REUSE, META_WORDS + " --with FileData:previous-Done", 0, """
            module meta
            with FileData:previous-Done
            patches 21
            closed 461
            failing 0
            """)

    def test_the_order_of_rules_in_a_report(self):
        self.assertEqual(answered(CREATE,
            "--without Ptr:MapSet --with Ptr:previous-Ptr --without EntrySet:Ptr --with Done:Done --json"), (
            '{"closed":3,"failing":[],"module":"soft","patches":2,"with":["Ptr:previous-Ptr","Done:Done"],'
            '"without":["EntrySet:Ptr","Ptr:MapSet"]}\n', 0))
        self.assertEqual(answered(CREATE, "--with EntrySet:InodeInit"), run(CREATE, module="soft"))

    def test_rules_that_are_none(self):
        for words in ("--module async --without EntrySet:InodeInit", "--module meta --without EntrySet:InodeInit",
            "--without Ptr:Ptr", "--with Ptr:Ptr --with Ptr:Ptr", "--without Ptr:MapSet --without Ptr:MapSet",
            "--without Ptr:MapSet --with Ptr:MapSet", "--with Ptr", "--with Data:Copy", "--with ptr:Ptr",
            "--with Ptr:same-Ptr", "--with Ptr:previous-", "--with=", "--with", " ".join((
            "--with %s:previous-InPlace" % part for part in PARTS[:16])) + " --with Ptr:Ptr"):
            self.assertEqual(answered("start", words), ("", 2))

    def test_sixteen_rules_can_be_put_in(self):
        words = ["--with %s:previous-InPlace" % part for part in PARTS[:16]]
        self.assertEqual((len(words), answered("start", *words)[1]), (16, 0))
