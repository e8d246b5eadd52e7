"""Inodes that are lost and directories without a block."""


from ..closed_sets import ids_of
from .support import (
    CREATE, CREATE_BESIDE, DANGLING, DIRECTORY_REUSE, LINK_UNLINK, META_WORDS, MKDIR, RENAME, RENAME_IN, RENAME_OUT,
    Rows, UNLINK_CREATE, answered, counts, failing_ids, first_numbers, parts, program, reuse_report, script_of)


class Strict(Rows):
    """What `--strict` finds."""

    def test_a_rename_can_lose_the_file(self):
        self.answers(RENAME, "--module async --strict", 1, """
            module async
            strict
            patches 4
            closed 12
            failing 5
            set 1
            write block 4: 1
            fault 4 low link count: inode 1 entries 2 links 1
            set 2
            write block 4: 2
            fault 7 lost inode: inode 1
            set 0 2
            write block 2: 0
            write block 4: 2
            fault 7 lost inode: inode 1
            set 0 1 3
            write block 2: 0
            write block 4: 1
            write block 2: 3
            fault 4 low link count: inode 1 entries 2 links 1
            set 0 2 3
            write block 2: 0
            write block 4: 2
            write block 2: 3
            fault 7 lost inode: inode 1
            """)
        self.answers(RENAME, "--strict", 0, """
            module soft
            strict
            patches 4
            closed 5
            failing 0
            """)
        self.answers(RENAME, "--strict --without EntryClear:EntrySet", 1, """
            module soft
            without EntryClear:EntrySet
            strict
            patches 4
            closed 8
            failing 3
            set 2
            write block 4: 2
            fault 7 lost inode: inode 1
            set 0 2
            write block 2: 0
            write block 4: 2
            fault 7 lost inode: inode 1
            set 0 2 3
            write block 2: 0
            write block 4: 2
            write block 2: 3
            fault 7 lost inode: inode 1
            """)
        self.assertEqual(counts(RENAME, module="soft", without=("EntryClear:EntrySet",)), (4, 8, 0))

    def test_a_directory_can_be_named_before_it_has_a_block(self):
        self.assertEqual(counts(MKDIR, module="soft", strict=True), (5, 8, 0))
        self.answers(MKDIR, "--strict --without EntrySet:Ptr", 1, """
            module soft
            without EntrySet:Ptr
            strict
            patches 5
            closed 11
            failing 3
            set 0 4
            write block 2: 0
            write block 4: 4
            fault 8 directory without a block: inode 1
            set 0 1 4
            write block 2: 0
            write block 1: 1
            write block 4: 4
            fault 8 directory without a block: inode 1
            set 0 1 2 4
            write block 2: 0
            write block 1: 1
            write block 5: 2
            write block 4: 4
            fault 8 directory without a block: inode 1
            """)
        self.assertEqual(counts(MKDIR, module="soft", without=("EntrySet:Ptr",)), (5, 11, 0))

    def test_a_link_and_an_unlink_can_lose_the_file(self):
        self.assertEqual(answered(LINK_UNLINK, "--strict --json"), (
            '{"closed":8,"failing":[{"faults":["7 lost inode: inode 1"],"set":[2],"writes":[{"block":4,'
            '"patches":[2]}]},{"faults":["7 lost inode: inode 1"],"set":[0,2],"writes":[{"block":2,'
            '"patches":[0]},{"block":4,"patches":[2]}]},{"faults":["7 lost inode: inode 1"],"set":[0,2,3],'
            '"writes":[{"block":2,"patches":[0]},{"block":4,"patches":[2]},{"block":2,"patches":[3]}]}],'
            '"module":"soft","patches":4,"strict":true}\n', 1))
        self.assertEqual(answered(LINK_UNLINK, "--json"), ('{"closed":8,"failing":[],"module":"soft","patches":4}\n',
            0))
        self.assertEqual(counts(LINK_UNLINK, module="soft", strict=True, added=("EntryClear:previous-EntrySet",)), (4,
            5, 0))
        self.assertEqual(counts("create /a ; start ; group A ; link /a /b ; end ; depend B A ; group B ; unlink /a",
            module="soft", strict=True), (4, 5, 0))
        for module in ("meta", "full"):
            self.assertEqual(counts(LINK_UNLINK, module=module, journal=6, strict=True), (12, 53, 0))
            freed = dict(module=module, journal=6, without=("Commit:previous-Commit",))
            found = parts(LINK_UNLINK, strict=True, **freed)
            self.assertEqual((len(found.closed), len(found.failing), failing_ids(found)[0], found.failing[0].faults),
                (61, 4, [6, 7, 8, 9], ["7 lost inode: inode 1"]))
            self.assertEqual(counts(LINK_UNLINK, **freed), (12, 61, 0))

    def test_a_rename_into_a_new_directory_can_lose_the_file(self):
        for rows, added, wanted, first, fault in ((RENAME_IN, (), (9, 28, 6), [1, 2, 5, 6, 7],
            "7 lost inode: inode 1"), (RENAME_IN, ("EntryClear:previous-EntrySet",), (9, 22, 0), None, None), (
            "create /a ; start ; group A ; mkdir /d ; end ; depend B A ; group B ; rename /a /d/a", (), (9, 12, 0),
            None, None), (RENAME_OUT, (), (7, 20, 6), [4], "7 lost inode: inode 2"), (RENAME_OUT, (
            "EntryClear:previous-EntrySet",), (7, 14, 0), None, None)):
            found = parts(rows, module="soft", strict=True, added=added)
            one = found.failing[0] if found.failing else None
            self.assertEqual((counts(rows, module="soft", strict=True, added=added), one and ids_of(one.patch_set),
                one and one.faults), (wanted, first, fault and [fault]))
            self.assertEqual(counts(rows, module="soft", added=added), wanted[:2] + (0,))

    def test_faults_of_a_rename_into_a_new_directory(self):
        self.answers(RENAME_IN, "--module async --strict --decide", 1, """
            module async
            strict
            patches 9
            closed 216
            fault 1 dangling entry: directory 0 entry 1 inode 2
            set 4
            write block 4: 4
            fault 3 unwritten pointer: inode 2 slot 0 block 5
            set 0 3
            write block 2: 0 3
            fault 4 low link count: inode 1 entries 2 links 1
            set 0 2 3 6
            write block 2: 0
            write block 5: 2
            write block 2: 3
            write block 5: 6
            fault 5 used block marked free: inode 2 slot 0 block 5
            set 0 3
            write block 2: 0 3
            fault 7 lost inode: inode 1
            set 7
            write block 4: 7
            fault 8 directory without a block: inode 2
            set 0 4
            write block 2: 0
            write block 4: 4
            """)
        self.assertEqual([sets for _, sets, _ in first_numbers(RENAME_IN, strict=True)], [36, 24, 8, 36, 102, 36])
        self.assertEqual(counts(RENAME_IN, strict=True), (9, 216, 169))
        self.assertEqual([one.faults for one in parts(RENAME_IN, strict=True).failing if ids_of(one.patch_set) == [0,
            4, 7]], [["7 lost inode: inode 1", "8 directory without a block: inode 2"]])

    def test_an_inode_that_is_given_up_or_new_is_not_kept(self):
        self.assertEqual(counts(UNLINK_CREATE, module="soft", strict=True), (4, 5, 0))
        found = parts(UNLINK_CREATE, strict=True)
        self.assertEqual((counts(UNLINK_CREATE, strict=True), failing_ids(found), [one.faults
            for one in found.failing]), ((4, 9, 2), [[1], [0, 1, 3]], [[DANGLING], [DANGLING]]))
        self.assertEqual(counts("start ; create /a ; rename /a /b", module="soft", strict=True, without=(
            "EntryClear:EntrySet",)), (6, 12, 0))

    def test_the_metadata_journal_loses_nothing_more(self):
        report_text = reuse_report()[0]
        self.assertEqual(answered(DIRECTORY_REUSE, META_WORDS, "--strict"), (report_text.replace("module meta\n",
            "module meta\nstrict\n"), 1))

    def test_a_commit_before_its_copies_loses_the_root(self):
        self.answers(CREATE_BESIDE, "--module meta --journal 6 --strict --without Commit:Copy --decide", 1, """
            module meta
            without Commit:Copy
            strict
            patches 6
            closed 24
            fault 3 unwritten pointer: inode 0 slot 0 block 10
            set 0 2
            write block 5: 0
            write block 4: 2
            fault 7 lost inode: inode 0
            set 2
            write block 4: 2
            fault 7 lost inode: inode 1
            set 2
            write block 4: 2
            """)
        freed = dict(module="meta", journal=6, without=("Commit:Copy",), strict=True)
        self.assertEqual(counts(CREATE_BESIDE, **freed), (6, 24, 12))
        self.assertEqual([sets for _, sets, _ in first_numbers(CREATE_BESIDE, **freed)], [4, 8, 12])
        self.assertEqual(counts(CREATE_BESIDE, module="meta", journal=6, without=("Commit:Copy",)), (6, 24, 4))

    def test_the_line_strict_in_reports(self):
        self.assertEqual(answered("start", "--strict --json"), (
            '{"closed":1,"failing":[],"module":"soft","patches":0,"strict":true}\n', 0))
        self.answers(CREATE, "--strict --without EntrySet:Ptr --with Done:Done", 0, """
            module soft
            without EntrySet:Ptr
            with Done:Done
            strict
            patches 2
            closed 3
            failing 0
            """)
        self.assertEqual(program("--strict --limit 2".split(), script_of(CREATE)), ("",
            "crashmap: 30 too many closed sets\n", 2))
        for words in ("--strict=1", "--strict --strict"):
            self.assertEqual(answered("start", words), ("", 2))
