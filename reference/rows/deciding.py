"""Questions about all sets, answered fault by fault."""


from .support import (
    BLOCK_REUSE, CREATE, CREATE_WRITE, DANGLING, DIRECTORY_REUSE, FIVE_OPERATIONS, FIVE_WRITES, LINK_UNLINK,
    LINK_WRITE_UNLINK, MARKED_FREE, META_WORDS, MOST_PATCHES, RENAME, RENAME_IN, RENAME_OUT, Rows, TEN_WRITES,
    TWO_WRITES, UNWRITTEN, answered, blocks_of, counts, decided, first_numbers, lines, whole, with_line)


class Deciding(Rows):
    """What `--decide` shows, and rules for all operations before."""

    def test_scripts_of_one_operation(self):
        self.answers("start", "--module async --decide", 0, """
            module async
            patches 0
            closed 1
            """)
        self.assertEqual(answered("start", "--module async --decide --json"), (
            '{"closed":"1","faults":[],"module":"async","patches":0}\n', 0))
        self.answers(CREATE, "--module async --decide", 1, """
            module async
            patches 2
            closed 4
            fault 1 dangling entry: directory 0 entry 0 inode 1
            set 1
            write block 4: 1
            """)
        self.assertEqual(answered(CREATE, "--module async --decide --json"), (
            '{"closed":"4","faults":[{"fault":"1 dangling entry: directory 0 entry 0 inode 1","set":[1],'
            '"writes":[{"block":4,"patches":[1]}]}],"module":"async","patches":2}\n', 1))
        self.assertEqual(answered(CREATE, "--module async --decide --explain --json"), (whole(
            '{"base":["5310~","0101010101~","0201000004~","~","44~","~","~","~","~","~","~","~","~","~","~",'
            '"~"],"closed":"4","faults":[{"fault":"1 dangling entry: directory 0 entry 0 inode 1",'
            '"replay":[],"set":[1],"writes":[{"block":4,"patches":[1]}]}],"module":"async","patches":2,'
            '"trace":[{"after":[],"block":2,"line":2,"new":"01010000000000000000000000000000","offset":16,'
            '"part":"InodeInit","step":"create /a","undo":"00000000000000000000000000000000"},{"after":[],'
            '"block":4,"line":2,"new":"020161000000000000000000","offset":8,"part":"EntrySet","step":"create '
            '/a","undo":"000000000000000000000000"}]}\n'), 1))
        self.answers(CREATE, "--decide", 0, """
            module soft
            patches 2
            closed 3
            """)

    def test_a_create_with_its_patches(self):
        patches = lines("patch 0 line 2 create /a: InodeInit block 2 offset 16 length 16",
            "patch 1 line 2 create /a: EntrySet block 4 offset 8 length 12")
        decision = answered(CREATE, "--module async --decide")[0]
        self.assertEqual(answered(CREATE, "--module async --decide --explain"), (decision.replace("closed 4\n",
            "closed 4\n" + patches), 1))

    def test_a_written_file(self):
        self.answers(CREATE_WRITE, "--module async --decide", 1, """
            module async
            patches 5
            closed 24
            fault 1 dangling entry: directory 0 entry 0 inode 1
            set 1
            write block 4: 1
            fault 3 unwritten pointer: inode 1 slot 0 block 5
            set 0 4
            write block 2: 0 4
            fault 5 used block marked free: inode 1 slot 0 block 5
            set 0 4
            write block 2: 0 4
            """)
        self.assertEqual(answered(CREATE_WRITE, "--module async --decide --json"), (
            '{"closed":"24","faults":[{"fault":"1 dangling entry: directory 0 entry 0 inode 1","set":[1],'
            '"writes":[{"block":4,"patches":[1]}]},{"fault":"3 unwritten pointer: inode 1 slot 0 block 5",'
            '"set":[0,4],"writes":[{"block":2,"patches":[0,4]}]},{"fault":"5 used block marked free: inode 1 '
            'slot 0 block 5","set":[0,4],"writes":[{"block":2,"patches":[0,4]}]}],"module":"async",'
            '"patches":5}\n', 1))
        self.answers(CREATE_WRITE, "--decide", 0, """
            module soft
            patches 5
            closed 11
            """)
        self.assertEqual([(text, sets) for text, sets, _ in first_numbers(CREATE_WRITE)], [
            (DANGLING, 4), (UNWRITTEN, 4), (MARKED_FREE, 4)])

    def test_directory_block_reuse(self):
        self.answers(DIRECTORY_REUSE, META_WORDS + " --decide", 1, """
            module meta
            patches 21
            closed 629
            fault 3 unwritten pointer: inode 3 slot 0 block 17
            set 0 1 2 3 6 7 8 9 14 15 16 17
            write block 5: 0
            write block 6: 1
            write block 4: 2
            write block 17: 3
            write block 8: 6
            write block 9: 7
            write block 10: 8
            write block 7: 9
            write block 17: 14
            write block 12: 15
            write block 13: 16
            write block 11: 17
            """)
        self.assertEqual(answered(DIRECTORY_REUSE, META_WORDS, "--decide --json"), (
            '{"closed":"629","faults":[{"fault":"3 unwritten pointer: inode 3 slot 0 block 17","set":[0,1,2,'
            '3,6,7,8,9,14,15,16,17],"writes":[{"block":5,"patches":[0]},{"block":6,"patches":[1]},{"block":4,'
            '"patches":[2]},{"block":17,"patches":[3]},{"block":8,"patches":[6]},{"block":9,"patches":[7]},'
            '{"block":10,"patches":[8]},{"block":7,"patches":[9]},{"block":17,"patches":[14]},{"block":12,'
            '"patches":[15]},{"block":13,"patches":[16]},{"block":11,"patches":[17]}]}],"module":"meta",'
            '"patches":21}\n', 1))
        self.answers(DIRECTORY_REUSE, META_WORDS + " --with FileData:before-Done --decide", 0, """
            module meta
            with FileData:before-Done
            patches 21
            closed 461
            """)

    def test_directory_block_reuse_with_its_patches(self):
        decision = answered(DIRECTORY_REUSE, META_WORDS, "--decide")[0]
        explained = answered(DIRECTORY_REUSE, META_WORDS, "--explain")[0]
        replay = whole(lines("replay block 2: 0201000010" + "00" * 43 + "0101000011~", "replay block 16: 44"
            + "00" * 19 + "040166~", "replay block 17: 4401~"))
        self.assertEqual(answered(DIRECTORY_REUSE, META_WORDS, "--decide --explain"), (blocks_of(decision)[0]
            + explained.split("failing 48\n")[1].split("\nset ")[0] + "\n" + blocks_of(decision)[1] + replay, 1))

    def test_twelve_and_fifteen_operations(self):
        self.decides(TWO_WRITES, "--decide", 0, """
            module soft
            patches 26
            closed 793881
            """)
        self.assertEqual(decided(TWO_WRITES, "--decide --json"), (
            '{"closed":"793881","faults":[],"module":"soft","patches":26}\n', 0))
        self.decides(FIVE_WRITES, "--decide", 0, """
            module soft
            patches 35
            closed 39135393
            """)
        self.decides(TWO_WRITES, "--decide --strict", 0, """
            module soft
            strict
            patches 26
            closed 793881
            """)

    def test_twenty_operations(self):
        self.decides(TEN_WRITES, "--decide", 0, """
            module soft
            patches 50
            closed 25937424601
            """)

    def test_as_many_patches_as_can_be(self):
        self.decides(MOST_PATCHES, "--blocks 64 --decide", 0, """
            module soft
            patches 124
            closed 11147181571906155872554329
            """)

    def test_strict_checkers(self):
        self.answers(RENAME, "--module async --decide --strict", 1, """
            module async
            strict
            patches 4
            closed 12
            fault 4 low link count: inode 1 entries 2 links 1
            set 1
            write block 4: 1
            fault 7 lost inode: inode 1
            set 2
            write block 4: 2
            """)
        self.assertEqual(answered(RENAME, "--module async --decide --strict --json"), (
            '{"closed":"12","faults":[{"fault":"4 low link count: inode 1 entries 2 links 1","set":[1],'
            '"writes":[{"block":4,"patches":[1]}]},{"fault":"7 lost inode: inode 1","set":[2],'
            '"writes":[{"block":4,"patches":[2]}]}],"module":"async","patches":4,"strict":true}\n', 1))
        self.answers(RENAME, "--decide --strict", 0, """
            module soft
            strict
            patches 4
            closed 5
            """)
        self.answers(RENAME, "--decide --strict --without EntryClear:EntrySet", 1, """
            module soft
            without EntryClear:EntrySet
            strict
            patches 4
            closed 8
            fault 7 lost inode: inode 1
            set 2
            write block 4: 2
            """)
        self.answers(RENAME, "--decide --without EntryClear:EntrySet", 0, """
            module soft
            without EntryClear:EntrySet
            patches 4
            closed 8
            """)

    def test_a_rule_for_all_operations_before(self):
        self.answers(LINK_WRITE_UNLINK, "", 0, """
            module soft
            patches 7
            closed 32
            failing 0
            """)
        self.answers(LINK_WRITE_UNLINK, "--strict --decide", 1, """
            module soft
            strict
            patches 7
            closed 32
            fault 7 lost inode: inode 1
            set 5
            write block 4: 5
            """)
        self.answers(LINK_WRITE_UNLINK, "--strict --with EntryClear:before-EntrySet --explain", 0, """
            module soft
            with EntryClear:before-EntrySet
            strict
            patches 7
            closed 20
            failing 0
            patch 0 line 5 link /a /b: LinkUp block 2 offset 17 length 1
            patch 1 line 5 link /a /b: EntrySet block 4 offset 32 length 12
            after 0: EntrySet:LinkUp
            patch 2 line 6 write /a: MapSet block 1 offset 7 length 1
            patch 3 line 6 write /a: InitFile block 7 offset 0 length 128
            after 2: InitFile:MapSet
            patch 4 line 6 write /a: Ptr block 2 offset 21 length 1
            after 2: Ptr:MapSet
            after 3: Ptr:InitFile
            patch 5 line 7 unlink /a: EntryClear block 4 offset 8 length 12
            after 1: EntryClear:before-EntrySet
            patch 6 line 7 unlink /a: LinkDown block 2 offset 17 length 1
            after 0: overlap
            after 5: LinkDown:EntryClear
            """)
        self.assertEqual(answered(LINK_WRITE_UNLINK, "--strict --with EntryClear:before-EntrySet --json"), (
            '{"closed":20,"failing":[],"module":"soft","patches":7,"strict":true,'
            '"with":["EntryClear:before-EntrySet"]}\n', 0))
        self.answers(LINK_UNLINK, "--strict --with EntryClear:before-EntrySet", 0, """
            module soft
            with EntryClear:before-EntrySet
            strict
            patches 4
            closed 5
            failing 0
            """)
        self.answers(RENAME_IN, "--strict --with EntryClear:before-EntrySet", 0, """
            module soft
            with EntryClear:before-EntrySet
            strict
            patches 9
            closed 22
            failing 0
            """)
        self.answers(RENAME_OUT, "--strict --with EntryClear:before-EntrySet", 0, """
            module soft
            with EntryClear:before-EntrySet
            strict
            patches 7
            closed 14
            failing 0
            """)
        self.answers(DIRECTORY_REUSE, META_WORDS + " --with FileData:before-Done --with Ptr:before-Ptr", 0, """
            module meta
            with FileData:before-Done
            with Ptr:before-Ptr
            patches 21
            closed 461
            failing 0
            """)
        for rows, wanted in ((LINK_UNLINK, (4, 5, 0)), (RENAME_IN, (9, 22, 0)), (RENAME_OUT, (7, 14, 0))):
            self.assertEqual(counts(rows, module="soft", strict=True, added=("EntryClear:before-EntrySet",)), wanted)

    def test_a_rule_for_the_operation_just_before_is_too_weak(self):
        decision = answered(LINK_WRITE_UNLINK, "--strict --decide")[0]
        self.assertEqual(answered(LINK_WRITE_UNLINK, "--strict --with EntryClear:previous-EntrySet --decide"), (
            with_line(decision, "module soft", "with EntryClear:previous-EntrySet"), 1))

    def test_rules_for_operations_before_that_are_none(self):
        for words in ("--with Ptr:before-", "--with before-Ptr:Ptr", "--with Ptr:Before-Ptr",
            "--with Ptr:before-before-Ptr", "--with Ptr:before-previous-Ptr", "--with Ptr:after-Ptr",
            "--with Ptr:before-Ptr --with Ptr:before-Ptr", "--without EntryClear:before-EntrySet"):
            self.assertEqual(answered("start", words), ("", 2))
        self.answers("start", "--with Ptr:before-Ptr --with Ptr:previous-Ptr --with Ptr:Ptr", 0, """
            module soft
            with Ptr:before-Ptr
            with Ptr:previous-Ptr
            with Ptr:Ptr
            patches 0
            closed 1
            failing 0
            """)

    def test_a_rule_for_operations_before_in_json(self):
        self.assertEqual(answered("start", "--with Ptr:before-Ptr --json"), (
            '{"closed":1,"failing":[],"module":"soft","patches":0,"with":["Ptr:before-Ptr"]}\n', 0))

    def test_both_ways_decide_alike(self):
        for rows in (CREATE_WRITE, RENAME, BLOCK_REUSE, FIVE_OPERATIONS, RENAME_IN, LINK_WRITE_UNLINK):
            for words in ("--module async", "", "--strict", "--atomic --module async", "--strict --atomic"):
                self.assertEqual(decided(rows, words, "--decide"), answered(rows, words, "--decide"))
