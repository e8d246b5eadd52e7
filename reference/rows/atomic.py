"""Operations that are seen half done."""


from .support import (
    CREATE, DIRECTORY_REUSE, FULL_WORDS, META_WORDS, MKDIR, RENAME, Rows, WRITE, answered, blocks_of, counts,
    first_numbers, with_line)


class Atomic(Rows):
    """What `--atomic` finds."""

    def test_journals_keep_operations_whole(self):
        self.answers(CREATE, "--module full --journal 6 --atomic", 0, """
            module full
            atomic
            patches 6
            closed 9
            failing 0
            """)
        self.answers(DIRECTORY_REUSE, FULL_WORDS + " --atomic", 0, """
            module full
            atomic
            patches 22
            closed 1105
            failing 0
            """)
        self.answers(CREATE, "--module meta --journal 6 --atomic", 0, """
            module meta
            atomic
            patches 6
            closed 9
            failing 0
            """)
        self.assertEqual(answered("start", "--atomic --json"), (
            '{"atomic":true,"closed":1,"failing":[],"module":"soft","patches":0}\n', 0))
        self.assertEqual(answered(CREATE, "--module full --journal 6 --atomic --strict --json"), (
            '{"atomic":true,"closed":9,"failing":[],"module":"full","patches":6,"strict":true}\n', 0))
        self.answers(CREATE, "--module full --journal 6 --atomic --without InPlace:Commit --decide", 1, """
            module full
            without InPlace:Commit
            atomic
            patches 6
            closed 21
            fault 1 dangling entry: directory 0 entry 0 inode 1
            set 4
            write block 10: 4
            fault 9 half-done operation
            set 3
            write block 2: 3
            """)
        self.answers(CREATE, "--module meta --journal 6 --atomic", 0, """
            module meta
            atomic
            patches 6
            closed 9
            failing 0
            """)

    def test_file_data_after_the_commit(self):
        self.answers(WRITE, "--module meta --journal 3 --atomic", 0, """
            module meta
            atomic
            patches 7
            closed 13
            failing 0
            """)
        self.answers(WRITE, "--module meta --journal 3 --atomic --without Commit:FileData --decide", 1, """
            module meta
            without Commit:FileData
            atomic
            patches 7
            closed 18
            fault 3 unwritten pointer: inode 1 slot 0 block 8
            set 1 2 3
            write block 5: 1
            write block 6: 2
            write block 4: 3
            fault 9 half-done operation
            set 1 2 3
            write block 5: 1
            write block 6: 2
            write block 4: 3
            """)

    def test_directory_block_reuse(self):
        decision = answered(DIRECTORY_REUSE, META_WORDS, "--decide")[0]
        self.assertEqual(answered(DIRECTORY_REUSE, META_WORDS, "--atomic --decide"), (with_line(decision,
            "module meta", "atomic") + "fault 9 half-done operation\n" + blocks_of(decision)[1].split("\n", 1)[1], 1))

    def test_soft_updates_do_not_keep_operations_whole(self):
        self.answers(CREATE, "--atomic", 1, """
            module soft
            atomic
            patches 2
            closed 3
            failing 1
            set 0
            write block 2: 0
            fault 9 half-done operation
            """)
        self.assertEqual(answered(CREATE, "--atomic --json"), (
            '{"atomic":true,"closed":3,"failing":[{"faults":["9 half-done operation"],"set":[0],'
            '"writes":[{"block":2,"patches":[0]}]}],"module":"soft","patches":2}\n', 1))
        self.answers(MKDIR, "--atomic", 1, """
            module soft
            atomic
            patches 5
            closed 8
            failing 6
            set 0
            write block 2: 0
            fault 9 half-done operation
            set 1
            write block 1: 1
            fault 9 half-done operation
            set 0 1
            write block 2: 0
            write block 1: 1
            fault 9 half-done operation
            set 1 2
            write block 1: 1
            write block 5: 2
            fault 9 half-done operation
            set 0 1 2
            write block 2: 0
            write block 1: 1
            write block 5: 2
            fault 9 half-done operation
            set 0 1 2 3
            write block 2: 0
            write block 1: 1
            write block 5: 2
            write block 2: 3
            fault 9 half-done operation
            """)
        self.answers(CREATE, "--module async --atomic", 1, """
            module async
            atomic
            patches 2
            closed 4
            failing 2
            set 0
            write block 2: 0
            fault 9 half-done operation
            set 1
            write block 4: 1
            fault 1 dangling entry: directory 0 entry 0 inode 1
            fault 9 half-done operation
            """)
        self.answers(CREATE, "--atomic --decide --without EntrySet:InodeInit", 1, """
            module soft
            without EntrySet:InodeInit
            atomic
            patches 2
            closed 4
            fault 1 dangling entry: directory 0 entry 0 inode 1
            set 1
            write block 4: 1
            fault 9 half-done operation
            set 0
            write block 2: 0
            """)
        self.assertEqual((counts(CREATE, module="soft", atomic=True), counts(CREATE, atomic=True)),
                         ((2, 3, 1), (2, 4, 2)))

    def test_with_other_options(self):
        self.answers(RENAME, "--module async --strict --atomic", 1, """
            module async
            strict
            atomic
            patches 4
            closed 12
            failing 8
            set 0
            write block 2: 0
            fault 9 half-done operation
            set 1
            write block 4: 1
            fault 4 low link count: inode 1 entries 2 links 1
            fault 9 half-done operation
            set 2
            write block 4: 2
            fault 7 lost inode: inode 1
            fault 9 half-done operation
            set 0 1
            write block 2: 0
            write block 4: 1
            fault 9 half-done operation
            set 0 2
            write block 2: 0
            write block 4: 2
            fault 7 lost inode: inode 1
            fault 9 half-done operation
            set 0 1 2
            write block 2: 0
            write block 4: 1 2
            fault 9 half-done operation
            set 0 1 3
            write block 2: 0
            write block 4: 1
            write block 2: 3
            fault 4 low link count: inode 1 entries 2 links 1
            fault 9 half-done operation
            set 0 2 3
            write block 2: 0
            write block 4: 2
            write block 2: 3
            fault 7 lost inode: inode 1
            fault 9 half-done operation
            """)
        self.assertEqual([sets for _, sets, _ in first_numbers(RENAME, strict=True, atomic=True)], [2, 3, 8])
        self.answers(CREATE, "--strict --atomic --without EntrySet:Ptr --with Done:Done", 1, """
            module soft
            without EntrySet:Ptr
            with Done:Done
            strict
            atomic
            patches 2
            closed 3
            failing 1
            set 0
            write block 2: 0
            fault 9 half-done operation
            """)
        self.assertEqual(answered(RENAME, "--module async --strict --atomic --decide --json"), (
            '{"atomic":true,"closed":"12","faults":[{"fault":"4 low link count: inode 1 entries 2 links 1",'
            '"set":[1],"writes":[{"block":4,"patches":[1]}]},{"fault":"7 lost inode: inode 1","set":[2],'
            '"writes":[{"block":4,"patches":[2]}]},{"fault":"9 half-done operation","set":[0],'
            '"writes":[{"block":2,"patches":[0]}]}],"module":"async","patches":4,"strict":true}\n', 1))
