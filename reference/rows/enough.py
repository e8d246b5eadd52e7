"""Which rules are enough."""

import json
import re

from ..enough import sublists
from .support import (
    BLOCK_REUSE, CREATE, CREATE_WRITE, DIRECTORY_REUSE, FIVE_OPERATIONS, FULL_WORDS, LINK_UNLINK,
    LINK_WRITE_UNLINK, META_WORDS, POOL, POOL_OF_WRITES, RENAME, Rows, answered, blocks_of, decided, lines,
    whole, with_line)


class WhichAreEnough(Rows):
    """What `--enough` shows for one script."""

    def test_a_written_file(self):
        self.answers(CREATE_WRITE, "--enough", 0, """
            module soft
            patches 5
            closed 11
            enough 2
            rules EntrySet:InodeInit InitFile:MapSet Ptr:InitFile
            rules EntrySet:InodeInit Ptr:InitFile Ptr:MapSet
            needs EntrySet:InodeInit
            fault 1 dangling entry: directory 0 entry 0 inode 1
            set 1
            write block 4: 1
            needs Ptr:InitFile
            fault 3 unwritten pointer: inode 1 slot 0 block 5
            set 0 2 4
            write block 2: 0
            write block 1: 2
            write block 2: 4
            needs InitFile:MapSet Ptr:MapSet
            fault 5 used block marked free: inode 1 slot 0 block 5
            set 0 3 4
            write block 2: 0
            write block 5: 3
            write block 2: 4
            """)
        self.assertEqual(answered(CREATE_WRITE, "--enough --json"), (
            '{"closed":"11","enough":[["EntrySet:InodeInit","InitFile:MapSet","Ptr:InitFile"],'
            '["EntrySet:InodeInit","Ptr:InitFile","Ptr:MapSet"]],"module":"soft","needs":[{"fault":"1 '
            'dangling entry: directory 0 entry 0 inode 1","rules":["EntrySet:InodeInit"],"set":[1],'
            '"writes":[{"block":4,"patches":[1]}]},{"fault":"3 unwritten pointer: inode 1 slot 0 block 5",'
            '"rules":["Ptr:InitFile"],"set":[0,2,4],"writes":[{"block":2,"patches":[0]},{"block":1,'
            '"patches":[2]},{"block":2,"patches":[4]}]},{"fault":"5 used block marked free: inode 1 slot 0 '
            'block 5","rules":["InitFile:MapSet","Ptr:MapSet"],"set":[0,3,4],"writes":[{"block":2,'
            '"patches":[0]},{"block":5,"patches":[3]},{"block":2,"patches":[4]}]}],"patches":5}\n', 0))
        self.answers(CREATE, "--enough --explain", 0, """
            module soft
            patches 2
            closed 3
            patch 0 line 2 create /a: InodeInit block 2 offset 16 length 16
            patch 1 line 2 create /a: EntrySet block 4 offset 8 length 12
            after 0: EntrySet:InodeInit
            enough 1
            rules EntrySet:InodeInit
            needs EntrySet:InodeInit
            fault 1 dangling entry: directory 0 entry 0 inode 1
            set 1
            write block 4: 1
            """)
        self.assertEqual(answered(CREATE, "--enough --explain --json"), (whole(
            '{"base":["5310~","0101010101~","0201000004~","~","44~","~","~","~","~","~","~","~","~","~","~",'
            '"~"],"closed":"3","enough":[["EntrySet:InodeInit"]],"module":"soft","needs":[{"fault":"1 '
            'dangling entry: directory 0 entry 0 inode 1","replay":[],"rules":["EntrySet:InodeInit"],'
            '"set":[1],"writes":[{"block":4,"patches":[1]}]}],"patches":2,"trace":[{"after":[],"block":2,'
            '"line":2,"new":"01010000000000000000000000000000","offset":16,"part":"InodeInit","step":"create '
            '/a","undo":"00000000000000000000000000000000"},{"after":[{"patch":0,'
            '"why":["EntrySet:InodeInit"]}],"block":4,"line":2,"new":"020161000000000000000000","offset":8,'
            '"part":"EntrySet","step":"create /a","undo":"000000000000000000000000"}]}\n'), 0))

    def test_a_block_that_another_file_gets(self):
        self.answers(BLOCK_REUSE, "--enough", 0, """
            module soft
            patches 6
            closed 7
            enough 1
            rules InitFile:MapSet Ptr:InitFile InodeFree:EntryClear MapClear:InodeFree
            needs InitFile:MapSet
            fault 3 unwritten pointer: inode 1 slot 0 block 5
            set 4
            write block 5: 4
            needs Ptr:InitFile
            fault 3 unwritten pointer: inode 2 slot 0 block 5
            set 0 1 2 3 5
            write block 4: 0
            write block 2: 1
            write block 1: 2 3
            write block 2: 5
            needs InodeFree:EntryClear
            fault 1 dangling entry: directory 0 entry 0 inode 1
            set 1
            write block 2: 1
            needs MapClear:InodeFree
            fault 2 block used twice: block 5
            set 2 3 4 5
            write block 1: 2 3
            write block 5: 4
            write block 2: 5
            """)

    def test_five_operations(self):
        self.assertEqual(decided(FIVE_OPERATIONS, "--enough"), (lines("module soft", "patches 17", "closed 288",
            "enough 2",
            "rules EntrySet:InodeInit EntrySet:LinkUp Ptr:InitFile Ptr:InitDir Ptr:MapSet "
            "LinkDown:EntryClear InodeFree:EntryClear MapClear:InodeFree",
            "rules EntrySet:InodeInit EntrySet:LinkUp InitFile:MapSet InitDir:MapSet Ptr:InitFile "
            "Ptr:InitDir LinkDown:EntryClear InodeFree:EntryClear MapClear:InodeFree", "needs EntrySet:InodeInit",
            "fault 1 dangling entry: directory 0 entry 1 inode 2", "set 6", "write block 4: 6",
            "needs EntrySet:LinkUp", "fault 1 dangling entry: directory 1 entry 0 inode 2", "set 0 1 2 3 11",
            "write block 2: 0", "write block 1: 1", "write block 5: 2", "write block 2: 3", "write block 5: 11",
            "needs Ptr:InitFile", "fault 3 unwritten pointer: inode 2 slot 0 block 6", "set 5 7 9",
            "write block 2: 5", "write block 1: 7", "write block 2: 9", "needs Ptr:InitDir",
            "fault 3 unwritten pointer: inode 1 slot 0 block 5", "set 0 1 3", "write block 2: 0", "write block 1: 1",
            "write block 2: 3", "needs LinkDown:EntryClear", "fault 1 dangling entry: directory 0 entry 1 inode 2",
            "set 1 2 5 6 7 8 9 10 11 13 14 15", "write block 1: 1", "write block 5: 2", "write block 2: 5",
            "write block 4: 6", "write block 1: 7", "write block 6: 8", "write block 2: 9 10", "write block 5: 11",
            "write block 2: 13", "write block 5: 14", "write block 2: 15", "needs InodeFree:EntryClear",
            "fault 1 dangling entry: directory 1 entry 0 inode 2", "set 0 1 2 3 5 6 7 8 9 10 11 12 13 15",
            "write block 2: 0", "write block 1: 1", "write block 5: 2", "write block 2: 3 5", "write block 4: 6",
            "write block 1: 7", "write block 6: 8", "write block 2: 9 10", "write block 5: 11", "write block 4: 12",
            "write block 2: 13 15", "needs MapClear:InodeFree",
            "fault 5 used block marked free: inode 2 slot 0 block 6", "set 5 7 8 9 16", "write block 2: 5",
            "write block 1: 7", "write block 6: 8", "write block 2: 9", "write block 1: 16",
            "needs InitFile:MapSet Ptr:MapSet", "fault 5 used block marked free: inode 2 slot 0 block 6", "set 5 8 9",
            "write block 2: 5", "write block 6: 8", "write block 2: 9", "needs InitDir:MapSet Ptr:MapSet",
            "fault 5 used block marked free: inode 1 slot 0 block 5", "set 0 2 3", "write block 2: 0",
            "write block 5: 2", "write block 2: 3"), 0))

    def test_five_operations_and_strict_checkers(self):
        strict_need = ["needs EntrySet:Ptr", "fault 8 directory without a block: inode 1", "set 0 4",
            "write block 2: 0", "write block 4: 4"]
        self.assertEqual(decided(FIVE_OPERATIONS, "--enough --strict"), (with_line(decided(FIVE_OPERATIONS,
            "--enough")[0], "module soft", "strict").replace("EntrySet:LinkUp Ptr:InitFile",
            "EntrySet:LinkUp EntrySet:Ptr Ptr:InitFile").replace("EntrySet:LinkUp InitFile:MapSet",
            "EntrySet:LinkUp EntrySet:Ptr InitFile:MapSet").replace("needs Ptr:InitFile\n", lines(*strict_need)
            + "needs Ptr:InitFile\n"), 0))

    def test_orderings_that_are_not_enough(self):
        self.answers(LINK_UNLINK, "--enough --strict", 1, """
            module soft
            strict
            patches 4
            closed 8
            enough 0
            fault 7 lost inode: inode 1
            set 2
            write block 4: 2
            """)
        self.assertEqual(answered(LINK_UNLINK, "--enough --strict --json"), (
            '{"closed":"8","enough":[],"first":{"fault":"7 lost inode: inode 1","set":[2],'
            '"writes":[{"block":4,"patches":[2]}]},"module":"soft","needs":[],"patches":4,"strict":true}\n', 1))
        self.answers(LINK_UNLINK, "--enough", 0, """
            module soft
            patches 4
            closed 8
            enough 1
            rules EntrySet:LinkUp LinkDown:EntryClear
            needs EntrySet:LinkUp
            fault 4 low link count: inode 1 entries 2 links 1
            set 1
            write block 4: 1
            needs LinkDown:EntryClear
            fault 4 low link count: inode 1 entries 2 links 1
            set 0 1 3
            write block 2: 0
            write block 4: 1
            write block 2: 3
            """)
        self.answers(LINK_UNLINK, "--enough --strict --with EntryClear:previous-EntrySet", 0, """
            module soft
            with EntryClear:previous-EntrySet
            strict
            patches 4
            closed 5
            enough 1
            rules EntrySet:LinkUp LinkDown:EntryClear EntryClear:previous-EntrySet
            needs EntrySet:LinkUp
            fault 4 low link count: inode 1 entries 2 links 1
            set 1
            write block 4: 1
            needs LinkDown:EntryClear
            fault 4 low link count: inode 1 entries 2 links 1
            set 0 1 3
            write block 2: 0
            write block 4: 1
            write block 2: 3
            needs EntryClear:previous-EntrySet
            fault 7 lost inode: inode 1
            set 2
            write block 4: 2
            """)
        self.answers(LINK_WRITE_UNLINK, "--enough --strict --with EntryClear:previous-EntrySet", 1, """
            module soft
            with EntryClear:previous-EntrySet
            strict
            patches 7
            closed 32
            enough 0
            fault 7 lost inode: inode 1
            set 5
            write block 4: 5
            """)
        self.answers(LINK_WRITE_UNLINK, "--enough --strict --with EntryClear:before-EntrySet", 0, """
            module soft
            with EntryClear:before-EntrySet
            strict
            patches 7
            closed 20
            enough 2
            rules EntrySet:LinkUp InitFile:MapSet Ptr:InitFile LinkDown:EntryClear EntryClear:before-EntrySet
            rules EntrySet:LinkUp Ptr:InitFile Ptr:MapSet LinkDown:EntryClear EntryClear:before-EntrySet
            needs EntrySet:LinkUp
            fault 4 low link count: inode 1 entries 2 links 1
            set 1
            write block 4: 1
            needs Ptr:InitFile
            fault 3 unwritten pointer: inode 1 slot 1 block 7
            set 2 4
            write block 1: 2
            write block 2: 4
            needs LinkDown:EntryClear
            fault 4 low link count: inode 1 entries 2 links 1
            set 0 1 6
            write block 2: 0
            write block 4: 1
            write block 2: 6
            needs EntryClear:before-EntrySet
            fault 7 lost inode: inode 1
            set 5
            write block 4: 5
            needs InitFile:MapSet Ptr:MapSet
            fault 5 used block marked free: inode 1 slot 1 block 7
            set 3 4
            write block 7: 3
            write block 2: 4
            """)

    def test_journals(self):
        self.decides(DIRECTORY_REUSE, FULL_WORDS + " --enough", 0, """
            module full
            patches 22
            closed 1105
            enough 1
            rules Commit:Copy Commit:previous-Commit InPlace:Commit Done:InPlace Done:previous-Done
            needs Commit:Copy
            fault 3 unwritten pointer: inode 0 slot 0 block 16
            set 2 7 9
            write block 4: 2
            write block 9: 7
            write block 7: 9
            needs Commit:previous-Commit
            fault 1 dangling entry: directory 0 entry 0 inode 1
            set 6 7 8 9 11
            write block 8: 6
            write block 9: 7
            write block 10: 8
            write block 7: 9
            write block 2: 11
            needs InPlace:Commit
            fault 1 dangling entry: directory 0 entry 0 inode 1
            set 11
            write block 2: 11
            needs Done:InPlace
            fault 1 dangling entry: directory 0 entry 0 inode 1
            set 0 1 2 5 6 7 8 9 11 13
            write block 5: 0
            write block 6: 1
            write block 4: 2 5
            write block 8: 6
            write block 9: 7
            write block 10: 8
            write block 7: 9
            write block 2: 11
            write block 7: 13
            needs Done:previous-Done
            fault 5 used block marked free: inode 1 slot 0 block 17
            set 0 1 2 6 7 8 9 10 11 12 13
            write block 5: 0
            write block 6: 1
            write block 4: 2
            write block 8: 6
            write block 9: 7
            write block 10: 8
            write block 7: 9
            write block 16: 10
            write block 2: 11
            write block 1: 12
            write block 7: 13
            """)
        self.answers(CREATE, "--module full --journal 6 --enough", 0, """
            module full
            patches 6
            closed 9
            enough 1
            rules Commit:Copy InPlace:Commit Done:InPlace
            needs Commit:Copy
            fault 3 unwritten pointer: inode 0 slot 0 block 10
            set 0 2
            write block 5: 0
            write block 4: 2
            needs InPlace:Commit
            fault 1 dangling entry: directory 0 entry 0 inode 1
            set 4
            write block 10: 4
            needs Done:InPlace
            fault 1 dangling entry: directory 0 entry 0 inode 1
            set 0 1 2 4 5
            write block 5: 0
            write block 6: 1
            write block 4: 2
            write block 10: 4
            write block 4: 5
            """)
        self.assertEqual(decided(DIRECTORY_REUSE, META_WORDS, "--enough --with FileData:previous-Done"), (lines(
            "module meta", "with FileData:previous-Done", "patches 21", "closed 461", "enough 1",
            "rules Commit:Copy Commit:FileData Commit:previous-Commit InPlace:Commit Done:InPlace "
            "Done:previous-Done FileData:previous-Done", "needs Commit:Copy",
            "fault 3 unwritten pointer: inode 0 slot 0 block 16", "set 2 7 9", "write block 4: 2", "write block 9: 7",
            "write block 7: 9", "needs Commit:FileData", "fault 3 unwritten pointer: inode 3 slot 0 block 17",
            "set 0 1 2 6 7 8 9 15 16 17", "write block 5: 0", "write block 6: 1", "write block 4: 2",
            "write block 8: 6", "write block 9: 7", "write block 10: 8", "write block 7: 9", "write block 12: 15",
            "write block 13: 16", "write block 11: 17", "needs Commit:previous-Commit",
            "fault 1 dangling entry: directory 0 entry 0 inode 1", "set 6 7 8 9 11", "write block 8: 6",
            "write block 9: 7", "write block 10: 8", "write block 7: 9", "write block 2: 11", "needs InPlace:Commit",
            "fault 1 dangling entry: directory 0 entry 0 inode 1", "set 11", "write block 2: 11",
            "needs Done:InPlace", "fault 1 dangling entry: directory 0 entry 0 inode 1", "set 0 1 2 5 6 7 8 9 11 13",
            "write block 5: 0", "write block 6: 1", "write block 4: 2 5", "write block 8: 6", "write block 9: 7",
            "write block 10: 8", "write block 7: 9", "write block 2: 11", "write block 7: 13",
            "needs Done:previous-Done", "fault 3 unwritten pointer: inode 3 slot 0 block 17",
            "set 0 1 2 3 6 7 8 9 10 11 12 13 14 15 16 17", "write block 5: 0", "write block 6: 1", "write block 4: 2",
            "write block 17: 3", "write block 8: 6", "write block 9: 7", "write block 10: 8", "write block 7: 9",
            "write block 16: 10", "write block 2: 11", "write block 1: 12", "write block 7: 13", "write block 17: 14",
            "write block 12: 15", "write block 13: 16", "write block 11: 17", "needs FileData:previous-Done",
            "fault 3 unwritten pointer: inode 3 slot 0 block 17", "set 0 1 2 3 6 7 8 9 14 15 16 17",
            "write block 5: 0", "write block 6: 1", "write block 4: 2", "write block 17: 3", "write block 8: 6",
            "write block 9: 7", "write block 10: 8", "write block 7: 9", "write block 17: 14", "write block 12: 15",
            "write block 13: 16", "write block 11: 17"), 0))
        self.assertEqual(answered(DIRECTORY_REUSE, META_WORDS, "--enough --json"), (
            '{"closed":"629","enough":[],"first":{"fault":"3 unwritten pointer: inode 3 slot 0 block 17",'
            '"set":[0,1,2,3,6,7,8,9,14,15,16,17],"writes":[{"block":5,"patches":[0]},{"block":6,'
            '"patches":[1]},{"block":4,"patches":[2]},{"block":17,"patches":[3]},{"block":8,"patches":[6]},'
            '{"block":9,"patches":[7]},{"block":10,"patches":[8]},{"block":7,"patches":[9]},{"block":17,'
            '"patches":[14]},{"block":12,"patches":[15]},{"block":13,"patches":[16]},{"block":11,'
            '"patches":[17]}]},"module":"meta","needs":[],"patches":21}\n', 1))

    def test_the_metadata_journal_is_not_enough(self):
        decision = answered(DIRECTORY_REUSE, META_WORDS, "--decide")[0]
        self.assertEqual(answered(DIRECTORY_REUSE, META_WORDS, "--enough"), (with_line(decision, "closed 629",
            "enough 0"), 1))

    def test_the_metadata_journal_with_one_rule_more(self):
        decision = answered(DIRECTORY_REUSE, META_WORDS, "--decide")[0]
        head = ["module meta", "with FileData:previous-Done", "patches 21", "closed 461", "enough 1",
            "rules Commit:Copy Commit:FileData Commit:previous-Commit InPlace:Commit Done:InPlace "
            "Done:previous-Done FileData:previous-Done"]
        text, status = decided(DIRECTORY_REUSE, META_WORDS, "--enough --with FileData:previous-Done")
        needs = re.split("(?m)^(?=needs )", text)
        self.assertEqual((needs[0], status), (lines(*head), 0))
        self.assertEqual([one.split("\n")[0] for one in needs[1:]], ["needs " + rule for rule in head[-1].split(" ")[
            1:]])
        self.assertEqual(needs[7], "needs FileData:previous-Done\n" + blocks_of(decision)[1])

    def test_the_full_journal_keeps_operations_whole(self):
        self.assertEqual(answered(CREATE, "--module full --journal 6 --enough --atomic"), (with_line(answered(CREATE,
            "--module full --journal 6 --enough")[0], "module full", "atomic"), 0))
        self.assertEqual(decided(CREATE, "--module full --journal 6 --enough"), answered(CREATE,
            "--module full --journal 6 --enough"))

    def test_short_scripts(self):
        self.answers("start", "--module async --enough", 0, """
            module async
            patches 0
            closed 1
            enough 1
            rules
            """)
        self.assertEqual(answered("start", "--module async --enough --json"), (
            '{"closed":"1","enough":[[]],"module":"async","needs":[],"patches":0}\n', 0))
        self.answers("start", "--enough", 0, """
            module soft
            patches 0
            closed 1
            enough 1
            rules
            """)
        self.answers(CREATE, "--module async --enough", 1, """
            module async
            patches 2
            closed 4
            enough 0
            fault 1 dangling entry: directory 0 entry 0 inode 1
            set 1
            write block 4: 1
            """)
        self.answers(RENAME, "--enough --without EntryClear:EntrySet", 0, """
            module soft
            without EntryClear:EntrySet
            patches 4
            closed 8
            enough 1
            rules EntrySet:LinkUp LinkDown:EntryClear
            needs EntrySet:LinkUp
            fault 4 low link count: inode 1 entries 2 links 1
            set 1
            write block 4: 1
            needs LinkDown:EntryClear
            fault 4 low link count: inode 1 entries 2 links 1
            set 0 1 3
            write block 2: 0
            write block 4: 1
            write block 2: 3
            """)
        self.answers("create /a ; start ; unlink /a",
            "--module async --with InodeFree:EntryClear --with Done:Done --enough", 0, """
            module async
            with InodeFree:EntryClear
            with Done:Done
            patches 2
            closed 3
            enough 1
            rules InodeFree:EntryClear
            needs InodeFree:EntryClear
            fault 1 dangling entry: directory 0 entry 0 inode 1
            set 1
            write block 2: 1
            """)
        self.answers("start", "--enough", 0, """
            module soft
            patches 0
            closed 1
            enough 1
            rules
            """)

    def test_the_lists_have_one_rule_of_each_need(self):
        for rows, words in ((CREATE_WRITE, "--enough"), (BLOCK_REUSE, "--enough"), (LINK_WRITE_UNLINK,
            "--enough --strict --with EntryClear:before-EntrySet"), (LINK_UNLINK, "--enough"), (POOL_OF_WRITES,
            "--search 3 --enough"), (POOL, "--search 3 --enough --strict"), (CREATE,
            "--module full --journal 6 --enough --atomic")):
            value = json.loads(answered(rows, words, "--json")[0])
            every = sorted(set((rule for one in value["needs"] for rule in one["rules"])))
            hitting = [set(some) for some in sublists(every) if all((set(some) & set(one["rules"]) for one in value[
                "needs"]))]
            least = [some for some in hitting if not any((one < some for one in hitting))]
            self.assertEqual(sorted((sorted(some) for some in least)), sorted((sorted(one) for one in value[
                "enough"])))
