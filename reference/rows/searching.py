"""Workloads made of a pool of lines."""

import json

from ..report_json import compact
from .support import (
    CREATE_WRITE, DIRECTORY_REUSE, META_WORDS, POOL, POOL_OF_CREATES, POOL_OF_SIX, POOL_OF_WRITES, Rows,
    answered, lines, program, script_of, whole, with_line)


class Searching(Rows):
    """What `--search` finds."""

    def test_a_pool_of_three_lines(self):
        self.answers(POOL, "--search 1", 0, """
            module soft
            search 1
            pool 3
            workloads 3
            failing 0
            """)
        self.answers(POOL, "--search 2", 0, """
            module soft
            search 2
            pool 3
            workloads 8
            failing 0
            refused 10 not found: 3
            refused 12 exists: 1
            """)
        self.answers(POOL, "--search 3", 0, """
            module soft
            search 3
            pool 3
            workloads 15
            failing 0
            refused 10 not found: 9
            refused 12 exists: 3
            """)
        self.answers(POOL, "--search 1 --strict", 0, """
            module soft
            strict
            search 1
            pool 3
            workloads 3
            failing 0
            """)
        self.answers(POOL, "--search 2 --strict", 1, """
            module soft
            strict
            search 2
            pool 3
            workloads 8
            failing 1
            refused 10 not found: 3
            refused 12 exists: 1
            kind 7 lost inode
            workloads 1
            step link /a /b
            step unlink /a
            set 2
            write block 4: 2
            fault 7 lost inode: inode 1
            """)
        self.answers(POOL, "--search 3 --strict", 1, """
            module soft
            strict
            search 3
            pool 3
            workloads 15
            failing 3
            refused 10 not found: 6
            refused 12 exists: 3
            kind 7 lost inode
            workloads 3
            step link /a /b
            step unlink /a
            set 2
            write block 4: 2
            fault 7 lost inode: inode 1
            """)
        self.assertEqual(answered(POOL, "--search 3 --strict --json"), (
            '{"failing":3,"kinds":[{"faults":["7 lost inode: inode 1"],"kind":7,"name":"lost inode",'
            '"set":[2],"steps":["link /a /b","unlink /a"],"workloads":3,"writes":[{"block":4,'
            '"patches":[2]}]}],"module":"soft","pool":3,"refused":[{"count":6,"number":10,"text":"not '
            'found"},{"count":3,"number":12,"text":"exists"}],"search":3,"strict":true,"workloads":15}\n', 1))
        self.answers(POOL, "--search 3 --strict --with EntryClear:previous-EntrySet", 1, """
            module soft
            with EntryClear:previous-EntrySet
            strict
            search 3
            pool 3
            workloads 15
            failing 1
            refused 10 not found: 9
            refused 12 exists: 3
            kind 7 lost inode
            workloads 1
            step link /a /b
            step write /a
            step unlink /a
            set 5
            write block 4: 5
            fault 7 lost inode: inode 1
            """)
        self.answers(POOL, "--search 3 --strict --with EntryClear:before-EntrySet", 0, """
            module soft
            with EntryClear:before-EntrySet
            strict
            search 3
            pool 3
            workloads 15
            failing 0
            refused 10 not found: 9
            refused 12 exists: 3
            """)

    def test_a_pool_of_six_lines(self):
        self.answers(POOL_OF_SIX, "--search 1", 0, """
            module soft
            search 1
            pool 6
            workloads 4
            failing 0
            refused 10 not found: 2
            """)
        self.answers(POOL_OF_SIX, "--search 3 --strict", 1, """
            module soft
            strict
            search 3
            pool 6
            workloads 52
            failing 10
            refused 10 not found: 32
            refused 12 exists: 12
            kind 7 lost inode
            workloads 10
            step link /a /b
            step unlink /a
            set 2
            write block 4: 2
            fault 7 lost inode: inode 1
            """)
        self.answers(POOL_OF_SIX, "--search 3 --strict --with EntryClear:before-EntrySet", 0, """
            module soft
            with EntryClear:before-EntrySet
            strict
            search 3
            pool 6
            workloads 53
            failing 0
            refused 10 not found: 41
            refused 12 exists: 13
            refused 14 not empty: 1
            """)
        self.answers(POOL_OF_SIX, "--search 2 --without Ptr:InitDir --strict", 1, """
            module soft
            without Ptr:InitDir
            strict
            search 2
            pool 6
            workloads 12
            failing 5
            refused 10 not found: 11
            refused 12 exists: 1
            kind 3 unwritten pointer
            workloads 4
            step mkdir /d
            set 0 1 3
            write block 2: 0
            write block 1: 1
            write block 2: 3
            fault 3 unwritten pointer: inode 2 slot 0 block 5
            kind 7 lost inode
            workloads 1
            step link /a /b
            step unlink /a
            set 2
            write block 4: 2
            fault 7 lost inode: inode 1
            """)

    def test_directory_block_reuse_is_found(self):
        self.answers(DIRECTORY_REUSE, META_WORDS + " --search 3", 1, """
            module meta
            search 3
            pool 3
            workloads 13
            failing 1
            refused 10 not found: 5
            refused 14 not empty: 3
            kind 3 unwritten pointer
            workloads 1
            step unlink /d/x
            step rmdir /d
            step write /f
            set 0 1 2 3 6 7 8 9 14 15 16 17
            write block 5: 0
            write block 6: 1
            write block 4: 2
            write block 17: 3
            write block 8: 6
            write block 9: 7
            write block 10: 8
            write block 7: 9
            write block 17: 14
            write block 12: 15
            write block 13: 16
            write block 11: 17
            fault 3 unwritten pointer: inode 3 slot 0 block 17
            """)
        self.answers(DIRECTORY_REUSE, META_WORDS + " --search 2", 0, """
            module meta
            search 2
            pool 3
            workloads 6
            failing 0
            refused 10 not found: 1
            refused 14 not empty: 2
            """)

    def test_what_is_found_with_its_replay(self):
        replay = whole(lines("replay block 2: 0201000010" + "00" * 43 + "0101000011~", "replay block 16: 44"
            + "00" * 19 + "040166~", "replay block 17: 4401~"))
        searched = answered(DIRECTORY_REUSE, META_WORDS, "--search 3")[0]
        self.assertEqual(answered(DIRECTORY_REUSE, META_WORDS, "--search 3 --explain"), (searched.replace("fault ",
            replay + "fault "), 1))
        value = json.loads(answered(DIRECTORY_REUSE, META_WORDS, "--search 3 --json")[0])
        value["kinds"][0]["replay"] = [{"block": int(line.split(" ")[2][:-1]), "bytes": line.split(" ")[3]}
            for line in replay.split("\n")[:-1]]
        self.assertEqual(answered(DIRECTORY_REUSE, META_WORDS, "--search 3 --explain --json"), (compact(value), 1))

    def test_workloads_that_fail_are_not_made_longer(self):
        self.answers(CREATE_WRITE, "--module async --search 2", 1, """
            module async
            search 2
            pool 2
            workloads 1
            failing 1
            refused 10 not found: 1
            kind 1 dangling entry
            workloads 1
            step create /a
            set 1
            write block 4: 1
            fault 1 dangling entry: directory 0 entry 0 inode 1
            """)
        self.assertEqual(answered(CREATE_WRITE, "--module async --search 2 --json"), (
            '{"failing":1,"kinds":[{"faults":["1 dangling entry: directory 0 entry 0 inode 1"],"kind":1,'
            '"name":"dangling entry","set":[1],"steps":["create /a"],"workloads":1,"writes":[{"block":4,'
            '"patches":[1]}]}],"module":"async","pool":2,"refused":[{"count":1,"number":10,"text":"not '
            'found"}],"search":2,"workloads":1}\n', 1))
        self.answers("start ; mkdir /d ; rmdir /d", "--search 2 --atomic", 1, """
            module soft
            atomic
            search 2
            pool 2
            workloads 1
            failing 1
            refused 10 not found: 1
            kind 9 half-done operation
            workloads 1
            step mkdir /d
            set 0
            write block 2: 0
            fault 9 half-done operation
            """)

    def test_empty_pools_and_refusals(self):
        self.answers("start", "--search 8", 0, """
            module soft
            search 8
            pool 0
            workloads 0
            failing 0
            """)
        self.assertEqual(answered("start", "--search 8 --json"), (
            '{"failing":0,"kinds":[],"module":"soft","pool":0,"refused":[],"search":8,"workloads":0}\n', 0))
        self.answers("start ; create /a ; create /a", "--search 2", 0, """
            module soft
            search 2
            pool 2
            workloads 2
            failing 0
            refused 12 exists: 4
            """)
        self.answers("start ; create /a ; unlink /a", "--module meta --journal 6 --search 3", 0, """
            module meta
            search 3
            pool 2
            workloads 2
            failing 0
            refused 10 not found: 2
            refused 12 exists: 1
            refused 20 journal full: 1
            """)
        self.assertEqual(answered("start ; create /a ; unlink /a",
            "--module full --journal 6 --search 2 --atomic --json"), (
            '{"atomic":true,"failing":0,"kinds":[],"module":"full","pool":2,"refused":[{"count":1,'
            '"number":10,"text":"not found"},{"count":1,"number":12,"text":"exists"}],"search":2,'
            '"workloads":2}\n', 0))

    def test_pools_that_are_refused(self):
        self.assertEqual(program("--search 1".split(), script_of("start ; create /a ; group A ; create /b")), ("",
            "crashmap: line 3: 21 group fault\n", 2))
        self.assertEqual(program("--search 2".split(), script_of("start ; create /a ; end")), ("",
            "crashmap: line 3: 21 group fault\n", 2))
        self.assertEqual(program("--search 1".split(), script_of("start ; depend B A")), ("",
            "crashmap: line 2: 21 group fault\n", 2))
        self.assertEqual(program("--search 1".split(), script_of("create /a ; create /a ; start ; group A")), ("",
            "crashmap: line 2: 12 exists\n", 2))
        self.assertEqual(program("--search 1".split(), script_of("start ; group A ; crate /a")), ("",
            "crashmap: line 3: 41 bad line\n", 2))
        self.assertEqual(program("--search 1 --enough".split(), script_of("start ; create /a ; group A ; end")), ("",
            "crashmap: line 3: 21 group fault\n", 2))

    def test_which_rules_are_enough_for_all_workloads(self):
        self.answers(POOL_OF_WRITES, "--search 3 --enough", 0, """
            module soft
            search 3
            pool 3
            workloads 6
            failing 0
            refused 10 not found: 4
            refused 12 exists: 2
            enough 2
            rules EntrySet:InodeInit InitFile:MapSet Ptr:InitFile InodeFree:EntryClear MapClear:InodeFree
            rules EntrySet:InodeInit Ptr:InitFile Ptr:MapSet InodeFree:EntryClear MapClear:InodeFree
            needs EntrySet:InodeInit
            step create /a
            fault 1 dangling entry: directory 0 entry 0 inode 1
            set 1
            write block 4: 1
            needs Ptr:InitFile
            step create /a
            step write /a
            fault 3 unwritten pointer: inode 1 slot 0 block 5
            set 0 2 4
            write block 2: 0
            write block 1: 2
            write block 2: 4
            needs InodeFree:EntryClear
            step create /a
            step unlink /a
            fault 1 dangling entry: directory 0 entry 0 inode 1
            set 0 1 3
            write block 2: 0
            write block 4: 1
            write block 2: 3
            needs MapClear:InodeFree
            step create /a
            step write /a
            step unlink /a
            fault 5 used block marked free: inode 1 slot 0 block 5
            set 0 2 3 4 7
            write block 2: 0
            write block 1: 2
            write block 5: 3
            write block 2: 4
            write block 1: 7
            needs InitFile:MapSet Ptr:MapSet
            step create /a
            step write /a
            fault 5 used block marked free: inode 1 slot 0 block 5
            set 0 3 4
            write block 2: 0
            write block 5: 3
            write block 2: 4
            """)
        self.assertEqual(answered(POOL_OF_WRITES, "--search 2 --enough --json"), (
            '{"enough":[["EntrySet:InodeInit","InitFile:MapSet","Ptr:InitFile","InodeFree:EntryClear"],'
            '["EntrySet:InodeInit","Ptr:InitFile","Ptr:MapSet","InodeFree:EntryClear"]],"failing":0,'
            '"module":"soft","needs":[{"fault":"1 dangling entry: directory 0 entry 0 inode 1",'
            '"rules":["EntrySet:InodeInit"],"set":[1],"steps":["create /a"],"writes":[{"block":4,'
            '"patches":[1]}]},{"fault":"3 unwritten pointer: inode 1 slot 0 block 5",'
            '"rules":["Ptr:InitFile"],"set":[0,2,4],"steps":["create /a","write /a"],"writes":[{"block":2,'
            '"patches":[0]},{"block":1,"patches":[2]},{"block":2,"patches":[4]}]},{"fault":"1 dangling '
            'entry: directory 0 entry 0 inode 1","rules":["InodeFree:EntryClear"],"set":[0,1,3],'
            '"steps":["create /a","unlink /a"],"writes":[{"block":2,"patches":[0]},{"block":4,"patches":[1]},'
            '{"block":2,"patches":[3]}]},{"fault":"5 used block marked free: inode 1 slot 0 block 5",'
            '"rules":["InitFile:MapSet","Ptr:MapSet"],"set":[0,3,4],"steps":["create /a","write /a"],'
            '"writes":[{"block":2,"patches":[0]},{"block":5,"patches":[3]},{"block":2,"patches":[4]}]}],'
            '"pool":3,"refused":[{"count":2,"number":10,"text":"not found"},{"count":1,"number":12,'
            '"text":"exists"}],"search":2,"workloads":3}\n', 0))
        self.answers(POOL, "--search 2 --enough --strict", 1, """
            module soft
            strict
            search 2
            pool 3
            workloads 8
            failing 1
            refused 10 not found: 3
            refused 12 exists: 1
            enough 2
            rules EntrySet:LinkUp InitFile:MapSet Ptr:InitFile InodeFree:EntryClear MapClear:InodeFree
            rules EntrySet:LinkUp Ptr:InitFile Ptr:MapSet InodeFree:EntryClear MapClear:InodeFree
            needs EntrySet:LinkUp
            step link /a /b
            fault 4 low link count: inode 1 entries 2 links 1
            set 1
            write block 4: 1
            needs Ptr:InitFile
            step write /a
            fault 3 unwritten pointer: inode 1 slot 0 block 5
            set 0 2
            write block 1: 0
            write block 2: 2
            needs InodeFree:EntryClear
            step unlink /a
            fault 1 dangling entry: directory 0 entry 0 inode 1
            set 1
            write block 2: 1
            needs MapClear:InodeFree
            step write /a
            step unlink /a
            fault 5 used block marked free: inode 1 slot 0 block 5
            set 0 1 2 5
            write block 1: 0
            write block 5: 1
            write block 2: 2
            write block 1: 5
            needs InitFile:MapSet Ptr:MapSet
            step write /a
            fault 5 used block marked free: inode 1 slot 0 block 5
            set 1 2
            write block 5: 1
            write block 2: 2
            """)
        self.answers(POOL_OF_WRITES, "--module async --search 2 --enough", 1, """
            module async
            search 2
            pool 3
            workloads 1
            failing 1
            refused 10 not found: 2
            enough 1
            rules
            """)

    def test_which_rules_of_the_full_journal_are_enough(self):
        self.answers("start ; create /a ; unlink /a ; create /b",
            "--module full --journal 6 --search 2 --enough", 0, """
            module full
            search 2
            pool 3
            workloads 5
            failing 0
            refused 10 not found: 2
            refused 12 exists: 2
            enough 1
            rules Commit:Copy Commit:previous-Commit InPlace:Commit Done:InPlace
            needs Commit:Copy
            step create /a
            fault 3 unwritten pointer: inode 0 slot 0 block 10
            set 0 2
            write block 5: 0
            write block 4: 2
            needs Commit:previous-Commit
            step create /a
            step create /b
            fault 1 dangling entry: directory 0 entry 1 inode 2
            set 6 7 8 10
            write block 8: 6
            write block 9: 7
            write block 7: 8
            write block 10: 10
            needs InPlace:Commit
            step create /a
            fault 1 dangling entry: directory 0 entry 0 inode 1
            set 4
            write block 10: 4
            needs Done:InPlace
            step create /a
            fault 1 dangling entry: directory 0 entry 0 inode 1
            set 0 1 2 4 5
            write block 5: 0
            write block 6: 1
            write block 4: 2
            write block 10: 4
            write block 4: 5
            """)
        self.assertEqual(answered(POOL_OF_CREATES, "--module full --journal 6 --search 2 --enough --atomic"), (
            with_line(answered(POOL_OF_CREATES, "--module full --journal 6 --search 2 --enough")[0], "module full",
            "atomic"), 0))

    def test_options_that_do_not_go_with_a_question(self):
        for question in ("--decide", "--enough", "--search 1", "--search 8 --enough"):
            for other in ("--limit 1", "--limit 4096", "--limit=32768"):
                self.assertEqual((answered("start", question, other), answered("start", other, question)), (("", 2), (
                    "", 2)))

    def test_questions_that_are_refused(self):
        for words in ("--decide --enough", "--decide --search 2", "--search 2 --enough --decide", "--search 0",
            "--search 9", "--search two", "--search=", "--search", "--search 1 --search 1", "--atomic=1",
            "--decide=1", "--enough=1"):
            self.assertEqual(answered("start", words), ("", 2))
