"""Small scripts under the four orderings."""

import unittest

from ..closed_sets import ids_of
from .support import (
    BLOCK_REUSE, CREATE, CREATE_WRITE, DANGLING, DIRECTORY_REUSE, EMPTY_REPORT, FULL, LOW, META, RENAME,
    TWO_CREATES, counts, failing_ids, parts, refused, run)


class Orders(unittest.TestCase):
    """What each ordering lets fail."""

    def test_a_script_without_operations_has_one_set(self):
        self.assertEqual(run("start"), (EMPTY_REPORT, 0))
        self.assertEqual(run("start", limit=1), (EMPTY_REPORT, 0))

    def test_a_create_without_ordering_can_leave_an_entry_without_its_inode(self):
        wanted_text = ("module async\npatches 2\nclosed 4\nfailing 1\nset 1\nwrite block 4: 1\nfault " + DANGLING
            + "\n")
        wanted_json = (
            '{"closed":4,"failing":[{"faults":["1 dangling entry: directory 0 entry 0 inode 1"],"set":[1],'
            '"writes":[{"block":4,"patches":[1]}]}],"module":"async","patches":2}\n')
        self.assertEqual(run(CREATE), (wanted_text, 1))
        self.assertEqual(run(CREATE, json=True), (wanted_json, 1))
        found = parts(CREATE)
        self.assertEqual([(p.part, p.block) for p in found.patches], [("InodeInit", 2), ("EntrySet", 4)])

    def test_soft_updates_order_a_create(self):
        self.assertEqual(run(CREATE, module="soft"), ("module soft\npatches 2\nclosed 3\nfailing 0\n", 0))

    def test_the_metadata_journal_orders_a_create_where_it_has_room(self):
        self.assertEqual(run(CREATE, module="meta", journal=6), ("module meta\npatches 6\nclosed 9\nfailing 0\n", 0))
        for journal in (2, 0):
            self.assertEqual(run(CREATE, module="meta", journal=journal), refused(
                "crashmap: line 2: 20 journal full"))

    def test_a_written_file_without_ordering(self):
        found = parts(CREATE_WRITE)
        self.assertEqual(counts(CREATE_WRITE), (5, 24, 10))
        self.assertEqual(failing_ids(found), [[1], [1, 2], [1, 3], [0, 4], [1, 2, 3], [0, 1, 4], [0, 2, 4], [0, 3, 4],
            [0, 1, 2, 4], [0, 1, 3, 4]])
        self.assertEqual((found.patches[4].part, ids_of(found.patches[4].deps)), ("Ptr", [0]))

    def test_soft_updates_order_a_written_file(self):
        self.assertEqual(counts(CREATE_WRITE, module="soft"), (5, 11, 0))

    def test_the_limit_is_the_most_closed_sets(self):
        self.assertEqual(run(CREATE_WRITE, limit=24), run(CREATE_WRITE))
        self.assertEqual(run(CREATE_WRITE, limit=23), refused("crashmap: 30 too many closed sets"))
        self.assertEqual(run(CREATE, limit=1), refused("crashmap: 30 too many closed sets"))
        self.assertEqual(run(TWO_CREATES, limit=16), run(TWO_CREATES))
        self.assertEqual(run(TWO_CREATES, limit=15), refused("crashmap: 30 too many closed sets"))

    def test_a_link_before_its_count(self):
        self.assertEqual(run("create /a ; start ; link /a /b"), (
            "module async\npatches 2\nclosed 4\nfailing 1\nset 1\nwrite block 4: 1\nfault " + LOW + "\n", 1))

    def test_a_rename_keeps_the_old_name_until_the_end(self):
        self.assertEqual(run(RENAME), (
            "module async\npatches 4\nclosed 12\nfailing 2\nset 1\nwrite block 4: 1\nfault " + LOW
            + "\nset 0 1 3\nwrite block 2: 0\nwrite block 4: 1\nwrite block 2: 3\nfault " + LOW + "\n", 1))
        self.assertEqual([2] in failing_ids(parts(RENAME)), False)
        self.assertEqual(counts(RENAME, module="soft")[1:], (5, 0))

    def test_a_block_that_another_file_gets(self):
        found = parts(BLOCK_REUSE)
        self.assertEqual(counts(BLOCK_REUSE), (6, 48, 36))
        self.assertEqual((ids_of(found.failing[0].patch_set), found.failing[0].faults), ([1], [DANGLING]))
        five = [one for one in found.failing if ids_of(one.patch_set) == [5]]
        self.assertEqual([(one.writes, one.faults) for one in five], [([(2, [5])], ["2 block used twice: block 5",
            "3 unwritten pointer: inode 2 slot 0 block 5"])])
        self.assertEqual(counts(BLOCK_REUSE, module="soft")[1:], (7, 0))

    def test_a_patch_group_waits_for_another(self):
        rows = "start ; group A ; create /a ; end ; depend B A ; group B ; create /b ; end"
        self.assertEqual((counts(rows), failing_ids(parts(rows))), ((4, 7, 2), [[1], [0, 1, 3]]))

    def test_the_metadata_journal_fails_where_a_directory_block_becomes_file_data(self):
        self.assertEqual(counts(DIRECTORY_REUSE, **META), (21, 629, 48))
        text, status = run(DIRECTORY_REUSE, **META)
        self.assertEqual(text.split("set ")[1],
            "0 1 2 3 6 7 8 9 14 15 16 17\nwrite block 5: 0\nwrite block 6: 1\nwrite block 4: 2\nwrite block "
            "17: 3\nwrite block 8: 6\nwrite block 9: 7\nwrite block 10: 8\nwrite block 7: 9\nwrite block 17: "
            "14\nwrite block 12: 15\nwrite block 13: 16\nwrite block 11: 17\nfault 3 unwritten pointer: inode "
            "3 slot 0 block 17\n")
        self.assertEqual(status, 1)

    def test_a_failing_set_gives_status_1(self):
        self.assertEqual(run(BLOCK_REUSE)[1], 1)

    def test_two_creates_without_ordering(self):
        self.assertEqual((counts(TWO_CREATES), failing_ids(parts(TWO_CREATES))), ((4, 16, 7), [[1], [3], [1, 2], [0,
            3], [1, 3], [0, 1, 3], [1, 2, 3]]))

    def test_a_written_file_under_the_metadata_journal(self):
        self.assertEqual(counts(CREATE_WRITE, module="meta", journal=6), (13, 73, 0))
        self.assertEqual(run(CREATE_WRITE, module="meta", journal=5), refused("crashmap: line 3: 20 journal full"))

    def test_the_full_journal_orders_small_scripts(self):
        self.assertEqual(run(CREATE, module="full", journal=6), ("module full\npatches 6\nclosed 9\nfailing 0\n", 0))
        self.assertEqual(counts(CREATE_WRITE, module="full", journal=7), (14, 105, 0))
        self.assertEqual(run(CREATE_WRITE, module="full", journal=6), refused("crashmap: line 3: 20 journal full"))

    def test_the_full_journal_does_not_fail_where_a_directory_block_becomes_file_data(self):
        self.assertEqual(counts(DIRECTORY_REUSE, **FULL), (22, 1105, 0))
        self.assertEqual(run(DIRECTORY_REUSE, limit=1104, **FULL), refused("crashmap: 30 too many closed sets"))
