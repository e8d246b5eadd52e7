"""Disks: what operations plan, what the journal holds, what replay and the checker make of odd bytes."""

import itertools
import unittest

from ..closed_sets import ids_of
from ..disk import formatted
from ..faults import faults, is_clean
from ..replay import build, replayed
from ..script import disks_after, read_script
from .support import (
    CREATE, DIRECTORY_REUSE, FULL, META, by_commits_held, image_with, padded, parts, patch_row, planned,
    script_of, step, unbuild)

# For each patch: part, block, offset, bytes or None where they are a copy of a block, and dependencies.
COMMON_TABLE = {
    0: ("Copy", 5, 0, None, []), 1: ("Copy", 6, 0, None, []),
    2: ("Commit", 4, 0, "C701020211", [0, 1]),
    3: ("EntryClear", 17, 8, "00" * 12, [2]), 4: ("InodeFree", 2, 32, "00" * 16, [2]),
    5: ("Done", 4, 0, "C8", [2, 3, 4]),
    6: ("Copy", 8, 0, None, []), 7: ("Copy", 9, 0, None, []), 8: ("Copy", 10, 0, None, []),
    9: ("Commit", 7, 0, "C70203010210", [2, 6, 7, 8]),
    10: ("EntryClear", 16, 8, "00" * 12, [9]), 11: ("InodeFree", 2, 16, "00" * 16, [9]),
    12: ("MapClear", 1, 17, "00", [9]),
    13: ("Done", 7, 0, "C8", [5, 9, 10, 11, 12]),
}
META_TABLE = dict(COMMON_TABLE)
META_TABLE.update({
    14: ("FileData", 17, 0, "4603" + "00" * 126, [3, 9]),
    15: ("Copy", 12, 0, None, []), 16: ("Copy", 13, 0, None, []),
    17: ("Commit", 11, 0, "C703020102", [9, 14, 15, 16]),
    18: ("MapSet", 1, 17, "01", [12, 17]), 19: ("Ptr", 2, 52, "11", [17]),
    20: ("Done", 11, 0, "C8", [13, 17, 18, 19]),
})
FULL_TABLE = dict(COMMON_TABLE)
FULL_TABLE.update({
    14: ("Copy", 12, 0, None, []), 15: ("Copy", 13, 0, None, []), 16: ("Copy", 14, 0, None, []),
    17: ("Commit", 11, 0, "C70303010211", [9, 14, 15, 16]),
    18: ("MapSet", 1, 17, "01", [12, 17]), 19: ("InitFile", 17, 0, "4603" + "00" * 126, [3, 17]),
    20: ("Ptr", 2, 52, "11", [17]), 21: ("Done", 11, 0, "C8", [13, 17, 18, 19, 20]),
})


class Disks(unittest.TestCase):
    """Bytes in their places."""

    def check_table(self, found, table):
        """The patches are those of the table."""
        self.assertEqual(len(found.patches), len(table))
        for k, (part, block, offset, text, deps) in table.items():
            patch = found.patches[k]
            self.assertEqual((patch.part, patch.block, patch.offset, ids_of(patch.deps)), (part, block, offset, deps))
            if text is not None:
                self.assertEqual(patch.new, bytes.fromhex(text))

    def check_copies(self, found, rows):
        """Each copy is the block that it is of, as it is after the operation."""
        disks = disks_after(found.base, read_script(script_of(rows)).traced)
        for number, disk in enumerate(disks[1:], 1):
            mine = [patch for patch in found.patches if patch.operation == number]
            commit = [patch for patch in mine if patch.part == "Commit"][0]
            copies = [patch.new for patch in mine if patch.part == "Copy"]
            self.assertEqual(copies, [disk.block(target) for target in commit.new[3:]])

    def test_a_directory_with_a_file(self):
        image = formatted(16, 0)
        self.assertEqual(step(image, "mkdir /d"), [(2, 16, padded("0201", 16)), (1, 5, b"\x01"), (5, 0, padded("4401",
            128)), (2, 20, b"\x05"), (4, 8, padded("020164", 12))])
        self.assertEqual(step(image, "create /d/x"), [(2, 32, padded("0101", 16)), (5, 8, padded("030178", 12))])
        for words, number in (("rmdir /d", 14), ("unlink /d", 13), ("link /d /e", 13), ("rmdir /d/x", 11)):
            self.assertEqual(planned(image, words), number)
        self.assertEqual(step(image, "rename /d/x /x"), [(2, 33, b"\x02"), (4, 20, padded("030178", 12)), (5, 8,
            bytes(12)), (2, 33, b"\x01")])
        self.assertEqual(step(image, "rmdir /d"), [(4, 8, bytes(12)), (2, 16, bytes(16)), (1, 5, b"\x00")])

    def test_a_full_directory_and_no_free_inode(self):
        image = formatted(16, 0)
        step(image, "mkdir /d")
        for k in range(10):
            self.assertEqual(isinstance(step(image, "create /d/%d" % k), list), True)
        self.assertEqual(planned(image, "create /d/z"), 17)
        for name in "abce":
            self.assertEqual(isinstance(step(image, "create /" + name), list), True)
        for words in ("create /f", "mkdir /f", "create /d/z"):
            self.assertEqual(planned(image, words), 15)

    def test_undo_bytes_bring_the_base_back(self):
        found = parts("create /a ; start ; link /a /b ; unlink /b", module="soft")
        self.assertEqual(len(found.patches), 4)
        image = build(found.base, found.patches, 15)
        unbuild(image, found.patches, 15)
        self.assertEqual(image.byte(2, 17), 1)
        self.assertEqual(image.data, found.base.data)

    def test_replay_of_a_transaction_of_zeros(self):
        image = image_with(6, (4, 0, bytes.fromhex("C70102020A")))
        after = replayed(image)
        self.assertEqual((after.block(2), after.block(10)), (bytes(128), bytes(128)))
        self.assertEqual(is_clean(after), True)

    def test_headers_that_are_none(self):
        for text in ("C701020A02", "C7020102", "C70109", "C701060102030A0B0C"):
            image = image_with(6, (4, 0, bytes.fromhex(text)))
            self.assertEqual(replayed(image).data, image.data)

    def test_replay_passes_over_a_done_transaction(self):
        image = image_with(6, (4, 0, bytes.fromhex("C80102020A")), (7, 0, bytes.fromhex("C7020101")))
        after = replayed(image)
        expected = image.copy()
        expected.put(1, 0, bytes(128))
        self.assertEqual(after.data, expected.data)
        self.assertEqual(faults(after), ["5 used block marked free: inode 0 slot 0 block 10"])

    def test_pointers_out_of_the_disk(self):
        image = image_with(0, (2, 0, b"\xff" * 128), (3, 0, b"\xff" * 128))
        self.assertEqual(faults(image), ["6 wild pointer: inode %d slot %d block 255" % pair
            for pair in itertools.product(range(16), range(4))])

    def test_every_pointer_to_one_block(self):
        image = image_with(0, (2, 0, b"\x04" * 128), (3, 0, b"\x04" * 128))
        self.assertEqual(faults(image), ["2 block used twice: block 4"] + [
            "3 unwritten pointer: inode %d slot %d block 4" % pair for pair in itertools.product(range(16), range(
            4))])

    def test_an_entry_of_an_inode_that_cannot_be(self):
        image = image_with(0, (4, 8, b"\xff"))
        self.assertEqual(faults(image), ["1 dangling entry: directory 0 entry 0 inode 254"])

    def test_a_root_that_says_it_is_none(self):
        image = image_with(0, (4, 0, b"\x00"))
        self.assertEqual(planned(image, "create /a"), 17)
        self.assertEqual(planned(image, "unlink /a"), 10)

    def test_the_formatted_disk_and_its_first_file(self):
        image = formatted(16, 0)
        self.assertEqual(image.block(0), padded("531000", 128))
        self.assertEqual(image.block(1), padded("0101010101", 128))
        self.assertEqual(image.block(2), padded("0201000004000000", 128))
        self.assertEqual(image.block(4), padded("4400", 128))
        self.assertEqual(step(image, "create /a"), [(2, 16, padded("0101", 16)), (4, 8, padded("020161", 12))])
        self.assertEqual(step(image, "write /a"), [(1, 5, b"\x01"), (5, 0, padded("4601", 128)), (2, 20, b"\x05")])

    def test_the_transaction_of_a_create(self):
        found = parts(CREATE, module="meta", journal=6)
        after = formatted(16, 6)
        step(after, "create /a")
        self.assertEqual([patch_row(found, k) for k in range(6)], [(5, 0, after.block(2), []), (6, 0, after.block(10),
            []), (4, 0, bytes.fromhex("C70102020A"), [0, 1]), (2, 16, padded("0101", 16), [2]), (10, 8, padded(
            "020161", 12), [2]), (4, 0, bytes.fromhex("C8"), [2, 3, 4])])

    def test_the_transactions_of_directory_block_reuse_under_the_metadata_journal(self):
        found = parts(DIRECTORY_REUSE, **META)
        self.check_table(found, META_TABLE)
        self.check_copies(found, DIRECTORY_REUSE)
        self.assertEqual(found.base.root_block(), 16)
        self.assertEqual(by_commits_held(found), [128, 160, 264, 77])
        self.assertEqual(all((one.patch_set >> 17 & 1 and (not one.patch_set >> 5 & 1) for one in found.failing)),
            True)

    def test_the_transactions_of_directory_block_reuse_under_the_full_journal(self):
        found = parts(DIRECTORY_REUSE, **FULL)
        self.check_table(found, FULL_TABLE)
        self.check_copies(found, DIRECTORY_REUSE)
        self.assertEqual(by_commits_held(found), [256, 320, 328, 201])
