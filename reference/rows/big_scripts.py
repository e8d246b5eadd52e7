"""Scripts with more closed sets than can be enumerated, by the second way."""

import json
import unittest

from .support import (
    BLOCK_REUSE, CREATE_WRITE, DANGLING, FIVE_OPERATIONS, LINK_WRITE_UNLINK, MOST_PATCHES, RENAME, RENAME_IN,
    TEN_WRITES, blocks_of, decided, first_numbers, lines, numbers_of, second_numbers, with_line)


class BigScripts(unittest.TestCase):
    """Numbers that were worked out by hand."""

    def test_ten_written_files_fail_apart(self):
        """Each file is as one written file alone, and the ten do not touch each other."""
        blocks = ["module async\npatches 50\nclosed %d\n" % 24 ** 10]
        blocks += [lines("fault 1 dangling entry: directory 0 entry %d inode %d" % (i - 1, i), "set %d" % (2 * i - 1),
            "write block 4: %d" % (2 * i - 1)) for i in range(1, 11)]
        for fault in ("3 unwritten pointer", "5 used block marked free"):
            blocks += [lines("fault %s: inode %d slot 0 block %d" % (fault, i, i + 4), "set %d %d" % (2 * i - 2, 3 * i
                + 19), "write block %d: %d %d" % (2 if i < 8 else 3, 2 * i - 2, 3 * i + 19)) for i in range(1, 11)]
        self.assertEqual(decided(TEN_WRITES, "--module async --decide"), ("".join(blocks), 1))
        value = json.loads(decided(TEN_WRITES, "--module async --decide --json")[0])
        self.assertEqual((value["closed"], len(value["faults"]), value["faults"][0]), ("63403380965376", 30, {
            "fault": DANGLING, "set": [1], "writes": [{"block": 4, "patches": [1]}]}))
        self.assertEqual(decided(TEN_WRITES, "--module async --decide --atomic"), (with_line("".join(blocks),
            "module async", "atomic") + lines("fault 9 half-done operation", "set 0", "write block 2: 0"), 1))

    def test_as_many_patches_as_can_be_without_ordering(self):
        """Eight files with four blocks have 8,704 closed sets each, six empty ones 4 each."""
        text, status = decided(MOST_PATCHES, "--module async --blocks 64 --decide")
        blocks = blocks_of(text)
        self.assertEqual((blocks[0], status, len(blocks)), (lines("module async", "patches 124", "closed %d" % (
            8704 ** 8 * 4 ** 6)), 1, 79))
        self.assertEqual([one.split(" ")[1] for one in blocks[1:]], ["1"] * 14 + ["3"] * 32 + ["5"] * 32)
        self.assertEqual((blocks[1], blocks[15]), (lines("fault 1 dangling entry: directory 0 entry 1 inode 2",
            "set 1", "write block 4: 1"), lines("fault 3 unwritten pointer: inode 2 slot 0 block 6", "set 0 30",
            "write block 2: 0 30")))

    def test_the_numbers_of_sets_of_ten_written_files(self):
        """Of the 24 closed sets of one written file, 4 have each of its faults. A set shows a disk between operations
        where it has the first k creates and any of the ten patches InitFile, 11 * 2^10 sets, and where all creates and
        w whole writes are done, with any InitFile of the other files, 2^9 + .. + 1 sets: 12,287 in all."""
        self.assertEqual(numbers_of(TEN_WRITES, atomic=True), [4 * 24 ** 9] * 30 + [24 ** 10 - 12287])

    def test_the_numbers_of_sets_of_as_many_patches_as_can_be(self):
        """Of the 8,704 closed sets of a file with four blocks 256 have its entry without its inode, and 2,048 a given
        pointer without its block, or without its map bit."""
        self.assertEqual(numbers_of(MOST_PATCHES, blocks=64), [256 * 8704 ** 7 * 4 ** 6] * 8 + [
            8704 ** 8 * 4 ** 5] * 6 + [2048 * 8704 ** 7 * 4 ** 6] * 64)

    def test_both_ways_count_alike(self):
        for rows in (CREATE_WRITE, RENAME, BLOCK_REUSE, FIVE_OPERATIONS, RENAME_IN, LINK_WRITE_UNLINK):
            for chosen in ({}, {"module": "soft"}, {"strict": True}, {"atomic": True}):
                self.assertEqual(second_numbers(rows, **chosen), first_numbers(rows, **chosen))
