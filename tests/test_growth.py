"""A decision asks for about as much memory for 10^24 closed sets as for 10^9 or 10^3.

The three scripts make the same 116 patches: four files are created, and then blocks are overwritten 54 times. They
differ in which blocks these are. Patches of one block wait for each other, so fewer blocks leave fewer closed sets. The
four faults and their first sets are the same in all three.
"""

import unittest

from tests.memory import MemoryTest

FILES = [b"/d/f%d" % number for number in range(9)]
"""Files of four blocks each."""

OVERWRITES = 54

WORDS = ("--module", "async", "--blocks", "128", "--decide", "--workers")

MORE_REQUESTS, MORE_BYTES = 16, 4096
"""What more may be asked for. A table of 10^9 sets, or a list of one set in a million, would take more."""


def script(blocks, order):
    """A script that overwrites so many blocks in turn, behind what it creates where `order` says so."""
    lines = [b"mkdir /d"]
    for file in FILES:
        lines += [b"create " + file] + 4 * [b"write " + file]
    lines += [b"start", b"group C", *(b"create /%c" % name for name in b"abce"), b"end", order, b"group W"]
    turns = (number % blocks for number in range(OVERWRITES))
    lines += [b"overwrite %s %d" % (FILES[block % 9], block // 9) for block in turns]
    return b"\n".join(lines + [b"end"]) + b"\n"


# Each of 54 overwrites makes a patch of the block and one of the file's inode. A chain of n patches has n + 1 closed
# sets, and chains are independent. The eight patches of what is created are too: they have 2^8 sets. Where the chains
# wait for the eight, only the whole set of these is followed by patches of chains.
FEW = script(1, b"depend W C"), 55 ** 2 + 2 ** 8 - 1
MANY = [(script(4, b"depend W C"), (15 * 15 * 14 * 14) ** 2 + 2 ** 8 - 1),
        (script(36, b"depend X C"), 2 ** 8 * 3 ** 18 * 2 ** 18 * 7 ** 9)]


class Growth(MemoryTest):
    def asked_for(self, asked, workers):
        """How many requests a decision makes, and for how many bytes in all."""
        text, closed = asked
        (status, report, _), requests, size = self.counted_answer((*WORDS, str(workers)), text)
        self.assertEqual(status, 1)
        self.assertTrue(report.startswith(b"module async\npatches 116\nclosed %d\nfault 1 " % closed), report[:80])
        self.assertEqual(report.count(b"\nfault "), 4)
        return requests, size

    def test_a_decision_takes_no_memory_for_each_set(self):
        for workers in (1, 4):
            requests, size = self.asked_for(FEW, workers)
            for asked in MANY:
                more_requests, more_size = self.asked_for(asked, workers)
                self.assertLessEqual(more_requests, requests + MORE_REQUESTS)
                self.assertLessEqual(more_size, size + MORE_BYTES)


if __name__ == "__main__":
    unittest.main()
