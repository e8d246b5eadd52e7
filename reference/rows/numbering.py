"""`--numbers`: the numbers in the texts of faults, by name, and those of the report and of the disk."""

import json

from ..faults import numbers_of
from .support import LateRows, answered


class Numbering(LateRows):
    """Numbers in JSON."""

    def test_numbers_of_each_text(self):
        for text, wanted in (
                ("1 dangling entry: directory 0 entry 2 inode 1", {"directory": 0, "entry": 2, "inode": 1, "kind": 1}),
                ("2 block used twice: block 5", {"block": 5, "kind": 2}),
                ("3 unwritten pointer: inode 1 slot 0 block 5", {"block": 5, "inode": 1, "kind": 3, "slot": 0}),
                ("4 low link count: inode 1 entries 3 links 2", {"entries": 3, "inode": 1, "kind": 4, "links": 2}),
                ("5 used block marked free: inode 1 slot 3 block 6", {"block": 6, "inode": 1, "kind": 5, "slot": 3}),
                ("6 wild pointer: inode 2 slot 1 block 255", {"block": 255, "inode": 2, "kind": 6, "slot": 1}),
                ("7 lost inode: inode 4", {"inode": 4, "kind": 7}),
                ("8 directory without a block: inode 3", {"inode": 3, "kind": 8}),
                ("9 half-done operation", {"kind": 9}),
                ("10 broken promise: line 12", {"kind": 10, "line": 12})):
            self.assertEqual(numbers_of(text), wanted)

    def test_a_report(self):
        self.assertEqual(answered("start ; create /a", "--module async --json --numbers"), (
            '{"closed":4,"failing":[{"fault_numbers":[{"directory":0,"entry":0,"inode":1,"kind":1}],"faults":'
            '["1 dangling entry: directory 0 entry 0 inode 1"],"set":[1],"writes":[{"block":4,"patches":[1]}]}],'
            '"format":1,"geometry":{"block_size":128,"blocks":16,"journal":0},"module":"async","patches":2}\n', 1))

    def test_a_decision(self):
        self.assertEqual(answered("start ; create /a", "--module async --decide --json --numbers"), (
            '{"closed":"4","faults":[{"fault":"1 dangling entry: directory 0 entry 0 inode 1","fault_numbers":'
            '{"directory":0,"entry":0,"inode":1,"kind":1},"set":[1],"writes":[{"block":4,"patches":[1]}]}],'
            '"format":1,"geometry":{"block_size":128,"blocks":16,"journal":0},"module":"async","patches":2}\n', 1))

    def test_the_size_of_the_disk(self):
        text, status = answered("start", "--module full --blocks 40 --journal 12 --json --numbers")
        self.assertEqual((json.loads(text)["geometry"], status), ({"block_size": 128, "blocks": 40, "journal": 12}, 0))

    def test_nothing_else_changes(self):
        for words in ("", "--decide", "--enough", "--search 2", "--search 1 --enough", "--enough --syncs", "--explain",
                      "--decide --explain", "--enough --explain"):
            with self.subTest(words):
                rows = "create /a ; start ; write /a ; fsync /a"
                text, status = answered(rows, "--module async --durable --json --numbers " + words)
                self.assertEqual((without_numbers(json.loads(text)), status),
                                 (json.loads(answered(rows, "--module async --durable --json " + words)[0]), status))

    def test_command_lines(self):
        for words in ("--numbers", "--decide --numbers", "--json --numbers --numbers", "--json --numbers=1"):
            self.assertEqual(answered("start", words), ("", 2), words)


def without_numbers(value):
    """A value without the keys that `--numbers` adds."""
    if isinstance(value, list):
        return [without_numbers(one) for one in value]
    if not isinstance(value, dict):
        return value
    return {key: without_numbers(one) for key, one in value.items()
            if key not in ("fault_numbers", "format", "geometry")}
