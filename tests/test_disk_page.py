"""The bytes that docs/DISK.md shows are those of the reference.

A table of bytes has a comment before it: `<!-- disk, WORDS: LINE; LINE -->` for a disk, where bytes that no row has are
0, or `<!-- patches, WORDS: LINE; LINE -->` for all patches of a script. The reference program is run with these words
on these lines.
"""

import json
import pathlib
import re
import shlex
import sys
import unittest
from collections import namedtuple

sys.path.insert(0, str(pathlib.Path(__file__).resolve().parent.parent))

from reference.runs import run_reference
from tests.program import ROOT

PAGE = ROOT / "docs" / "DISK.md"
TABLE = re.compile(r"^<!-- (disk|patches), (.*?): (.*) -->\n\|.*\n\|.*\n((?:\|.*\n)+)", re.MULTILINE)
BLOCK_BYTES = 128

Row = namedtuple("Row", "patch block offset bytes")
"""The patch, or an empty text; the block and the offset in it; the bytes."""


def bytes_of(text):
    """The bytes of `02 01 00*14`."""
    made = b""
    for word in text.strip("`").split():
        byte, _, count = word.partition("*")
        made += bytes.fromhex(byte) * int(count or 1)
    return made


def row_of(line):
    """A row of a table; the last cell has words."""
    *patch, block, offset, shown, _words = [cell.strip() for cell in line.strip().strip("|").split("|")]
    return Row(" ".join(patch), int(block), int(offset), bytes_of(shown))


def tables():
    """Each table as its kind, the words and lines that it is of, and its rows."""
    return [(kind, shlex.split(words), lines.split("; "), [row_of(line) for line in rows.splitlines()])
            for kind, words, lines, rows in TABLE.findall(PAGE.read_text())]


def report_on(words, lines):
    """What the reference answers to a script, with its disk and its patches."""
    script = "".join(line + "\n" for line in lines).encode()
    return json.loads(run_reference([*words, "--json", "--explain"], script).out)


def disk_of(rows, blocks):
    """The blocks of a disk that has the bytes of the rows, and 0 elsewhere."""
    disk = [bytearray(BLOCK_BYTES) for _ in range(blocks)]
    for row in rows:
        disk[row.block][row.offset:row.offset + len(row.bytes)] = row.bytes
    return [block.hex() for block in disk]


def patches_of(rows):
    """The patches that the rows show, each as its name, its place and its bytes. Rows of one patch follow each other
    without a gap."""
    patches = []
    for row in rows:
        if patches and patches[-1].patch == row.patch:
            last = patches.pop()
            assert (row.block, row.offset) == (last.block, last.offset + len(last.bytes)), f"a gap before {row}"
            row = last._replace(bytes=last.bytes + row.bytes)
        patches.append(row)
    return patches


class Bytes(unittest.TestCase):
    """Each table of bytes."""

    def test_each_table_is_the_references(self):
        for kind, words, lines, rows in tables():
            with self.subTest(f"{kind}, {shlex.join(words)}: {'; '.join(lines)}"):
                report = report_on(words, lines)
                if kind == "disk":
                    self.assertEqual(disk_of(rows, len(report["base"])), report["base"])
                else:
                    self.assertEqual(patches_of(rows), [
                        Row(f"{k} {one['part']}", one["block"], one["offset"], bytes.fromhex(one["new"]))
                        for k, one in enumerate(report["trace"])])

    def test_what_is_shown(self):
        """A formatted disk, a create, a write, a disk with all kinds of blocks, and a transaction."""
        self.assertEqual([(kind, lines) for kind, _, lines, _ in tables()], [
            ("disk", ["start"]), ("patches", ["start", "create /a"]), ("patches", ["create /a", "start", "write /a"]),
            ("disk", ["create /a", "write /a", "mkdir /d", "start"]), ("patches", ["start", "create /a"])])


if __name__ == "__main__":
    unittest.main()
