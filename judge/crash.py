"""The disk that a crash leaves, and which lines of the script are on it."""

INODE_BLOCK, INODES_IN_BLOCK, INODE_BYTES, SLOTS_START = 2, 8, 16, 4
ENTRIES_START, ENTRY_BYTES, NAME_START = 8, 12, 2
# Of an operation under a journal these parts decide whether it is on the disk; replay does the others.
DATA_PARTS, COMMIT = ("FileData", "NewData"), "Commit"


class Crash:
    """The disk after replay of a fault's set of patches."""

    def __init__(self, report, fault):
        self.trace, self.held = report["trace"], set(fault["set"])
        self.disk = [bytearray.fromhex(it) for it in report["base"]]
        for patch in map(self.trace.__getitem__, fault["set"]):
            new = bytes.fromhex(patch["new"])
            self.disk[patch["block"]][patch["offset"]:patch["offset"] + len(new)] = new
        for it in fault["replay"]:
            self.disk[it["block"]][:] = bytes.fromhex(it["bytes"])
        self.has_journal = any(it["part"] == COMMIT for it in self.trace)

    def begun_lines(self):
        """The lines of which something is on the disk."""
        return {self.trace[id]["line"] for id in self.held}

    def missing_lines(self):
        """The lines of which not all is on the disk, nor will be after replay."""
        return sorted({it["line"] for id, it in enumerate(self.trace) if id not in self.held and (
            it["part"] in (*DATA_PARTS, COMMIT) or not self.has_journal)})

    def inode_of(self, path):
        """The inode that a path of the script leads to, or None. It can be free."""
        at = 0
        for name in path.strip("/").split("/"):
            block = self.disk[self.inode(at)[SLOTS_START]]
            entries = [block[it:it + ENTRY_BYTES] for it in range(ENTRIES_START, len(block), ENTRY_BYTES)]
            found = [it[0] - 1 for it in entries if 0 < it[0] <= 2 * INODES_IN_BLOCK
                     and it[NAME_START:NAME_START + it[1]] == name.encode()]
            if not found:
                return None
            at = next((it for it in found if self.inode(it)[0]), found[0])
        return at

    def inode(self, number):
        block, begin = place_of(number)
        return self.disk[block][begin:begin + INODE_BYTES]

    def changes(self, line, number, *parts):
        """Whether a line has such a part that changes this inode."""
        block, begin = place_of(number)
        return any(it["line"] == line and it["part"] in parts and it["block"] == block
                   and begin <= it["offset"] < begin + INODE_BYTES for it in self.trace)


def place_of(inode):
    """The block of an inode, and where it begins there."""
    return INODE_BLOCK + inode // INODES_IN_BLOCK, inode % INODES_IN_BLOCK * INODE_BYTES
