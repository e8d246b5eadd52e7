"""Images of a small disk: their layout, and the formatted disk."""

from .refusals import Refusal

BLOCK_SIZE = 128
INODES = 16
INODE_SIZE = 16
POINTERS = 4
ENTRIES = 10
ENTRY_SIZE = 12
MOST_LINKS = 8
JOURNAL_START = 4
FREE, FILE, DIRECTORY = 0, 1, 2
FILE_MARK, DIRECTORY_MARK = 0x46, 0x44


class Image:
    """The bytes of a disk of `blocks` blocks, `journal` of which hold the journal. Where it has generations, an inode
    and its blocks say how often the inode was freed."""

    def __init__(self, blocks, journal, data, generations=False):
        self.blocks = blocks
        self.journal = journal
        self.data = data
        self.generations = generations

    def copy(self):
        """Another image with the same bytes."""
        return Image(self.blocks, self.journal, bytearray(self.data), self.generations)

    def put(self, block, offset, new):
        """Writes bytes into one block."""
        assert 0 <= block < self.blocks and 0 <= offset and offset + len(new) <= BLOCK_SIZE
        start = block * BLOCK_SIZE + offset
        self.data[start:start + len(new)] = new

    def range(self, block, offset, length):
        """Some bytes of a block."""
        start = block * BLOCK_SIZE + offset
        return bytes(self.data[start:start + length])

    def byte(self, block, offset):
        """One byte of a block."""
        return self.data[block * BLOCK_SIZE + offset]

    def block(self, block):
        """All bytes of a block."""
        return self.range(block, 0, BLOCK_SIZE)

    def root_block(self):
        """The first block of the data area, which holds the root directory of a formatted disk."""
        return JOURNAL_START + self.journal

    def in_data_area(self, block):
        """Whether files and directories may have this block."""
        return self.root_block() <= block < self.blocks

    def inode_byte(self, inode, k):
        """Byte k of an inode."""
        return self.data[2 * BLOCK_SIZE + INODE_SIZE * inode + k]

    def kind(self, inode):
        """FREE, FILE, DIRECTORY, or a byte that means none of them."""
        return self.inode_byte(inode, 0)

    def links(self, inode):
        """The link count of an inode."""
        return self.inode_byte(inode, 1)

    def pointer(self, inode, slot):
        """The block that a slot of an inode points to, 0 for none."""
        return self.inode_byte(inode, 4 + slot)

    def marked(self, block):
        """Whether the block map has the block as used."""
        return self.byte(1, block) != 0

    def generation(self, inode):
        """How often the inode was freed, modulo 256; 0 where the disk has no generations."""
        return self.inode_byte(inode, 2) if self.generations else 0

    def has_mark(self, block, mark, inode):
        """Whether the block says that it belongs to this inode, and of which kind it is."""
        return (self.byte(block, 0) == mark and self.byte(block, 1) == inode
                and (not self.generations or self.byte(block, 2) == self.generation(inode)))

    def counts(self, directory):
        """Whether this inode is a directory whose first block is in the data area and says that it is this one's."""
        if self.kind(directory) != DIRECTORY:
            return False
        block = self.pointer(directory, 0)
        return self.in_data_area(block) and self.has_mark(block, DIRECTORY_MARK, directory)

    def entry(self, directory, k):
        """The bytes of entry k of a directory that counts."""
        return self.range(self.pointer(directory, 0), 8 + ENTRY_SIZE * k, ENTRY_SIZE)


def formatted(blocks, journal, generations=False):
    """A disk that holds only the root directory. Other sizes than 16 to 128 blocks, and a journal that leaves fewer
    than 6 blocks, are refused."""
    if not 16 <= blocks <= 128 or not 0 <= journal <= blocks - 6:
        raise Refusal(1)
    image = Image(blocks, journal, bytearray(blocks * BLOCK_SIZE), generations)
    image.put(0, 0, bytes([0x53, blocks, journal]))
    image.put(1, 0, bytes([1]) * (JOURNAL_START + journal + 1))
    image.put(2, 0, bytes([DIRECTORY, 1, 0, 0, JOURNAL_START + journal]))
    image.put(JOURNAL_START + journal, 0, bytes([DIRECTORY_MARK, 0]))
    return image


def live_inodes(image):
    """The set of inodes that are not free."""
    return set(inode for inode in range(INODES) if image.kind(inode) != FREE)


def blocks_named(image, inode):
    """The blocks of the data area that the pointers of an inode name, by ascending slot."""
    named = [image.pointer(inode, slot) for slot in range(POINTERS)]
    return [block for block in named if image.in_data_area(block)]


def target_of(image, directory, k):
    """The inode that entry k of a directory names; -1 where the entry is free."""
    return image.entry(directory, k)[0] - 1


def used_entries(image, directory):
    """The numbers of the entries of a directory that are in use; none where the directory does not count."""
    if not image.counts(directory):
        return []
    return [k for k in range(ENTRIES) if image.entry(directory, k)[0] != 0]
