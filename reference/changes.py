"""The changes that operations are made of. Each one is some bytes for one place, with the role that rules name."""

from collections import namedtuple

from .disk import DIRECTORY_MARK, ENTRY_SIZE, FILE_MARK, INODE_SIZE, POINTERS

Change = namedtuple("Change", "block offset new role")

FIRST_POINTER = 4
"""The byte of an inode that is its first pointer."""

TIME_BYTE = 8
"""The byte of an inode that stands for its time."""

DATA_BYTE = 3
"""The byte of a file's block that stands for its data."""


def spelled_name(name):
    """A name as a directory entry spells it: its length, and its letters filled up with zeros."""
    return bytes([len(name)]) + name.encode("ascii").ljust(10, b"\0")


def next_byte(byte):
    """One more, modulo 256."""
    return (byte + 1) % 256


def inode_place(inode):
    """The block and the offset of an inode."""
    return 2 + inode // 8, INODE_SIZE * (inode % 8)


def inode_init(image, inode, kind):
    """A new inode with one link. It keeps its generation."""
    block, offset = inode_place(inode)
    return Change(block, offset, bytes([kind, 1, image.generation(inode)]) + bytes(13), "InodeInit")


def inode_free(image, inode):
    """An inode of zeros, but for its generation, which is one more."""
    block, offset = inode_place(inode)
    generation = next_byte(image.generation(inode)) if image.generations else 0
    return Change(block, offset, bytes([0, 0, generation]) + bytes(13), "InodeFree")


def entry_set(image, directory, k, inode, name):
    """Entry k of a directory names an inode."""
    new = bytes([inode + 1]) + spelled_name(name)
    return Change(image.pointer(directory, 0), 8 + ENTRY_SIZE * k, new, "EntrySet")


def entry_clear(image, directory, k):
    """Entry k of a directory is free."""
    return Change(image.pointer(directory, 0), 8 + ENTRY_SIZE * k, bytes(12), "EntryClear")


def map_set(block):
    """The block map has the block as used."""
    return Change(1, block, bytes([1]), "MapSet")


def map_clear(block):
    """The block map has the block as free."""
    return Change(1, block, bytes([0]), "MapClear")


def init_file(image, block, inode):
    """The block becomes an empty block of a file."""
    return Change(block, 0, bytes([FILE_MARK, inode, image.generation(inode)]) + bytes(125), "InitFile")


def init_directory(image, block, inode):
    """The block becomes an empty directory."""
    return Change(block, 0, bytes([DIRECTORY_MARK, inode, image.generation(inode)]) + bytes(125), "InitDir")


def pointer_set(inode, slot, block):
    """A slot of an inode points to a block."""
    place, offset = inode_place(inode)
    return Change(place, offset + FIRST_POINTER + slot, bytes([block]), "Ptr")


def pointers_clear(inode):
    """No slot of an inode points anywhere."""
    block, offset = inode_place(inode)
    return Change(block, offset + FIRST_POINTER, bytes(POINTERS), "PtrClear")


def new_data(image, block):
    """Other data in a block of a file."""
    return Change(block, DATA_BYTE, bytes([next_byte(image.byte(block, DATA_BYTE))]), "NewData")


def touch(image, inode):
    """Another time in an inode."""
    block, offset = inode_place(inode)
    return Change(block, offset + TIME_BYTE, bytes([next_byte(image.inode_byte(inode, TIME_BYTE))]), "Touch")


def links_set(inode, links, role):
    """Another link count of an inode; the role says whether it goes up or down."""
    block, offset = inode_place(inode)
    return Change(block, offset + 1, bytes([links]), role)


def apply(image, changes):
    """Writes the changes into the image, in their order."""
    for change in changes:
        image.put(change.block, change.offset, change.new)
