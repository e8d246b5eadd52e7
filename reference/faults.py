"""What the checkers say of an image: six faults always, two more when strict, one more when operations are atomic."""

from collections import Counter

from .disk import (DIRECTORY, DIRECTORY_MARK, FILE, FILE_MARK, FREE, INODES, POINTERS, live_inodes, target_of,
                   used_entries)

FAULT_NAMES = {1: "dangling entry", 2: "block used twice", 3: "unwritten pointer", 4: "low link count",
               5: "used block marked free", 6: "wild pointer", 7: "lost inode",
               8: "directory without a block", 9: "half-done operation", 10: "broken promise"}

BROKEN_PROMISE = 10
"""The number of the fault of sets that break a promise. The other faults are those of an image."""


def text_of(number, **places):
    """The text of a fault: `places` has in their order what it happens to, such as inode and slot."""
    text = "%d %s" % (number, FAULT_NAMES[number])
    return text + (": " + " ".join("%s %d" % place for place in places.items()) if places else "")


def number_of(text):
    """The number of the fault that a text is of."""
    return int(text.split(" ")[0])


def numbers_of(text):
    """The numbers in the text of a fault by name: that of its kind, and for each place the number behind its word."""
    _, _, places = text.partition(": ")
    words = places.split()
    return dict(zip(words[::2], map(int, words[1::2])), kind=number_of(text))


def entries_of(image):
    """The entries in use: (directory, entry, inode that it names)."""
    return [(directory, k, target_of(image, directory, k))
            for directory in range(INODES) for k in used_entries(image, directory)]


def pointers_of(image):
    """The pointers of live inodes that are not 0: (inode, slot, block)."""
    return [(inode, slot, image.pointer(inode, slot))
            for inode in range(INODES) if image.kind(inode) != FREE
            for slot in range(POINTERS) if image.pointer(inode, slot) != 0]


def is_written(image, inode, block):
    """Whether the block says that it belongs to this inode, and of which kind it is."""
    right = {FILE: FILE_MARK, DIRECTORY: DIRECTORY_MARK}.get(image.kind(inode))
    return right is not None and image.has_mark(block, right, inode)


def entry_faults(image, entries):
    """Entries in use whose inode is not live."""
    return [text_of(1, directory=directory, entry=k, inode=target) for directory, k, target in entries
            if target >= INODES or image.kind(target) == FREE]


def twice_faults(pointers):
    """Blocks that two pointers name."""
    times = Counter(block for _, _, block in pointers)
    return [text_of(2, block=block) for block in sorted(times) if times[block] >= 2]


def link_faults(image, entries):
    """Live inodes with more entries than their link count says."""
    names = Counter(target for _, _, target in entries)
    return [text_of(4, inode=inode, entries=names[inode], links=image.links(inode))
            for inode in sorted(live_inodes(image)) if names[inode] > image.links(inode)]


def faults(image):
    """The texts of the faults that the checker finds, by their numbers and then by their places."""
    entries = entries_of(image)
    pointers = pointers_of(image)
    inside = [one for one in pointers if image.in_data_area(one[2])]
    outside = [one for one in pointers if not image.in_data_area(one[2])]

    def texts(number, some):
        return [text_of(number, inode=inode, slot=slot, block=block) for inode, slot, block in some]

    return (entry_faults(image, entries) + twice_faults(inside)
            + texts(3, [one for one in inside if not is_written(image, one[0], one[2])])
            + link_faults(image, entries)
            + texts(5, [one for one in inside if not image.marked(one[2])])
            + texts(6, outside))


def is_clean(image):
    """Whether the checker finds nothing."""
    return not faults(image)


def reached_inodes(image):
    """The root where it is a directory, and each live inode that a reached directory names."""
    live = live_inodes(image)
    reached, found = set(), {0} if image.kind(0) == DIRECTORY else set()
    while found:
        reached |= found
        targets = set(target_of(image, directory, k) for directory in found for k in used_entries(image, directory))
        found = (targets & live) - reached
    return reached


def kept_inodes(disks):
    """The inodes that are live before the operations and after each of them."""
    return set.intersection(*map(live_inodes, disks))


def strict_faults(image, kept):
    """Kept inodes that no path reaches, and reached directories without a block."""
    reached = reached_inodes(image)
    bare = [inode for inode in sorted(reached)
            if image.kind(inode) == DIRECTORY and image.pointer(inode, 0) == 0]
    return ([text_of(7, inode=inode) for inode in sorted(kept - reached)]
            + [text_of(8, inode=inode) for inode in bare])


def shows(image, disk):
    """Whether the image has the disk's bytes in blocks 1, 2 and 3 and in each block that a live inode of the disk
    points to."""
    named = set(block for _, _, block in pointers_of(disk))
    return all(image.block(block) == disk.block(block) for block in {1, 2, 3} | named)


def atomic_faults(image, disks):
    """One fault where the image shows none of the disks, which are those after each number of whole operations."""
    return [] if any(shows(image, disk) for disk in disks) else [text_of(9)]
