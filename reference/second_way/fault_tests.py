"""The faults, as tests of single texts."""

import itertools

from ..disk import DIRECTORY, DIRECTORY_MARK, ENTRIES, FILE, FILE_MARK, INODES, POINTERS
from ..faults import number_of
from .promise_tests import Broken
from .reader import Reader, all_of, between, entry_offset, equals, itself, tried
from .search import first

SLOTS = list(itertools.product(range(INODES), range(POINTERS)))


def dangling(directory, k, inode):
    """An entry that names an inode that is not live."""
    def test(reader):
        named = [lambda block=block: reader.has_entry(directory, block, k, inode)
                 for block in reader.problem.blocks_of(directory)]
        return all_of(lambda: inode >= INODES or not reader.live(inode), lambda: between(named, 1, 1))
    return "1 dangling entry: directory %d entry %d inode %d" % (directory, k, inode), test


def points(reader, inode, slot, block):
    """Whether a slot of a live inode names a block."""
    return all_of(lambda: reader.inode(inode, 4 + slot, equals(block)), lambda: reader.live(inode))


def used_twice(block):
    """A block that two pointers name."""
    def test(reader):
        named = [lambda slot=slot: points(reader, *slot, block) for slot in SLOTS]
        return between(named, 2, len(SLOTS))
    return "2 block used twice: block %d" % block, test


def unwritten(inode, slot, block):
    """A pointer to a block that does not say that it is this inode's."""
    def test(reader):
        if not points(reader, inode, slot, block):
            return False
        mark = {FILE: FILE_MARK, DIRECTORY: DIRECTORY_MARK}.get(reader.inode(inode, 0, itself))
        return mark is None or not reader.has_mark(block, mark, inode)
    return "3 unwritten pointer: inode %d slot %d block %d" % (inode, slot, block), test


def low_links(inode, links, least, most):
    """Whether an inode has this link count and a number of entries between two."""
    def test(reader):
        return all_of(lambda: reader.inode(inode, 1, equals(links)), lambda: reader.live(inode),
                      lambda: between(reader.all_entries(inode), least, most))
    return test


def tests_of_links(problem, inode, links):
    """The tests whether an inode has more entries than its link count says, by the number of entries."""
    reader = Reader(problem, 0, 0)
    most = sum(tried(ask) is not False for ask in reader.all_entries(inode))
    if most > links and first(problem, low_links(inode, links, links + 1, most)) is not None:
        for entries in range(links + 1, most + 1):
            yield ("4 low link count: inode %d entries %d links %d" % (inode, entries, links),
                   low_links(inode, links, entries, entries))


def marked_free(inode, slot, block):
    """A pointer to a block that the block map has as free."""
    def test(reader):
        return all_of(lambda: points(reader, inode, slot, block), lambda: reader.ask(1, block, equals(0)))
    return "5 used block marked free: inode %d slot %d block %d" % (inode, slot, block), test


def wild(inode, slot, block):
    """A pointer out of the data area."""
    return ("6 wild pointer: inode %d slot %d block %d" % (inode, slot, block),
            lambda reader: points(reader, inode, slot, block))


def lost(inode):
    """A kept inode that no path reaches."""
    return "7 lost inode: inode %d" % inode, lambda reader: not reader.reached(inode)


def bare(inode):
    """A reached directory without a block."""
    def test(reader):
        return all_of(lambda: reader.inode(inode, 0, equals(DIRECTORY)), lambda: reader.inode(inode, 4, equals(0)),
                      lambda: reader.reached(inode))
    return "8 directory without a block: inode %d" % inode, test


def blocks_that_show(disk):
    """The blocks that show a disk: the tables, and what live inodes point to."""
    named = {disk.pointer(inode, slot) for inode, slot in SLOTS if disk.kind(inode) != 0}
    return sorted({1, 2, 3} | named - {0})


def half_done(reader):
    """An image that shows none of the disks between operations."""
    for disk in reader.problem.disks:
        if all(reader.ask(block, offset, equals(disk.byte(block, offset)))
               for block in blocks_that_show(disk) for offset in range(128)):
            return False
    return True


def tests_of_entries(problem):
    """The tests of entries and of link counts."""
    for directory, k in itertools.product(range(INODES), range(ENTRIES)):
        values = set().union(*(problem.possible(block, entry_offset(k)) for block in problem.blocks_of(directory)))
        yield from (dangling(directory, k, value - 1) for value in values - {0})
    for inode in range(INODES):
        for links in problem.possible_of(inode, 1):
            yield from tests_of_links(problem, inode, links)


def tests_of_pointers(problem):
    """The tests of pointers and of the block map."""
    in_data_area = problem.base.in_data_area
    for inode, slot in SLOTS:
        blocks = problem.possible_of(inode, 4 + slot) - {0}
        for block in filter(in_data_area, blocks):
            yield unwritten(inode, slot, block)
            yield marked_free(inode, slot, block)
        yield from (wild(inode, slot, block) for block in blocks if not in_data_area(block))


def tests_of(problem):
    """The tests of all faults that count, as texts with the questions whether they hold."""
    return ((text, test) for text, test in all_tests_of(problem) if problem.counts(number_of(text)))


def all_tests_of(problem):
    """The tests of all faults."""
    base = problem.base
    yield from tests_of_entries(problem)
    yield from map(used_twice, range(base.root_block(), base.blocks))
    yield from tests_of_pointers(problem)
    if problem.kept is not None:
        yield from map(lost, sorted(problem.kept))
        yield from map(bare, range(INODES))
    if problem.disks is not None:
        yield "9 half-done operation", half_done
    for promise in problem.promises:
        yield "10 broken promise: line %d" % promise.line, Broken(problem, promise)
