"""What an operation changes on an image, or why it is refused."""

from collections import namedtuple

from . import changes as make
from .disk import (DIRECTORY, ENTRIES, FILE, FREE, INODES, MOST_LINKS, POINTERS, blocks_named, target_of,
                   used_entries)
from .refusals import Refused

Operation = namedtuple("Operation", "name paths slot", defaults=(None,))
"""An operation's name, its paths, each a tuple of names, and the slot of `overwrite P K` or None."""


def find_entry(image, directory, name):
    """The lowest entry of this name whose inode is live, or None."""
    wanted = make.spelled_name(name)
    for k in used_entries(image, directory):
        target = target_of(image, directory, k)
        if image.entry(directory, k)[1:] == wanted and target < INODES and image.kind(target) != FREE:
            return k
    return None


def parent_of(image, path):
    """The directory that holds the last name of a path."""
    directory = 0
    for name in path[:-1]:
        k = find_entry(image, directory, name)
        if k is None:
            raise Refused(10)
        target = target_of(image, directory, k)
        if image.kind(target) != DIRECTORY:
            raise Refused(11)
        directory = target
    return directory


def first_or_refused(candidates, number):
    """The first candidate; without one the operation is refused with the number."""
    for candidate in candidates:
        return candidate
    raise Refused(number)


def free_inode(image):
    """The lowest free inode."""
    return first_or_refused((inode for inode in range(INODES) if image.kind(inode) == FREE), 15)


def free_block(image):
    """The lowest block of the data area that the block map has as free."""
    area = range(image.root_block(), image.blocks)
    return first_or_refused((block for block in area if not image.marked(block)), 16)


def free_entry(image, directory):
    """The lowest free entry of a directory."""
    entries = range(ENTRIES if image.counts(directory) else 0)
    return first_or_refused((k for k in entries if image.entry(directory, k)[0] == 0), 17)


def free_slot(image, inode):
    """The lowest slot of an inode that points nowhere."""
    return first_or_refused((slot for slot in range(POINTERS) if image.pointer(inode, slot) == 0), 18)


class Place:
    """Where a path of an operation leads: the parent directory, the last name, its entry and its inode. The last two
    are None where there is no such entry."""

    def __init__(self, image, path):
        self.parent = parent_of(image, path)
        self.name = path[-1]
        self.entry = find_entry(image, self.parent, self.name)
        self.target = None if self.entry is None else target_of(image, self.parent, self.entry)


def plan_create(image, place):
    """A new empty file."""
    inode = free_inode(image)
    k = free_entry(image, place.parent)
    return [make.inode_init(image, inode, FILE), make.entry_set(image, place.parent, k, inode, place.name)]


def plan_mkdir(image, place):
    """A new empty directory with its block."""
    inode = free_inode(image)
    block = free_block(image)
    k = free_entry(image, place.parent)
    return [make.inode_init(image, inode, DIRECTORY), make.map_set(block), make.init_directory(image, block, inode),
            make.pointer_set(inode, 0, block), make.entry_set(image, place.parent, k, inode, place.name)]


def plan_write(image, place):
    """One more block for a file."""
    if image.kind(place.target) != FILE:
        raise Refused(13)
    block = free_block(image)
    slot = free_slot(image, place.target)
    return [make.map_set(block), make.init_file(image, block, place.target),
            make.pointer_set(place.target, slot, block)]


def plan_unlink(image, place):
    """One name fewer for a file; its last name gives up the inode and its blocks."""
    target = place.target
    if image.kind(target) != FILE:
        raise Refused(13)
    return [make.entry_clear(image, place.parent, place.entry)] + one_name_fewer(image, target)


def one_name_fewer(image, inode):
    """What a file loses with one of its names: a link, or with the last one the inode and its blocks."""
    if image.links(inode) > 1:
        return [make.links_set(inode, image.links(inode) - 1, "LinkDown")]
    return [make.inode_free(image, inode)] + [make.map_clear(block) for block in blocks_named(image, inode)]


def plan_truncate(image, place):
    """A file without its blocks."""
    if image.kind(place.target) != FILE:
        raise Refused(13)
    return [make.pointers_clear(place.target)] + [
        make.map_clear(block) for block in blocks_named(image, place.target)]


def plan_overwrite(image, place, slot):
    """Other data in all blocks of a file, or in the block of one slot."""
    if image.kind(place.target) != FILE:
        raise Refused(13)
    blocks = blocks_named(image, place.target)
    if slot is not None:
        block = image.pointer(place.target, slot)
        if block == 0:
            raise Refused(10)
        blocks = [block] if image.in_data_area(block) else []
    return [make.new_data(image, block) for block in blocks] + [make.touch(image, place.target)]


def plan_rmdir(image, place):
    """An empty directory less. On an image that is damaged only the block of its first slot is given up."""
    target = place.target
    if image.kind(target) != DIRECTORY:
        raise Refused(11)
    if used_entries(image, target):
        raise Refused(14)
    block = image.pointer(target, 0)
    return [make.entry_clear(image, place.parent, place.entry), make.inode_free(image, target)] + (
        [make.map_clear(block)] if image.in_data_area(block) else [])


def plan_link(image, place, new_path):
    """A second name for a file."""
    parent = parent_of(image, new_path)
    if find_entry(image, parent, new_path[-1]) is not None:
        raise Refused(12)
    if image.kind(place.target) != FILE:
        raise Refused(13)
    k = free_entry(image, parent)
    links = image.links(place.target)
    if links >= MOST_LINKS:
        raise Refused(19)
    return [make.links_set(place.target, links + 1, "LinkUp"),
            make.entry_set(image, parent, k, place.target, new_path[-1])]


def plan_rename(image, place, new_path):
    """A second name for a file, and then its first name less."""
    links = image.links(place.target)
    return plan_link(image, place, new_path) + [
        make.entry_clear(image, place.parent, place.entry), make.links_set(place.target, links, "LinkDown")]


def plan_replace(image, place, new_path):
    """A file's name moves to a name that is there. The file of that name loses it."""
    there = Place(image, new_path)
    if there.entry is None:
        raise Refused(10)
    if image.kind(place.target) != FILE or image.kind(there.target) != FILE:
        raise Refused(13)
    if place.target == there.target:
        raise Refused(12)
    links = image.links(place.target)
    if links >= MOST_LINKS:
        raise Refused(19)
    return [make.links_set(place.target, links + 1, "LinkUp"),
            make.entry_set(image, there.parent, there.entry, place.target, there.name),
            make.entry_clear(image, place.parent, place.entry),
            make.links_set(place.target, links, "LinkDown")] + one_name_fewer(image, there.target)


NEW = {"create": plan_create, "mkdir": plan_mkdir}
OLD = {"write": plan_write, "unlink": plan_unlink, "rmdir": plan_rmdir, "truncate": plan_truncate}
TWO_PATHS = {"link": plan_link, "rename": plan_rename, "replace": plan_replace}


def plan(image, operation):
    """The changes of an operation in their order; `Refused` with a number from 10 to 19 where it cannot be done."""
    place = Place(image, operation.paths[0])
    if operation.name in NEW:
        if place.entry is not None:
            raise Refused(12)
        return NEW[operation.name](image, place)
    if place.entry is None:
        raise Refused(10)
    if operation.name in OLD:
        return OLD[operation.name](image, place)
    if operation.name == "overwrite":
        return plan_overwrite(image, place, operation.slot)
    return TWO_PATHS[operation.name](image, place, operation.paths[1])
