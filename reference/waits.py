"""Lines that wait, `sync` and `fsync`, and which patches they force to the disk."""

from collections import namedtuple

from .changes import apply, inode_place
from .disk import BLOCK_SIZE, INODE_SIZE, POINTERS, target_of
from .plan import find_entry, parent_of, plan
from .refusals import Refused
from .rules import is_in_place
from .script import WAIT_ACTS, is_operation, operation_of, spelled

Wait = namedtuple("Wait", "line step ids")
"""A line that waits: its number, how it is spelled, and the patches that it forces, ascending."""


def must_be_there(image, path):
    """Refuses a path that is not there. The root directory always is."""
    if path == ():
        return
    if find_entry(image, parent_of(image, path), path[-1]) is None:
        raise Refused(10)


def targets_on(image, path):
    """The inodes on the way of a path that is there, the root first and the path's own last."""
    inodes = [0]
    for name in path:
        inodes.append(target_of(image, inodes[-1], find_entry(image, inodes[-1], name)))
    return inodes


def bytes_at(block, offset, length):
    """Some bytes of a block as places: (block, offset)."""
    return {(block, offset + k) for k in range(length)}


def places_of(image, path):
    """The bytes that belong to a path that is there, as (block, offset): the inodes on its way, the blocks of the
    directories on its way and of its target, and these blocks' bytes of the block map."""
    inodes = targets_on(image, path)
    blocks = {image.pointer(directory, 0) for directory in inodes[:-1]}
    blocks |= {image.pointer(inodes[-1], slot) for slot in range(POINTERS)} - {0}
    places = {(1, block) for block in blocks}
    for inode in inodes:
        places |= bytes_at(*inode_place(inode), INODE_SIZE)
    for block in blocks:
        places |= bytes_at(block, 0, BLOCK_SIZE)
    return places


def meets(patch, places):
    """Whether a patch writes one of these bytes."""
    return not places.isdisjoint(bytes_at(patch.block, patch.offset, len(patch.new)))


def forced_in_journal(meeting, patches, last_alone):
    """What a line forces under a journal, where `meeting` are the patches that concern it: those of them that are file
    data, and the commits of their operations, or of the last of these alone."""
    data = {k for k in meeting if patches[k].is_data}
    operations = {patches[k].operation for k in meeting if patches[k].is_data or is_in_place(patches[k])}
    committed = {max(operations, default=0)} if last_alone else operations
    return data | {k for k, patch in enumerate(patches) if patch.part == "Commit" and patch.operation in committed}


def forced_by(step, image, patches, module):
    """The patches that a step which waits forces, of those before it. The image is the base with the operations before
    the step."""
    meeting = set(range(len(patches)))
    if step.act == "fsync":
        places = places_of(image, step.words[0])
        meeting = {k for k in meeting if meets(patches[k], places)}
    return meeting if module in ("async", "soft") else forced_in_journal(meeting, patches, step.act == "fsync")


class Walk:
    """The steps of a script one by one: the disk and the number of operations so far, and the patches before a step."""

    def __init__(self, base, patches, module):
        self.disk = base.copy()
        self.operations = 0
        self.patches = patches
        self.module = module

    def take(self, step):
        """Does a step where it is an operation."""
        if is_operation(step):
            self.disk = self.disk.copy()
            apply(self.disk, plan(self.disk, operation_of(step)))
            self.operations += 1

    def forced(self, step):
        """The patches that a step which waits forces."""
        earlier = [patch for patch in self.patches if patch.operation <= self.operations]
        return forced_by(step, self.disk, earlier, self.module)


def waits_of(base, steps, patches, module):
    """The lines that wait, in their order. All steps can be done, and the patches are theirs."""
    walk, found = Walk(base, patches, module), []
    for step in steps:
        walk.take(step)
        if step.act in WAIT_ACTS:
            found.append(Wait(step.line, spelled(step), sorted(walk.forced(step))))
    return found
