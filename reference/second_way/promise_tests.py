"""What a path shows on a family of sets, and the test whether sets break a promise."""

from ..changes import FIRST_POINTER, spelled_name
from ..closed_sets import ids_of, set_of
from ..disk import DIRECTORY, DIRECTORY_MARK, ENTRIES, INODES, POINTERS
from ..promises import SHOWN_BYTES
from .reader import Undecided, entry_offset, equals, itself


def block_of(reader, inode):
    """The block of a directory that counts, or None."""
    if not reader.inode(inode, 0, equals(DIRECTORY)):
        return None
    block = reader.inode(inode, FIRST_POINTER, itself)
    if not reader.problem.base.in_data_area(block) or not reader.has_mark(block, DIRECTORY_MARK, inode):
        return None
    return block


def names_live_inode(reader, block, k, spelled):
    """Whether entry k in this block has a name, and names a live inode."""
    start = entry_offset(k)
    if not reader.ask(block, start, lambda byte: 1 <= byte <= INODES):
        return False
    return (all(reader.ask(block, start + 1 + at, equals(byte)) for at, byte in enumerate(spelled))
            and reader.live(reader.ask(block, start, itself) - 1))


def target_of(reader, block, name):
    """The inode that a name leads to in the directory of this block, or None."""
    spelled = spelled_name(name)
    for k in range(ENTRIES):
        if names_live_inode(reader, block, k, spelled):
            return reader.ask(block, entry_offset(k), itself) - 1
    return None


def shown_slot(reader, block):
    """What a slot shows that points to this block."""
    if block == 0:
        return "-"
    if not reader.problem.base.in_data_area(block):
        return "wild"
    return bytes(reader.ask(block, k, itself) for k in range(SHOWN_BYTES)).hex()


def shown(reader, path):
    """What a path shows."""
    inode = 0
    for name in path:
        block = block_of(reader, inode)
        inode = None if block is None else target_of(reader, block, name)
        if inode is None:
            return "nothing"
    if reader.inode(inode, 0, equals(DIRECTORY)):
        return "nothing" if block_of(reader, inode) is None else "directory"
    slots = [shown_slot(reader, reader.inode(inode, FIRST_POINTER + slot, itself)) for slot in range(POINTERS)]
    return " ".join(["file"] + slots).rstrip(" -")


class Part:
    """The sets whose last operation is one of `begun`, which are allowed these texts. A set of the family has the ids
    of the promise, and no patch behind `begun`. Where `begun` is None the last operation does not matter."""

    def __init__(self, promise, allowed, family, begun):
        self.promise, self.allowed, self.family, self.begun = promise, allowed, family, begun

    def __call__(self, reader):
        """Whether the sets of a family break the promise."""
        if " | ".join(shown(reader, path) for path in self.promise.paths) in self.allowed:
            return False
        if any(shown(reader, path) == wanted for path, wanted in self.promise.spares):
            return False
        if self.begun is None or self.begun & reader.inside:
            return True
        undecided = ids_of(self.begun & ~reader.outside)
        if undecided:
            raise Undecided(undecided[0])
        return False


class Broken:
    """The test whether sets break a promise. Its parts are the sets that have begun no operation behind a rest, and one
    behind the rest before: they have no set in common."""

    def __init__(self, problem, promise):
        self.problem, self.promise = problem, promise
        self.parts = [self.part([promise.here], 0, None)] if promise.word == "hold" else self.parts_of_keep()

    def parts_of_keep(self):
        """The part of each rest that an operation leads to from the rest before, and that of the first rest."""
        found, allowed, before = [], [self.promise.here], None
        for operations, text in self.promise.rests:
            allowed = allowed + [text]
            if before is None or before < operations:
                later = self.patches_of(lambda number, end=operations: number > end)
                begun = None if before is None else self.patches_of(
                    lambda number, start=before, end=operations: start < number <= end)
                found.append(self.part(allowed, later, begun))
            before = operations
        return found

    def patches_of(self, wanted):
        """The patches whose operations have a wanted number, as a set."""
        return set_of(p for p, patch in enumerate(self.problem.patches) if wanted(patch.operation))

    def part(self, allowed, later, begun):
        """The part of the sets without the patches `later`."""
        order, inside, outside = self.problem.order, 0, 0
        for p in ids_of(self.promise.ids):
            inside |= order.below[p]
        for p in ids_of(self.promise.barred | later):
            outside |= order.above[p]
        return Part(self.promise, allowed, (inside, outside), begun)
