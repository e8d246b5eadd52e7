"""A file system that grows by random operations."""

from ..changes import apply
from ..disk import DIRECTORY, FILE, POINTERS, formatted, target_of, used_entries
from ..plan import Operation, Place, plan
from ..refusals import Refused
from ..script import OPERATIONS, SLOTS, read_path

NAMES = ["a", "b", "c", "d", "e", "f", "g", "h", "x", "y", "z", "0", "9", "a1",
         "abcdefghij", "0123456789"]

EVERYTHING = {"create": 4, "write": 5, "link": 3, "unlink": 4, "rename": 4, "mkdir": 3, "rmdir": 3}
"""How likely each operation is."""


ALL_OPERATIONS = {"create": 4, "write": 6, "link": 2, "unlink": 3, "rename": 2, "mkdir": 2, "rmdir": 1,
                  "overwrite": 6, "truncate": 4, "replace": 6}
"""As `EVERYTHING`, with the operations that change data or take another file's name."""


def operation_of_line(line):
    """The operation of a line."""
    words = line.split(" ")
    slot = int(words.pop()) if words[-1] in SLOTS else None
    return Operation(words[0], tuple(read_path(word) for word in words[1:]), slot)


def is_operation_line(line):
    """Whether a line is an operation."""
    return line.split(" ")[0] in OPERATIONS


class World:
    """An image with the operations that it has taken so far."""

    def __init__(self, chance, blocks, journal):
        self.chance = chance
        self.image = formatted(blocks, journal)
        self.steps = []

    def entries(self, directory=0, path=""):
        """(path, kind) of every entry below a directory that a path of 4 names reaches."""
        found = []
        for k in used_entries(self.image, directory):
            entry = self.image.entry(directory, k)
            here = path + "/" + entry[2:2 + entry[1]].decode("ascii")
            inode = target_of(self.image, directory, k)
            kind = self.image.kind(inode)
            found.append((here, kind))
            if kind == DIRECTORY and here.count("/") < 4:
                found += self.entries(inode, here)
        return found

    def paths(self):
        """The paths of all entries."""
        return [path for path, _ in self.entries()]

    def slots(self, path):
        """The slots of a file that point to a block."""
        inode = Place(self.image, read_path(path)).target
        return [slot for slot in range(POINTERS) if self.image.pointer(inode, slot) != 0]

    def files(self):
        """The paths of all files."""
        return [path for path, kind in self.entries() if kind == FILE]

    def directories(self):
        """The paths of all directories but the root."""
        return [path for path, kind in self.entries() if kind == DIRECTORY]

    def parents(self):
        """The directories that a path can lead into."""
        return [""] + [path for path in self.directories() if path.count("/") < 4]

    def fresh(self):
        """A path that is not there, or None."""
        parents = self.parents()
        parent = self.chance.choice(parents if self.chance.random() < 0.6 else [""])
        taken = set(path for path, _ in self.entries())
        names = [name for name in NAMES if parent + "/" + name not in taken]
        if not names:
            return None
        near = names[:4] if self.chance.random() < 0.7 else names
        return parent + "/" + self.chance.choice(near)

    def accepts(self, line):
        """The changes of a line, or None where it is refused."""
        try:
            return plan(self.image, operation_of_line(line))
        except Refused:
            return None

    def after(self, lines):
        """A world like this one before its first step, with the operations of these lines."""
        other = World(self.chance, self.image.blocks, self.image.journal)
        for line in lines:
            if is_operation_line(line):
                other.do(line)
        return other

    def do_some(self, lines, most):
        """Does the lines that are not refused, up to a number of them, and gives those that were done."""
        done = []
        for line in lines:
            if len(done) < most and self.do(line):
                done.append(line)
        return done

    def do(self, line):
        """Does a line where it is not refused; whether it did."""
        changes = self.accepts(line)
        if changes is None:
            return False
        apply(self.image, changes)
        self.steps.append(line)
        return True

    def random_line(self, weights=None):
        """A line that is likely to be accepted, or None."""
        weights = weights or EVERYTHING
        act = self.chance.choices(list(weights), list(weights.values()))[0]
        if act in ("create", "mkdir"):
            path = self.fresh()
            return None if path is None else "%s %s" % (act, path)
        old = self.directories() if act == "rmdir" else self.files()
        if not old:
            return None
        path = self.chance.choice(old)
        if act in ("write", "unlink", "rmdir", "overwrite", "truncate"):
            return "%s %s" % (act, path)
        if act == "replace":
            return "replace %s %s" % (path, self.chance.choice(old))
        other = self.fresh()
        return None if other is None else "%s %s %s" % (act, path, other)

    def grow(self, count, weights=None):
        """Does this number of random lines, or fewer if many are refused."""
        for _ in range(count * 4):
            if count == 0:
                return
            line = self.random_line(weights)
            if line is not None and self.do(line):
                count -= 1

    def script_lines(self):
        """The lines that were done."""
        return list(self.steps)
