"""Writes the lines of a script: the base, the operations in their order, and what waits."""

import collections
import dataclasses
import os

from record import Stop
from record.contents import Contents
from record.names import DEPTH, Names, above
from record.trace import printable
from record.world import PAGE, SLOTS, Event

# With these sizes a journal has room wherever the patches have: a transaction takes at least two patches for each of
# its journal blocks.
PATCHES, BLOCKS, JOURNAL = 124, 128, 62
SIZES = ("--blocks", str(BLOCKS), "--journal", str(JOURNAL))  # The words for crashmap.
DATA_BLOCKS = BLOCKS - 4 - JOURNAL
INODES, ENTRIES, LINKS = 16, 10, 8

# Patches of an operation without an ordering and under soft updates, but for what it frees.
TAKEN = {"create": 2, "mkdir": 5, "write": 3, "overwrite": 2, "truncate": 0, "link": 2, "rename": 4, "replace": 4,
         "unlink": 1, "rmdir": 3}
AS_EXT4 = "as ext4"  # How new blocks are delayed, in place of `True`: see `Script.take`.
FEWER = "--ignore PATTERN leaves files out"


@dataclasses.dataclass(frozen=True)
class Cause:
    """A system call behind a line. `number` is the line of strace's trace where it begins, which `--trace` keeps;
    `text` has the real names, such as `rename(".n1", "notes")`."""
    number: int
    text: str

    def __str__(self):
        return f"call {self.number}, {self.text}"


@dataclasses.dataclass(frozen=True)
class Line:
    """A line of the script. It has `causes` where it changes a file or waits.

    `paths` are the real paths that it names, `forced` those that an fsync behind it could force, with `.` for the
    directory itself. It stands for so many `writes`, and `promise` is the kind of promise that it makes.
    """
    text: str
    paths: tuple = ()
    causes: tuple = ()
    forced: tuple = ()
    writes: int = 1
    promise: str | None = None

    def words(self):
        return self.text.split(" ")


class Script:
    """The lines, and the files as the lines so far leave them.

    `at` has the node of each real path, `waiting` the writes of each file that are not written yet, `writers` how many
    open files may write it, and `versions` how often calls changed its contents. `emptied` are the files that were cut
    to nothing. `more` says how often a block is written over that would read like another one, by its event, or by its
    path if it was there before: see `Contents`.
    """

    def __init__(self, world, first, options, watched, more):
        self.world, self.options, self.first, self.more = world, options, first, more
        self.lines, self.at, self.patches, self.emptied = [], {"": first[""]}, None, set()
        self.writers, self.versions = collections.Counter(), collections.Counter()
        self.waiting, self.contents = collections.defaultdict(list), Contents(watched)
        found = {path for it in world.events for path in it.paths} | set(watched)
        found |= {it for path in found if path in first for it in first[path].first_names}
        self.paths = found | {it for path in found for it in above(path)}
        self.names = Names(self.paths, {path if it.kind in ("fsync", "mkdir") else os.path.dirname(path)
                                        for it in world.events if it.kind != "block" for path in it.paths})

    def names_of(self, node):
        return [path for path, it in self.at.items() if it is node]

    def blocks(self, node):
        """How many blocks a file has."""
        return len(self.contents.counts[node])

    def state(self, path):
        """What the path holds: a file, and how often its contents were changed. None where no file is there."""
        node = self.at.get(path)
        return (node, self.versions[node]) if node and node.kind == "file" else None

    def add(self, word, *paths, extra="", calls=(), **more):
        self.lines.append(Line(" ".join([word, *map(self.names.path, paths)]) + extra, paths, tuple(
            Cause(it.first, it.named(self.world.top)) for it in calls), **more))

    def comment(self, text):
        self.lines.append(Line(f"# {text}"))

    def refuse(self, event, what):
        raise Stop(f"{self.world.where(event.call) if event.call else 'before the command'}: {what}")

    # The base and the operations.

    def base(self):
        """What was there before, directories first, and the line behind which a crash can come."""
        there = self.paths & self.first.keys() - self.names.dropped - {""}
        for path in sorted(there, key=lambda it: (self.first[it].kind != "directory", it)):
            event = Event("base", node=self.first[path])
            names = self.names_of(event.node)
            word = "mkdir" if event.node.kind == "directory" else "link" if names else "create"
            self.operate(event, word, *names[:1], path)
            if word == "create":
                self.base_blocks(event, path)
        self.add("start")
        self.patches = 0
        self.contents.look(self.at)

    def base_blocks(self, event, path):
        """The blocks of a file that was there before, written over so that it reads unlike what is written anew."""
        node, size, blocks = event.node, self.options.block, self.world.blocks(event.node.first_size)
        if blocks > SLOTS and not self.options.lossy:
            fits = -(-node.first_size // (SLOTS * PAGE)) * PAGE
            self.refuse(event, f"{printable(path)} has {blocks} blocks of {size} bytes, and a file has at most {SLOTS};"
                        f" with --block {fits} it fits")
        for _ in range(min(blocks, SLOTS)):
            self.operate(event, "write", path)
        for _ in range(1 + self.more[path] if blocks else 0):
            self.operate(event, "overwrite", path)

    def take(self, event):
        """Adds the lines of an event. ext4 writes a file out that is renamed onto another one, or closed after it was
        cut to nothing."""
        node, kind = event.node, event.kind
        self.versions[node] += kind in ("block", "truncate")
        if self.options.delay == AS_EXT4 and (kind == "replace" or kind == "closed" and node in self.emptied):
            self.emptied.discard(node)
            self.flush([node])
        if kind == "comment":
            self.comment(event.text)
        elif kind in ("opened", "closed"):
            self.writers[node] += 1 if kind == "opened" else -1
        elif kind == "block" and self.options.delay and event.slot >= self.blocks(node):
            self.waiting[node].append(event)
        elif kind == "block":
            self.write(event, event.paths[0])
        elif kind in ("fsync", "sync"):
            self.flush([node] if kind == "fsync" else list(self.waiting))
            self.add(kind, *event.paths, calls=event.calls())
        else:
            self.operate(event, kind, *event.paths)

    def write(self, event, path):
        """The lines of a write to a block: one for each page, since a crash can come between two of them."""
        if event.writes > event.pages:
            numbers = " ".join(str(it.first) for it in event.calls())
            self.comment(f"merged: the next line stands for {event.writes} writes, by the calls: {numbers}")
        for _ in range(event.pages):
            if event.slot < self.blocks(event.node):
                self.operate(event, "overwrite", path, slot=event.slot)
                continue
            more = self.more[event]
            self.operate(event, "write", path, is_alike=more > 0)
            if more:
                self.comment("written over once more, so that it reads unlike what was there before")
            for left in reversed(range(more)):
                self.operate(event, "overwrite", path, slot=self.blocks(event.node) - 1, is_alike=left > 0)

    def flush(self, nodes):
        """Does the writes of these files that wait, by a name that the file has."""
        for node in nodes:
            for event in self.waiting.pop(node, ()):
                self.write(event, self.names_of(node)[0])

    def operate(self, event, word, *paths, slot=None, is_alike=False):
        """Adds the line of an operation, and does to the files of the script what it does. Where `is_alike`, what it
        leaves is about to be written over."""
        node = event.node
        self.check_room(event, word, paths)
        self.add(word, *paths, extra="" if slot is None else f" {slot}", forced=forced_behind(word, paths),
                 writes=event.writes, calls=event.calls())
        if word in ("rename", "replace", "unlink", "rmdir"):
            del self.at[paths[0]]
        if word in ("create", "mkdir", "link", "rename", "replace"):
            self.at[paths[-1]] = node
        lost = {"unlink": node, "replace": event.other, "truncate": node}.get(word)
        freed = 0 if lost is None else self.lose(word, lost)
        self.contents.change(word, node, event if event.call else paths[0], slot)
        if self.patches is not None:
            if not is_alike:
                self.contents.look(self.at)
            self.patches += TAKEN[word] + freed
            if self.patches > PATCHES:
                self.refuse(event, f"more than {PATCHES} patches (--merge puts neighbouring writes together, {FEWER})")

    def lose(self, word, lost):
        """A file loses its blocks, or a name of several. Gives how many patches that takes."""
        if word != "truncate" and self.names_of(lost):
            return 1
        freed = self.blocks(lost) + 1
        self.waiting.pop(lost, None)
        if word == "truncate":
            self.emptied.add(lost)
        else:
            self.contents.change("free", lost)
        return freed

    def check_room(self, event, word, paths):
        """Refuses what the model's disk has no room for."""
        places = [self.names.path(it) for it in paths]
        directory = os.path.dirname(places[-1])
        beside = sum(os.path.dirname(self.names.path(it)) == directory for it in self.at if it)
        blocks, is_new = sum(map(len, self.contents.counts.values())), word in ("create", "mkdir")
        for is_too_much, what in (
                (any(it.count("/") > DEPTH for it in places), f"a path of more than {DEPTH} names"),
                (is_new and len(set(self.at.values())) >= INODES,
                 f"more than {INODES} files and directories ({FEWER})"),
                ((is_new or word in ("link", "rename")) and beside >= ENTRIES,
                 f"more than {ENTRIES} names in a directory ({FEWER})"),
                (word in ("link", "rename", "replace") and len(self.names_of(event.node)) >= LINKS,
                 f"a file with more than {LINKS} names"),
                (word in ("write", "mkdir") and blocks + INODES > DATA_BLOCKS, "more blocks than the disk has")):
            if is_too_much:
                self.refuse(event, what)


def forced_behind(word, paths):
    """The paths that an fsync behind an operation could force: what it changed, where that still has a name."""
    above_it = os.path.dirname(paths[0]) or "."
    if word in ("unlink", "rmdir"):
        return (above_it,)
    is_moved = word in ("rename", "replace") and above_it != (os.path.dirname(paths[1]) or ".")
    return (paths[-1], above_it) if is_moved else (paths[-1],)
