"""What the calls do to the files: the tree as it goes on, and the events that become lines of the script."""

import collections
import dataclasses
import fnmatch
import itertools
import os
import re

from record import Stop
from record.names import above
from record.trace import Call, descriptor_of, printable, string_of
from record.tree import Node

PAGE = 4096  # The bytes of which a crash leaves all or none.
SLOTS = 4  # The most blocks of a file.
MOST_LINKS = 40  # As many symbolic links as the kernel follows in one path.


@dataclasses.dataclass(eq=False)
class Opened:
    """What `open` makes, and what `dup` and `fork` share: a file, the path that it was opened by, and the offset."""
    node: Node
    path: str
    flags: set
    offset: int = 0

    def may_write(self):
        return bool(self.flags & {"O_WRONLY", "O_RDWR"}) and "O_PATH" not in self.flags


@dataclasses.dataclass(eq=False)
class Process:
    """A process or a thread. `place` has its working directory; `slots` has an open file and whether `exec` closes it
    for each descriptor. Threads share both."""
    program: str
    place: list
    slots: dict


@dataclasses.dataclass(eq=False)
class Event:
    """Something that happened to a file. `kind` is a word of the script, or one of these:

    `block` is a write to so many `pages` of the block of the file that is in `slot`; `opened` and `closed` are about an
    open file that may write it; `comment` has its text in `text`. `other` is the file that a rename replaced. `merged`
    are the other calls of an event that stands for so many `writes`.
    """
    kind: str
    call: Call | None = None
    node: Node | None = None
    paths: tuple = ()
    slot: int | None = None
    other: Node | None = None
    text: str = ""
    pages: int = 1
    writes: int = 1
    merged: tuple = ()

    def calls(self):
        """The calls that it comes from, each once."""
        return [it for it in dict.fromkeys((self.call, *self.merged)) if it is not None]


class Outside:
    """The files outside the directory that the command changes. Some are of no interest: devices, those of the kernel,
    and those that the command makes itself and that are gone in the end."""

    def __init__(self):
        self.made, self.changed = {}, []  # Whether each file that was opened to be written may be new.

    def note(self, path, is_renamed=False):
        """A call changes the file, or gives its name to another one."""
        is_device = path.startswith(("/proc/", "/sys/")) or os.path.exists(path) and not os.path.isfile(path)
        is_left = is_renamed or not self.made.get(path) or os.path.lexists(path)
        if is_left and not is_device and path not in self.changed:
            self.changed.append(path)

    def open(self, path, flags):
        """A call opens the file."""
        if flags & {"O_WRONLY", "O_RDWR"}:
            self.made[path] = self.made.get(path) or "O_CREAT" in flags
        if flags & {"O_TRUNC", "O_EXCL"}:
            self.note(path)


class World:
    """The files below `top` and the processes, as the calls so far leave them. `call` is the one that is followed, and
    `process` the one that made it."""

    def __init__(self, top, nodes, options):
        self.top, self.nodes, self.options = top, nodes, options
        self.events, self.faults, self.ignored = [], [], collections.Counter()
        self.processes, self.mappings, self.call, self.process = {}, [], None, None
        self.outside = Outside()

    # Telling.

    def where(self, call):
        """The words that say which call something is about."""
        process = self.processes.get(call.process)
        return f"call {call.first}, by {printable(process.program) if process else 'a process'}: {call.shown()}"

    def cannot(self, what, nearest, node=None):
        """Reports what the model cannot say, once for each node. With --lossy it becomes a comment."""
        if node is not None:
            if what in node.told or (node.names and all(map(self.pattern_of, node.names))):
                return
            node.told.add(what)
        told = f"{self.where(self.call)}: {what}"
        if self.options.lossy:
            self.events.append(Event("comment", text=f"lossy: {told}; in its place: {nearest}"))
        else:
            self.faults.append(f"{told} (--lossy: {nearest})")

    def lost(self, what):
        raise Stop(f"lost track at {self.where(self.call)}: {what}")

    def pattern_of(self, path):
        """The pattern of --ignore that names a file or a directory above it, or None."""
        return next((pattern for pattern in self.options.ignore
                     if any(fnmatch.fnmatchcase(it, pattern) for it in above(path))), None)

    def emit(self, kind, node=None, *paths, **more):
        """Adds an event, but for files that --ignore names, and those without a name, whose path is None: no crash can
        show them."""
        if None in paths:
            return
        patterns = [self.pattern_of(path) for path in paths]
        found = next(filter(None, patterns), None)
        if found and not all(patterns):
            self.cannot("--ignore names one of the two paths", "nothing")
        if found:
            self.ignored[found] += 1
        else:
            self.events.append(Event(kind, self.call, node, paths, **more))

    # Paths.

    def inside(self, path):
        """The path below the directory, '' for the directory itself, or None where it is outside."""
        top = self.top.rstrip("/") + "/"
        return "" if path == self.top else path[len(top):] if path.startswith(top) else None

    def target_of(self, path):
        """What a symbolic link at this path names, or None where there is none."""
        within = self.inside(path)
        if within is not None:
            return self.nodes[within].target if within in self.nodes else None
        found = re.fullmatch(r"/(?:proc/(?:self|thread-self|\d+)|dev)/fd/(\d+)", path)
        if found and int(found[1]) in self.process.slots:
            name = self.name_of(self.process.slots[int(found[1])][0])
            return None if name is None else os.path.join(self.top, name)
        return os.readlink(path) if os.path.islink(path) and not found else None

    def real(self, argument, path, follows):
        """The absolute path that a call means, with no link on its way. A link at its end counts where it is followed.

        `argument` is the call's descriptor of a directory, and `path` its path, in quotes.
        """
        path, (number, known) = string_of(path), descriptor_of(argument)
        if number is None and known is not None:
            self.process.place[0] = known
        place, todo, links = "/" if path.startswith("/") else known or self.process.place[0], path.split("/"), 0
        while todo:
            part = todo.pop(0)
            here = place.rstrip("/") + "/" + part
            target = self.target_of(here) if part not in ("", ".", "..") and (todo or follows) else None
            if part == "..":
                place = os.path.dirname(place)
            elif target is not None and links < MOST_LINKS:
                todo, links = target.split("/") + todo, links + 1
                place = "/" if target.startswith("/") else place
            elif part not in ("", "."):
                place = here
        return place

    def locate(self, argument, path, follows=False, changes=False):
        """The path below the directory that a call means, or None. Outside, a call that `changes` it is noted."""
        place = self.real(argument, path, follows)
        if changes and self.inside(place) is None:
            self.outside.note(place)
        return self.inside(place)

    def must(self, path):
        """The node at a path, which must be there."""
        return self.nodes.get(path) or self.lost("no call that was followed made this file")

    def name_of(self, opened):
        """The path that an open file was opened by where that still stands, or another of its paths, or None."""
        names = opened.node.names
        return opened.path if opened.path in names else next(iter(names), None)

    # Descriptors.

    def opened(self, argument, changes=False):
        """The open file below the directory that a descriptor names, compared with what the kernel has; else None.
        Outside, a call that `changes` it is noted."""
        number, path = descriptor_of(argument)
        within = None if path is None else self.inside(path)
        opened, _ = self.process.slots.get(number, (None, None))
        names = opened.node.names if opened else []
        if names and path is not None and within not in names and "(deleted)" not in argument:
            self.lost(f"the descriptor is taken for {printable(' '.join(names))}")
        if opened is None and within in self.nodes and self.nodes[within].kind == "file":
            self.lost("this descriptor was open before the recording, or another process handed it over")
        if opened is None and changes and path in self.outside.made:  # What the command did not open is not its own.
            self.outside.note(path)
        return opened

    def drop(self, numbers):
        """Closes descriptors. Where no process has an open file any more, nobody can write by it."""
        for number in list(numbers):
            opened, _ = self.process.slots.pop(number, (None, None))
            if opened and opened.may_write() and not any(
                    other is opened for it in self.processes.values() for other, _ in it.slots.values()):
                self.emit("closed", opened.node)
                if opened.node.made_up in opened.node.names:
                    self.remove(opened.node.made_up)

    # Names.

    def enter(self, path, node):
        self.nodes[path] = node
        node.names.append(path)

    def leave(self, path):
        node = self.nodes.pop(path)
        node.names.remove(path)
        return node

    def make(self, kind, path):
        """A new node of this kind at the path."""
        if path in self.nodes:
            self.lost("a call that was followed made it before")
        node = Node(kind)
        self.enter(path, node)
        if kind in ("link", "other"):
            what = "a symbolic link" if kind == "link" else "a pipe, a socket or a device"
            self.cannot(f"the model has no such file: {what}", "an empty file", node)
        self.emit("mkdir" if kind == "directory" else "create", node, path)
        return node

    def make_up(self, directory, label):
        """A new file with a name of the recorder's own in that directory, which no promise is about."""
        names = (os.path.join(directory, f".{label}-{number}") for number in itertools.count(1))
        path = next(it for it in names if it not in self.nodes)
        node = self.make("file", path)
        node.made_up = path
        return node

    def remove(self, path):
        node = self.must(path)
        self.leave(path)
        self.emit("rmdir" if node.kind == "directory" else "unlink", node, path)

    def move(self, source, target, is_exchange=False):
        """A path gets another name, which another file may have."""
        node, there = self.must(source), self.nodes.get(target)
        if is_exchange:
            self.cannot("the model cannot exchange two names in one step", "three renames, one after the other")
            for one, other in ((source, source + "-aside"), (target, source), (source + "-aside", target)):
                self.move(one, other)
        elif node.kind == "directory":
            if there:
                self.remove(target)
            self.move_directory(source, target)
        elif node is not there:
            if there:
                self.leave(target)
            self.enter(target, self.leave(source))
            self.emit("replace" if there else "rename", node, source, target, other=there)

    def move_directory(self, source, target):
        """What comes nearest to the rename of a directory: a new one, and each of its names moved there."""
        node = self.leave(source)
        self.cannot("the model cannot rename a directory", "a new directory, and a rename of each of its names")
        self.enter(target, node)
        self.emit("mkdir", node, target)
        for path in sorted(it for it in self.nodes if it and os.path.dirname(it) == source):
            self.move(path, os.path.join(target, os.path.basename(path)))
        self.emit("rmdir", node, source)

    def come(self, source, target):
        """A file comes from a place outside the directory."""
        self.outside.note(source, is_renamed=True)
        self.cannot("a file comes from outside the directory", "a new file that is written, and then renamed")
        node, here = self.make_up(os.path.dirname(target), "outside"), os.path.join(self.top, target)
        node.told.add("size")
        size = os.path.getsize(here) if os.path.isfile(here) else 0
        self.wrote(Opened(node, node.made_up, set()), 0, size or 1)
        self.move(node.made_up, target)

    # Contents.

    def blocks(self, size):
        """How many blocks so many bytes take."""
        return -(-size // self.options.block)

    def wrote(self, opened, offset, count):
        """A call wrote so many bytes behind the offset."""
        node, size = opened.node, self.options.block
        if count <= 0 or node.kind != "file":
            return
        first, last, had = offset // size, (offset + count - 1) // size, self.blocks(node.size)
        if first > had:
            self.cannot("a file with a hole", "the blocks of the hole are written, too", node)
        node.written.update(range(min(first, node.size // size), last + 1))
        node.size = max(node.size, offset + count)
        self.touch(opened, range(min(first, had), last + 1), (offset, offset + count))
        if opened.flags & {"O_SYNC", "O_DSYNC"}:
            self.fsync(opened)

    def touch(self, opened, blocks, between=(0, 0)):
        """An event for each of these blocks, of which the bytes in between are written: a crash can come between two
        pages."""
        path, size = self.name_of(opened), self.options.block
        if path is not None and blocks and blocks[-1] >= SLOTS:
            self.cannot(f"a file of more than {SLOTS} blocks of {size} bytes (--block takes larger ones)",
                        "the blocks behind the fourth are left out", opened.node)
        for block in blocks[:max(0, SLOTS - blocks.start)]:
            first, last = max(between[0], block * size) // PAGE, (min(between[1], (block + 1) * size) - 1) // PAGE
            self.emit("block", opened.node, path, slot=block, pages=max(1, last + 1 - first))

    def resize(self, opened, length):
        """A call sets the length of a file. New blocks read as zeros."""
        node, before, path = opened.node, opened.node.size, self.name_of(opened)
        had, has = self.blocks(before), self.blocks(length)
        if node.kind != "file" or length == before:
            return
        node.size = length
        node.written.update(range(min(had, has) - 1, max(had, has)))
        if length == 0:
            self.emit("truncate", node, path)
            return
        if has < had and path is not None:
            self.cannot(f"a file of {before} bytes is cut to {length}, and loses blocks: the model cuts files to "
                        "nothing alone", "the last block that it keeps is written over", node)
        # Where no block is new the last one has another end.
        self.touch(opened, range(min(had, has - 1), has))

    def fsync(self, opened):
        self.emit("fsync", opened.node, self.name_of(opened))
