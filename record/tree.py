"""The files below the recorded directory: as they were before, as the calls leave them, and as they are at the end."""

import dataclasses
import hashlib
import os
import stat

from record import Stop
from record.trace import printable

MOST_HASHED = 1 << 26  # Larger files are compared by their sizes alone.


@dataclasses.dataclass(eq=False)
class Node:
    """Something that has names: `kind` is `file`, `directory`, `link` or `other`, and `names` are its paths.

    `size` is in bytes. `written` are the blocks that calls wrote, and `digests` those of the blocks as they were before
    the recording, as `first_names` and `first_size` were. `told` has what was said of it. `made_up` is a name that it
    has in the script alone.
    """
    kind: str
    names: list = dataclasses.field(default_factory=list)
    size: int = 0
    target: str | None = None
    first_names: tuple = ()
    first_size: int = 0
    digests: list = dataclasses.field(default_factory=list)
    written: set = dataclasses.field(default_factory=set)
    told: set = dataclasses.field(default_factory=set)
    made_up: str | None = None


def kind_of(mode):
    kinds = {stat.S_IFDIR: "directory", stat.S_IFREG: "file", stat.S_IFLNK: "link"}
    return kinds.get(stat.S_IFMT(mode), "other")


def digests_of(path, block):
    """The digest of each block of a file, or none where it is very large or cannot be read."""
    try:
        with open(path, "rb") as file:
            if os.fstat(file.fileno()).st_size > MOST_HASHED:
                return []
            return [hashlib.blake2b(data, digest_size=16).digest() for data in iter(lambda: file.read(block), b"")]
    except OSError:
        return []


def walk(top):
    """Each path below the directory with its status, directories before what is in them."""
    todo, device = [""], os.stat(top).st_dev
    while todo:
        at = todo.pop()
        for entry in sorted(os.scandir(os.path.join(top, at)), key=lambda it: it.name):
            path, found = os.path.join(at, entry.name), entry.stat(follow_symlinks=False)
            yield path, found
            if stat.S_ISDIR(found.st_mode) and found.st_dev == device:
                todo.append(path)


def snapshot(top, block):
    """The nodes below the directory by their paths; '' is the directory itself."""
    nodes, by_inode = {"": Node("directory", [""], first_names=("",))}, {}
    try:
        for path, found in walk(top):
            here, kind = os.path.join(top, path), kind_of(found.st_mode)
            node = nodes[path] = by_inode.setdefault((found.st_dev, found.st_ino), Node(
                kind, size=found.st_size, first_size=found.st_size))
            if kind == "link":
                node.target = os.readlink(here)
            elif kind == "file" and not node.names:
                node.digests = digests_of(here, block)
            node.names.append(path)
            node.first_names += (path,)
    except OSError as error:
        raise Stop("the directory cannot be read, or changes while the recording starts: "
                   f"{printable(str(error.filename))}: {error.strerror}") from None
    return nodes


def difference(top, block, nodes):
    """What differs between the files as they are now and as they were followed, or None."""
    now, inodes = dict(walk(top)), {}
    for path in sorted(now.keys() | nodes.keys() - {""}):
        node, found = nodes.get(path), now.get(path)
        if node is None:
            return f"{printable(path)} is there, and no call that was followed made it"
        if found is None:
            return f"{printable(path)} is gone, and no call that was followed removed it"
        if kind_of(found.st_mode) != node.kind or inodes.setdefault(found.st_ino, node) is not node:
            return f"{printable(path)} is another file than the one that was followed"
        if node.kind == "file" and "size" not in node.told and found.st_size != node.size:
            return f"{printable(path)} has {found.st_size} bytes, and the calls that were followed leave {node.size}"
        after = digests_of(os.path.join(top, path), block) if node.digests and "size" not in node.told else []
        if any(it not in node.written and node.digests[it:it + 1] != [after[it]] for it in range(len(after))):
            return (f"{printable(path)} has changed where no call that was followed wrote it (a mapping, io_uring, or "
                    "a process that was not traced)")
    return None
