"""What each system call does to the files. `docs/RECORDING.md` has the table."""

import re

from record.trace import descriptor_of, number_of, string_of
from record.tree import Node
from record.world import Opened, Process, World

CHILDREN = ("clone", "clone3", "fork", "vfork")
# Where the descriptor of a directory would stand in a call that has none before a path.
DIRECTORIES = {"rename": (0, 2), "link": (0, 2), "symlink": (1,), **dict.fromkeys((
    "open", "creat", "execve", "chdir", "truncate", "mkdir", "mknod", "unlink", "rmdir"), (0,))}


def on_file(handler, changes=False):
    """The handler of a call whose first argument is a descriptor: it gets the open file, if it is one to look at.

    A call that `changes` a file outside the directory is noted.
    """
    def handle(self, descriptor, *arguments):
        opened = self.opened(descriptor, changes)
        if opened:
            handler(self, opened, *arguments)
    return handle


def at_path(handler, follows=False):
    """The handler of a call with a directory and a path that it changes: it gets the path, if it is one to look at."""
    def handle(self, at, path, *arguments):
        within = self.locate(at, path, follows, changes=True)
        if within is not None:
            handler(self, within, *arguments)
    return handle


class Calls(World):
    """The world, and what system calls do to it. A handler gets the arguments as strace wrote them, and `AT_FDCWD` for
    a directory that a call does not name."""

    def follow(self, calls, command):
        """Takes the world through all calls."""
        births = {it.result: it for it in calls if it.name in CHILDREN and it.result}
        for call in calls:
            self.call = call
            if not self.processes:
                self.processes[call.process] = Process(command[0].rpartition("/")[2], [self.top], {})
            elif call.process not in self.processes:  # A child may be seen before the call that made it returns.
                self.call = births.get(call.process) or self.lost("nothing is known of how this process began")
                self.clone()
            self.call, self.process = call, self.processes[call.process]
            if call.result is not None and call.result >= 0:
                arguments = list(call.arguments)
                for place in DIRECTORIES.get(call.name, ()):
                    arguments.insert(place, "AT_FDCWD")
                self.HANDLERS[call.name](self, *arguments)
        self.tell_of_overlaps()

    def tell_of_overlaps(self):
        """Reports changes by two processes that overlap in time, since their order is not known."""
        calls = [it.call for it in self.events if it.call and it.kind not in ("opened", "closed")]
        for one, other in zip(calls, calls[1:]):
            if one.process != other.process and other.first < one.last:
                self.call = other
                self.cannot(f"it overlaps with {one.shown()} of another process, and their order is not known",
                            "the order in which they end")

    # Processes.

    def clone(self, *_):
        if self.call.result and self.call.result not in self.processes:
            parent = self.processes[self.call.process]
            slots = parent.slots if "CLONE_FILES" in self.call.text else dict(parent.slots)
            place = parent.place if "CLONE_FS" in self.call.text else list(parent.place)
            self.processes[self.call.result] = Process(parent.program, place, slots)

    def execve(self, _, path, *__):
        self.process.program = string_of(path).rpartition("/")[2]
        self.process.slots = dict(self.process.slots)
        self.drop(at for at, (_, closes) in self.process.slots.items() if closes)

    def end(self):
        others = [it for it in self.processes.values() if it is not self.process]
        if any(it.slots is self.process.slots for it in others):  # Other threads still have them.
            self.process.slots = {}
        self.drop(self.process.slots)

    def chdir(self, at, path='""'):
        self.process.place[0] = self.real(at, path, True)

    def confine(self, *_):
        self.lost("paths mean something else behind this call")

    # Descriptors.

    def open(self, at, path, flags, *_):
        flags, number = set(re.findall(r"O_[A-Z]+", flags)), self.call.result
        within = self.locate(at, path, "O_NOFOLLOW" not in flags and not {"O_CREAT", "O_EXCL"} <= flags)
        self.drop([number])
        if self.call.path is not None and self.inside(self.call.path) != within and "O_TMPFILE" not in flags:
            self.lost("the kernel has another path")
        if within is None:
            self.outside.open(self.real(at, path, True), flags)
        else:
            opened = self.open_nameless if "O_TMPFILE" in flags else self.open_within
            self.process.slots[number] = (opened(within, flags), "O_CLOEXEC" in flags)

    def open_nameless(self, directory, flags):
        """Opens a new file without a name."""
        self.cannot("a file without a name (O_TMPFILE)", "one with a name that no promise is about")
        node = self.make_up(directory, "nameless")
        self.emit("opened", node)
        return Opened(node, node.made_up, flags)

    def open_within(self, path, flags):
        """Opens a file below the directory, which may make it or cut it to nothing."""
        opened = Opened(self.nodes.get(path) or Node("file"), path, flags)
        if opened.may_write():
            self.emit("opened", opened.node)
        if path not in self.nodes:
            if "O_CREAT" not in flags:
                self.must(path)
            self.enter(path, opened.node)
            self.emit("create", opened.node, path)
        elif "O_TRUNC" in flags and "O_PATH" not in flags:
            self.resize(opened, 0)
        return opened

    def creat(self, at, path, *_):
        self.open(at, path, "O_CREAT|O_WRONLY|O_TRUNC")

    def duplicate(self, descriptor, *_):
        opened, number = self.opened(descriptor), self.call.result
        if descriptor_of(descriptor)[0] != number:
            self.drop([number])
            if opened:
                self.process.slots[number] = (opened, "_CLOEXEC" in self.call.text)

    def fcntl(self, descriptor, command, argument="", *_):
        number, opened = descriptor_of(descriptor)[0], self.opened(descriptor)
        if command.startswith("F_DUPFD"):
            self.duplicate(descriptor)
        elif opened and command == "F_SETFD":
            self.process.slots[number] = (opened, "FD_CLOEXEC" in argument)
        elif opened and command == "F_SETFL":
            opened.flags = opened.flags - {"O_APPEND"} | ({"O_APPEND"} if "O_APPEND" in argument else set())

    def close(self, descriptor):
        self.drop([descriptor_of(descriptor)[0]])

    def close_range(self, first, last, flags):
        numbers = [it for it in self.process.slots if number_of(first) <= it <= number_of(last)]
        if "CLOEXEC" in flags:
            self.process.slots.update({it: (self.process.slots[it][0], True) for it in numbers})
        else:
            self.drop(numbers)

    def seek(self, opened, *_):
        opened.offset = self.call.result

    def read(self, opened, *_):
        opened.offset += self.call.result

    # Contents.

    def write(self, opened, *_):
        offset = opened.node.size if "O_APPEND" in opened.flags else opened.offset
        opened.offset = offset + self.call.result
        self.wrote(opened, offset, self.call.result)

    def write_at(self, opened, _, __, offset, flags=""):
        if number_of(offset) == -1:
            self.write(opened)
        else:
            appends = "O_APPEND" in opened.flags or "RWF_APPEND" in flags
            self.wrote(opened, opened.node.size if appends else number_of(offset), self.call.result)
        if "SYNC" in flags:
            self.fsync(opened)

    def copy(self, source, read_from, target, written_to, *_):
        """copy_file_range and splice. An offset of NULL is that of the open file."""
        source, target = self.opened(source), self.opened(target, changes=True)
        read_to = source and source.offset + self.call.result
        if target and written_to == "NULL":
            self.write(target)
        elif target:
            self.wrote(target, number_of(written_to), self.call.result)
        if source and read_from == "NULL":
            source.offset = read_to

    def sendfile(self, target, source, offset, *_):
        self.copy(source, offset, target, "NULL")

    def truncate(self, path, length):
        self.resize(Opened(self.must(path), path, set()), number_of(length))

    def ftruncate(self, opened, length):
        self.resize(opened, number_of(length))

    def fallocate(self, opened, mode, offset, length):
        if "PUNCH" in mode or "RANGE" in mode:
            self.cannot("a range of a file is changed without a write", "nothing")
            opened.node.told.add("size")
        elif "KEEP_SIZE" not in mode:
            self.resize(opened, max(opened.node.size, number_of(offset) + number_of(length)))

    def mmap(self, _, length, protection, flags, descriptor="-1", *__):
        begin, end = self.call.result, self.call.result + number_of(length)
        self.mappings = [it for it in self.mappings if it[1] <= begin or end <= it[0]]
        opened = self.opened(descriptor) if "MAP_SHARED" in flags else None
        if opened and opened.may_write():
            self.mappings.append((begin, end, opened))
            self.mprotect(str(begin), length, protection)

    def mprotect(self, address, length, protection, *_):
        """Files are written by mappings that may be written. One that is only read may be written later."""
        begin, end = number_of(address), number_of(address) + number_of(length)
        for first, last, opened in self.mappings if "PROT_WRITE" in protection else ():
            if first < end and begin < last:
                self.cannot("the writes through a mapping are not seen", "all blocks are written over", opened.node)
                opened.node.told.add("size")
                self.touch(opened, range(self.blocks(opened.node.size)))

    def ioctl(self, opened, request, *_):
        if re.match("FICLONE|FIDEDUPE", request):
            self.cannot("a file gets the blocks of another one", "nothing")
            opened.node.told.add("size")

    def unseen(self, *_):
        self.cannot("what this call starts is not seen", "nothing")

    def sync(self, *_):
        self.emit("sync")

    # Names.

    def mkdir(self, path, *_):
        self.make("directory", path)

    def mknod(self, path, mode, *_):
        self.make("other" if re.search("S_IF(IFO|SOCK|CHR|BLK)", mode) else "file", path)

    def symlink(self, target, at, path):
        within = self.locate(at, path, changes=True)
        if within is not None:
            self.make("link", within).target = string_of(target)

    def link(self, source_at, source, target_at, target, flags=""):
        opened = self.opened(source_at) if "AT_EMPTY_PATH" in flags and source == '""' else None
        within = self.name_of(opened) if opened else self.locate(source_at, source, "FOLLOW" in flags)
        target = self.locate(target_at, target, changes=True)
        if target is not None and within is None:
            self.come(self.real(source_at, source, "FOLLOW" in flags), target)
        elif target is not None and self.must(within).made_up == within:
            self.move(within, target)
        elif target is not None:
            self.enter(target, self.nodes[within])
            self.emit("link", self.nodes[within], within, target)

    def unlink(self, path, *_):
        self.remove(path)

    def rename(self, source_at, source, target_at, target, flags=""):
        within = self.locate(source_at, source, changes=True)
        target = self.locate(target_at, target, changes=True)
        if within is not None and target is not None:
            self.move(within, target, is_exchange="RENAME_EXCHANGE" in flags)
        elif within is not None:
            self.cannot("a file leaves the directory", "it is deleted")
            self.remove(within)
        elif target is not None:
            self.come(self.real(source_at, source, False), target)

    HANDLERS = {name: handler for handler, names in (
        (clone, "clone clone3 fork vfork"), (execve, "execve execveat"), (end, "exit"), (chdir, "chdir fchdir"),
        (confine, "chroot unshare setns mount umount2 pivot_root move_mount"),
        (open, "open openat openat2"), (creat, "creat"), (duplicate, "dup dup2 dup3"), (fcntl, "fcntl"),
        (close, "close"), (close_range, "close_range"), (on_file(seek), "lseek"), (on_file(read), "read readv"),
        (on_file(write, changes=True), "write writev"),
        (on_file(write_at, changes=True), "pwrite64 pwritev pwritev2"),
        (copy, "copy_file_range splice"), (sendfile, "sendfile"),
        (at_path(truncate, follows=True), "truncate"), (on_file(ftruncate, changes=True), "ftruncate"),
        (on_file(fallocate, changes=True), "fallocate"), (mmap, "mmap"), (mprotect, "mprotect pkey_mprotect"),
        (on_file(ioctl), "ioctl"), (unseen, "io_uring_setup io_submit open_by_handle_at"),
        (on_file(World.fsync), "fsync fdatasync"), (sync, "sync syncfs"),
        (at_path(mkdir), "mkdir mkdirat"), (at_path(mknod), "mknod mknodat"), (symlink, "symlink symlinkat"),
        (at_path(unlink), "unlink rmdir unlinkat"), (link, "link linkat"), (rename, "rename renameat renameat2"),
    ) for name in names.split()}
