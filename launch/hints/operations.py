"""Why an operation is refused."""

import texts
from call import DISK, Number
from quoting import quoted
from steps import steps_of

FULL = {
    Number.NO_INODE: texts.NO_INODE,
    Number.DIRECTORY_FULL: texts.DIRECTORY_FULL,
    Number.FILE_FULL: texts.FILE_FULL,
    Number.LINKS_FULL: texts.LINKS_FULL,
}
"""What is said of a refusal for want of room, in which one path at most is named."""


def operation_fault(call):
    """Returns why the operation on the refused line is refused, or None if the program does not say more."""
    verb, first, *rest = call.line(call.refusal.line).split(" ")
    last = rest[0] if rest and verb != "overwrite" else first
    match call.refusal.number:
        case Number.NOT_FOUND:
            return not_found(Tree(call, first, last), first, last)
        case Number.NOT_A_DIRECTORY:
            return not_a_directory(Tree(call, first, last), first, last)
        case Number.EXISTS:
            return taken(verb, first, last)
        case Number.NOT_A_FILE:
            return not_a_file(Tree(call, first, last), verb, first, last)
        case Number.NOT_EMPTY:
            return texts.NOT_EMPTY.format(path=quoted(first))
        case Number.DIRECTORY_FULL:
            return FULL[Number.DIRECTORY_FULL].format(path=quoted(last))
    text = FULL.get(call.refusal.number)
    return text and text.format(path=quoted(first))


def parts_of(path):
    """Returns the directories that a path leads through, and the path."""
    return [path[:end] for end, letter in enumerate(path) if letter == "/" and end] + [path]


class Tree:
    """What paths and the directories that they lead through name, before the refused line."""

    def __init__(self, call, *paths):
        steps = sum(steps_of(call.lines), [])
        built = [step.text for step in steps if step.is_operation and step.line < call.refusal.line]
        parts = list(dict.fromkeys(part for path in paths for part in parts_of(path)))
        script = [*built, "start", *(f"keep {part}" for part in parts), ""]
        found = call.explain("\n".join(script), *call.options.of(*DISK))
        shows = [promise["shows"][0].split()[0] for promise in found["promises"]]
        self.named = dict(zip(parts, shows))

    def first(self, kind, parts):
        """Returns the first of these that names nothing, a file or a directory."""
        return next((part for part in parts if self.named[part] == kind), None)


def not_found(tree, first, last):
    """Returns what is not there: a part of a path or the path itself, or else a block of it."""
    part = tree.first("nothing", parts_of(first)) or tree.first("nothing", parts_of(last))
    return texts.MISSING.format(path=quoted(part)) if part else texts.EMPTY_SLOT.format(path=quoted(first))


def not_a_directory(tree, first, last):
    """Returns what is a file: a part of a path, or else the path itself, which is to be removed."""
    part = tree.first("file", parts_of(first)[:-1] + parts_of(last)[:-1])
    return texts.FILE_ON_THE_WAY.format(path=quoted(part)) if part else \
        texts.FILE_TO_REMOVE.format(path=quoted(first))


def taken(verb, first, last):
    """Returns what is there already."""
    if verb in ("link", "rename", "replace") and first == last:
        text = texts.SAME_PATHS
    else:
        text = {"replace": texts.SAME_FILE, "rename": texts.TAKEN_BY_RENAME}.get(verb, texts.TAKEN)
    return text.format(path=quoted(last))


def not_a_file(tree, verb, first, last):
    """Returns what is a directory."""
    path = last if verb == "replace" and tree.named[first] == "file" else first
    if verb == "unlink":
        text = texts.DIRECTORY_TO_UNLINK
    elif verb in ("overwrite", "truncate", "replace"):
        text = texts.DIRECTORY_TO_CHANGE
    else:
        text = texts.DIRECTORY_TO_WRITE
    return text.format(path=quoted(path))
