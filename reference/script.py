"""Scripts: their lines, and the disk that the lines before `start` make."""

import re
from collections import namedtuple

from .changes import apply
from .plan import Operation, plan
from .refusals import Refusal, Refused

Step = namedtuple("Step", "line act words slot", defaults=(None,))
"""One line that does something: its number from 1, its first word, its paths or group names, and the slot of
`overwrite P K` or None. The root directory, which `fsync` may name, is the path without names."""

Script = namedtuple("Script", "base traced")
"""The steps before `start`, and those after it."""

OPERATIONS = {"create": 1, "write": 1, "link": 2, "unlink": 1, "rename": 2, "mkdir": 1, "rmdir": 1,
              "overwrite": 1, "truncate": 1, "replace": 2}
"""The operations, with their numbers of paths."""

WAIT_ACTS = {"sync": (0,), "fsync": (1,)}
"""The steps that wait, with the numbers of paths that they may have."""

PROMISE_ACTS = {"keep": (1, 2, 3, 4), "hold": (1,), "spare": (2,)}
"""The steps that promise, with the numbers of paths that they may have."""

SLOTS = ("0", "1", "2", "3")
"""The words that name one slot in `overwrite P K`."""

GROUP_ACTS = {"group": 1, "end": 0, "depend": 2}
"""The steps that speak of patch groups, with their numbers of group names."""

PATH = re.compile(r"(?:/[a-z0-9]{1,10}){1,4}")
GROUP_NAME = re.compile(r"[A-Za-z0-9]{1,10}")


def read_path(word):
    """The names of a path, or None where the word is no path."""
    return None if PATH.fullmatch(word) is None else tuple(word.split("/")[1:])


def spelled_path(path):
    """A path as lines spell it."""
    return "/" + "/".join(path)


def spelled(step):
    """A step with paths as its line spells it."""
    slot = [] if step.slot is None else [str(step.slot)]
    return " ".join([step.act] + [spelled_path(path) for path in step.words] + slot)


def is_operation(step):
    """Whether a step is an operation."""
    return step.act in OPERATIONS


def operation_of(step):
    """The operation of a step."""
    return Operation(step.act, step.words, step.slot)


def lines_of(script):
    """The bytes cut at each line feed. Nothing after the last one is no line."""
    lines = script.split(b"\n")
    return lines[:-1] if lines[-1] == b"" else lines


def words_of(raw, number):
    """The words of a line, none for an empty line and for a comment."""
    try:
        text = raw.decode("utf-8", "strict")
    except UnicodeDecodeError:
        raise Refusal(40, number) from None
    if text == "" or text[0] == "#":
        return []
    words = text.split(" ")
    if "" in words:
        raise Refusal(41, number)
    return words


def read_paths(first, words, number):
    """The paths of a line. `fsync` alone may name the root directory."""
    paths = tuple(() if (first, word) == ("fsync", "/") else read_path(word) for word in words)
    if None in paths:
        raise Refusal(42, number)
    return paths


def counts_of(first):
    """The numbers of words that may follow the first word of a line; none where no line begins with it."""
    if first == "overwrite":
        return (1, 2)
    if first in OPERATIONS:
        return (OPERATIONS[first],)
    if first in GROUP_ACTS:
        return (GROUP_ACTS[first],)
    return WAIT_ACTS.get(first) or PROMISE_ACTS.get(first) or ()


def read_step(words, number):
    """The step of a line that is not `start`. A wrong number of words comes before a bad path, and a bad path before
    the word behind it."""
    first, rest = words[0], words[1:]
    if len(rest) not in counts_of(first):
        raise Refusal(41, number)
    if first in GROUP_ACTS:
        if not all(GROUP_NAME.fullmatch(word) for word in rest):
            raise Refusal(41, number)
        return Step(number, first, tuple(rest))
    if first == "overwrite" and len(rest) == 2:
        paths = read_paths(first, rest[:1], number)
        if rest[1] not in SLOTS:
            raise Refusal(41, number)
        return Step(number, first, paths, int(rest[1]))
    return Step(number, first, read_paths(first, rest, number))


def read_script(script):
    """The steps of a script. The first line that is wrong refuses it; without `start` the line after the last does."""
    base, traced = [], []
    started = False
    lines = lines_of(script)
    for number, raw in enumerate(lines, 1):
        words = words_of(raw, number)
        if words[:1] == ["start"]:
            if words[1:] or started:
                raise Refusal(41, number)
            started = True
        elif words:
            (traced if started else base).append(read_step(words, number))
    if not started:
        raise Refusal(43, len(lines) + 1)
    return Script(base, traced)


def build_base(image, steps):
    """Does the steps before `start` on the image. The first one that cannot be done refuses the script."""
    for step in steps:
        if not is_operation(step):
            raise Refusal(21 if step.act in GROUP_ACTS else 22, step.line)
        try:
            changes = plan(image, operation_of(step))
        except Refused as refused:
            raise Refusal(refused.number, step.line) from None
        apply(image, changes)


def disks_after(base, steps):
    """The base after the first k operations of the steps, for each k. All of them can be done."""
    disks = [base.copy()]
    for step in steps:
        if is_operation(step):
            disk = disks[-1].copy()
            apply(disk, plan(disk, operation_of(step)))
            disks.append(disk)
    return disks
