"""Lines that wait and promise, put into traces that have none, or changed."""

from .world import ALL_OPERATIONS, is_operation_line
from .shapes import pick_shape

ODD_PATHS = ["/q", "/q/r", "/a/x", "/d/q", "/d/e/f/g", "/t", "/a/b/c/d", "/z9"]
"""Paths that are seldom there."""


def act_of(line):
    """The first word of a line."""
    return line.split(" ")[0]


def worlds_before(world, base, traced):
    """For each traced line, and for the place behind the last one, a world as it is before it."""
    return [world.after(base + traced[:end]) for end in range(len(traced) + 1)]


def as_holds(chance, world, base, traced):
    """Some lines `keep P` become `hold P`, and behind them come lines `spare`: of P itself, there or gone, and of
    others, where they are there."""
    out, held = [], []
    for line, after in zip(traced, worlds_before(world, base, traced)[1:]):
        words = line.split(" ")
        if words[0] == "keep" and len(words) == 2 and chance.random() < 0.6:
            line = "hold " + words[1]
            held.append(words[1])
        out.append(line)
        there = after.paths()
        out += ["spare %s %s" % (path, path if not there or chance.random() < 0.6 else chance.choice(there))
                for path in held if is_operation_line(line) and chance.random() < 0.4]
    return out


def promised_in_groups(chance, traced):
    """Groups about some of the promises, in a trace without groups: one that is open at the promise, one right behind
    it, or one that never ends."""
    places = [k for k, line in enumerate(traced) if act_of(line) in ("keep", "hold", "fsync")]
    if not places:
        return traced
    at = chance.choice(places)
    begin = chance.randrange(at + 1) if chance.random() < 0.75 else at + 1
    end = chance.randrange(max(at + 1, begin), len(traced) + 1)
    ending = ["end"] if end < len(traced) or chance.random() < 0.6 else []
    traced = traced[:begin] + ["group P"] + traced[begin:end] + ending + traced[end:]
    if ending and end + 2 < len(traced) and chance.random() < 0.4:
        last = chance.randrange(end + 3, len(traced) + 1)
        traced = traced[:end + 2] + ["group Q"] + traced[end + 2:last] + ["end"] + traced[last:]
    return traced


def slot_lines(chance, line, before):
    """One or two lines `overwrite P K` in place of a line `overwrite P`, or the line itself."""
    words = line.split(" ")
    if words[0] != "overwrite" or len(words) != 2 or chance.random() < 0.2:
        return [line]
    slots = before.slots(words[1]) if words[1] in before.files() else []
    if chance.random() < 0.05 or not slots:
        slots = [0, 1, 2, 3] if chance.random() < 0.3 else []
    return ["%s %d" % (line, chance.choice(slots)) for _ in range(chance.choice([1, 1, 2]))] if slots else [line]


def one_block(chance, world, base, traced):
    """Some lines `overwrite P` become lines `overwrite P K`. Where there is no such line, one is put in."""
    if not any(line.startswith("overwrite ") for line in traced):
        at, before = chance.choice(list(enumerate(worlds_before(world, base, traced))))
        some = ["overwrite " + chance.choice(before.files())] if before.files() else []
        traced = traced[:at] + some + traced[at:]
    lines = [slot_lines(chance, line, before) for line, before in zip(traced, worlds_before(world, base, traced))]
    return sum(lines, [])


def several_paths(chance, world, base, traced):
    """Some lines `keep P` get more paths. Where there is no such line, one is put in."""
    traced = traced[:]
    if not any(line.startswith("keep ") for line in traced):
        traced.insert(chance.randrange(len(traced) + 1), "keep " + chance.choice(["/a", "/b", "/d", "/q"]))
    known = sorted({path for before in worlds_before(world, base, traced) for path in before.paths()} | {"/q", "/q/r"})
    for k, line in enumerate(traced):
        if line.startswith("keep ") and line.count(" ") == 1 and chance.random() < 0.85:
            paths = [line[5:]] + [chance.choice(known) for _ in range(chance.choice([1, 1, 2, 3]))]
            chance.shuffle(paths)
            traced[k] = " ".join(["keep"] + paths)
    return traced


def with_spares(chance, world, base, traced):
    """Lines `spare` put in, of paths that are promised, for names that are there, and for the path itself, there or
    gone."""
    promised = [path for line in traced for path in line.split(" ")[1:]
                if act_of(line) in ("keep", "hold", "fsync") and path != "/"] or ["/a"]
    out = []
    for line, before in zip(traced + [None], worlds_before(world, base, traced)):
        there = before.paths()
        if chance.random() < 0.35:
            path = chance.choice(promised)
            out.append("spare %s %s" % (path, path if not there or chance.random() < 0.3 else chance.choice(there)))
        out += [] if line is None else [line]
    return out


def lines_behind(chance, before, line, share):
    """Lines that wait and promise behind a line, on names near it and others."""
    there, out = before.paths() or ["/q"], []
    while chance.random() < share:
        near = line.split(" ")[-1] if line and "/" in line.split(" ")[-1] else chance.choice(there)
        path = chance.choice([near, chance.choice(there), chance.choice(there)])
        keep = chance.choice([near, near, chance.choice(there), chance.choice(ODD_PATHS)])
        if path not in there and chance.random() < 0.93:
            path = chance.choice(there + ["/"])
        out.append(chance.choice(["sync", "fsync " + path, "fsync " + path, "fsync /", "keep " + keep, "keep " + keep]))
    return out


def with_lines(chance, world, base, traced):
    """A trace with lines that wait and promise among its lines."""
    share = chance.choice([0.1, 0.25, 0.4])
    worlds = worlds_before(world, base, traced)
    out = lines_behind(chance, worlds[0], None, share)
    for line, after in zip(traced, worlds[1:]):
        out += [line] + lines_behind(chance, after, line, share)
    return out


def any_operations(chance, world):
    """Any operations on a disk of any shape, with lines that wait and promise among them."""
    cut = pick_shape(chance)(world, chance.choice([0, 1, 2]))
    lines = world.script_lines()
    grown = world.after(lines[:cut + 4])
    grown.grow(chance.choice([1, 2, 3]), ALL_OPERATIONS)
    base, traced = lines[:cut], grown.script_lines()[cut:]
    return base, with_lines(chance, world, base, traced)


def used_again(chance, world):
    """An inode and a block are given up and taken again: what generations tell apart."""
    world.do_some(["create /a", "write /a"] + ["create /b"] * (chance.random() < 0.4) + ["write /b"] * (
        chance.random() < 0.3), 4)
    base = world.script_lines()
    grown = world.after(base)
    grown.do_some([chance.choice(["unlink /a", "unlink /a", "replace /b /a"]),
                   chance.choice(["create /c", "create /a", "mkdir /d"]),
                   chance.choice(["write /c", "write /a", "write /b"]),
                   chance.choice(["write /a", "overwrite /b", "truncate /a", "unlink /c", "replace /c /b"])], 4)
    return base, with_lines(chance, world, base, grown.script_lines()[len(base):])
