"""Gives a random case the operations that change data or take another file's name, lines that wait and promise, and
their options."""

from ..refusals import Refusal
from ..rules import ordering, rules_of
from .groups import encoded, with_comments, with_groups
from .promise_lines import (act_of, any_operations, as_holds, one_block, promised_in_groups, several_paths, used_again,
                            with_spares)
from .promised import begun, held, hole, linked, neighbour, reused_block, way
from .refused_promises import bad_line, has, refused_script, refused_spare
from .saves import backup_by_copy, backup_by_rename, data_written_over, save, two_names
from .world import World, is_operation_line

NEW_RULES = [
    "PtrClear:InPlace", "Touch:NewData", "NewData:Touch", "InPlace:PtrClear", "MapClear:PtrClear", "InodeFree:EntrySet",
    "PtrClear:before-Ptr", "NewData:before-NewData", "Touch:before-InPlace", "EntrySet:before-Ptr",
    "EntrySet:before-InitFile", "EntryClear:before-InPlace", "FileData:previous-Done", "PtrClear:MapClear",
    "Commit:NewData", "NewData:previous-Commit", "NewData:previous-Done", "Done:NewData", "Touch:before-NewData",
    "NewData:previous-InitFile", "InPlace:before-Touch", "MapSet:before-PtrClear", "FileData:FileData"]

FREE_SHAPES = [begun, begun, hole, hole, neighbour, neighbour, way, way, linked, linked, reused_block, held, held, held]
"""Shapes that any question is asked about."""

TOUCHING = (neighbour, way, linked)
"""Shapes in which a promise of an `fsync` breaks where a journal has a rule less."""

SAVES = (save, save, save, backup_by_copy, backup_by_rename, two_names, data_written_over)

ANY_SHAPES = (any_operations, any_operations, used_again)

QUESTIONS = ["none", "none", "none", "none", "none", "decide", "decide", "decide", "decide", "enough", "search",
             "search", "search enough"]

LESS_OF_A_JOURNAL = [["Commit:Copy"], ["Commit:Copy"], ["Commit:Copy"], ["InPlace:Commit"], ["Commit:previous-Commit"],
                     ["Done:InPlace"], ["Commit:Copy", "Commit:previous-Commit"]]

COUNTED = [(10,), (10,), (1, 2, 3, 4, 5, 6), (7, 8), (9, 10), (1,), (3, 5, 10), tuple(range(1, 11))]

MOST_WAITS = 5
"""The most lines that wait in a script for `--syncs`."""


def is_journal(case):
    """Whether the ordering of a case is a journal."""
    return case.module in ("meta", "full")


def pick_module(case, chance, shape):
    """An ordering under which a shape shows something."""
    if shape is hole and chance.random() < 0.7:
        return chance.choice(["soft", "async"])
    if shape is data_written_over or shape is reused_block and chance.random() < 0.8:
        return "meta"
    if shape in TOUCHING:
        return chance.choice(["meta", "full", "full", case.module, "soft"])
    return case.module


def pick_shape_of_case(chance, tidy):
    """A shape of script."""
    if tidy:
        return chance.choice([save, save, save, backup_by_copy, backup_by_rename])
    return chance.choice(chance.choices([SAVES, FREE_SHAPES, ANY_SHAPES], [35, 42, 23])[0])


def give_geometry(case, chance):
    """A disk that is big enough, with a journal where there must be one."""
    case.blocks = chance.choice([24, 32, 40, 64] if is_journal(case) else [16, 16, 20, 24, 128])
    case.journal = chance.choice([0, 0, 0, 3])
    if is_journal(case):
        case.journal = min(case.blocks - 10, chance.choice([12, 14, 20, 30]))


def give_rules(case, chance, shape):
    """Takes rules out and puts rules in: fewer than before, and some about the new parts."""
    own = rules_of(case.module)
    case.without = [rule for rule in case.without if rule in own and chance.random() < 0.6][:3]
    case.added = [rule for rule in case.added if chance.random() < 0.6][:3]
    if shape in TOUCHING and is_journal(case):
        case.added = []
        case.without = chance.choice(LESS_OF_A_JOURNAL) if chance.random() < 0.8 else case.without
    if case.module == "soft":
        case.without = case.without + [rule for rule in own[11:] if chance.random() < 0.12 and rule not in case.without]
        if "EntryClear:EntrySet" in case.without and chance.random() < 0.4:
            case.added.append("InodeFree:EntrySet")
    if chance.random() < 0.2:
        case.added.append(chance.choice(NEW_RULES))
    if case.module == "meta" and chance.random() < 0.15:
        case.added.insert(0, "Commit:NewData")
    case.added = [rule for rule in dict.fromkeys(case.added) if rule not in case.without]


def give_flags(case, chance, shape, question, level):
    """The options that every question goes with."""
    case.strict = False
    case.decide = case.enough = False
    case.limit = case.search = None
    case.generations = chance.random() < 0.3
    case.atomic = case.atomic and chance.random() < 0.4
    case.whole_blocks = chance.random() < 0.2
    if has(level, "promises"):
        share = 0.75 if shape is reused_block else 0.95 if shape in TOUCHING else 0.5 if question == "syncs" else 0.35
        case.durable = chance.random() < share
        if chance.random() < 0.12:
            some = tuple(sorted(chance.sample(range(1, 11), chance.choice([1, 2, 3, 5, 9]))))
            case.counted = (10,) if shape in TOUCHING else chance.choice(COUNTED + [some])


def lines_of(chance, world, shape, tidy, level):
    """The lines of a shape before and after `start`, with the lines of the level alone."""
    base, traced = shape(chance, world, tidy) if shape in SAVES else shape(chance, world)
    fresh = world.after([])
    if chance.random() < 0.12:
        traced = one_block(chance, fresh, base, traced)
    if not has(level, "promises"):
        return base, [line for line in traced if is_operation_line(line) or act_of(line) in ("group", "end")]
    if chance.random() < 0.12:
        traced = several_paths(chance, fresh, base, traced)
    if chance.random() < 0.5:
        traced = as_holds(chance, fresh, base, traced)
    if chance.random() < 0.14:
        traced = with_spares(chance, fresh, base, traced)
    return base, traced


def pool_of(chance, traced, level):
    """The lines of a pool: five at most, and now and then one that is refused there."""
    pool = ["keep" + line[4:] if line.startswith("hold ") else line for line in traced
            if act_of(line) not in ("group", "end", "depend", "spare")]
    while len(pool) > 5:
        pool.pop(chance.randrange(len(pool)))
    if not has(level, "promises"):
        return pool + (["group A"] if chance.random() < 0.04 else [])
    if not any(line.startswith("keep") for line in pool) and chance.random() < 0.7:
        pool.insert(chance.randrange(len(pool) + 1), "keep " + chance.choice(["/a", "/a", "/t", "/d", "/q"]))
    if chance.random() < 0.05:
        pool.append(chance.choice(["group A", "end", "spare /a /a", "spare /q /q", "hold /a", "hold /q/r"]))
    return pool + ([chance.choice(pool)] if pool and chance.random() < 0.1 else [])


def in_groups(chance, traced):
    """A trace with groups, now and then."""
    if any(line.startswith("group") for line in traced):
        return traced
    if chance.random() < 0.3:
        return promised_in_groups(chance, traced)
    return with_groups(chance, traced) if chance.random() < 0.3 else traced


def with_few_waits(traced):
    """A trace with a few lines that wait."""
    waits = [k for k, line in enumerate(traced) if act_of(line) in ("sync", "fsync")]
    return [line for k, line in enumerate(traced) if k not in waits[MOST_WAITS:]]


def shortened(case, base, traced, cap, rules=None, waiting=None):
    """The traced lines without the last ones, so that there are no more closed sets than the cap."""
    while traced:
        case.script = "".join(line + "\n" for line in base + ["start"] + traced).encode()
        try:
            case.closed_count(cap, ordering(case.module, case.without, case.added) if rules is None else rules, waiting)
            return traced
        except Refusal as refusal:
            if refusal.number not in (2, 20, 30):
                return traced
        traced = traced[:-1]
    return traced


def asked(case, chance, base, traced, question, level):
    """Asks a question, and gives the traced lines that are few enough for it."""
    if "search" in question:
        case.search = chance.choice([1, 2] if is_journal(case) or "enough" in question else [1, 2, 2, 3])
        case.enough = "enough" in question
        case.added = case.added[:1] if case.enough else case.added
        return pool_of(chance, traced, level)
    traced = in_groups(chance, traced)
    if question == "syncs":
        case.enough = case.syncs = True
        return shortened(case, base, with_few_waits(traced), chance.choice([300, 1500]), waiting=())
    if question == "enough":
        case.enough = True
        case.added = list(rules_of("soft")) if case.module == "async" and chance.random() < 0.7 else case.added[:2]
        return shortened(case, base, traced, 800 if is_journal(case) else 1400, rules=())
    case.decide = question == "decide"
    return shortened(case, base, traced, chance.choice([400 if is_journal(case) else 700, 2500, 4096]))


def spoiled(case, chance, world, base, traced, level):
    """The lines before and after `start`, now and then with one that is refused."""
    roll = chance.random()
    if roll < 0.07:
        case.wish = "refused"
        return refused_script(chance, base, traced, level)
    if roll < 0.1 and has(level, "promises"):
        case.wish = "refused"
        return refused_spare(chance, world, base, traced)
    if roll < 0.16:
        case.wish = "bad line"
        line = bad_line(chance, level)
        at = chance.randrange(len(traced) + 1)
        return (base + [line], traced) if chance.random() < 0.3 else (base, traced[:at] + [line] + traced[at:])
    return base, traced


def promise(case, chance, level):
    """Gives a case another script, and options, of the level."""
    question = chance.choice(QUESTIONS + (["syncs"] * 3 if has(level, "syncs") else []))
    tidy = question == "syncs" and chance.random() < 0.5
    shape = pick_shape_of_case(chance, tidy)
    if tidy and case.module == "async" and chance.random() < 0.8:
        case.module = "soft"
    case.module = pick_module(case, chance, shape)
    if shape in TOUCHING and chance.random() < 0.8:
        question = chance.choice(["none", "none", "decide", "decide", question])
    give_flags(case, chance, shape, question, level)
    give_geometry(case, chance)
    give_rules(case, chance, shape)
    if tidy:
        case.without, case.atomic = [], False
    world = World(chance, case.blocks, case.journal)
    base, traced = lines_of(chance, world, shape, tidy, level)
    case.wish = "promises"
    traced = asked(case, chance, base, traced, question, level)
    base, traced = spoiled(case, chance, world.after([]), base, traced, level)
    lines = base + ["start"] + traced
    case.script = encoded(chance, with_comments(chance, lines) if chance.random() < 0.15 else lines)
    if question == "none" and chance.random() < 0.1:
        case.limit = chance.choice([1, 3, 10, 100, 4096, 32768])


def promise_or_leave(case, chance, level):
    """Gives most cases a script and options of the level, and some a new option alone."""
    if chance.random() < 0.12:
        case.generations = chance.random() < 0.5
        case.durable = has(level, "promises") and chance.random() < 0.5
        return
    promise(case, chance, level)
