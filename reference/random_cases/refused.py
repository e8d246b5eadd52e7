"""Scripts that are refused."""

from ..changes import apply
from ..plan import plan
from .accepted import accepted_case, accepted_lines
from .case import Case
from .groups import bad_groups, encoded, with_comments
from .refused_lines import failing_line, twice_refused
from .shapes import pick_geometry
from .world import World, operation_of_line

MOST_PATCHES = 124


def rebuilt(world, blocks, journal):
    """A world of the same lines with another geometry."""
    other = World(world.chance, blocks, journal)
    for line in world.steps:
        other.do(line)
    return other


def refusing_world(chance, module, number):
    """A world, and a line that it refuses, most often with the number."""
    blocks, journal = pick_geometry(chance, module)
    if number == 16:
        blocks = chance.choice([16, 17, 18])
        journal = blocks - chance.choice([6, 7, 8, 10])
    if chance.random() < 0.3:
        world, bad = twice_refused(chance)
        if module in ("meta", "full") and world.image.journal == 0:
            world = rebuilt(world, *chance.choice([(40, 20), (16, 0)]))
        return world, bad
    world = World(chance, blocks, journal)
    world.grow(chance.choice([0, 0, 1, 3]))
    return world, failing_line(chance, world, number)


def refused_by_plan(chance, module, number):
    """A script with an operation that is refused, before or after `start`."""
    world, bad = refusing_world(chance, module, number)
    case = Case(module, world.image.blocks, world.image.journal)
    lines = world.script_lines()
    where = chance.random()
    if where < 0.3:
        script = lines + [bad] + ["start"] + ["create /late"] * chance.choice([0, 1])
    elif where < 0.8 or module in ("meta", "full"):
        script = lines + ["start", bad]
    else:
        cut = chance.randrange(len(lines) + 1)
        script = lines[:cut] + ["start"] + lines[cut:] + [bad]
    if chance.random() < 0.3:
        script.append(chance.choice(["create /later", "end", "rmdir /q", "unlink /zz"]))
    case.script = encoded(chance, with_comments(chance, script) if chance.random() < 0.2 else script)
    return case


def touched_blocks(changes):
    """The number of blocks that changes touch."""
    return len(set(change.block for change in changes))


def next_line(world, style):
    """One line more for a script with many patches."""
    if style == "toggle":
        return "unlink /b" if world.accepts("unlink /b") else "link /a /b"
    if style == "rename":
        return "rename /a /b" if world.accepts("unlink /a") else "rename /b /a"
    return world.random_line()


def grow_past_most_patches(world, module, style):
    """Does lines until there are more patches than a script may have."""
    total = 0
    while total <= MOST_PATCHES:
        line = next_line(world, style)
        changes = world.accepts(line) if line else None
        if changes is not None and world.do(line):
            total += len(changes) + (touched_blocks(changes) + 2 if module in ("meta", "full") else 0)


def journal_about_full(chance, base, traced, blocks, journal):
    """A journal that is full at the last line, one line earlier, or not quite."""
    world = World(chance, blocks, journal)
    for line in base:
        world.do(line)
    needed = last = 0
    for line in traced:
        changes = plan(world.image, operation_of_line(line))
        apply(world.image, changes)
        last = 1 + touched_blocks(changes)
        needed += last
    return min(journal, chance.choice([needed - 1, needed - 1, needed - last, needed - last - 1, needed]))


def many_patches(chance, module):
    """A script with about as many patches as a script may have, most often more."""
    blocks = 128
    journal = chance.randrange(95, 110) if module in ("meta", "full") else chance.choice([0, 20])
    case = Case(module, blocks, journal)
    world = World(chance, blocks, journal)
    world.do("create /a")
    world.do("mkdir /d")
    style = chance.choice(["toggle", "random", "rename"])
    grow_past_most_patches(world, module, style)
    lines = world.script_lines()
    base, traced = lines[:2], lines[2:]
    if style == "toggle" and module == "soft" and chance.random() < 0.4:
        traced.pop()
    if module in ("meta", "full") and chance.random() < 0.4:
        case.journal = journal_about_full(chance, base, traced, blocks, journal)
    case.script = encoded(chance, base + ["start"] + traced)
    return case


def journal_full(chance, module):
    """A script whose journal is likely to be full."""
    blocks = chance.choice([16, 24, 40])
    case = Case(module, blocks, min(chance.choice([0, 1, 2, 3, 4, 5, 6, 7, 8]), blocks - 6))
    world = World(chance, blocks, case.journal)
    world.grow(chance.choice([0, 2, 4]), {"create": 4, "write": 2, "mkdir": 3, "link": 1})
    cut = len(world.steps)
    world.grow(chance.choice([2, 3, 4]))
    lines = world.script_lines()
    case.script = encoded(chance, lines[:cut] + ["start"] + lines[cut:])
    return case


def bad_geometry(chance, module):
    """A disk that has no room for its journal."""
    case = accepted_case(chance, module, False)
    case.blocks = chance.randrange(16, 128)
    case.journal = chance.randrange(case.blocks - 5, 123)
    if chance.random() < 0.3:
        case.journal = case.blocks - 5
    return case


def group_fault(chance, module):
    """A script with a step that speaks of groups and is refused, now and then before `start`."""
    case = accepted_case(chance, module, False)
    base, traced = accepted_lines(chance, module, (case.blocks, case.journal), False)
    lines = base + ["start"] + bad_groups(chance, traced)
    if chance.random() < 0.2:
        lines.insert(chance.randrange(len(base) + 1), chance.choice(["group A", "end", "depend A B"]))
    case.script = encoded(chance, lines)
    return case
