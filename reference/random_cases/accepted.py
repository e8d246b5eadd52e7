"""Scripts whose operations the planner accepts."""

from ..refusals import Refusal
from .case import Case
from .groups import encoded, with_comments, with_groups
from .shapes import pick_geometry, pick_length, pick_shape, shape_directory_block
from .world import World


def accepted_lines(chance, module, geometry, heavy):
    """(lines before `start`, lines after it) on a disk with this geometry."""
    world = World(chance, *geometry)
    shape = pick_shape(chance)
    if module in ("meta", "full") and chance.random() < 0.4:
        shape = shape_directory_block
    cut = shape(world, pick_length(chance, module, heavy))
    lines = world.script_lines()
    return lines[:cut], lines[cut:]


def cut_to_cap(case, base, traced, make_lines, cap):
    """Drops the last traced line until the closed sets keep the cap. Gives the lines and the number of sets, None
    where the script is refused."""
    while True:
        lines = base + ["start"] + make_lines(traced)
        case.script = "".join(line + "\n" for line in lines).encode()
        try:
            return lines, case.closed_count(cap, None)
        except Refusal as refusal:
            if refusal.number not in (2, 20, 30) or not traced:
                return lines, None
        traced = traced[:-1]


def pick_limit(chance, count, cap, limit_below):
    """A limit, or None. With `limit_below` it is lower than the number of closed sets."""
    roll = chance.random()
    if limit_below and count is not None and count > 1:
        return max(1, chance.choice([count - 1, count - 1, 1, count // 2]))
    if count is not None and count > 4096:
        return chance.choice([count, 32768])
    if count is not None and roll < 0.25:
        return count
    if roll < 0.4:
        return chance.randrange(cap, 32769)
    return 32768 if roll < 0.5 else None


def accepted_case(chance, module, heavy, limit_below=False):
    """A case with a script that is accepted. A heavy one has up to 32,768 closed sets."""
    case = Case(module, *pick_geometry(chance, module))
    case.json = chance.random() < 0.2
    cap = 32768 if heavy else chance.choice([64, 600, 2500, 4096])
    if module == "meta" and cap == 64:
        # The smallest scripts that fail under this ordering have more than 600 closed sets.
        cap = 2500
    base, traced = accepted_lines(chance, module, (case.blocks, case.journal), heavy)
    grouped = chance.random() < 0.3
    lines, count = cut_to_cap(case, base, traced,
                              (lambda some: with_groups(chance, some)) if grouped else list, cap)
    case.limit = pick_limit(chance, count, cap, limit_below)
    if chance.random() < 0.25:
        lines = with_comments(chance, lines)
    case.script = encoded(chance, lines)
    case.wish = "limit" if limit_below else "accepted"
    return case
