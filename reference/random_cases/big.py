"""Big scripts for `--decide`: 100 to 124 patches, with far too many closed sets to enumerate."""

from ..refusals import Refusal
from ..rules import MODULES, rules_of
from ..script import Step, read_path
from ..settings import Settings
from ..trace import Tracer
from .case import Case
from .groups import with_groups
from .make import around, chance_of, extended_pieces
from .options import add_rules
from .world import World

LEAST_PATCHES = 100
BLOCKS = 128
TRIES = 400

MIXES = (
    {"create": 4, "write": 5, "link": 3, "unlink": 4, "rename": 5, "mkdir": 3, "rmdir": 3},
    {"create": 1, "write": 1, "link": 6, "unlink": 5, "rename": 6, "mkdir": 1, "rmdir": 1},
    {"create": 4, "write": 7, "link": 1, "unlink": 6, "rename": 1, "mkdir": 4, "rmdir": 5},
    {"create": 3, "write": 1, "link": 2, "unlink": 3, "rename": 8, "mkdir": 5, "rmdir": 3})
"""How likely each operation is: of all kinds, of links, of blocks that are taken again, of directories."""


def step_of(line):
    """The step of a line with an operation."""
    words = line.split(" ")
    return Step(0, words[0], tuple(map(read_path, words[1:])))


def fits(tracer, line):
    """Takes the operation of a line, where there is room for its patches."""
    try:
        tracer.take(step_of(line))
    except Refusal:
        return False
    return True


def big_lines(chance, module, journal):
    """(lines before `start`, lines after it) of a big script, or None where its journal is too small for one."""
    world = World(chance, BLOCKS, journal)
    world.grow(chance.choice([4, 10, 16]), {"create": 4, "write": 3, "link": 2, "mkdir": 4})
    base, weights = world.script_lines(), chance.choice(MIXES)
    tracer = Tracer(world.image, Settings(module), ())
    least = chance.randrange(LEAST_PATCHES, 121)
    for _ in range(TRIES):
        line = world.random_line(weights)
        if line is not None and world.accepts(line) and fits(tracer, line):
            world.do(line)
        if len(tracer.patches) >= least:
            return base, world.script_lines()[len(base):]
    return None


def big_script(chance, module):
    """(blocks of the journal, lines before `start`, lines after it)."""
    lines = None
    while lines is None:
        journal = chance.randrange(60, 111) if module in ("meta", "full") else 0
        lines = big_lines(chance, module, journal)
    return (journal, *lines)


def give_rules(case, chance):
    """Takes rules out and puts rules in, in half of the cases."""
    own = rules_of(case.module)
    if own and chance.random() < 0.4:
        case.without = chance.sample(own, chance.choice([1, 1, 2, len(own)]))
    if chance.random() < 0.2:
        add_rules(case, chance)


def make_big_case(seed, index):
    """Case `index` of a seed, with `--decide`: the case and the words of its command line."""
    chance = chance_of(seed, index, "big")
    module = MODULES[index % len(MODULES)]
    journal, base, traced = big_script(chance, module)
    case = Case(module, BLOCKS, journal)
    case.decide = case.is_big = True
    case.strict, case.json, case.explain = (chance.random() < share for share in (0.6, 0.3, 0.2))
    give_rules(case, chance)
    traced = with_groups(chance, traced) if chance.random() < 0.15 else traced
    case.script = "".join(line + "\n" for line in base + ["start"] + traced).encode()
    case.wish = "big"
    pieces = extended_pieces(case, chance) + [["--decide"]] + [["--strict"]] * case.strict
    chance.shuffle(pieces)
    return case, around(chance, pieces, case.basic_words(chance))
