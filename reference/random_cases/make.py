"""Makes case k of a seed, the same whatever other cases are made."""

import random

from ..level import LEVELS
from ..rules import MODULES
from .accepted import accepted_case
from .case import Case, joined
from .faults_of_words import (PLAIN_FAULTS, choosing_fault, decide_fault, deciding_fault, extended_fault,
                              reaching_fault, searching_fault)
from .options import choose, decide, deciding, extend, reach, search
from .promising import promise_or_leave
from .refused import bad_geometry, group_fault, journal_full, many_patches, refused_by_plan
from .refused_promises import fault as new_fault
from .refused_promises import has
from .spoiled import mutate, spoil

WITH_NEW_LINES = LEVELS[LEVELS.index("operations"):]
"""Levels whose scripts may have lines that the others have not."""

WITH_QUESTIONS = {"deciding": (0.04, decide_fault, decide), "choosing": (0.04, choosing_fault, choose),
                  "searching": (0.05, searching_fault, search), "reaching": (0.06, reaching_fault, reach),
                  **dict.fromkeys(("all",) + WITH_NEW_LINES, (0.06, deciding_fault, deciding))}
"""Levels with questions about all sets: the share of command lines at fault, and what makes these and the options."""

REFUSALS = [1, 2, 10, 11, 12, 13, 14, 15, 16, 17, 18, 19, 20, 21, 30, 40, 41, 42, 43]
"""The refusals of scripts without lines that wait or promise."""

HEAVY_SHARE = 0.02
"""The share of cases with up to 32,768 closed sets."""


def chance_of(seed, index, *more):
    """The dice of one case."""
    return random.Random("/".join([str(seed), str(index), *more]))


def refused_case(chance, module, number, heavy):
    """A case that is likely to be refused with the number."""
    if number in (20, 21) or number == 2 or number == 1:
        make = {1: bad_geometry, 2: many_patches, 20: journal_full, 21: group_fault}[number]
        return make(chance, module)
    if number == 30:
        return accepted_case(chance, module, heavy, limit_below=True)
    if number in (40, 41, 42, 43):
        case = accepted_case(chance, module, False)
        spoil(chance, case, number)
        return case
    return refused_by_plan(chance, module, number)


def random_refused(chance, module, modules, heavy):
    """A case that is likely to be refused."""
    number = chance.choice(REFUSALS + [2, 21, 21, 40, 41, 41, 41, 42, 42])
    if number == 20 and module not in ("meta", "full"):
        journaled = [one for one in modules if one in ("meta", "full")]
        module, number = (chance.choice(journaled), 20) if journaled else (module, 21)
    case = refused_case(chance, module, number, heavy)
    if chance.random() < 0.06:
        spoil(chance, case, chance.choice([40, 41, 42, 43]))
    case.wish = str(number)
    return case


def mutated_case(chance, module):
    """A case with a few bytes of its script changed."""
    case = accepted_case(chance, module, False)
    mutate(chance, case)
    case.wish = "mutated"
    return case


def fault_case(module, words):
    """A case whose command line is at fault."""
    case = Case(module)
    case.words = list(words)
    case.script = b"start\n"
    case.wish = "command line"
    return case


def missing_case(chance, module):
    """A case whose command line names a file that is not there."""
    case = Case(module)
    case.words = case.basic_words(chance) + ["no_such_script"]
    case.missing = True
    case.wish = "50"
    return case


def plain_case(chance, modules, heavy_share):
    """A case with the options of the first release."""
    module = chance.choice(modules)
    heavy = chance.random() < heavy_share
    roll = chance.random()
    if roll < 0.52:
        return accepted_case(chance, module, heavy)
    if roll < 0.56:
        return mutated_case(chance, module)
    if roll < 0.57:
        return fault_case(module, chance.choice(PLAIN_FAULTS))
    if roll < 0.575:
        return missing_case(chance, module)
    return random_refused(chance, module, modules, heavy)


def extended_pieces(case, chance):
    """The words of rules and ways to read a report, in pieces that stay together. The rules that are put in keep their
    order."""
    pieces = [["--explain"]] * case.explain
    pieces += [joined(chance, "--without", rule) for rule in case.without]
    kept = [joined(chance, "--with", rule) for rule in case.added]
    pieces += [None] * len(kept)
    order = list(range(len(pieces)))
    chance.shuffle(order)
    following = iter(kept)
    return [next(following) if pieces[k] is None else pieces[k] for k in order]


def deciding_pieces(case, chance):
    """The words of questions about all sets, in pieces that stay together."""
    pieces = [["--" + name] for name in ("atomic", "decide", "enough") if getattr(case, name)]
    pieces += [["--whole-blocks"]] if case.whole_blocks else []
    if case.search:
        pieces.append(joined(chance, "--search", "%d" % case.search))
    chance.shuffle(pieces)
    return pieces


def new_pieces(case, chance):
    """The words of options about generations, promises and lines that wait, in pieces that stay together."""
    pieces = [["--" + name] for name in ("generations", "durable", "syncs", "numbers") if getattr(case, name)]
    if case.counted is not None:
        pieces.append(joined(chance, "--faults", ",".join(map(str, case.counted))))
    chance.shuffle(pieces)
    return pieces


def around(chance, pieces, words):
    """The words with some of the pieces before them and the rest after them."""
    front = chance.randrange(len(pieces) + 1)
    return sum(pieces[:front], []) + words + sum(pieces[front:], [])


def strict_words(case, chance, words):
    """The words with `--strict` first or last, in nearly half of the cases."""
    case.strict = not case.missing and chance.random() < 0.45
    return ["--strict"] + words if case.strict and chance.random() < 0.5 else words + ["--strict"] * case.strict


def make_case(seed, index, modules=MODULES, level="all", heavy_share=HEAVY_SHARE):
    """Case `index` of a seed with options of this level: the case and the words of its command line."""
    modules = list(modules)
    chance, more, most = (chance_of(seed, index, *name) for name in ((), ("extended",), (level,)))
    case = plain_case(chance, modules, heavy_share)
    with_more, with_most = level != "plain", level in WITH_QUESTIONS
    if with_more and case.is_plain():
        give_options(case, more, 0.05, extended_fault, extend)
    if with_most and case.is_plain():
        give_options(case, most, *WITH_QUESTIONS[level])
    if level in WITH_NEW_LINES and case.is_plain():
        new = chance_of(seed, index, level, "new")
        give_options(case, new, 0.06, lambda dice, module: new_fault(dice, module, level),
                     lambda one, dice: promise_or_leave(one, dice, level))
        case.numbers = has(level, "numbers") and case.json and new.random() < 0.7
    words = case.basic_words(chance)
    if with_more and case.words is None:
        words = around(more, extended_pieces(case, more), words)
        words = strict_words(case, chance_of(seed, index, "strict"), words)
        if with_most:
            words = around(most, deciding_pieces(case, most), words)
        if level in WITH_NEW_LINES:
            words = around(new, new_pieces(case, new), words)
    return case, words


def give_options(case, chance, share, make_fault, give):
    """Gives a case options, or, in a share of the cases, a command line that is at fault."""
    if chance.random() < share:
        case.words = make_fault(chance, case.module)
        case.wish = "command line"
    else:
        give(case, chance)
