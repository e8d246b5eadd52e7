"""The whole answer to a script, before it is printed."""

from collections import namedtuple

from .closed_sets import closed_sets
from .disk import formatted
from .enough import enough_lines_of, enough_of
from .rules import ordering, put_in, taken_out
from .script import PROMISE_ACTS, WAIT_ACTS, build_base, read_script
from .search import search
from .trace import trace
from .work import Work

Found = namedtuple("Found", "base patches closed failing without added enough search"
                            " promises waits tells_promises",
                   defaults=(None, None, None, None, None, None, None, (), (), False))
"""The parts of an answer: the base, the patches, the closed and the failing sets, the rules that were taken out and
put in, and what `--enough` and `--search` found. What was not asked for is None. `promises` and `waits` are those of
the script, and `tells_promises` says whether it has a line of either kind."""


def start(script, settings):
    """The base of a script, the steps after `start`, and the rules."""
    steps = read_script(script)
    base = formatted(settings.blocks, settings.journal, settings.generations)
    build_base(base, steps.base)
    return base, steps.traced, ordering(settings.module, settings.without, settings.added)


def has_promises(steps):
    """Whether one of the steps waits or promises."""
    return any(step.act in WAIT_ACTS or step.act in PROMISE_ACTS for step in steps)


def explore(script, settings):
    """The answer to a script; `Refusal` where it is refused, `TooMuch` where it is too big for the reference."""
    base, steps, rules = start(script, settings)
    found = Found(base, without=taken_out(settings.module, settings.without),
                  added=put_in(settings.module, settings.added), tells_promises=has_promises(steps))
    if settings.search is not None:
        searched, passing = search(base, steps, rules, settings)
        enough = enough_of(rules, passing) if settings.enough else None
        return found._replace(search=searched, enough=enough)
    if settings.decide or settings.enough:
        return found_without_limit(found, steps, rules, settings)
    return found_within_limit(found, steps, rules, settings)


def found_without_limit(found, steps, rules, settings):
    """The answer to `--decide`, and to `--enough` of one script."""
    trace(found.base, steps, settings, rules)
    work = Work(found.base, steps, settings)
    found = found._replace(patches=work.graph(rules), closed=work.closed(rules), failing=work.failing(rules),
                           promises=work.promises(), waits=work.waits())
    if settings.syncs:
        return found._replace(enough=enough_lines_of(rules, work))
    return found._replace(enough=enough_of(rules, [work])) if settings.enough else found


def found_within_limit(found, steps, rules, settings):
    """The answer with every failing set."""
    patches = trace(found.base, steps, settings, rules)
    closed = closed_sets(patches, settings.limit)
    work = Work(found.base, steps, settings)
    promises = work.promises()
    failing = work.judge.failing(patches, closed, promises)
    return found._replace(patches=patches, closed=closed, failing=failing, promises=promises, waits=work.waits())


def fails(found):
    """Whether the exit status is 1."""
    if found.search is not None:
        return found.search.failing != 0
    if found.enough is not None:
        return not found.enough.rules
    return bool(found.failing)
