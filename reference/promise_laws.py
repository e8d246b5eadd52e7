"""Laws about lines that wait and promise, tried on random cases. `laws.py` names them."""

from .answer import answer
from .explore import explore
from .faults import BROKEN_PROMISE, number_of
from .random_cases.make import make_case
from .random_cases.promise_lines import act_of
from .random_cases.world import World, is_operation_line
from .rules import JOURNAL_RULES
from .settings import Settings

LIMIT = 4000
"""The most closed sets of a script that is tried."""


def lines_of(case):
    """The lines of a script before and after `start`, without comments."""
    lines = [line for line in case.script.decode().split("\n") if line and not line.startswith("#")]
    at = lines.index("start")
    return lines[:at], lines[at + 1:]


def script_of(base, traced):
    """The bytes of a script."""
    return "".join(line + "\n" for line in base + ["start"] + traced).encode()


def promised(chance, paths, is_first):
    """Lines that wait and promise where the full journal keeps what they promise."""
    lines = ["keep " + " ".join(chance.sample(paths + ["/q"], chance.randrange(1, min(4, len(paths) + 1) + 1)))]
    if is_first:
        return lines
    path = chance.choice(paths or ["/"])
    return chance.choice([[], ["sync"] + lines, ["fsync " + path] + (["keep " + path] if paths else [])])


def kept_script(chance, case):
    """A script of the case's operations without groups, with promises that the full journal keeps."""
    base, traced = lines_of(case)
    world = World(chance, case.blocks, case.journal).after(base)
    out = promised(chance, world.paths(), True)
    for line in traced:
        if is_operation_line(line) and world.do(line):
            out += [line] + promised(chance, world.paths(), False)
    return script_of(base, out)


def check_kept(laws, chance, case):
    """Under the full journal no promise is broken that stands before the first operation, behind a `sync`, or behind an
    `fsync` of its one path, and none of `--durable`."""
    added = tuple(rule for rule in case.added if rule not in JOURNAL_RULES)
    settings = Settings("full", case.blocks, case.journal, LIMIT, added=added, strict=True, atomic=True, durable=True,
                        whole_blocks=case.whole_blocks, generations=case.generations)
    laws.check("full journal keeps promises", answer(kept_script(chance, case), settings)[1], False)


def waiting_alone(case, kept):
    """The script where only these of its lines wait. The others become comments, so that all lines keep their
    numbers."""
    lines = case.script.split(b"\n")
    return b"\n".join(b"#" if line.split(b" ")[0] in (b"sync", b"fsync") and number not in kept else line
                      for number, line in enumerate(lines, 1))


def failing_sets(script, settings):
    """The failing sets of a script."""
    return {one.patch_set for one in explore(script, settings._replace(enough=False, syncs=False, limit=LIMIT)).failing}


def check_syncs(laws, chance, case):
    """Where more lines wait, no set fails that did not; and a set of lines is enough where the script is, in which only
    these lines are left. A promise of `--durable` would stay where its line is taken out, so it is not asked for."""
    settings = case.settings()._replace(durable=False, decide=False, search=None)
    found = explore(case.script, settings._replace(enough=True, syncs=True))
    lines = [wait.line for wait in found.waits]
    fewer = [line for line in lines if chance.random() < 0.5]
    more = sorted(set(fewer) | {line for line in lines if chance.random() < 0.5})
    laws.check("syncs, more waiting", failing_sets(waiting_alone(case, more), settings)
               <= failing_sets(waiting_alone(case, fewer), settings))
    laws.check("syncs, enough or not", not failing_sets(waiting_alone(case, fewer), settings),
               any(set(one) <= set(fewer) for one in found.enough.rules))


def check_hold(laws, case):
    """An `fsync` under `--durable` breaks its promise by the sets by which a `hold` behind it breaks its own, but for
    sets that have a patch of a later operation."""
    base, traced = lines_of(case)
    fsyncs = [k for k, line in enumerate(traced) if act_of(line) == "fsync" and line != "fsync /"]
    others = [line for line in traced if act_of(line) not in ("keep", "hold", "spare")]
    if not fsyncs or len(others) != len(traced):
        return
    at = fsyncs[-1]
    settings = case.settings()._replace(search=None, enough=False, syncs=False, decide=False, limit=LIMIT,
                                        counted=(BROKEN_PROMISE,), strict=False, atomic=False)
    held = script_of(base, traced[:at + 1] + ["hold " + traced[at][6:]] + traced[at + 1:])
    by_hold = explore(held, settings._replace(durable=False))
    by_fsync = explore(script_of(base, traced), settings._replace(durable=True))
    line = "10 broken promise: line %d" % (len(base) + 2 + at)
    told = {one.patch_set for one in by_fsync.failing if line in one.faults}
    broken = {one.patch_set for one in by_hold.failing if any(number_of(text) == BROKEN_PROMISE for text in one.faults)}
    later = sum(1 << k for k, patch in enumerate(by_fsync.patches) if patch.line > len(base) + 2 + at)
    laws.check("durable, as a hold", {one for one in told if not one & later},
               {one for one in broken if not one & later})
    laws.check("durable, no more than a hold", told <= broken)


def check_promises(laws, chance, seed, index):
    """Tries these laws on one case of their own."""
    case, _ = make_case(seed, index, level="syncs")
    if not case.is_plain() or case.wish != "promises":
        return
    for law in (lambda: check_kept(laws, chance, case) if case.module == "full" else None,
                lambda: check_syncs(laws, chance, case) if case.syncs else None,
                lambda: check_hold(laws, case)):
        laws.attempt(law)
