"""Lines and command lines that are refused or at fault, about the operations that change data or take another file's
name, about lines that wait and promise, and about their options.

Each list is by the level of the options that it needs.
"""

from ..level import LEVELS
from .promise_lines import worlds_before

EARLY = ["sync", "fsync /", "fsync /a", "fsync /q/r/s", "keep /a", "keep /q/r", "keep /a /q/r", "spare /a /a",
         "spare /q /q/r", "hold /a", "hold /q/r"]
"""Lines that may stand only after `start`."""

NOT_THERE = ["fsync /q", "fsync /q/r", "fsync /a/x", "fsync /d/q", "fsync /a/x/y", "fsync /t/u"]

PREPARED = ["mkdir /q9", "create /q8", "create /q7", "link /q7 /q6", "create /q9/x"]
"""Lines before `start` for the lines below."""

NO_OPERATION = [
    "overwrite /no", "overwrite /q9", "overwrite /q8/x", "overwrite /no/x", "truncate /no", "truncate /q9",
    "truncate /q8/x", "replace /no /q8", "replace /q8 /no", "replace /q8 /q8", "replace /q7 /q6", "replace /q9 /q8",
    "replace /q8 /q9", "replace /q9 /q9", "replace /q8/x /q7", "replace /q8 /q7/x", "replace /no /no",
    "replace /no/x /q8/x", "replace /q9/no /q9", "replace /q8 /q7", "replace /q8 /q9/x", "replace /q9/x /q8"]
"""Operations, of which most are refused behind these lines."""

BAD_OPERATIONS = [
    "overwrite /a 4", "overwrite /a -1", "overwrite /a 00", "overwrite /a 1 2", "overwrite /a +1", "overwrite /a 1.",
    "overwrite /a x", "overwrite 1", "overwrite a 1", "overwrite / 1", "overwrite a 4", "overwrite /a  1",
    "overwrite /a 1 ", "overwrite /a 10", "overwrite /a 3/", "truncate /a 1", "write /a 0", "overwrite", "overwrite /",
    "overwrite /a /b", "truncate /", "truncate a", "truncate", "replace /a", "replace /a /b /c", "replace / /a",
    "replace /a /", "replace a /b", "replace /a b", "touch /a", "Truncate /a"]

BAD_PROMISES = [
    "sync /a", "sync /", "sync sync", "fsync", "fsync /a /b", "keep", "keep /a /b /c /d /e", "keep /", "fsync a",
    "keep a", "keep /a b", "keep a /b", "keep /a /", "keep / /a", "keep /a /a /a /a /a", "keep /a  /b", "keep /a /b ",
    "keep /a,/b", "keep /a | /b", "spare", "spare /a", "spare /a /b /c", "spare a /b", "spare /a b", "spare / /a",
    "spare /a /", "spare /a /b/", "spare  /a /b", "Spare /a /b", "spares /a /b", "spare /a/b/c/d/e /a",
    "spare /a /a/b/c/d/e", "fsync /a 0", "fsync //", "fsync /a/", "fsync /A", "keep /a/b/c/d/e", "fsync /a/b/c/d/e",
    "Sync", "fsync  /a", " sync", "sync ", "keep /a ", "fSync /a", "keep /abcdefghijk", "fsync\t/a", "fsync *",
    "keep /.", "fsync . ", "fsync /a/b/", "promise /a", "hold", "hold /a /b", "hold /a /a", "hold /", "hold a",
    "hold /a/", "hold /a/b/c/d/e", "Hold /a", "holds /a", "hold  /a", "hold / /a"]

OPERATION_FAULTS = [
    ["--generations=1"], ["--generations", "--generations"], ["--with", "Commit:Newdata"], ["--with", "NewData:Spare"],
    ["--without", "Commit:NewData"], ["--with", "Commit:NewData", "--with", "Commit:NewData"],
    ["--with", "Overwrite:Touch"], ["--with", "Touch"], ["--without", "InodeFree:EntrySet"],
    ["--with", "touch:NewData"], ["--with", "PtrClear:wait-Ptr"], ["--without", "PtrClear:MapClear"],
    ["--without", "MapClear:PtrClear", "--without", "MapClear:PtrClear"]]

PROMISE_FAULTS = [
    ["--durable", "--durable"], ["--durable=1"], ["--with", "NewData:Sync"], ["--with", "Keep:Touch"],
    ["--with", "Hold:Touch"], ["--without", "wait"], ["--with", "wait"], ["--faults"],
    ["--faults", "1", "--faults", "1"], ["--faults", "1", "--faults", "2,3"]]

NO_NUMBERS_OF_FAULTS = [
    "", "0", "11", "1,1", "2,1", "10,9", "1,", ",1", "1,,2", "1 2", "1;2", "ten", "1,x", "-1", "1-3", "all", "10,1",
    "1,2,3,4,5,6,7,8,9,10,11", "1.0", "01", "100", "9,010", "1, 2", "broken", "256", "18446744073709551617"]

SYNC_FAULTS = [
    ["--syncs"], ["--syncs", "--decide"], ["--syncs", "--search", "1"], ["--syncs", "--enough", "--search", "1"],
    ["--syncs", "--enough", "--syncs"], ["--syncs", "--limit", "5"], ["--syncs=1", "--enough"],
    ["--syncs", "--enough", "--decide"], ["--syncs", "--enough", "--limit", "5"], ["--enough", "--syncs", "--syncs=1"],
    ["--syncs", "--faults", "10"], ["--limit=1", "--enough", "--syncs"]]

NUMBER_FAULTS = [
    ["--numbers"], ["--numbers", "--decide"], ["--numbers", "--json", "--numbers"], ["--numbers=1", "--json"],
    ["--explain", "--numbers"], ["--json", "--number"], ["--enough", "--syncs", "--numbers"]]


def has(level, wanted):
    """Whether a level has the lines and options of another."""
    return LEVELS.index(level) >= LEVELS.index(wanted)


def fault(chance, module, level):
    """The words of a command line that is at fault."""
    kinds = OPERATION_FAULTS
    if has(level, "promises") and chance.random() < 0.7:
        kinds = PROMISE_FAULTS + [["--faults", word] for word in NO_NUMBERS_OF_FAULTS]
    if has(level, "syncs") and chance.random() < 0.3:
        kinds = SYNC_FAULTS
    if has(level, "numbers") and chance.random() < 0.2:
        kinds = NUMBER_FAULTS
    return ["--module", module] + chance.choice(kinds)


def bad_line(chance, level):
    """A line that is refused with 41 or 42."""
    kinds = BAD_PROMISES if has(level, "promises") and chance.random() < 0.6 else BAD_OPERATIONS
    return chance.choice(kinds)


def refused_slot(chance, base, traced):
    """A script with a line `overwrite P K` that is likely to be refused."""
    blocks = chance.choice([0, 1, 2, 3])
    path = chance.choice(["/q8", "/q8", "/q8", "/q8", "/q9", "/no", "/no/x", "/q8/x"])
    return (base + ["mkdir /q9", "create /q8"] + ["write /q8"] * blocks,
            traced + chance.choice([[], ["truncate /q8"]]) + ["overwrite %s %d" % (path, chance.randrange(4))])


def refused_operation(chance, base, traced):
    """A script with an operation that is likely to be refused."""
    names = ["link /q8 /q9/%d" % k for k in range(7)] if chance.random() < 0.2 else []
    return base + PREPARED + names, traced + [chance.choice(NO_OPERATION)]


def refused_early(chance, base, traced):
    """A script with a line before `start` that may stand only after it."""
    at = chance.randrange(len(base) + 1)
    return base[:at] + [chance.choice(EARLY)] + base[at:], traced


def refused_fsync(chance, base, traced):
    """A script with an `fsync` of what is likely not to be there."""
    return base, traced + [chance.choice(NOT_THERE)]


def many_syncs(chance, base, traced):
    """A script with about as many lines that wait as `--syncs` takes, most often more."""
    waits = [chance.choice(["sync", "fsync /", "fsync /a"]) for _ in range(chance.choice([63, 64, 65, 66]))]
    return base, traced[:1] + waits


def refused_script(chance, base, traced, level):
    """The lines of a script that is likely to be refused, before and after `start`."""
    makes = [refused_operation, refused_operation, refused_operation, refused_slot, refused_slot]
    if has(level, "promises"):
        makes += [refused_early, refused_early, refused_fsync]
    if has(level, "syncs"):
        makes.append(many_syncs)
    make = chance.choice(makes)
    cut = len(traced) if make is refused_early else chance.randrange(len(traced) + 1)
    return make(chance, base, traced[:cut])


def refused_spare(chance, world, base, traced):
    """The lines of a script with a line `spare` that is refused."""
    if chance.random() < 0.2:
        at = chance.randrange(len(base) + 1)
        return base[:at] + [chance.choice(["spare /a /a", "spare /q/r /q", "spare /a /no/x"])] + base[at:], traced
    at = chance.randrange(len(traced) + 1)
    before = worlds_before(world, base, traced)[at]
    bad = ["/no", "/no/x"] + [path + "/x" for path in before.files() if path.count("/") < 4]
    bad += [path + "/no" for path in before.directories() if path.count("/") < 4]
    line = "spare %s %s" % (chance.choice(["/a", "/q", "/no/x/y"]), chance.choice(bad))
    return base, traced[:at] + [line] + traced[at:]
