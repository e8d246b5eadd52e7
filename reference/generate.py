"""python3 -m reference.generate --count N --seed S --out DIR [--options LEVEL] [--modules async,soft,meta,full]

Writes random cases with what the reference answers. Each case is NAME.script, NAME.args (one word a line),
NAME.expected (standard output), NAME.status and NAME.stderr. A case without NAME.script names a file that is not
there. A case without NAME.stderr has a command line that is at fault: standard error says something, but its words are
not settled. Case k of a seed is the same for every count. Prints what the cases reach.
"""

import argparse
import collections
import functools
import multiprocessing
import os
import re
import sys

from .command_line import TOO_MUCH
from .compare import wanted_of
from .faults import FAULT_NAMES
from .level import LEVEL, LEVELS, has, raise_to
from .random_cases.case import FLAGS
from .random_cases.make import HEAVY_SHARE, REFUSALS, make_case
from .rules import MODULES

REFUSAL = re.compile(rb"crashmap: (?:line [0-9]+: )?([0-9]+) ")


def write(path, data):
    """Writes a file."""
    with open(path, "wb") as file:
        file.write(data)


def write_case(call, index):
    """Writes one case and gives what it reaches."""
    case, words = make_case(call.seed, index, call.modules, call.options, call.heavy)
    wanted = wanted_of(case, words)
    if wanted.status == TOO_MUCH:
        return collections.Counter({"too much for the reference": 1})
    name = os.path.join(call.out, "case%06d" % index)
    if not case.missing:
        write(name + ".script", case.script)
    write(name + ".args", "".join(word + "\n" for word in words).encode())
    write(name + ".expected", wanted.out)
    write(name + ".status", b"%d\n" % wanted.status)
    if case.words is None:
        write(name + ".stderr", wanted.err)
    return reached(case, wanted)


def reached(case, wanted):
    """What a case reaches, to be counted."""
    if case.words is not None:
        return collections.Counter({"command lines at fault": 1})
    if wanted.status == 2:
        return collections.Counter({"refusal %2d" % int(REFUSAL.match(wanted.err)[1]): 1})
    found = collections.Counter({"reports": 1, "reports of " + case.module: 1})
    found["reports of %s with failing sets" % case.module] += wanted.status
    for name in ("json", "added", "without", "search", "counted") + FLAGS:
        found["reports with " + name] += bool(getattr(case, name))
    for number, name in FAULT_NAMES.items():
        found["reports with fault %d" % number] += b"%d %s" % (number, name.encode()) in wanted.out
    return found


def read_call(words):
    """The options."""
    parser = argparse.ArgumentParser(prog="python3 -m reference.generate", description=__doc__,
                                     formatter_class=argparse.RawDescriptionHelpFormatter)
    parser.add_argument("--count", type=int, required=True)
    parser.add_argument("--seed", default="1")
    parser.add_argument("--out", required=True)
    parser.add_argument("--options", choices=LEVELS, default=LEVEL)
    parser.add_argument("--modules", type=lambda text: text.split(","), default=list(MODULES))
    parser.add_argument("--heavy", type=float, default=HEAVY_SHARE, help="share with up to 32,768 closed sets")
    parser.add_argument("--jobs", type=int, default=1)
    call = parser.parse_args(words)
    if not set(call.modules) <= set(MODULES):
        parser.error("unknown module")
    return call


def main(words):
    """The command; gives the exit status."""
    call = read_call(words)
    os.makedirs(call.out, exist_ok=True)
    raise_to(call.options)
    with multiprocessing.Pool(call.jobs) as pool:
        counts = sum(pool.imap_unordered(functools.partial(write_case, call), range(call.count), 8),
                     collections.Counter())
    print("%d cases, seed %s, options %s" % (call.count, call.seed, call.options))
    for name in sorted(name for name in counts if counts[name]):
        print("%7d  %s" % (counts[name], name))
    wanted = REFUSALS + [22] * has("promises") + [23] * has("syncs")
    missed = [number for number in wanted if not counts["refusal %2d" % number]]
    print("refusals that no case has: %s" % (missed or "none"))
    return 0


if __name__ == "__main__":
    sys.exit(main(sys.argv[1:]))
