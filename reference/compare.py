"""python3 -m reference.compare PROGRAM [--count N] [--seed S] [--workers 1,4] [--options LEVEL] [--big] [--jobs J]

Runs a program on random cases, with each number of workers, and compares standard output, the exit status and standard
error with what the reference answers. Where the command line is at fault, standard error must only not be empty. Every
other case gets its script as a file, the rest on standard input. PROGRAM may have several words, quoted as for a shell.
A case that is too much for the reference counts as failed. With --big the cases are scripts of 100 to 124 patches with
`--decide`, which the second way of the reference answers; such a case takes it some seconds.
Prints each difference and a last line `N passed, M failed`; the exit status is 1 where something differs.
"""

import argparse
import concurrent.futures
import functools
import os
import shlex
import sys
import tempfile
from collections import namedtuple

from .command_line import TOO_MUCH
from .level import LEVEL, LEVELS, raise_to
from .random_cases.big import make_big_case
from .random_cases.make import make_case
from .runs import Run, differences, run_program, run_reference, run_second_way

BIG = "big"
"""The level of big scripts with `--decide`."""

Plan = namedtuple("Plan", "command seed level workers timeout")
"""How cases are run: the program's words, the seed, the level of options or `BIG`, the numbers of workers, and
seconds."""

Result = namedtuple("Result", "index words script runs differences")
"""The words and the script of a case, the number of runs, and the differences, each with the words that were added."""


def without_option(words, name):
    """The words without an option and its value."""
    kept = []
    skip = False
    for word in words:
        if not skip and word != name and not word.startswith(name + "="):
            kept.append(word)
        skip = not skip and word == name
    return kept


def wanted_of(case, words):
    """What the reference answers to a case."""
    if case.missing:
        return Run(2, b"", b"crashmap: 50 cannot read the script\n")
    return (run_second_way if case.is_big else run_reference)(words, case.script)


def ways_of(case, workers):
    """The options that a case is run with, one list for each run."""
    if not case.is_plain():
        return [[]]
    return [["--workers", str(count)] for count in workers]


def run_ways(plan, case, words, given, wanted):
    """The differences of all runs of a case. `given` has the words that name the script's file."""
    found = []
    ways = ways_of(case, plan.workers)
    for way in ways:
        script = b"" if given or case.missing else case.script
        got = run_program(plan.command, given + words + way, script, plan.timeout)
        found += ["%s: %s" % (" ".join(way), one) for one in differences(got, wanted, case.words is None)]
    return len(ways), found


def case_of(plan, index):
    """A case of a plan, and the words of its command line."""
    return make_big_case(plan.seed, index) if plan.level == BIG else make_case(plan.seed, index, level=plan.level)


def run_case(plan, index):
    """Runs one case in all ways."""
    case, words = case_of(plan, index)
    wanted = wanted_of(case, words)
    if wanted.status == TOO_MUCH:
        return Result(index, words, case.script, 1, ["too much for the reference"])
    if not case.is_plain() or index % 2:
        bare = without_option(words, "--workers") if case.is_plain() else words
        return Result(index, words, case.script, *run_ways(plan, case, bare, [], wanted))
    with tempfile.TemporaryDirectory() as folder:
        path = os.path.join(folder, "case.script")
        with open(path, "wb") as file:
            file.write(case.script)
        ran = run_ways(plan, case, without_option(words, "--workers"), [path], wanted)
    return Result(index, words, case.script, *ran)


def compare(plan, count, jobs=1):
    """The results of the first cases of the seed, in their order."""
    if jobs == 1:
        return [run_case(plan, index) for index in range(count)]
    with concurrent.futures.ProcessPoolExecutor(jobs) as pool:
        return list(pool.map(functools.partial(run_case, plan), range(count), chunksize=1 if plan.level == BIG else 4))


def print_result(result):
    """Prints what differs in a case."""
    print("case %d: %s" % (result.index, " ".join(result.words)))
    for difference in result.differences:
        print("  " + difference)
    print("  script: %r" % result.script[:2000])


def numbers(text):
    """The numbers between commas."""
    return tuple(int(word) for word in text.split(","))


def read_call(words):
    """The program's words and the options."""
    parser = argparse.ArgumentParser(prog="python3 -m reference.compare", description=__doc__,
                                     formatter_class=argparse.RawDescriptionHelpFormatter)
    parser.add_argument("program", type=shlex.split)
    parser.add_argument("--count", type=int, default=400)
    parser.add_argument("--seed", default="1")
    parser.add_argument("--workers", type=numbers, default=(1, 4))
    parser.add_argument("--options", choices=LEVELS, default=LEVEL)
    parser.add_argument("--big", action="store_true")
    parser.add_argument("--jobs", type=int, default=1)
    parser.add_argument("--timeout", type=float, default=120)
    parser.add_argument("--show", type=int, default=20, help="cases that are printed at most")
    return parser.parse_args(words)


def main(words):
    """The command; gives the exit status."""
    call = read_call(words)
    raise_to(call.options)
    plan = Plan(tuple(call.program), call.seed, BIG if call.big else call.options, call.workers, call.timeout)
    results = compare(plan, call.count, call.jobs)
    differing = [result for result in results if result.differences]
    for result in differing[:call.show]:
        print_result(result)
    print("%d runs of %d cases, seed %s, options %s" % (
        sum(result.runs for result in results), len(results), plan.seed, plan.level))
    print("%d passed, %d failed" % (len(results) - len(differing), len(differing)))
    return 1 if differing or not results else 0


if __name__ == "__main__":
    sys.exit(main(sys.argv[1:]))
