"""python3 -m reference.noise.feed PROGRAM [--count N] [--seed S] [--jobs J] [--timeout SECONDS]

Feeds a program scripts that are no scripts: random bytes, cut and spliced scripts, long lines and long names. Each run
must end with what the reference answers. Prints each difference, how often each answer came, and a last line
`N passed, M failed`. PROGRAM may have several words, quoted as for a shell.
"""

import argparse
import collections
import concurrent.futures
import functools
import re
import shlex
import sys

from ..runs import differences, run_program, run_reference
from .feed_scripts import case_of

REFUSAL = re.compile(rb"crashmap: (?:line [0-9]+: )?([0-9]+) [A-Za-z0-9 -]+\n")


def shape_faults(run):
    """What is wrong with an answer, whatever the script was."""
    if run is None or run.status in (0, 1):
        return ["a report with an empty output or with an error"] if run and (not run.out or run.err) else []
    if run.status != 2:
        return ["status %d" % run.status]
    is_refusal = not run.out and REFUSAL.fullmatch(run.err) is not None
    return [] if is_refusal else ["neither a report nor one named refusal: %r" % run.err[:200]]


def run_case(call, index):
    """The kind of a case, its answer in a word, and what is wrong with the answer."""
    kind, words, script = case_of(call.seed, index)
    got = run_program(call.program, words, script, call.timeout)
    wanted = run_reference(words, script)
    refusal = REFUSAL.fullmatch(wanted.err)
    answer = "refusal " + refusal[1].decode() if refusal else "report"
    return kind + ": " + answer, shape_faults(got) + differences(got, wanted)


def read_call(words):
    """The program's words and the options."""
    parser = argparse.ArgumentParser(prog="python3 -m reference.noise.feed", description=__doc__,
                                     formatter_class=argparse.RawDescriptionHelpFormatter)
    parser.add_argument("program", type=shlex.split)
    parser.add_argument("--count", type=int, default=1000)
    parser.add_argument("--seed", default="1")
    parser.add_argument("--jobs", type=int, default=1)
    parser.add_argument("--timeout", type=float, default=120)
    return parser.parse_args(words)


def main(words):
    """The command; gives the exit status."""
    call = read_call(words)
    answers, failed = collections.Counter(), 0
    with concurrent.futures.ProcessPoolExecutor(call.jobs) as pool:
        results = pool.map(functools.partial(run_case, call), range(call.count), chunksize=20)
        for index, (answer, found) in enumerate(results):
            answers[answer] += 1
            failed += bool(found)
            for difference in found:
                print("case %d (%s): %s" % (index, answer, difference))
    for answer in sorted(answers):
        print("%6d  %s" % (answers[answer], answer))
    print("%d passed, %d failed" % (call.count - failed, failed))
    return 1 if failed or not call.count else 0


if __name__ == "__main__":
    sys.exit(main(sys.argv[1:]))
