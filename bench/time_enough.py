"""Times which rules are enough for big random scripts: `time_enough.py FOLDER COUNT SEED ROUNDS PROGRAM`.

`enough.sh` says what is timed and calls this. Scripts are written to FOLDER.
"""

import os
import re
import sys
from collections import namedtuple

from bench.time_decisions import make_script, milliseconds, printed, spread

KINDS = ("soft updates", "a metadata journal", "a full journal")
"""The kinds of scripts whose rules are asked for."""

Timed = namedtuple("Timed", "patches closed enough milliseconds")
"""The numbers of patches, of closed sets and of minimal sets of rules, and the shortest run."""


def time_script(program, script, rounds):
    """The time of a script. The command ends where there is no report."""
    words = [program, script.path, *script.words, "--enough", "--strict"]
    report = printed(os.path.dirname(script.path), words, os.environ)
    numbers = re.search(r"^patches (\d+)\nclosed (\d+)\nenough (\d+)$", report, re.M)
    if numbers is None:
        sys.exit("%s: the program makes no report" % script.path)
    shortest = min(milliseconds(words, os.environ) for _ in range(rounds))
    return Timed(*map(int, numbers.groups()), shortest)


def print_times(name, some):
    """Prints the times of some scripts."""
    power = [len(str(one.closed)) - 1 for one in some]
    print("%s: %d scripts, %d to %d patches, 10^%d to 10^%d closed sets, %d with rules that are enough" % (
        name, len(some), min(one.patches for one in some), max(one.patches for one in some), min(power), max(power),
        sum(1 for one in some if one.enough)))
    print("  one worker: median %.1f ms, 99 of 100 within %.1f ms, the worst %.1f ms" % spread(
        [one.milliseconds for one in some]))


def main(folder, count, seed, rounds, program):
    """Times all kinds and prints a table."""
    print("load before: %.2f" % os.getloadavg()[0])
    for kind in KINDS:
        print_times(kind, [time_script(program, make_script(folder, seed, kind, k), int(rounds))
                           for k in range(int(count))])
    print("load after: %.2f" % os.getloadavg()[0])


if __name__ == "__main__":
    main(*sys.argv[1:])
