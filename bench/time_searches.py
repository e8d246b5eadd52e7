"""Times searches of pools: `time_searches.py FOLDER ROUNDS PROGRAM all|save`.

`search.sh` says what is timed and calls this. Pools that are made here are written to FOLDER.
"""

import pathlib
import re
import resource
import subprocess
import sys
import time
from collections import namedtuple

POOL = "pools/all-operations-on-a-file-and-directory.script"
"""The pool that is searched by one worker and by four."""

SOFT = ("--blocks", "24", "--strict")
JOURNAL = ("--blocks", "48", "--journal", "24", "--module")

SEARCHES = [("soft updates, strict", 3, SOFT), ("soft updates, strict", 4, SOFT),
            ("a metadata journal", 3, (*JOURNAL, "meta")), ("a metadata journal", 4, (*JOURNAL, "meta")),
            ("a full journal", 3, (*JOURNAL, "full")), ("a full journal", 4, (*JOURNAL, "full"))]
"""Each: the ordering, the most operations of a workload, and the words."""

BASE = ["create /a", "write /a", "start"]

STEPS = [*(act + name for act in ("create", "write", "overwrite", "truncate", "unlink") for name in (" /a", " /t")),
         "link /a /t", "link /t /a", "replace /a /t", "replace /t /a"]
"""What the steps of a save may be, but for those that wait."""

SAVE = [*BASE, "keep /a", *STEPS, "fsync /a", "fsync /t"]
"""The pool of a save, with a promise and two lines that wait."""

PLAIN = [*BASE, *STEPS, "rename /a /t", "rename /t /a"]
"""As many operations, with renames in place of the lines that wait, and no promise."""

BIG_JOURNAL = ("--blocks", "64", "--journal", "40", "--module")

ORDERINGS = [("soft updates", ("--blocks", "24")), ("a metadata journal", (*BIG_JOURNAL, "meta")),
             ("a full journal", (*BIG_JOURNAL, "full"))]
"""Each ordering that both pools are searched under, and the words."""

Spent = namedtuple("Spent", "clock processor")
"""The seconds that a run takes by the clock, and those of processors."""


def processor_seconds():
    """The processor time of all processes that this one has started and that have ended."""
    used = resource.getrusage(resource.RUSAGE_CHILDREN)
    return used.ru_utime + used.ru_stime


def timed(words):
    """The report of a run, and what it takes."""
    start, used = time.monotonic(), processor_seconds()
    run = subprocess.run(words, stdout=subprocess.PIPE, text=True, check=False)
    if run.returncode not in (0, 1):
        sys.exit("%s: the program makes no report" % words)
    return run.stdout, Spent(time.monotonic() - start, processor_seconds() - used)


def best(program, search, workers, rounds):
    """The report and the shortest time of a search."""
    _, operations, words = search
    words = [program, POOL, *words, "--search", str(operations), "--workers", str(workers)]
    runs = [timed(words) for _ in range(rounds)]
    return runs[0][0], min(spent.clock for _, spent in runs)


def counts(report):
    """How many workloads a search has, and how many of them fail."""
    return tuple(int(re.search(rf"^{name} (\d+)$", report, re.M)[1]) for name in ("workloads", "failing"))


def print_search(program, search, rounds):
    """Prints how long a search takes."""
    report, one = best(program, search, 1, rounds)
    four = best(program, search, 4, rounds)[1]
    print("%s, %d operations: %d workloads, %d fail" % (*search[:2], *counts(report)))
    print("  one worker %.2f s, four %.2f s, %.1f times as fast" % (one, four, one / four))


def median(values):
    """The value in the middle."""
    return sorted(values)[len(values) // 2]


def write_pool(folder, name, lines):
    """Writes a pool and gives its path."""
    path = pathlib.Path(folder, name + ".script")
    path.write_text("".join(line + "\n" for line in lines))
    return str(path)


def print_save(program, pools, ordering, rounds):
    """Prints how much longer the search of the save takes than that of as many operations without promises."""
    name, words = ordering
    runs = [[timed([program, pool, *words, "--search", "4", "--workers", "1"]) for pool in pools]
            for _ in range(rounds)]
    save, plain = (counts(report) for report, _ in runs[0])
    ours, others = ([turn[which][1] for turn in runs] for which in (0, 1))
    longer = median([one.processor for one in ours]) / median([one.processor for one in others])
    print("a save, %s, 4 operations: %d workloads, %d fail; without promises %d workloads, %d fail" % (
        name, *save, *plain))
    for kind in Spent._fields:
        print("  %s: %.3f s, without promises %.3f s" % (
            kind, *(median([getattr(one, kind) for one in some]) for some in (ours, others))))
    print("  %.2f times the processor time, %.2f times for each workload" % (longer, longer * plain[0] / save[0]))


def main(folder, rounds, program, which):
    """Prints some lines for each search."""
    for search in SEARCHES if which == "all" else ():
        print_search(program, search, rounds)
    pools = [write_pool(folder, "save", SAVE), write_pool(folder, "plain", PLAIN)]
    for ordering in ORDERINGS:
        print_save(program, pools, ordering, rounds)


if __name__ == "__main__":
    main(sys.argv[1], int(sys.argv[2]), *sys.argv[3:])
