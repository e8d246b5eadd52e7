"""Times decisions of big random scripts: `time_decisions.py FOLDER COUNT SEED ROUNDS PROMISES PROGRAM [TRIAL]`.

`decide.sh` says what is timed and calls this. Scripts are written to FOLDER. TRIAL is the trial in Rust.
"""

import fcntl
import os
import pathlib
import re
import sys
import time
from collections import namedtuple

from reference.random_cases.big import BLOCKS, big_script
from reference.random_cases.make import chance_of
from reference.random_cases.promise_lines import worlds_before
from reference.random_cases.world import World
from reference.rules import MODULE_RULES

KINDS = {"no ordering": ("async", False), "soft updates": ("soft", False), "a metadata journal": ("meta", False),
         "a full journal": ("full", False), "soft updates without rules": ("soft", True),
         "a metadata journal without rules": ("meta", True)}
"""The kinds of scripts: the module, and whether all its rules are taken out."""

FIVE_WRITES = ["start"] + ["create /" + name for name in "abcdefghij"] + ["write /" + name for name in "abcde"]

Script = namedtuple("Script", "kind path words promised", defaults=(None,))
"""A script on the disk, the words that program and trial both know, and the path of the same script with promises."""

Spent = namedtuple("Spent", "clock processor")
"""The milliseconds that a run takes by the clock, and those of processors."""

Timed = namedtuple("Timed", "script ours trial promised patches closed broken")
"""What the shortest runs of a script take, without promises, by the trial and with promises, its numbers of patches and
closed sets, and how many promises are broken."""

PIPE_BYTES = 4096


class Programs:
    """The program and the trial, and how they are called."""

    def __init__(self, program, trial, rounds):
        self.program, self.trial, self.rounds = program, trial, rounds
        self.plain = {name: value for name, value in os.environ.items() if name != "GLIBC_TUNABLES"}

    def ours(self, script, workers):
        """The words and the environment of a run of the program."""
        words = [self.program, script.path, *script.words, "--decide", "--strict", "--workers", str(workers)]
        return words, os.environ

    def promised(self, script):
        """The same for the script with promises, by one worker."""
        return self.ours(script._replace(path=script.promised), 1)

    def theirs(self, script):
        """The words and the environment of a run of the trial."""
        return [self.trial, script.path, *script.words, "--strict", "--what", "core"], self.plain


def start(words, environment, output):
    """Starts a process that writes to this open file."""
    actions = [(os.POSIX_SPAWN_DUP2, output, 1)]
    return os.posix_spawn(words[0], words, environment, file_actions=actions)


def spent(words, environment):
    """What a run takes."""
    with open(os.devnull, "wb") as nothing:
        before = time.perf_counter()
        _, _, used = os.wait4(start(words, environment, nothing.fileno()), 0)
    return Spent((time.perf_counter() - before) * 1000, (used.ru_utime + used.ru_stime) * 1000)


def milliseconds(words, environment):
    """How long a run takes by the clock."""
    return spent(words, environment).clock


def shortest(runs):
    """The least of each kind of time, or None if there is no run."""
    return Spent(*map(min, zip(*runs))) if runs else None


def printed(folder, words, environment):
    """What a run prints."""
    path = pathlib.Path(folder, "printed")
    with open(path, "wb") as file:
        os.waitpid(start(words, environment, file.fileno()), 0)
    return path.read_text()


def held(process):
    """Whether a process sleeps, and the most KiB that it has held."""
    fields = dict(line.split(":", 1) for line in pathlib.Path(f"/proc/{process}/status").read_text().splitlines())
    return fields["State"].strip()[0] in "SZ", int(fields.get("VmHWM", "0 kB").split()[0])


def most_memory(words, environment):
    """The most KiB that a run holds. It writes into a pipe that is full already, so that it can be looked at when its
    report is made and it waits."""
    reading, writing = os.pipe()
    fcntl.fcntl(writing, fcntl.F_SETPIPE_SZ, PIPE_BYTES)
    os.write(writing, bytes(PIPE_BYTES))
    process = start(words, environment, writing)
    os.close(writing)
    calm, most = 0, 0
    while calm < 20:
        time.sleep(0.001)
        sleeps, now = held(process)
        calm, most = calm + 1 if sleeps else 0, max(most, now)
    with open(reading, "rb") as pipe:
        pipe.read()
    os.waitpid(process, 0)
    return most


def write_script(folder, name, lines):
    """Writes a script and gives its path."""
    path = pathlib.Path(folder, name + ".script")
    path.write_text("".join(line + "\n" for line in lines))
    return str(path)


def promise(chance, there):
    """A line that promises: one path or two that are there, or one that is not."""
    paths = there or ["/q"]
    return "%s %s" % chance.choice([("keep", chance.choice(paths)), ("hold", chance.choice(paths)),
                                    ("keep", " ".join(chance.choice(paths) for _ in range(2)))])


def with_promises(chance, world, base, traced, count):
    """The traced lines with some that promise, each before one of them."""
    places = [chance.randrange(len(traced)) for _ in range(count)]
    return [line for at, (own, before) in enumerate(zip(traced, worlds_before(world, base, traced)))
            for line in [promise(chance, before.paths()) for _ in range(places.count(at))] + [own]]


def make_script(folder, seed, kind, index, promises=0):
    """A script of a kind, and where promises are asked for also one with so many."""
    module, without = KINDS[kind]
    journal, base, traced = big_script(chance_of(seed, index, "bench", kind), module)
    name = "%s-%d" % (kind.replace(" ", "-"), index)
    path, promised = write_script(folder, name, base + ["start"] + traced), None
    if promises:
        chance = chance_of(seed, index, "bench", kind, "promises")
        traced = with_promises(chance, World(chance, BLOCKS, journal), base, traced, promises)
        promised = write_script(folder, name + "-promised", base + ["start"] + traced)
    words = ["--module", module, "--blocks", str(BLOCKS), "--journal", str(journal)]
    words += [word for rule in MODULE_RULES[module] * without for word in ("--without", rule)]
    return Script(kind, path, words, promised)


def faults_of(report):
    """The faults with their first sets."""
    return set(re.findall(r"^fault (.*)\nset ?(.*)$", report, re.M))


def time_script(programs, folder, script):
    """The times of a script. The command ends where there is no report, and where the trial answers otherwise."""
    report = printed(folder, *programs.ours(script, 1))
    numbers = re.search(r"^patches (\d+)\nclosed (\d+)$", report, re.M)
    if numbers is None:
        sys.exit("%s: the program makes no report" % script.path)
    if programs.trial and faults_of(report) != faults_of(printed(folder, *programs.theirs(script))):
        sys.exit("%s: the trial answers otherwise" % script.path)
    ours, theirs, promised = [], [], []
    for _ in range(programs.rounds):
        ours.append(spent(*programs.ours(script, 1)))
        theirs += [spent(*programs.theirs(script))] if programs.trial else []
        promised += [spent(*programs.promised(script))] if script.promised else []
    broken = printed(folder, *programs.promised(script)).count("broken promise") if script.promised else 0
    return Timed(script, *map(shortest, (ours, theirs, promised)), int(numbers[1]), int(numbers[2]), broken)


def at(share, values):
    """The value below which this share of the values is."""
    values = sorted(values)
    return values[min(len(values) - 1, int(share * len(values)))]


def spread(values):
    """The median, the 99th percentile and the worst."""
    return at(0.5, values), at(0.99, values), max(values)


def print_times(name, some):
    """Prints the times of some scripts."""
    power = [len(str(one.closed)) - 1 for one in some]
    print("%s: %d scripts, %d to %d patches, 10^%d to 10^%d closed sets" % (
        name, len(some), min(one.patches for one in some), max(one.patches for one in some), min(power), max(power)))
    ours = spread([one.ours.clock for one in some])
    print("  one worker: median %.1f ms, 99 of 100 within %.1f ms, the worst %.1f ms" % ours)
    if some[0].trial is not None:
        theirs = spread([one.trial.clock for one in some])
        print("  the trial:  median %.1f ms, 99 of 100 within %.1f ms, the worst %.1f ms" % theirs)
        print("  the program takes %.1f, %.1f and %.1f times as long" % ratios(ours, theirs))
    if some[0].promised is not None:
        print_promised(some)


def ratios(these, others):
    """How often each of the others is one of these."""
    return tuple(one / other for one, other in zip(these, others))


def print_promised(some):
    """Prints the times of some scripts with promises, and how much longer that is than without."""
    print("  with promises, of which %d are broken:" % sum(one.broken for one in some))
    for kind in Spent._fields:
        plain, promised = (spread([getattr(one, kind) for one in times]) for times in (
            [each.ours for each in some], [each.promised for each in some]))
        print("    %s: median %.1f ms, 99 of 100 within %.1f ms, the worst %.1f ms" % (kind, *promised))
        print("    that is %.2f, %.2f and %.2f times as long" % ratios(promised, plain))


def print_workers(programs, timed):
    """Prints how much faster four workers are on the slowest tenth, and the most memory there."""
    slowest = sorted(timed, key=lambda one: one.ours.clock)[-max(1, len(timed) // 10):]
    one = sum(each.ours.clock for each in slowest)
    four = sum(min(milliseconds(*programs.ours(each.script, 4)) for _ in range(programs.rounds)) for each in slowest)
    print("the slowest tenth: one worker %.1f ms in all, four workers %.1f ms, %.2f times as fast" % (
        one, four, one / four))
    for workers, name in ((1, "one worker holds"), (4, "four workers hold")):
        most = max(most_memory(*programs.ours(each.script, workers)) for each in slowest)
        print("  %s %.1f MB at most" % (name, most / 1024))


def print_creates(programs, folder):
    """Prints what ten creates with five writes take longer than a script without operations."""
    words = ["--module", "soft"]
    scripts = [Script("", write_script(folder, name, lines), words)
               for name, lines in (("five-writes", FIVE_WRITES), ("nothing", ["start"]))]
    times = [min(milliseconds(*programs.ours(script, 1)) for _ in range(20)) for script in scripts]
    print("ten creates with five writes: %.2f ms, which is %.2f ms longer than a run of nothing" % (
        times[0], times[0] - times[1]))


def main(folder, count, seed, rounds, promises, program, trial=None):
    """Times all kinds and prints a table."""
    programs = Programs(program, trial, int(rounds))
    print("load before: %.2f" % os.getloadavg()[0])
    timed = []
    for kind in KINDS:
        some = [time_script(programs, folder, make_script(folder, seed, kind, k, int(promises)))
                for k in range(int(count))]
        print_times(kind, some)
        timed += some
    print_times("all", timed)
    print_workers(programs, timed)
    print_creates(programs, folder)
    print("load after: %.2f" % os.getloadavg()[0])


if __name__ == "__main__":
    main(*sys.argv[1:])
