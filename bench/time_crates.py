"""Measures what each crate weighs: lines, functions, and seconds of the processors.

    time_crates.py [COMMAND..]                       times a command, or else `rt ci`, and prints a line for each crate
    time_crates.py --keep STATE [COMMAND..]          also keeps the seconds in bench/weights/STATE.json
    time_crates.py --take STATE [--of FOLDER] LOG..  keeps the lines that earlier runs printed
    time_crates.py --page                            writes docs/WEIGHT.md of the states `begin` and `end`

It looks twice a second at the processes below the command. A process that starts and ends between two looks is missed.
Of each crate it tells apart the seconds of its proof, of its tests (their proof and all runs of programs) and of its
wrong bodies. The output and the exit status are the command's.

Not everything has to be run at once: what a run did not prove or try stays as an earlier run of the state kept it.
Lines and functions are those of the checkout, or of FOLDER. Run it at the top of the repository. Not part of the gate.
"""

import argparse
import os
import pathlib
import re
import resource
import subprocess
import sys
import threading
import time

import weights

TICKS = os.sysconf("SC_CLK_TCK")
LINE = re.compile(r"time: (\w+): ([\d.]+) seconds of proof, ([\d.]+) of tests, ([\d.]+) of wrong bodies")
LINE_IN_MINUTES = re.compile(r"time: (\w+): ([\d.]+) minutes of processor time, ([\d.]+) of them on edits")
"""What an earlier form of this command printed: tests are part of the first number there."""
PROVED = re.compile(r"^(?:crashmap: proved (\w+),|rt: (\w+) proved)", re.MULTILINE)
"""What a run says of a crate that it has proved. What it was at when it was cut off has no such line."""


def read(path):
    """Returns a file's text, or nothing where it cannot be read, as when its process has ended."""
    try:
        with open(path, "rb") as it:
            return it.read().decode(errors="replace")
    except OSError:
        return ""


def crate_of(words):
    """Returns the crate that a process with these words works on, or None."""
    if "--crate-name" in words[:-1]:
        return words[words.index("--crate-name") + 1]
    for word in words[:4]:
        found = re.search(r"/(?:crates|bin)/(\w+?)(?:_tests)?(?:/|$)", word)
        if found and os.path.isdir(f"crates/{found[1]}"):
            return found[1]
    return None


def kind_of(process, words):
    """Returns what a process does for its crate: `edits` in a copy that rt made to try wrong bodies, `tests` where it
    proves tests or is no prover, and else `proof`."""
    try:
        if "/rt-edit-" in os.readlink(f"/proc/{process}/cwd") + "/":
            return "edits"
    except OSError:
        pass
    is_prover = os.path.basename(words[0]) == "rattle"
    return "proof" if is_prover and "--test" not in words else "tests"


def processes():
    """Returns the parent, the time of start and the seconds used so far of each process, by its number."""
    found = {}
    for name in os.listdir("/proc"):
        fields = read(f"/proc/{name}/stat").rpartition(")")[2].split() if name.isdigit() else []
        if len(fields) > 19:
            found[int(name)] = int(fields[1]), fields[19], (int(fields[11]) + int(fields[12])) / TICKS
    return found


def is_below(process, top, found):
    """Returns whether a process was started by another, or by one that it started."""
    while process in found and process != top:
        process = found[process][0]
    return process == top


class Clock(threading.Thread):
    """Looks twice a second at what runs below a process, and keeps what each of these processes used so far."""

    def __init__(self, top):
        super().__init__(daemon=True)
        self.top, self.used, self.works, self.spans = top, {}, {}, {}

    def run(self):
        last = time.monotonic()
        while True:
            time.sleep(0.5)
            now = time.monotonic()
            for crate in self.look():
                self.spans[crate] = self.spans.get(crate, 0) + now - last
            last = now

    def work_of(self, process, above):
        """Returns the crate that a process works on and what it does for it, or those of the process above it."""
        words = read(f"/proc/{process}/cmdline").split("\0")
        crate = crate_of(words)
        return (crate, kind_of(process, words)) if crate else self.works.get(above, (None, "other"))

    def look(self):
        """Returns the crates that something works on."""
        found, busy = processes(), set()
        for process, (parent, start, seconds) in found.items():
            if is_below(process, self.top, found):
                # A number can be used again, so the time of start belongs to it. A process can become another program.
                key, above = (process, start), (parent, found.get(parent, (0, None))[1])
                if self.works.get(key, (None, "other"))[0] is None:
                    self.works[key] = self.work_of(process, above)
                self.used[key] = seconds
                busy.add(self.works[key][0])
        return busy

    def seconds(self):
        """Returns the seconds of each crate by what they went into; those of no crate are under None."""
        sums = {}
        for key, seconds in self.used.copy().items():
            crate, kind = self.works[key]
            of_crate = sums.setdefault(crate, dict.fromkeys(weights.KINDS, 0))
            of_crate[kind] = of_crate.get(kind, 0) + seconds
        return sums


def timed(command):
    """Runs a command, prints what each crate took, and returns the seconds and the command's exit status."""
    began = time.monotonic()
    with subprocess.Popen(command) as process:
        clock = Clock(process.pid)
        clock.start()
    seconds = clock.seconds()
    for crate, it in sorted(seconds.items(), key=lambda item: -sum(item[1].values())):
        span = clock.spans.get(crate, 0) / 60
        if crate:
            print(f"time: {crate}: {it['proof']:.0f} seconds of proof, {it['tests']:.0f} of tests,"
                  f" {it['edits']:.0f} of wrong bodies, {span:.1f} minutes by the clock")
    used = resource.getrusage(resource.RUSAGE_CHILDREN)
    whole, span = (used.ru_utime + used.ru_stime) / 60, (time.monotonic() - began) / 60
    print(f"time: in all: {whole:.1f} minutes of processor time, {span:.1f} by the clock")
    return {crate: it for crate, it in seconds.items() if crate}, process.returncode


def printed(text):
    """Returns the seconds of each crate by the lines that a run printed, of those that it has proved if it says so."""
    seconds = {crate: dict(zip(weights.KINDS, map(float, numbers))) for crate, *numbers in LINE.findall(text)}
    for crate, whole, edits in LINE_IN_MINUTES.findall(text):
        seconds[crate] = {"proof": 60 * (float(whole) - float(edits)), "edits": 60 * float(edits)}
    proved = {crate for names in PROVED.findall(text) for crate in names if crate}
    return {crate: it for crate, it in seconds.items() if crate in proved} if proved else seconds


def asked_for(words):
    """Returns what the words ask for."""
    parser = argparse.ArgumentParser(description=__doc__, formatter_class=argparse.RawDescriptionHelpFormatter)
    parser.add_argument("--keep", metavar="STATE", help="keep what the command takes")
    parser.add_argument("--take", metavar="STATE", help="keep what runs printed into files")
    parser.add_argument("--page", action="store_true", help="write docs/WEIGHT.md")
    parser.add_argument("--of", metavar="FOLDER", default=".", type=pathlib.Path, help="the checkout that was timed")
    parser.add_argument("words", nargs=argparse.REMAINDER, help="the command, or the files")
    return parser.parse_args(words)


def main(words):
    asked = asked_for(words)
    if asked.page:
        weights.write_page()
        return 0
    if asked.take:
        for log in asked.words:
            weights.keep(asked.take, asked.of, printed(pathlib.Path(log).read_text(errors="replace")))
        return 0
    seconds, status = timed(asked.words or ["rt", "ci"])
    if asked.keep:
        weights.keep(asked.keep, asked.of, seconds)
    return status


if __name__ == "__main__":
    sys.exit(main(sys.argv[1:]))
