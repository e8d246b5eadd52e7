"""Runs the parts of the gate, one after the other, and adds up what they say of themselves.

`gate.py PART..`: each part is a command line, whose output is passed on. The last line of its standard output must be
'N passed, M failed', and its exit status 0. A part that cannot be started, is cut off, prints nothing, ends in another
line or with another status, or tries nothing, counts as one failure at least. The last line here is the sum of all
parts, 'N passed, M failed', and the exit status is 0 only where M is 0.
"""

import re
import shlex
import subprocess
import sys

COUNTS = re.compile(r"(\d+) passed, (\d+) failed")


def counts_of(line, status):
    """Returns how many tests a part passed and failed, by its last line and its exit status, and what is wrong with
    these two."""
    found = COUNTS.fullmatch(line)
    if not found:
        return 0, 1, f"its last line is {line[:100]!r}, not 'N passed, M failed', and its status {status}"
    passed, failed = int(found[1]), int(found[2])
    if status and not failed:
        return passed, 1, f"it ended with status {status}"
    if not passed and not failed:
        return 0, 1, "it tried nothing"
    return passed, failed, None


def output_of(part):
    """Runs a part, passes its output on, and returns the last line that is not empty, and its exit status."""
    last = ""
    with subprocess.Popen(shlex.split(part), stdout=subprocess.PIPE, errors="replace") as process:
        for line in process.stdout:
            print(line, end="", flush=True)
            last = line.strip() or last
    return last, process.returncode


def run(part):
    """Runs a part, says what is wrong with it, and returns how many tests it passed and failed."""
    try:
        passed, failed, wrong = counts_of(*output_of(part))
    except (OSError, ValueError, IndexError) as error:
        passed, failed, wrong = 0, 1, f"it cannot be started: {error}"
    if wrong:
        print(f"gate: {part}: {wrong}", flush=True)
    return passed, failed


def main(parts):
    counts = [run(part) for part in parts] or [(0, 1)]
    passed, failed = sum(count[0] for count in counts), sum(count[1] for count in counts)
    print(f"{passed} passed, {failed} failed")
    return 1 if failed else 0


if __name__ == "__main__":
    sys.exit(main(sys.argv[1:]))
