"""The rows of crates.txt for a program, and the place where a program is kept once it is built."""

import os
import re
import shutil
import signal
import sys


def say(text):
    print(f"crashmap: {text}", file=sys.stderr, flush=True)


def rows_of(top, program):
    """Returns the rows of crates.txt for a program and all that it needs in the repository, by name, libraries
    first."""
    lines = (top / "crates.txt").read_text().splitlines(keepends=True)
    rows = {re.match(r"\w+", line)[0]: line for line in lines if line[:1].isalpha()}
    found = {}

    def visit(name):
        for library in rows[name].partition(":")[2].split():
            if library in rows and library not in found:
                visit(library)
        found[name] = rows[name]

    visit(program)
    return found


class Build:
    """A build of a program that has begun. What changes of its sources from here on makes it old.

    The kind is `proved` or `unproved`. Only a program that was built whole takes the place of an earlier one.
    """

    def __init__(self, top, program, kind):
        self.rows = rows_of(top, program)
        self.place = top / "out" / kind / program
        # Under names of its own until the program is there, so that two builds do not disturb each other.
        self.begun = self.place.with_name(f"{program}.begun.{os.getpid()}")
        self.begun.parent.mkdir(parents=True, exist_ok=True)
        self.begun.write_text("".join(self.rows.values()))

    def __enter__(self):
        return self

    def __exit__(self, *_):
        self.begun.unlink(missing_ok=True)

    def keep(self, program):
        """Keeps the program in this file."""
        copy = self.place.with_name(f"{self.place.name}.new.{os.getpid()}")
        shutil.copy(program, copy)
        os.replace(copy, self.place)
        os.replace(self.begun, self.place.with_name(f"{self.place.name}.built"))


def end_by_signals():
    """Ends this process in order, with its folders removed, where a signal asks for its end."""
    for number in (signal.SIGINT, signal.SIGTERM):
        signal.signal(number, lambda number, _: sys.exit(128 + number))
