"""A call of the program, how it ended, and what the program says when it is asked more."""

import dataclasses
import enum
import functools
import json
import re
import shlex
import subprocess

DEFAULTS = {"--module": "soft", "--blocks": "16", "--journal": "0", "--limit": "4096"}
"""What the program takes for an option that is not given."""

DISK = ("--blocks", "--journal", "--generations")
ORDERING = ("--module", "--with", "--without", "--whole-blocks")

CHEAP = ("--decide", "--faults=7")
"""A question about all closed sets that is answered at once: without --strict no set has fault 7."""

REFUSAL = re.compile(r"(?:^|\x1b\[K)crashmap: (?:line (\d+): )?(\d+) [^\n]*\n\Z", re.MULTILINE)


class Number(enum.IntEnum):
    """The numbers of refusals that have hints."""

    BAD_GEOMETRY = 1
    TOO_MANY_PATCHES = 2
    NOT_FOUND = 10
    NOT_A_DIRECTORY = 11
    EXISTS = 12
    NOT_A_FILE = 13
    NOT_EMPTY = 14
    NO_INODE = 15
    NO_BLOCK = 16
    DIRECTORY_FULL = 17
    FILE_FULL = 18
    LINKS_FULL = 19
    JOURNAL_FULL = 20
    GROUP_FAULT = 21
    ONLY_AFTER_START = 22
    TOO_MANY_SYNCS = 23
    TOO_MANY_SETS = 30
    NOT_UTF8 = 40
    BAD_LINE = 41
    BAD_PATH = 42
    NO_START = 43
    CANNOT_READ = 50
    CANNOT_WRITE = 51
    TOO_LONG = 52


@dataclasses.dataclass(frozen=True)
class Refusal:
    """The number of a refusal, and the line of the script that is refused, if one is."""

    number: int
    line: int | None


class Unanswered(Exception):
    """The program did not answer when it was asked more, so nothing can be said."""


def refusal_in(said):
    """Returns the refusal with which the program's standard error ends, or None if it has none."""
    found = REFUSAL.search(said)
    return found and Refusal(int(found[2]), found[1] and int(found[1]))


class Options:
    """Options of the program, each in one word with its value."""

    def __init__(self, words):
        self.words = words

    def __contains__(self, name):
        return bool(self.of(name))

    def of(self, *names):
        """Returns the words of the options with these names."""
        return [word for word in self.words if word.partition("=")[0] in names]

    def but(self, *names):
        """Returns the words of all options but these."""
        return [word for word in self.words if word.partition("=")[0] not in names]

    def values(self, name):
        """Returns each value that the option is given."""
        return [word.partition("=")[2] for word in self.of(name)]

    def value(self, name):
        """Returns the value of the option, or else its default."""
        return next(iter(self.values(name)), DEFAULTS.get(name))

    def number(self, name):
        """Returns the value of an option that takes a number."""
        return int(self.value(name))


@dataclasses.dataclass
class Call:
    """A call of the program with these options on a script, and how it ended.

    `script` is the script's text, a letter for each byte, or None if it was not read; `reason` then says why the system
    did not read it. `report` is what standard output got if the answer is no list of failing sets, and `said` what
    standard error got.
    """

    program: str
    options: Options
    name: str | None
    script: str | None = None
    reason: OSError | None = None
    status: int = 0
    report: str = ""
    said: str = ""

    @property
    def refusal(self):
        return refusal_in(self.said) if self.status == 2 else None

    @property
    def lines(self):
        """The lines of the script."""
        return (self.script or "").split("\n")

    def line(self, number):
        """Returns the line of this number, from 1, or nothing if the script has fewer lines."""
        return self.lines[number - 1] if number <= len(self.lines) else ""

    def ask(self, words, script=""):
        """Runs the program with these words on a script."""
        return subprocess.run([self.program, *words], input=script, capture_output=True, check=False,
                              encoding="latin-1")

    def refusal_on(self, blocks, journal):
        """Returns the refusal of the script on a disk of this size, or None if all its lines are taken."""
        words = self.options.of("--generations", *ORDERING)
        return refusal_in(self.ask([*words, f"--blocks={blocks}", f"--journal={journal}", "--limit=1"],
                                   self.script).stderr)

    def explain(self, script, *words):
        """Returns what a report says of the patches of a script."""
        run = self.ask([*words, *CHEAP, "--explain", "--json"], script)
        if run.returncode != 0:
            raise Unanswered(run.stderr)
        return json.loads(run.stdout)

    @functools.cached_property
    def explained(self):
        """What a report says of the patches of this script."""
        return self.explain(self.script, *self.options.of(*DISK, *ORDERING))

    def command(self, *words):
        """Returns the words `crashmap` and these, with the name of the script, as a person writes them."""
        parts = [part for word in words for part in word.split("=", 1)]
        return shlex.join(["crashmap", *parts, *([self.name] if self.name else [])])
