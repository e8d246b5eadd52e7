"""Whether a recorded script keeps its promise: the smallest crash that breaks it, and the waits that it needs."""

import dataclasses
import re
import subprocess

from reference.refusals import Refusal
from reference.second_way import decide
from reference.settings import Settings
from tests.program import ROOT, program

MODULES = ("async", "soft", "meta", "full")
GEOMETRY = re.compile(r"# crashmap: --blocks (\d+) --journal (\d+)\n")
WAITS = re.compile(r"(?:fsync .*|sync)")
PATCH = re.compile(r"patch \d+ line (\d+) (.*): (\w+) .*")


@dataclasses.dataclass(frozen=True)
class Crash:
    """A crash that breaks the promise: what the path shows, and which of its patches each line has on the disk.

    `lines` has for each line of the script that has a patch there its text, the roles of these patches, and how many
    patches the line has in all.
    """
    shows: str
    lines: tuple

    def left(self):
        """What is left of the file, in a word."""
        if self.shows == "nothing":
            return "gone"
        return "empty" if self.shows == "file" else "torn"

    def size(self):
        return sum(len(roles) for _, roles, _ in self.lines)


def report(text, ordering, *question):
    """The program's report of `--explain` on a script and a question, `--decide` if none is named, or `refused: ` and
    why. The ordering is a module, which options can follow: `meta --without Commit:FileData`. Where no program is built
    the launcher compiles one."""
    blocks, journal = GEOMETRY.match(text).groups()
    words = f"--module {ordering} --blocks {blocks} --journal {journal} --faults 10 --explain".split()
    built = program().resolve() if program().exists() else ROOT / "crashmap"
    run = subprocess.run([built, *words, *(question or ["--decide"])], input=text.encode(), check=False,
                         capture_output=True)
    if run.returncode not in (0, 1, 2):
        raise RuntimeError(f"{built} ended with status {run.returncode}: {run.stderr.decode()}")
    return run.stdout.decode() if run.returncode < 2 else f"refused: {run.stderr.decode().splitlines()[-1]}"


def reference_report(text, ordering):
    """What the reference's second way answers in its place."""
    blocks, journal = GEOMETRY.match(text).groups()
    module, *options = ordering.split(" ")
    without = tuple(rule for option, rule in zip(options[::2], options[1::2]) if option == "--without")
    try:
        return decide.answer(text.encode(), Settings(module=module, blocks=int(blocks), journal=int(journal),
                                                     without=without, explain=True, decide=True, counted=(10,)))[0]
    except Refusal as refusal:
        return f"refused: {refusal.printed()}"


def crash_of(found):
    """The first crash of a report, or None where no promise is broken."""
    patches = [match.groups() for match in map(PATCH.fullmatch, found.splitlines()) if match]
    broken = re.search(r"^fault 10 .*\nshows (.*)\nset ?(.*)$", found, re.MULTILINE)
    if broken is None:
        return None
    held, lines = [int(it) for it in broken[2].split()], []
    for line, text in dict((line, text) for line, text, _ in patches).items():
        roles = tuple(patches[it][2] for it in held if patches[it][0] == line)
        if roles:
            lines.append((text, roles, sum(it[0] == line for it in patches)))
    return Crash(broken[1], tuple(lines))


def judge(text, ordering, answer=report):
    """A `Crash`, None where the promise is kept, or the text of a refusal."""
    found = answer(text, ordering)
    return found.removeprefix("refused: ") if found.startswith("refused: ") else crash_of(found)


def waits_of(text):
    """The lines of a script that wait, by their places among its lines."""
    lines = text.split("\n")
    return [at for at, line in enumerate(lines) if WAITS.fullmatch(line)]


def needed(text, ordering):
    """The first of the smallest sets of waits that are enough, None where all are not, or the text of a refusal."""
    found = report(text, ordering, "--enough", "--syncs")
    if found.startswith("refused: "):
        return found.removeprefix("refused: ")
    enough = re.search(r"^syncs(.*)$", found, re.MULTILINE)
    return enough and [int(it) - 1 for it in enough[1].split()]
