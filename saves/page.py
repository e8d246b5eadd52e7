"""Makes docs/SAVES.md from the scripts in this folder: `python3 -m saves.page [--write]`.

Without --write it says whether the page is as it should be. The last line is `N passed, M failed`.
"""

import collections
import concurrent.futures
import dataclasses
import pathlib
import re
import sys

from judge.systems import systems
from saves.judge import judge, needed, waits_of
from saves.programs import PROGRAMS

FOLDER = pathlib.Path(__file__).resolve().parent
PAGE = FOLDER.parent / "docs" / "SAVES.md"
# Which of a program's scripts is recorded with these words.
SUFFIXES = {(): "", ("--delay",): ".delay", ("--delay-as-ext4",): ".ext4"}
# The ordering of each file system, in the words behind --module, and the scripts that have to keep the promise.
COLUMNS = {name: (" ".join(it.options[1:]), tuple(SUFFIXES[words] for words in it.recordings))
           for name, it in systems().items()}

HEAD = """# How programs save

Here is what {count} commands of Debian 12 do to a file that they save, recorded by `./crashmap-record`, and what a
crash can leave of it. The question is the same for all: does a crash leave the old contents, the new ones, or a
complete backup or journal of the program, whenever it comes? A column is a file system of
[judge/file-systems.toml](../judge/file-systems.toml):

{systems}

A cell says *kept*, or what the smallest crash leaves of the file, and how many patches that crash has on the disk.
*gone*: no file has that name. *empty*: the file has no block. *torn*: the file has some of its blocks, or old and new
ones together, or a block that was never written.

`python3 -m saves.page --write` makes this page from the scripts in [saves](../saves). `python3 -m saves.record` records
the programs again, and other versions of them may do other things. [RECORDING.md](RECORDING.md) says how a recording is
made, and [JUDGING.md](JUDGING.md) how to ask the same of a program of your own. The verdicts are those of crashmap:
`./crashmap saves/sed.script --module soft --decide --faults 10` gives that of **ffs**. Where a file system may allocate
blocks late, each of two scripts has to keep the promise: `saves/sed.script`, and `saves/sed.delay.script` or
`saves/sed.ext4.script`. The suite makes the verdicts again, and compares each with the reference program. A verdict is
about crashmap's model; JUDGING.md has what the model leaves out of each file system.
"""

NOTES = """
## What stands out

- **A file that is cut to nothing and written again** (ed, nano, a shell's `>`, cp, sort, tee, dd, python's
  `open(.., 'w')`) is lost on every file system if the crash comes in between, and no fsync helps.
- **A new file that is renamed over the old one** (sed, perl, patch, rsync, `mv`) is kept without an fsync by **ext3**,
  **ext4** and **journal** alone. On **ffs**, **xfs** and **writeback** it can be empty or torn. One fsync of the new
  file, before the rename, mends that on all of them. **ext4** is safe since it writes a file out that is renamed onto
  another one. It does not do so where the old file is deleted first.
- **Several writes into one block** (git, emacs with `file-precious-flag`): the first of them can be on the disk early,
  and then the others write over a block that is there already. A journal of metadata does not wait for such data. So on
  **ext3** and **ext4**, too, the renamed file can have a part of its contents. The fsync mends that as well.
- **A backup** (vim, nano -B, emacs) keeps the file too, if it is complete before the file is changed. vim needs one
  fsync on **ffs**: that of the new file, before it deletes the backup.
- **sqlite's journal** stands in for the database. A promise about the database file alone would be broken, since the
  file is torn while sqlite writes it, and sqlite puts it in order from the journal when it opens it again. So the
  script says `spare /f /fjournal`: the file may be torn as long as the complete journal is there. sqlite keeps this
  promise on every file system. It needs two of its waits for that, the one for the journal and the one for the
  database. The others serve what this promise does not ask, which is that a commit stays once sqlite has reported it.
  With `synchronous=off` the database can be torn.

In the sections below, *needs* has a smallest set of waits that is enough, out of those that the program makes. A dash
stands where all of them together are not enough. Nothing is said of file systems that may allocate blocks late, since
there a wait also decides when they are allocated.
"""


@dataclasses.dataclass(frozen=True)
class Found:
    """A file system's verdict on a program, and the waits that are enough: None where nothing is asked about them."""
    verdict: object
    waits: object = None


# A line feed that neither ends a paragraph nor begins an item of a list.
WRAPPED = re.compile(r"(?<!\n)\n *(?![\n#-]|$)")


def text_of(program, suffix=""):
    """The recorded script, or None where there is none."""
    place = FOLDER / f"{program.name}{suffix}.script"
    return place.read_text() if place.exists() else None


def found_of(program):
    """What is found of a program on each file system."""
    answers = {}

    def verdict_of(suffix, ordering):
        if (suffix, ordering) not in answers:
            answers[suffix, ordering] = judge(text_of(program, suffix), ordering)
        return answers[suffix, ordering]

    found = {}
    for column, (ordering, suffixes) in COLUMNS.items():
        verdict = next(filter(None, (verdict_of(it, ordering) for it in suffixes)), None)
        is_asked = verdict is None and len(suffixes) == 1
        found[column] = Found(verdict, waits_that_are_enough(text_of(program), ordering) if is_asked else None)
    return found


def waits_that_are_enough(text, ordering):
    """The lines of a smallest set of waits, or the text of a refusal."""
    waits = needed(text, ordering)
    return [text.split("\n")[it] for it in waits] if isinstance(waits, list) else waits


def cell(verdict):
    if verdict is None:
        return "kept"
    return "does not fit" if isinstance(verdict, str) else f"**{verdict.left()}** ({verdict.size()})"


def crash_words(verdict):
    """The crash in words: which patches of which lines are on the disk."""
    told = []
    for text, roles, whole in verdict.lines:
        parts = [role if count == 1 else f"{count} {role}" for role, count in collections.Counter(roles).items()]
        told.append(f"all of `{text}`" if len(roles) == whole else f"{', '.join(parts)} of `{text}`")
    return "; ".join(told) or "nothing of the command"


def waits_words(waits):
    return waits if isinstance(waits, str) else ", ".join(f"`{it}`" for it in waits) or "none"


def needs_words(found, column):
    """What a program needs of its waits on a file system."""
    if found.verdict is not None:
        return "-"
    return "" if len(COLUMNS[column][1]) > 1 else waits_words(found.waits)


def section(program, found):
    """The part of the page that is about a program."""
    text = text_of(program)
    waits = [text.split("\n")[it] for it in waits_of(text)]
    yield f"## {program.name}\n"
    yield (f"{program.about} ([script](../saves/{program.name}.script)). "
           f"Waits: {waits_words(waits)}.\n")
    yield "| file system | verdict | the smallest crash has on the disk | needs |"
    yield "|---|---|---|---|"
    for column, it in found.items():
        crash = it.verdict if isinstance(it.verdict, str) else "" if it.verdict is None else crash_words(it.verdict)
        yield f"| {column} | {cell(it.verdict)} | {crash} | {needs_words(it, column) if waits else ''} |"
    yield ""


def systems_words():
    """A list of the file systems."""
    return "\n".join(f"- **{it.name}**: {it.title} ({', '.join(it.mounts)})" for it in systems().values())


def page():
    """The text of docs/SAVES.md."""
    programs = [it for it in PROGRAMS if text_of(it)]
    with concurrent.futures.ProcessPoolExecutor() as pool:
        found = list(pool.map(found_of, programs))
    head = WRAPPED.sub(" ", HEAD).format(count=len(programs), systems=systems_words())
    lines = [head, f"| command | {' | '.join(COLUMNS)} |", "|---" * (len(COLUMNS) + 1) + "|"]
    for program, verdicts in zip(programs, found):
        cells = " | ".join(cell(verdicts[column].verdict) for column in COLUMNS)
        lines.append(f"| [{program.name}](#{program.name}) | {cells} |")
    lines.append(WRAPPED.sub(" ", NOTES))
    for program, verdicts in zip(programs, found):
        lines += section(program, verdicts)
    return "\n".join(lines).rstrip("\n") + "\n"


def main(words):
    judge(text_of(PROGRAMS[0]), "soft")  # Where no program is built the launcher compiles one, once.
    made = page()
    if words == ["--write"]:
        PAGE.write_text(made)
    is_same = PAGE.exists() and PAGE.read_text() == made
    if not is_same:
        print("docs/SAVES.md is not what `python3 -m saves.page --write` makes")
    print(f"{int(is_same)} passed, {int(not is_same)} failed")
    return 0 if is_same else 1


if __name__ == "__main__":
    sys.exit(main(sys.argv[1:]))
