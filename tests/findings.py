"""findings.py [--all] [--write]: makes the findings of docs/FINDINGS.md again, and compares.

With --write it puts what differs into the page. A new command can be written there without its output, and a new row
of a table without its last cells.

A command is in a block of its own, after `$ ./crashmap`, and its whole output follows. A block marked `slow` runs
with --all alone. A table has comments before it, each with the words of searches that all give this table, and a row
for each rule: the shortest search that finds more failing workloads without the rule than with it, the first failing
workload and its fault. A table of whole operations has a row for each search: its ordering, its length, how many
workloads it tries, how many fail, and the first of these that leaves an operation half done. Searches of more than two operations there run with --all
alone. Other tables have a row for each script and a column for each module: how many of its sets
fail, or which of its lines have to wait. It says how long each command and each table took. The last line is
`N passed, M failed`.
"""

import pathlib
import re
import shlex
import subprocess
import sys
import time
from collections import namedtuple

if __name__ == "__main__":
    sys.path.insert(0, str(pathlib.Path(__file__).resolve().parent.parent))

from tests.program import ROOT, program

FINDINGS = ROOT / "docs" / "FINDINGS.md"
BLOCK = re.compile(r"^```console( slow)?\n\$ \./crashmap ([^\n]*)\n(.*?)^```$", re.MULTILINE | re.DOTALL)
TABLE = re.compile(r"^((?:<!-- searches: .* -->\n)+)\|.*\n\|.*\n((?:\|.*\n)+)", re.MULTILINE)
SEARCHES = re.compile(r"<!-- searches: (.*) -->")
SCRIPTS = re.compile(r"^<!-- (broken|syncs): (.*) -->\n\|[^|\n]*\|(.*)\|\n\|.*\n((?:\|.*\n)+)", re.MULTILINE)

WHOLE = re.compile(r"^((?:<!-- whole: .* -->\n)+)\|.*\n\|.*\n((?:\|.*\n)+)", re.MULTILINE)
WHOLE_WORDS = re.compile(r"<!-- whole: (.*) -->")
MOST_QUICK = 2
"""The most operations of a search for whole operations that does not take long."""

Finding = namedtuple("Finding", "words wanted make is_slow")
"""The words of a command or of a table's searches, what the document has, what makes it again, and whether that
takes long."""


def printed_by(words):
    """What the program prints."""
    run = subprocess.run([program().resolve(), *words], stdin=subprocess.DEVNULL, capture_output=True, text=True,
                         cwd=ROOT, check=False)
    return run.stdout + run.stderr


def value(name, report):
    """What follows the name on the report's first line that begins with it."""
    return re.search(rf"^{name} (.*)$", report, re.MULTILINE)[1]


def first_workload(report):
    """The steps of the first workload that a report shows, or `none`."""
    steps = re.findall(r"^step (.*)$", report.split("\nset ")[0], re.MULTILINE)
    return " ; ".join(f"`{step}`" for step in steps) or "none"


def first_shown(words, rule, most=3):
    """The cells of a rule's row."""
    for operations in range(1, most + 1):
        search = [*words, "--search", str(operations)]
        report = printed_by([*search, "--without", rule])
        if int(value("failing", report)) > int(value("failing", printed_by(search))):
            fault = value("kind", report).partition(" ")[2]
            return "%d | %s | %s" % (operations, first_workload(report), fault)
    return "none | | |"


def table_made(words, rows):
    """The table with its rows made again."""
    rules = re.findall(r"^\| `([^`]*)` \|", rows, re.MULTILINE)
    made = ["| `%s` | %s" % (rule, first_shown(words, rule)) for rule in rules]
    return "".join(row + ("\n" if row.endswith("|") else " |\n") for row in made)


def whole_row(words, ordering, operations):
    """The row of a search for operations that a crash leaves half done."""
    report = printed_by([*words, *shlex.split(ordering), "--search", operations, "--atomic"])
    counts = f"{value('workloads', report)} | {value('failing', report)}"
    half_done = first_workload(report.partition("\nkind 9 ")[2])
    return f"| `{ordering}` | {operations} | {counts} | {half_done} |\n"


def whole_findings(text):
    """The rows of the tables of whole operations, each for each of the table's comments."""
    for comments, rows in WHOLE.findall(text):
        for words in map(shlex.split, WHOLE_WORDS.findall(comments)):
            for row, ordering, operations in re.findall(r"^(\| `([^`]*)` \| (\d) \|.*\n)", rows, re.MULTILINE):
                yield Finding(words, row, lambda given, it=(ordering, operations): whole_row(given, *it),
                              int(operations) > MOST_QUICK)


def ids_words(line):
    """A set of ids in braces, with three or more in a row as the first and the last."""
    ids, runs = [int(word) for word in line.split()[1:]], []
    for one in ids:
        if runs and runs[-1][-1] == one - 1:
            runs[-1].append(one)
        else:
            runs.append([one])
    parts = [f"{run[0]} to {run[-1]}" if len(run) > 2 else ",".join(map(str, run)) for run in runs]
    return "{%s}" % ",".join(parts)


def lines_words(line, word):
    """The numbers of lines behind the first word, with a word between."""
    return f" {word} ".join(line.split()[1:])


def waiting_lines(words):
    """Which lines have to wait: none, or each set that is enough with the crashes that come without its lines, or that
    the script fails whatever waits, and its first crash."""
    report = printed_by([*words, "--enough", "--syncs"])
    sets = [ids_words(line) for line in re.findall(r"^set.*$", report, re.MULTILINE)]
    enough = [lines_words(line, "and") for line in re.findall(r"^syncs.*$", report, re.MULTILINE)]
    if not enough:
        return f"lost: {sets[0]}"
    needs = [lines_words(line, "or") for line in re.findall(r"^needs.*$", report, re.MULTILINE)]
    without = "; ".join(f"without {lines} {ids}" for lines, ids in zip(needs, sets))
    return f"{' or '.join(enough)}; {without}" if needs else "none"


def failing_sets(words):
    """How many sets of a script fail, and of how many."""
    report = printed_by(words)
    return f"{value('failing', report)} of {value('closed', report)}"


CELLS = {"broken": failing_sets, "syncs": waiting_lines}


def scripts_made(cell, words, modules, rows):
    """A table with a row for each script, and with its cells made again."""
    made = ""
    for first, script in re.findall(r"^(\| \[[^]]*\]\(\.\./([^)]*)\) \|)", rows, re.MULTILINE):
        cells = [cell([script, *words, "--module", module]) for module in modules]
        made += f"{first} {' | '.join(cells)} |\n"
    return made


def findings():
    """The commands and tables of the document."""
    text = FINDINGS.read_text()
    commands = [Finding(shlex.split(words), output, printed_by, bool(slow))
                for slow, words, output in BLOCK.findall(text)]
    tables = [Finding(shlex.split(words), rows, lambda given, kept=rows: table_made(given, kept), False)
              for comments, rows in TABLE.findall(text) for words in SEARCHES.findall(comments)]
    scripts = []
    for kind, words, modules, rows in SCRIPTS.findall(text):
        names, cell = re.findall(r"`([a-z]+)`", modules), CELLS[kind]
        scripts.append(Finding(shlex.split(words), rows,
                               lambda given, cell=cell, names=names, kept=rows: scripts_made(cell, given, names, kept),
                               False))
    return commands + tables + [*whole_findings(text)] + scripts


def write(finding, made):
    """Puts what is made in the place of what the page has. A command stands before its output."""
    command = f"$ ./crashmap {shlex.join(finding.words)}\n" if finding.make is printed_by else ""
    text = FINDINGS.read_text()
    if text.count(command + finding.wanted) != 1:
        print("not written: the page does not have this once, or had another answer for it before")
        return
    FINDINGS.write_text(text.replace(command + finding.wanted, command + made))


def main(words):
    """The command; gives the exit status."""
    right = []
    for finding in findings():
        if finding.is_slow and "--all" not in words:
            continue
        start = time.monotonic()
        made = finding.make(finding.words)
        right.append(made == finding.wanted)
        seconds = time.monotonic() - start
        print("%-6s %6.2f s  %s" % ("right" if right[-1] else "WRONG", seconds, shlex.join(finding.words)))
        if not right[-1]:
            print(made)
            if "--write" in words:
                write(finding, made)
    print("%d passed, %d failed" % (right.count(True), right.count(False)))
    return 0 if right and all(right) else 1


if __name__ == "__main__":
    sys.exit(main(sys.argv[1:]))
