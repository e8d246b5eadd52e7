"""What the worked rows share: scripts, ways to run them, and texts.

A script is written on one line, with ` ; ` in place of each line feed.
"""

import io
import re
import unittest
from unittest import mock

from .. import command_line, level
from ..answer import answer
from ..changes import apply
from ..closed_sets import ids_of
from ..disk import formatted
from ..explore import explore
from ..plan import plan
from ..random_cases.world import operation_of_line
from ..refusals import Refusal, Refused
from ..second_way import decide
from ..settings import Settings
from ..verdicts import each_fault

CREATE = "start ; create /a"
CREATE_WRITE = "start ; create /a ; write /a"
CREATE_LINK = "start ; create /a ; link /a /b"
CREATE_IN_DIRECTORY = "mkdir /a ; start ; create /a/a ; link /a/a /b"
CREATE_BESIDE = "mkdir /d ; start ; create /a"
TWO_CREATES = "start ; create /a ; create /b"
MKDIR = "start ; mkdir /d"
WRITE = "create /a ; start ; write /a"
RENAME = "create /a ; start ; rename /a /b"
RENAME_IN = "create /a ; start ; mkdir /d ; rename /a /d/a"
RENAME_OUT = "mkdir /d ; create /d/a ; start ; rename /d/a /a ; rmdir /d"
RENAME_MKDIR = "create /a ; start ; rename /a /b ; mkdir /d"
LINK_UNLINK = "create /a ; start ; link /a /b ; unlink /a"
LINK_WRITE_UNLINK = "create /a ; write /a ; mkdir /d ; start ; link /a /b ; write /a ; unlink /a"
UNLINK_CREATE = "create /a ; start ; unlink /a ; create /b"
BLOCK_REUSE = "create /a ; write /a ; create /b ; start ; unlink /a ; write /b"
DIRECTORY_REUSE = "mkdir /d ; create /d/x ; create /f ; start ; unlink /d/x ; rmdir /d ; write /f"
FIVE_OPERATIONS = "start ; mkdir /d ; create /a ; write /a ; rename /a /d/b ; unlink /d/b"
EMPTY_GROUP = "start ; group A ; end ; depend B A ; group B ; create /b"
EIGHT_NAMES = " ; ".join(["create /a"] + ["link /a /%s" % name for name in "bcdefgh"] + ["start"])
POOL = "create /a ; start ; link /a /b ; unlink /a ; write /a"
POOL_OF_SIX = POOL + " ; mkdir /d ; rename /a /d/a ; rmdir /d"
POOL_OF_WRITES = "start ; create /a ; write /a ; unlink /a"
POOL_OF_CREATES = "start ; create /a ; unlink /a ; create /b"

TEN_CREATES = ["start"] + ["create /" + name for name in "abcdefghij"]
TWO_WRITES = " ; ".join(TEN_CREATES + ["write /a", "write /b"])
FIVE_WRITES = " ; ".join(TEN_CREATES + ["write /" + name for name in "abcde"])
TEN_WRITES = " ; ".join(TEN_CREATES + ["write /" + name for name in "abcdefghij"])
MOST_PATCHES = " ; ".join(["mkdir /z", "start"] + ["create /" + name for name in "abcdefghi"]
                          + ["create /z/" + name for name in "abcde"]
                          + ["write /" + name for name in "abcdefgh" for _ in range(4)])

META = dict(module="meta", blocks=24, journal=12)
META_WORDS = "--module meta --blocks 24 --journal 12"
FULL = dict(module="full", blocks=24, journal=12)
FULL_WORDS = "--module full --blocks 24 --journal 12"

EMPTY_REPORT = "module async\npatches 0\nclosed 1\nfailing 0\n"
DANGLING = "1 dangling entry: directory 0 entry 0 inode 1"
LOW = "4 low link count: inode 1 entries 2 links 1"
UNWRITTEN = "3 unwritten pointer: inode 1 slot 0 block 5"
MARKED_FREE = "5 used block marked free: inode 1 slot 0 block 5"
LOST = "fault 7 lost inode: inode 1"
BARE = "fault 8 directory without a block: inode 1"


def script_of(rows):
    """The bytes of a script, with a line feed at the end."""
    return (rows.replace(" ; ", "\n") + "\n").encode()


def toggles(count):
    """A script that adds and takes away a second name of a file, in this number of lines."""
    operations = ["link /a /b", "unlink /b"]
    return " ; ".join(["create /a", "start"] + [operations[k % 2] for k in range(count)])


def settings(module="async", **others):
    """Settings, without ordering where no module is named."""
    return Settings(module=module, **others)


def run(rows, **chosen):
    """(report, status), or (line on standard error, 2)."""
    script = rows if isinstance(rows, bytes) else script_of(rows)
    try:
        text, failing = answer(script, settings(**chosen))
    except Refusal as refusal:
        return refusal.printed(), 2
    return text, 1 if failing else 0


def refused(line):
    """What `run` gives for a refusal."""
    return line, 2


def parts(rows, **chosen):
    """The parts of an answer."""
    return explore(script_of(rows), settings(**chosen))


def counts(rows, **chosen):
    """The numbers of patches, of closed sets and of failing sets."""
    found = parts(rows, **chosen)
    return len(found.patches), len(found.closed), len(found.failing)


def failing_ids(found):
    """The failing sets as lists of patches."""
    return [ids_of(one.patch_set) for one in found.failing]


def by_commits_held(found):
    """How many closed sets have none of the commits, one, two, and so on."""
    commits = [k for k, patch in enumerate(found.patches) if patch.part == "Commit"]
    totals = [0] * (len(commits) + 1)
    for patch_set in found.closed:
        totals[sum(patch_set >> k & 1 for k in commits)] += 1
    return totals


def program(words, script):
    """(standard output, standard error, status) of the program."""
    out, err = io.BytesIO(), io.BytesIO()
    status = command_line.program(words, io.BytesIO(script), out, err)
    return out.getvalue().decode(), err.getvalue().decode(), status


def answered(rows, *words):
    """(standard output, status) of the program, with words as on a command line."""
    out, _, status = program(" ".join(words).split(), script_of(rows))
    return out, status


def decided(rows, *words):
    """As `answered`, by the second way."""
    out, err = io.BytesIO(), io.BytesIO()
    status = command_line.program(" ".join(words).split(), io.BytesIO(script_of(rows)), out, err, decide.answer)
    return out.getvalue().decode(), status


class Rows(unittest.TestCase):
    """Rows with whole reports, which are written with their lines indented."""

    def answers(self, rows, words, status, text):
        """The program answers a script and the words with this report and status."""
        self.assertEqual(answered(rows, words), (unindented(text), status))

    def decides(self, rows, words, status, text):
        """As `answers`, by the second way."""
        self.assertEqual(decided(rows, words), (unindented(text), status))


def unindented(text):
    """The lines of a text without the spaces around them."""
    return lines(*(row.strip() for row in text.strip().split("\n")))


def first_numbers(rows, **chosen):
    """Each fault with its number of sets and the first of them, by enumeration."""
    found = explore(script_of(rows), settings(decide=True, **chosen))
    return [(text, len(some), some[0].patch_set) for text, some in each_fault(found.failing)]


def second_numbers(rows, **chosen):
    """As `first_numbers`, by the second way."""
    return decide.numbers_of(script_of(rows), settings(decide=True, **chosen))


def numbers_of(rows, **chosen):
    """The numbers of sets of all faults, by the second way."""
    return [sets for _, sets, _ in second_numbers(rows, **chosen)]


def lines(*rows):
    """Lines of text."""
    return "".join(row + "\n" for row in rows)


def whole(text):
    """A text with the hexadecimal digits of whole blocks, where `~` stands for the zeros at the end of a block."""
    return re.sub(r"(?<![0-9a-f])([0-9a-f]*)~", lambda found: found[1].ljust(256, "0"), text)


def blocks_of(text):
    """The head of a report by faults, and its faults."""
    return re.split(r"(?m)^(?=fault )", text)


def with_line(text, line, new):
    """The text with a new line after the first one that is `line`."""
    return text.replace(line + "\n", line + "\n" + new + "\n", 1)


def reuse_report():
    """The report of directory block reuse under the metadata journal, and its first set and fault."""
    text = run(DIRECTORY_REUSE, **META)[0]
    return (text, *re.match(r"(.*?)fault (.*?)\n", text.split("failing 48\n")[1], re.S).groups())


def planned(image, line):
    """The plan of a line as (block, offset, bytes), or the number of the refusal."""
    try:
        return [(change.block, change.offset, change.new) for change in plan(image, operation_of_line(line))]
    except Refused as refusal:
        return refusal.number


def step(image, line):
    """As `planned`; what is not refused is done."""
    got = planned(image, line)
    if isinstance(got, list):
        apply(image, plan(image, operation_of_line(line)))
    return got


def padded(text, length):
    """Bytes in hexadecimal, filled up with zeros."""
    return bytes.fromhex(text).ljust(length, b"\0")


def image_with(journal, *puts):
    """A formatted disk of 16 blocks with other bytes in some places."""
    image = formatted(16, journal)
    for block, offset, data in puts:
        image.put(block, offset, data)
    return image


def unbuild(image, patches, patch_set):
    """Puts the bytes back that the patches of a set wrote over, from the last patch to the first."""
    for k in reversed(ids_of(patch_set)):
        image.put(patches[k].block, patches[k].offset, patches[k].undo)


def patch_row(found, k):
    """The place, the bytes and the dependencies of a patch."""
    patch = found.patches[k]
    return patch.block, patch.offset, patch.new, ids_of(patch.deps)


class LateRows(Rows):
    """Rows about lines and options that crashmap is to have."""

    def setUp(self):
        patch = mock.patch.object(level, "LEVEL", level.LEVELS[-1])
        patch.start()
        self.addCleanup(patch.stop)

    def check_counts(self, table, words, *more):
        """Each script has these numbers of closed and of failing sets."""
        for rows, wanted in table.items():
            with self.subTest(rows + " " + words):
                self.assertEqual(closed_and_failing(rows, words, *more), wanted)

    def check_refusals(self, table, *words):
        """Each line on standard error, without its first word, comes for these scripts."""
        for error, scripts in table.items():
            for rows in scripts:
                with self.subTest(rows):
                    self.assertEqual(program(list(words), script_of(rows)), ("", "crashmap: %s\n" % error, 2))


def with_number(word, text):
    """The number behind a word that begins a line."""
    return int(re.search(r"(?m)^%s (\d+)$" % word, text)[1])


def closed_and_failing(rows, *words):
    """The numbers of closed and of failing sets of a script."""
    text, _ = answered(rows, *words)
    return with_number("closed", text), with_number("failing", text)


def first_failing(rows, *words):
    """The first failing set as a report has it, or None."""
    found = re.search(r"(?m)^set(.*)$", answered(rows, *words)[0])
    return None if found is None else found[1].strip()


def lines_of(text, *first_words):
    """The lines of a text that begin with one of these words."""
    return [line for line in text.split("\n") if line.split(" ")[0] in first_words]


def enough_of(rows, *words):
    """The lines of a report on what is enough that say so."""
    return lines_of(answered(rows, "--enough", *words)[0], "enough", "rules", "syncs", "needs", "fault", "set")
