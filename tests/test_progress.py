"""The line that shows how far a run is comes on a terminal alone."""

import re
import subprocess
import unittest

from tests.program import ROOT, needs_a_proved_program, program
from tests.terminal import on_terminal

# A file is written, and then one is created whose entry does not wait for its inode; eight more are written, three of
# them twice. A seventh of its sets fail.
LONG = b"".join(b"create /%c\n" % name for name in b"abcdefghi") + b"start\n"
LONG += b"group A\nwrite /a\nend\ndepend B A\ngroup B\ncreate /j\nend\n"
LONG += b"".join(b"write /%c\n" % name for name in b"bcdefghibcd")
REPORT = (b"module soft\nwithout EntrySet:InodeInit\npatches 38\nclosed 29360128\n"
          b"fault 1 dangling entry: directory 0 entry 9 inode 10\nset 0 1 2 4\n"
          b"write block 1: 0\nwrite block 5: 1\nwrite block 2: 2\nwrite block 4: 4\n")
WORDS = ("--blocks", "64", "--decide", "--without", "EntrySet:InodeInit", "--workers")

# Ten files are created and seven of them written: no set fails, and a visit to each would take a minute.
SAFE = b"start\n" + b"".join(b"create /%c\n" % name for name in b"abcdefghij")
SAFE += b"".join(b"write /%c\n" % name for name in b"abcdefg")
SAFE_REPORT = b"module soft\npatches 41\nclosed 526153617\n"
SAFE_WORDS = ("--blocks", "64", "--decide")

# A script with 32,209 closed sets, about as many as a limit can be.
WIDE = ROOT / "bench" / "scripts" / "wide-without-ordering.script"
WIDE_WORDS = ("--module", "async", "--limit", "32768", "--strict", "--atomic", "--workers", "1")

# Under a full journal no workload fails.
POOL = ROOT / "pools" / "all-operations-on-a-file-and-directory.script"
SEARCH_WORDS = ("--module", "full", "--blocks", "48", "--journal", "24", "--workers", "1", "--search")

WIPED = b"\r\x1b[K"
WORKLOADS = re.compile(rb"([0-9]+) workloads judged, ([0-9]+) failing")


ENOUGH = 1.5
"""How many seconds a run takes at least in which the line appears, after one second."""


def a_long_search():
    """Searches a pool on a terminal, by four operations, or by more until a search takes long enough for the line.
    Returns the number of operations and what the run did."""
    for operations in range(4, 9):
        run = on_terminal([program(), *SEARCH_WORDS, str(operations)], POOL.read_bytes())
        if run.seconds > ENOUGH:
            break
    return operations, run


class Progress(unittest.TestCase):
    def test_a_decision_and_no_terminal(self):
        run = subprocess.run([program(), *WORDS, "2"], input=LONG, capture_output=True, check=False)
        self.assertEqual((run.returncode, run.stdout, run.stderr), (1, REPORT, b""))

    def test_a_decision_on_a_terminal(self):
        run = on_terminal([program(), *WORDS, "2"], LONG)
        self.assertEqual((run.status, run.output, run.terminal), (1, REPORT, b""), "no set is visited")

    @needs_a_proved_program()
    def test_many_sets_on_a_terminal(self):
        run = on_terminal([program(), *WIDE_WORDS], WIDE.read_bytes())
        self.assertEqual((run.status, run.output[:13], run.terminal), (1, b"module async\n", b""))

    @needs_a_proved_program()
    def test_a_long_search_and_no_terminal(self):
        run = subprocess.run([program(), *SEARCH_WORDS, "4"], input=POOL.read_bytes(), capture_output=True, check=False)
        self.assertEqual((run.returncode, run.stdout[:21], run.stderr), (0, b"module full\nsearch 4\n", b""))

    @needs_a_proved_program()
    def test_a_long_search_on_a_terminal(self):
        operations, run = a_long_search()
        self.assertEqual((run.status, run.output[:21]), (0, b"module full\nsearch %d\n" % operations))
        before, *shown, after = run.terminal.split(WIPED)
        self.assertEqual((before, after), (b"", b""), "the line is gone at the end")
        self.assertTrue(shown, "the search took more than a second")
        self.assertLessEqual(len(shown), 4 * (run.seconds - 1) + 1, "at most four lines a second, after the first")
        workloads = int(re.search(rb"^workloads ([0-9]+)$", run.output, re.MULTILINE)[1])
        lines = [WORKLOADS.fullmatch(line) for line in shown]
        self.assertTrue(all(lines), shown[:3])
        judged = [int(line[1]) for line in lines]
        self.assertEqual(judged, sorted(judged))
        self.assertLessEqual(judged[-1], workloads)
        self.assertEqual({int(line[2]) for line in lines}, {0})

    def test_a_safe_script_on_a_terminal(self):
        run = on_terminal([program(), *SAFE_WORDS], SAFE)
        self.assertEqual((run.status, run.output, run.terminal), (0, SAFE_REPORT, b""), "no set is visited")

    def test_a_short_run_on_a_terminal(self):
        run = on_terminal([program()], b"start\ncreate /a\n")
        self.assertEqual((run.status, run.output[:12], run.terminal), (0, b"module soft\n", b""))

    def test_a_refusal_on_a_terminal(self):
        run = on_terminal([program(), *SAFE_WORDS], SAFE.replace(b"start\n", b"start\nnothing\n"))
        self.assertEqual((run.status, run.output), (2, b""))
        self.assertTrue(run.terminal.startswith(b"crashmap: line 2: "), run.terminal)


if __name__ == "__main__":
    unittest.main()
