"""`--enough --syncs`: which lines that wait are enough."""

from .support import LateRows, answered, enough_of

SAVE = "create /a ; write /a ; start ; keep /a ; create /t ; write /t ; fsync /t ; replace /t /a ; fsync /a ; keep /a"
TWO_FILES = "start ; create /a ; fsync /a ; create /b ; fsync /b"
JOURNAL = "--blocks 24 --journal 14 --module "


class WhichSyncs(LateRows):
    """The smallest sets of lines, and what comes without each that is needed."""

    def test_a_save(self):
        for words, enough in (("--module soft", ["enough 1", "syncs 7 9", "needs 7", "needs 9"]),
                              ("--module soft --whole-blocks", ["enough 1", "syncs 9", "needs 9"]),
                              (JOURNAL + "meta", ["enough 1", "syncs 9", "needs 9"]),
                              (JOURNAL + "full", ["enough 1", "syncs 9", "needs 9"])):
            found = enough_of(SAVE, "--syncs", words)
            self.assertEqual([line for line in found if line.split(" ")[0] not in ("fault", "set")], enough, words)
        self.assertEqual(enough_of(SAVE, "--syncs --module async"), [
            "enough 0", "fault 1 dangling entry: directory 0 entry 0 inode 1", "set 0 1 2 3 4 9"])

    def test_json(self):
        self.assertEqual(answered(SAVE, "--enough --syncs --json"), (
            '{"closed":"19","enough":[[7,9]],"module":"soft","needs":[{"fault":"10 broken promise: line 4","set":'
            '[0,5,6],"syncs":[7],"writes":[{"block":2,"patches":[0,5]},{"block":4,"patches":[6]}]},{"fault":"10 broken '
            'promise: line 10","set":[0,1,2,3,4],"syncs":[9],"writes":[{"block":2,"patches":[0]},{"block":4,"patches":'
            '[1]},{"block":1,"patches":[2]},{"block":6,"patches":[3]},{"block":2,"patches":[4]}]}],"patches":11}\n', 0))

    def test_one_of_two(self):
        self.answers("create /a ; write /a ; start ; keep /a ; create /t ; write /t ; fsync /t ; sync ; fsync / ; "
                     "replace /t /a", "--enough --syncs", 0, """
            module soft
            patches 11
            closed 19
            enough 2
            syncs 7
            syncs 8
            needs 7 8
            fault 10 broken promise: line 4
            set 0 1 5 6
            write block 2: 0
            write block 4: 1
            write block 2: 5
            write block 4: 6""")

    def test_promises_of_lines_that_do_not_wait(self):
        self.answers(TWO_FILES, "--durable --enough --syncs", 0, """
            module soft
            durable
            patches 4
            closed 5
            enough 1
            syncs 3 5
            needs 3
            fault 10 broken promise: line 3
            set
            needs 5
            fault 10 broken promise: line 5
            set 0 1
            write block 2: 0
            write block 4: 1""")

    def test_what_is_explained(self):
        text = answered(TWO_FILES, "--durable --enough --syncs --explain")[0]
        self.assertEqual(text[text.index("wait line 3"):].split("\n")[:-1], [
            "wait line 3 fsync /a: 0 1", "wait line 5 fsync /b: 1 2 3", "promise line 3 hold /a", "after 0 1",
            "shows file", "promise line 5 hold /b", "after 0 1 2 3", "shows file", "enough 1", "syncs 3 5", "needs 3",
            "fault 10 broken promise: line 3", "shows nothing", "set", "needs 5", "fault 10 broken promise: line 5",
            "shows nothing", "set 0 1", "write block 2: 0", "write block 4: 1"])

    def test_nothing_need_wait(self):
        self.assertEqual(answered("start", "--enough --syncs --json"), (
            '{"closed":"1","enough":[[]],"module":"soft","needs":[],"patches":0}\n', 0))
        bare = "create /a ; write /a ; start ; keep /a ; create /t ; write /t ; replace /t /a"
        self.assertEqual(enough_of(bare, "--syncs", JOURNAL + "meta"), ["enough 1", "syncs"])

    def test_too_many_lines(self):
        syncs = "start ; " + "sync ; " * 64
        self.answers(syncs + "create /a", "--enough --syncs", 0, """
            module soft
            patches 2
            closed 3
            enough 1
            syncs""")
        self.check_refusals({
            "line 66: 23 too many syncs": [syncs + "sync ; create /a", syncs + "fsync / ; create /a",
                                           syncs + "sync ; create /q/r"],
            "line 66: 10 not found": [syncs + "fsync /q ; create /a"],
            "line 68: 41 bad line": [syncs + "sync ; sync ; crate /a"]}, "--enough", "--syncs")
        self.assertEqual(answered(syncs + "sync ; create /a")[1], 0)

    def test_command_lines(self):
        for words in ("--syncs", "--syncs --decide", "--enough --syncs --search 1", "--search 1 --syncs",
                      "--enough --syncs --decide", "--enough --syncs --limit 4096", "--limit=1 --enough --syncs",
                      "--enough --syncs --syncs", "--enough --syncs=1"):
            self.assertEqual(answered("start", words), ("", 2), words)


class OwnJournal(LateRows):
    """A program with a journal of its own: a database of two blocks that are written over."""

    ROWS = ("create /db ; write /db ; write /db ; start ; keep /db ; create /j ; write /j ; fsync /j ; spare /db /j ; "
            "group T ; overwrite /db 0 ; overwrite /db 1 ; end ; fsync /db ; unlink /j")

    def kinds(self, words):
        """The lines that say which lines are enough."""
        found = enough_of(self.ROWS, "--syncs", words)
        return [line for line in found if line.split(" ")[0] not in ("fault", "set")]

    def test_by_ordering(self):
        both = ["enough 1", "syncs 8 14", "needs 8", "needs 14"]
        for words, wanted in (("--module async --faults 10", both), ("--module soft", both)):
            self.assertEqual(self.kinds(words), wanted)
        self.assertEqual(self.kinds("--module async")[0], "enough 0")
