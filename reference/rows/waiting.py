"""`sync` and `fsync`: what they force, and what waits for it."""

from .support import LateRows, answered, closed_and_failing, decided, lines_of

JOURNAL = "--blocks 32 --journal 20 --module "
MANY = "mkdir /d ; start ; create /d/a ; write /d/a ; create /b ; link /d/a /c ; %s ; keep /z"
SAVED_DATA = "create /a ; write /a ; start ; overwrite /a ; %skeep /a ; create /b"


def explained(rows, words, *first_words):
    """The lines of an explained report that begin with one of these words."""
    return lines_of(answered(rows, "--explain", words)[0], *first_words)


class Forced(LateRows):
    """What a line forces."""

    def test_by_ordering(self):
        table = {"fsync /d/a": ("0 1 2 3 4 6 7 8", "6 21", "22"), "fsync /d": ("1 6 8", "21", "22"),
                 "fsync /b": ("5 6 8", "21", "22"), "fsync /c": ("0 2 3 4 6 7 8", "6 21", "22"),
                 "fsync /": ("6 8", "21", "22"),
                 "sync": ("0 1 2 3 4 5 6 7 8", "2 6 9 15 21", "2 9 16 22")}
        for line, (soft, meta, full) in table.items():
            for words, wanted in (("--module async", soft), ("--module soft", soft), (JOURNAL + "meta", meta),
                                  (JOURNAL + "full", full)):
                text = decided(MANY % line, "--decide --explain --faults 10", words)[0]
                found = lines_of(text, "promise", "after")
                self.assertEqual(found[found.index("promise line 8 keep /z") + 1], "after " + wanted, (line, words))

    def test_whole_blocks_of_directories(self):
        rows = "create /a ; write /a ; start ; unlink /a ; create /b ; create /a ; fsync /a"
        self.assertEqual(explained(rows, "--durable", "closed", "failing", "wait", "promise", "shows"), [
            "closed 24", "failing 0", "wait line 7 fsync /a: 0 4 5 6", "promise line 7 hold /a", "shows file"])
        neighbour = "mkdir /d ; start ; create /a ; create /d/x ; create /b ; fsync /a"
        for words, wanted in (("--module async", "0 1 5"), ("--module soft", "0 1 5"),
                              ("--module meta --blocks 24 --journal 14", "14"),
                              ("--module full --blocks 24 --journal 14", "14")):
            self.assertEqual(explained(neighbour, words, "wait"), ["wait line 6 fsync /a: " + wanted], words)

    def test_what_an_earlier_line_forced(self):
        rows = "start ; sync ; create /a ; fsync / ; write /a ; fsync /a ; sync"
        self.assertEqual(explained(rows, "", "wait"), [
            "wait line 2 sync:", "wait line 4 fsync /: 1", "wait line 6 fsync /a: 0 1 2 3 4",
            "wait line 7 sync: 0 1 2 3 4"])
        self.assertIn('"promises":[],', answered(rows, "--explain --json")[0])
        self.assertIn('"waits":[{"ids":[],"line":2,"step":"sync"},{"ids":[1],"line":4,"step":"fsync /"},'
                      '{"ids":[0,1,2,3,4],"line":6,"step":"fsync /a"},{"ids":[0,1,2,3,4],"line":7,"step":"sync"}]}',
                      answered(rows, "--explain --json")[0])

    def test_data_under_the_metadata_journal(self):
        words = "--module meta --journal 10"
        for line in ("fsync /a ; ", "sync ; "):
            found = explained(SAVED_DATA % line, words, "patch", "after", "promise")
            self.assertEqual(found[found.index("promise line 6 keep /a") + 1], "after 0 2")
            at = [k for k, one in enumerate(found) if one.startswith("patch 5 line 7 ")][0]
            self.assertEqual(found[at + 1:at + 3], ["after 0: wait", "after 2: wait"])
        self.assertEqual(explained(SAVED_DATA % "fsync / ; ", words, "wait"), ["wait line 5 fsync /:"])


class Reasons(LateRows):
    """The reason `wait`."""

    def test_a_second_file(self):
        self.answers("start ; create /a ; fsync /a ; create /b", "--explain", 0, """
            module soft
            patches 4
            closed 5
            failing 0
            patch 0 line 2 create /a: InodeInit block 2 offset 16 length 16
            patch 1 line 2 create /a: EntrySet block 4 offset 8 length 12
            after 0: EntrySet:InodeInit
            patch 2 line 4 create /b: InodeInit block 2 offset 32 length 16
            after 0: wait
            after 1: wait
            patch 3 line 4 create /b: EntrySet block 4 offset 20 length 12
            after 0: wait
            after 1: wait
            after 2: EntrySet:InodeInit
            wait line 3 fsync /a: 0 1""")

    def test_a_rule_that_is_taken_out(self):
        rows = "start ; create /a ; fsync /a ; create /b"
        self.assertEqual(closed_and_failing(rows, "--without EntrySet:InodeInit")[0], 7)
        self.assertEqual(explained(rows, "--without EntrySet:InodeInit", "after")[-2:],
                         ["after 0: wait", "after 1: wait"])

    def test_its_place_among_the_reasons(self):
        rows = "start ; group A ; create /a ; fsync /a ; end ; depend B A ; group B ; write /a"
        self.assertEqual(explained(rows, "--whole-blocks --with InPlace:before-InPlace", "patch", "after")[-5:], [
            "patch 4 line 8 write /a: Ptr block 2 offset 20 length 1",
            "after 0: overlap, block, group, wait, InPlace:before-InPlace",
            "after 1: group, wait, InPlace:before-InPlace", "after 2: Ptr:MapSet", "after 3: Ptr:InitFile"])

    def test_under_the_metadata_journal(self):
        rows = "create /a ; start ; overwrite /a ; fsync /a ; write /a"
        found = explained(rows, "--module meta --journal 8", "patch", "after")
        at = found.index("patch 4 line 5 write /a: FileData block 13 offset 0 length 128")
        self.assertEqual(found[at + 1:at + 4], [
            "after 1: wait, FileData:previous-Commit", "patch 5 line 5 write /a: Copy block 7 offset 0 length 128",
            "after 1: wait"])

    def test_a_line_that_waits_is_no_operation(self):
        rows = "create /a ; create /b ; start ; write /a ; sync ; write /b"
        found = explained(rows, "--with MapSet:previous-Ptr", "patch", "after")
        at = [k for k, line in enumerate(found) if line.startswith("patch 3 ")][0]
        self.assertIn("after 2: wait, MapSet:previous-Ptr", found[at + 1:at + 4])


class Refusals(LateRows):
    """Lines that wait and promise, and are refused."""

    def test_before_start(self):
        self.check_refusals({
            "line 1: 22 only after start": [
                "keep /a ; start", "hold /q/r ; start", "fsync /q/r ; start", "fsync / ; start", "keep /a /q/r ; start",
                "spare /a /q/r ; start", "spare /q/r /q/r ; start"],
            "line 2: 22 only after start": [
                "create /a ; sync ; start", "create /a ; spare /a /a ; start", "create /a ; hold /a ; start"],
            "line 1: 10 not found": ["unlink /a ; sync ; start", "unlink /a ; hold /a ; start"],
            "line 1: 42 bad path": ["keep /a/ ; start", "hold / ; start", "keep / ; start"],
            "line 1: 41 bad line": ["sync x ; start", "spare /a ; start", "hold ; start"],
            "line 3: 41 bad line": ["sync ; start ; crate /a", "hold /a ; start ; crate /a"]})

    def test_paths_that_are_not_there(self):
        gone = "mkdir /d ; create /d/a ; start ; hold /d/a ; unlink /d/a ; rmdir /d ; "
        self.check_refusals({
            "line 2: 10 not found": ["start ; fsync /a", "start ; fsync /q/r", "start ; spare /a /q",
                                     "start ; spare /a /q/r"],
            "line 3: 11 not a directory": ["create /a ; start ; fsync /a/b", "create /a ; start ; spare /q /a/x",
                                           "create /a ; start ; spare /a /a/x"],
            "line 4: 10 not found": ["create /a ; start ; unlink /a ; fsync /a",
                                     "create /a ; start ; hold /a ; spare /a /b"],
            "line 5: 10 not found": ["create /a ; start ; hold /a ; unlink /a ; spare /a /b",
                                     "create /a ; start ; hold /a ; unlink /a ; spare /b /a"],
            "line 6: 10 not found": ["create /a ; create /b ; start ; spare /a /b ; unlink /b ; spare /a /b"],
            "line 7: 10 not found": [gone + "spare /d/a /d/b", gone + "spare /d/a /d"]})
        for rows in ("start ; keep /q/r ; hold /q/r ; fsync / ; sync", "create /a ; start ; unlink /a ; spare /a /a",
                     "create /a ; start ; spare /a/x /a/x", "start ; spare /q/r /q/r"):
            self.assertEqual(answered(rows)[1], 0, rows)

    def test_words(self):
        paths = ["keep /", "hold /", "hold a", "hold /a/", "fsync //", "fsync a", "keep /a/b/c/d/e", "hold /a/b/c/d/e",
                 "truncate /", "keep /a b", "keep /a /", "keep /a,/b", "keep / a", "spare /a /", "spare / /a",
                 "spare a /", "overwrite a 7", "spare / /", "spare /a/b/c/d/e /a/b/c/d/e"]
        words = ["sync /", "fsync", "fsync / /", "fsync / a", "keep", "keep a / /b /c /d", "hold", "hold /a /b",
                 "hold / a", "Hold /a", "spare /a", "spare /a /b c", "replace /a", "replace a / /b", "overwrite /a /b",
                 "overwrite /a 7", "overwrite /a 7 7"]
        self.check_refusals({"line 2: 42 bad path": ["start ; " + line for line in paths],
                             "line 2: 41 bad line": ["start ; " + line for line in words]})

    def test_in_a_pool(self):
        self.check_refusals({
            "line 4: 21 group fault": ["create /a ; start ; write /a ; spare /a /a",
                                       "create /a ; start ; write /a ; hold /a"],
            "line 2: 21 group fault": ["start ; hold /a ; fsync /q", "start ; hold /q/r ; group A",
                                       "start ; group A ; hold /a"],
            "line 3: 21 group fault": ["start ; create /a ; spare /q/r /q ; group A", "start ; keep /a ; hold /a",
                                       "start ; keep /a ; group A"],
            "line 1: 22 only after start": ["spare /a /a ; start ; group A", "hold /a ; start ; hold /a"],
            "line 2: 22 only after start": ["create /a ; hold /a ; start ; hold /a"],
            "line 3: 41 bad line": ["start ; hold /a ; hold", "start ; hold /a ; hold /a /b"],
            "line 3: 42 bad path": ["hold /a ; start ; hold /", "start ; hold /a ; keep /"]}, "--search", "1")
