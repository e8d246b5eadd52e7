"""`hold`, and promises of `fsync` under `--durable`: what must last, and what ends it."""

from .promising import ORDERINGS, OrderingRows
from .support import DIRECTORY_REUSE, answered, closed_and_failing, decided, first_failing, lines_of, program, script_of

JOURNAL_16 = "--module meta --blocks 24 --journal 16"
BEHIND = ("mkdir /d ; create /d/x ; create /f ; mkdir /e ; create /e/h ; start ; unlink /d/x ; rmdir /d ; write /f ; "
          "fsync /f")
FILE = "mkdir /d ; create /d/f ; write /d/f ; create /d/h ; start ; fsync /d/f ; "
LINKED = "create /a ; write /a ; link /a /l ; create /t ; start ; fsync /a ; "
WAY = "create /x ; write /x ; mkdir /d ; create /d/f ; start ; fsync /d/f ; "
DEEP = ("create /x ; write /x ; mkdir /d ; mkdir /d/e ; create /d/e/f ; start ; fsync /d/e/f ; unlink /x ; "
        "unlink /d/e/f ; ")


class Held(OrderingRows):
    """`hold`: what is there at its line, and what its spares say."""

    def test_saves(self):
        truncate = "create /a ; write /a ; start ; hold /a ; truncate /a ; %swrite /a ; spare /a /a"
        overwrite = "create /a ; write /a ; start ; hold /a ; overwrite /a"
        self.check_orderings({
            truncate % "": [(18, 10), (6, 4), (70, 40), (99, 40)],
            truncate % "spare /a /a ; ": [(18, 4), (6, 0), (70, 0), (99, 0)],
            overwrite: [(4, 2), (4, 2), (10, 5), (9, 5)],
            overwrite + " ; spare /a /a": [(4, 0), (4, 0), (10, 0), (9, 0)]})
        text = answered(truncate % "", "--explain --decide")[0]
        self.assertEqual(text[text.index("promise"):], (
            "promise line 4 hold /a\nshows file 46010000\nspare /a file 46010000\nfault 10 broken promise: line 4\n"
            "shows file\nset 0\nwrite block 2: 0\n"))

    def test_a_save_by_replace(self):
        rows = "create /a ; write /a ; start ; hold /a ; create /t ; write /t ; fsync /t ; replace /t /a ; spare /a /a"
        self.check_orderings({
            rows: [(71, 12), (19, 0), (769, 0), (1441, 0)],
            rows.replace(" ; fsync /t", ""): [(672, 432), (51, 24), (1161, 0), (1945, 0)],
            rows.replace(" ; spare /a /a", ""): [(71, 36), (19, 7), (769, 577), (1441, 1105)]}, "--faults 10")
        self.assertEqual(lines_of(answered(rows, "--enough --syncs")[0], "enough", "syncs", "needs"),
                         ["enough 1", "syncs 7", "needs 7"])

    def test_moves(self):
        link = "mkdir /d ; create /a ; write /a ; start ; hold /a ; link /a /d/a ; %sspare /a /d/a ; unlink /a"
        move = "mkdir /d ; create /a ; write /a ; start ; hold /a ; rename /a /d/a ; spare /a /d/a"
        self.check_orderings({
            move: [(12, 3), (5, 0), (21, 0), (21, 0)],
            "create /a ; write /a ; start ; hold /a ; rename /a /b ; spare /a /b": [(12, 3), (5, 0), (17, 0), (17, 0)],
            link % "": [(12, 3), (8, 3), (53, 0), (53, 0)],
            link % "fsync /d/a ; ": [(7, 0), (5, 0), (41, 0), (41, 0)]}, "--faults 10")
        self.assertEqual(lines_of(answered(move, "--module async --faults 10 --decide")[0], "set"), ["set 2"])

    def test_a_packed_file(self):
        rows = "create /f ; write /f ; start ; hold /f ; create /g ; write /g ; fsync /g ; spare /f /g ; unlink /f"
        early = "create /f ; write /f ; start ; hold /f ; create /g ; spare /f /g ; write /g ; fsync /g ; unlink /f"
        self.check_orderings({
            rows: [(31, 0), (14, 0), (329, 0), (601, 0)],
            rows.replace(" ; fsync /g", ""): [(192, 132), (44, 30), (721, 0), (1105, 0)],
            early: [(31, 6), (14, 3), (329, 137), (601, 265)]}, "--faults 10")

    def test_what_it_allows(self):
        group = "create /a ; write /a ; start ; group S ; truncate /a ; hold /a ; write /a ; end"
        long = "create /a ; start ; %s /a ; write /a ; spare /a /a ; write /a ; write /a ; unlink /a"
        moved = "create /a ; write /a ; start ; hold /a ; rename /a /b ; spare /a /b ; unlink /b"
        again = "create /a ; start ; hold /a ; unlink /a ; spare /a /a ; create /a ; write /a"
        gone = "mkdir /d ; create /d/a ; start ; hold /d/a ; unlink /d/a ; rmdir /d ; %sspare /d/a /d/a"
        self.check_counts({
            "start ; create /a ; hold /a": (3, 2), "start ; create /a ; fsync /a ; hold /a": (3, 0),
            "create /a ; start ; hold /b ; create /b": (3, 1),
            "create /a ; start ; hold /b ; create /b ; spare /b /b": (3, 0),
            "create /a ; start ; hold /b ; create /b ; spare /b /a": (3, 0),
            group: (6, 2), group + " ; spare /a /a": (6, 0),
            "create /a ; start ; spare /a /a ; hold /a ; write /a": (4, 1),
            long % "hold": (136, 100), long % "keep": (136, 24),
            "create /a ; start ; hold /a ; hold /a ; spare /a /a ; write /a": (4, 1),
            "create /a ; write /a ; start ; hold /a ; unlink /a": (4, 3),
            "create /a ; write /a ; start ; hold /a ; unlink /a ; spare /a /a": (4, 0),
            moved: (10, 4), moved + " ; spare /a /a": (10, 0), again: (17, 1), again + " ; spare /a /a": (17, 0),
            "create /a ; write /a ; start ; unlink /a ; hold /a ; spare /a /a": (4, 1),
            "start ; hold /a ; spare /a /a ; create /a": (3, 1),
            "create /a ; start ; keep /a ; group S ; unlink /a ; spare /a /a ; create /a ; end": (5, 0),
            gone % "": (12, 0), gone % "create /d ; ": (24, 0)},
            "--faults 10")
        self.assertEqual(first_failing(long % "hold", "--faults 10"), "9")
        self.assertEqual(first_failing(long % "keep", "--faults 10"), "3 4 5")

    def test_a_file_that_is_deleted(self):
        files = {"create /a ; write /a ; start ; hold /a ; unlink /a": ("/a", [(8, 6), (4, 3), (17, 9), (17, 9)]),
                 "create /a ; write /a ; start ; hold /a ; rename /a /b ; spare /a /b ; unlink /b": (
                     "/a", [(48, 24), (10, 4), (193, 57), (193, 57)]),
                 "mkdir /d ; create /d/a ; start ; hold /d/a ; unlink /d/a ; rmdir /d": (
                     "/d/a", [(32, 30), (12, 11), (113, 81), (113, 81)])}
        for rows, (path, row) in files.items():
            spared = rows + " ; spare %s %s" % (path, path)
            self.check_orderings({rows: row, spared: [(closed, 0) for closed, _ in row]}, "--faults 10")


class Durable(OrderingRows):
    """`--durable`: what an `fsync` returned for is there as long as nothing touches it."""

    def test_its_promise(self):
        rows = "start ; create /a ; fsync /a ; fsync / ; sync"
        self.assertEqual(self.explained(rows, "--durable", "failing", "wait", "promise", "shows"), [
            "failing 0", "wait line 3 fsync /a: 0 1", "wait line 4 fsync /: 1", "wait line 5 sync: 0 1",
            "promise line 3 hold /a", "shows file"])
        self.assertEqual(answered(rows, "--durable --json")[0],
                         '{"closed":3,"durable":true,"failing":[],"module":"soft","patches":2}\n')
        self.assertEqual(closed_and_failing("start ; create /a ; fsync /a", "--module async --durable")[1], 1)
        for words in ("--durable --durable", "--durable=1"):
            self.assertEqual(answered("start", words), ("", 2))

    def test_an_old_copy_of_a_directory(self):
        rows = DIRECTORY_REUSE + " ; fsync /f"
        words = "--blocks 24 --journal 12 --durable --module "
        self.assertEqual(closed_and_failing(rows, words + "meta"), (629, 48))
        found = answered(rows, words + "meta --explain")[0]
        self.assertIn("promise line 8 hold /f\nafter 14 17\nshows file 46030000\n", found)
        self.assertEqual(found.count("fault 10 broken promise: line 8\nshows file 44010000\n"), 48)
        synced = rows.replace("write /f", "sync ; write /f")
        self.assertEqual(closed_and_failing(synced, words + "meta")[0], 413)
        self.assertEqual(closed_and_failing(rows, words + "full"), (1105, 0))

    def test_rewriting(self):
        rows = "create /a ; write /a ; start ; overwrite /a 0 ; fsync /a ; overwrite /a 0 ; fsync /a"
        words = "--module meta --journal 8 --durable"
        text = answered(rows, words, "--explain")[0]
        self.assertEqual(text[text.index("wait line"):], (
            "wait line 5 fsync /a: 0 2\nwait line 7 fsync /a: 0 5 7\npromise line 5 hold /a\nafter 0 2\n"
            "shows file 46010001\npromise line 7 hold /a\nafter 0 2 5 7\nshows file 46010002\n"))
        self.assertEqual(answered(rows, words, "--json")[0],
                         '{"closed":31,"durable":true,"failing":[],"module":"meta","patches":10}\n')
        self.assertEqual(closed_and_failing(rows, words, "--with Commit:NewData"), (22, 0))

    def test_what_comes_behind(self):
        lines = {"": (629, 48), " ; overwrite /e/h": (861, 192), " ; unlink /e/h": (1169, 384),
                 " ; create /e/i": (1097, 336), " ; create /g": (1043, 300), " ; link /e/h /g": (1097, 336),
                 " ; link /f /e/f": (1169, 384), " ; overwrite /f": (1170, 48), " ; write /f": (1477, 48),
                 " ; rename /f /e/f": (2093, 48)}
        scripts = {BEHIND + line: wanted for line, wanted in lines.items()}
        self.check_counts(scripts, JOURNAL_16, "--durable --faults 10")
        group = "create /a ; write /a ; start ; %s /a ; group S ; truncate /a ; write /a ; end"
        self.assertEqual(closed_and_failing(group % "fsync", "--durable")[1], 0)
        self.assertEqual(closed_and_failing(group % "keep")[1], 4)
        self.assertEqual(closed_and_failing(group % "hold" + " ; spare /a /a")[1], 4)

    def check_touching(self, table):
        """Each script has these numbers of closed sets and, with `hold` in place of `fsync`, of failing ones."""
        for rows, (closed, held) in table.items():
            with self.subTest(rows):
                self.assertEqual(closed_and_failing(rows, "--durable --faults 10"), (closed, 0))
                self.assertEqual(closed_and_failing(rows.replace("fsync", "hold"), "--faults 10")[1], held)

    def test_what_touches(self):
        self.check_touching({
            FILE + "create /d/g": (3, 0), FILE + "mkdir /d/g": (8, 0), FILE + "unlink /d/h": (3, 0),
            FILE + "create /b": (3, 0), FILE + "overwrite /d/f": (4, 2), FILE + "write /d/f": (4, 1),
            FILE + "link /d/f /d/g": (3, 0), FILE + "rename /d/f /d/g": (5, 2), FILE + "unlink /d/f": (4, 3),
            LINKED + "create /b": (3, 0), LINKED + "overwrite /t": (2, 0), LINKED + "overwrite /l": (4, 2),
            LINKED + "write /l": (4, 1), LINKED + "truncate /l": (3, 2), LINKED + "link /a /k": (3, 0),
            LINKED + "unlink /l": (3, 0), LINKED + "rename /l /k": (5, 0), LINKED + "replace /t /l": (7, 0),
            LINKED + "replace /t /a": (7, 5), LINKED + "unlink /a ; create /b": (8, 6),
            "create /t ; start ; fsync /t ; overwrite /t": (2, 0), "create /t ; start ; fsync /t ; truncate /t": (2, 0),
            "create /x ; create /f ; write /f ; start ; fsync /f ; unlink /x": (3, 0),
            "create /x ; create /f ; write /f ; start ; fsync /f ; unlink /x ; unlink /f": (12, 9),
            "create /x ; create /f ; write /f ; start ; fsync /f ; unlink /x ; unlink /f ; create /f": (20, 16)})

    def test_a_directory_that_is_made_anew(self):
        self.check_touching({
            WAY + "unlink /x ; unlink /d/f ; rmdir /d ; mkdir /d": (144, 133),
            WAY + "unlink /d/f ; rmdir /d ; mkdir /d": (32, 31),
            WAY + "unlink /x ; rename /d/f /y ; rmdir /d ; mkdir /d": (223, 191),
            WAY + "unlink /x ; unlink /d/f ; rmdir /d ; mkdir /d ; create /d/f": (240, 223),
            DEEP + "rmdir /d/e ; mkdir /d/e": (141, 130),
            DEEP + "rmdir /d/e ; rmdir /d ; mkdir /d": (576, 565),
            DEEP + "rmdir /d/e ; rmdir /d ; mkdir /d ; mkdir /d/e": (1512, 1501)})

    def test_a_journal_that_commits_without_its_copies(self):
        before = "mkdir /d ; create /d/h ; create /a ; write /a ; start ; "
        words = "--module full --blocks 24 --journal 14 --without Commit:Copy --durable --faults 10"
        lines = {"fsync /a ; create /b": 12, "fsync /a ; create /d/l": 8, "fsync /a ; link /a /d/l": 8,
                 "fsync /a ; overwrite /a": 0, "fsync /d ; create /b": 12, "fsync /d ; create /d/l": 12,
                 "fsync /d/h ; create /d/l": 12, "fsync /d/h ; link /d/h /b": 12}
        self.check_counts({before + line: (24, failing) for line, failing in lines.items()}, words)
        self.assertEqual(first_failing(before + "fsync /d ; create /b", words), "2")


class TwoWays(OrderingRows):
    """The second way decides promises as enumeration does."""

    def test_decisions(self):
        for rows in ("create /a ; write /a ; start ; keep /a ; create /t ; write /t ; replace /t /a",
                     "create /a ; start ; keep /a ; write /a ; truncate /a ; write /a ; keep /a ; unlink /a",
                     "create /a ; start ; hold /a ; write /a ; spare /a /a ; write /a ; fsync /a ; rename /a /b"):
            for ordering in ORDERINGS:
                words = (ordering, "--decide --explain --durable")
                self.assertEqual(decided(rows, *words), answered(rows, *words))


class Pools(OrderingRows):
    """Promises in pools."""

    SAVE = "create /a ; write /a ; start ; keep /a ; create /t ; write /t ; fsync /t ; replace /t /a"

    def test_a_save(self):
        self.answers(self.SAVE, "--search 3", 1, """
            module soft
            search 3
            pool 4
            workloads 11
            failing 1
            refused 10 not found: 6
            refused 12 exists: 3
            kind 10 broken promise
            workloads 1
            step create /t
            step write /t
            step replace /t /a
            set 0 5 6
            write block 2: 0 5
            write block 4: 6
            fault 10 broken promise: line 4""")
        self.assertTrue(answered(self.SAVE, "--search 3 --explain")[0].endswith("line 4\nshows file\n"))
        text = answered(self.SAVE, "--search 3 --explain --json")[0]
        self.assertIn('"name":"broken promise","replay":[],"set":[0,5,6],"shows":["file"],', text)
        self.assertFalse(any('"%s"' % key in text for key in ("base", "promises", "trace", "waits")))
        self.assertEqual(lines_of(answered(self.SAVE, "--search 4")[0], "workloads", "failing")[:2],
                         ["workloads 27", "failing 3"])

    def test_which_rules_it_needs(self):
        text, status = answered(self.SAVE, "--search 3 --enough --faults 10 --explain")
        self.assertEqual((lines_of(text, "enough", "rules", "needs", "shows"), status), ([
            "enough 1", "rules EntrySet:LinkUp InodeFree:EntryClear EntryClear:EntrySet", "needs EntrySet:LinkUp",
            "shows nothing", "needs InodeFree:EntryClear", "shows nothing", "needs EntryClear:EntrySet",
            "shows nothing"], 1))

    def test_lines_that_wait(self):
        rows = "create /a ; start ; fsync /a ; sync ; keep /b ; fsync /b ; fsync /a/b ; fsync /"
        self.assertEqual(answered(rows, "--search 2 --durable --json")[0], (
            '{"durable":true,"failing":0,"kinds":[],"module":"soft","pool":5,"refused":[{"count":4,"number":10,"text":'
            '"not found"},{"count":4,"number":11,"text":"not a directory"}],"search":2,"workloads":12}\n'))
        rows = "create /a ; start ; fsync /a ; write /a"
        text = answered(rows, "--search 3 --durable --without Ptr:InitFile")[0]
        found = lines_of(text, "workloads", "failing", "kind")
        self.assertEqual(found, ["workloads 6", "failing 3", "kind 3 unwritten pointer", "workloads 3"])
        self.assertEqual(answered("start ; keep /a", "--search 2"), (
            "module soft\nsearch 2\npool 0\nworkloads 0\nfailing 0\n", 0))

    def test_two_paths(self):
        rows = "create /a ; start ; keep /a /b ; rename /a /b ; overwrite /a 0 ; link /a /b ; write /a"
        out, _, status = program("--search 2 --explain".split(), script_of(rows))
        self.assertEqual((lines_of(out, "pool", "workloads", "failing", "refused", "shows", "set"), status), ([
            "pool 4", "workloads 8", "failing 5", "refused 10 not found: 2", "refused 12 exists: 2", "workloads 5",
            "set 0 1", "shows file | file"], 1))
