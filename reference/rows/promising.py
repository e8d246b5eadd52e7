"""`keep`, `hold` and `spare`: what is promised, and which sets break it."""

from .support import LateRows, answered, closed_and_failing, first_failing, lines_of

BARE_SAVE = "create /a ; write /a ; start ; keep /a ; create /t ; write /t ; replace /t /a"
SAVE = BARE_SAVE.replace("replace", "fsync /t ; replace")
JOURNALS = ("--module meta --blocks 24 --journal 14", "--module full --blocks 24 --journal 14")
ORDERINGS = ("--module async", "--module soft") + JOURNALS
BIG_JOURNALS = ("--limit 32768 --blocks 40 --module meta --journal 24",
                "--limit 32768 --blocks 40 --module full --journal 24")
TRUNCATE = "create /a ; write /a ; start ; keep /a ; group S ; truncate /a ; write /a ; end"


class OrderingRows(LateRows):
    """Rows with a number for each ordering."""

    def check_orderings(self, table, words="", orderings=ORDERINGS):
        """Each script has these numbers of closed and of failing sets under each ordering."""
        for rows, row in table.items():
            for ordering, wanted in zip(orderings, row):
                with self.subTest("%s: %s" % (ordering, rows)):
                    self.assertEqual(closed_and_failing(rows, ordering, words), wanted)

    def explained(self, rows, words, *first_words):
        """The lines of an explained report that begin with one of these words."""
        return lines_of(answered(rows, "--explain", words)[0], *first_words)


class Saves(OrderingRows):
    """Ways to save a file."""

    def test_a_save_by_replace(self):
        self.check_orderings({SAVE: [(71, 40), (19, 0), (769, 0), (1441, 0)],
                              BARE_SAVE: [(672, 598), (51, 24), (1161, 0), (1945, 0)]})
        self.check_orderings({SAVE: [(71, 12)], BARE_SAVE: [(672, 432)]}, "--faults 10")

    def test_its_crash(self):
        self.answers(BARE_SAVE, "--decide", 1, """
            module soft
            patches 11
            closed 51
            fault 10 broken promise: line 4
            set 0 5 6
            write block 2: 0 5
            write block 4: 6""")
        found = answered(BARE_SAVE, "--decide --explain")[0]
        self.assertIn("promise line 4 keep /a\nshows file 46010000\nshows file 46020000\n"
                      "fault 10 broken promise: line 4\nshows file\nset 0 5 6\n", found)
        self.assertEqual(answered(BARE_SAVE, "--decide --json")[0], (
            '{"closed":"51","faults":[{"fault":"10 broken promise: line 4","set":[0,5,6],"writes":[{"block":2,'
            '"patches":[0,5]},{"block":4,"patches":[6]}]}],"module":"soft","patches":11}\n'))
        self.assertIn("fault 10 broken promise: line 4\nset 0 1 2 3 4 9\nwrite block", answered(
            SAVE, "--module async --decide")[0])

    def test_a_save_by_truncate(self):
        self.check_orderings({
            "create /a ; write /a ; start ; keep /a ; truncate /a ; write /a": [(18, 4), (6, 0), (70, 0), (99, 0)],
            TRUNCATE: [(18, 10), (6, 4), (70, 40), (99, 40)],
            TRUNCATE.replace(" ; end", ""): [(18, 10), (6, 4), (70, 40), (99, 40)]})
        self.check_orderings({TRUNCATE: [(18, 6), (6, 4), (70, 40), (99, 40)]}, "--faults 10")
        for ordering, first in zip(ORDERINGS, ("0", "0", "0 1 2", "0 1 2")):
            self.assertEqual(first_failing(TRUNCATE, ordering, "--faults 10"), first)
        self.assertEqual(set(self.explained(TRUNCATE, "--faults 10", "shows")[2:]), {"shows file"})
        self.assertEqual(closed_and_failing(TRUNCATE.replace("write /a ; end", "truncate /a ; end"))[1], 0)

    def test_a_save_by_overwrite(self):
        one = "create /a ; write /a ; start ; keep /a ; overwrite /a"
        two = "create /a ; write /a ; write /a ; start ; keep /a ; overwrite /a"
        twice = "create /a ; write /a ; start ; keep /a ; group S ; overwrite /a ; overwrite /a ; end"
        self.check_orderings({one: [(4, 0), (10, 0), (9, 0)], two: [(8, 4), (20, 10), (17, 0)],
                              twice: [(9, 3), (48, 16), (50, 20)]}, "", ORDERINGS[1:])
        self.assertEqual([first_failing(twice, ordering) for ordering in ORDERINGS[1:]], ["0", "0", "0 1 2"])
        found = answered(two, ORDERINGS[2], "--explain")[0]
        self.assertIn("\nset 0\nwrite block 19: 0\nfault 10 broken promise: line 5\nshows file 46010001 46010000\n",
                      found)

    def test_a_dependency_in_place_of_an_fsync(self):
        self.answers("create /a ; write /a ; start ; keep /a ; group A ; create /t ; write /t ; end ; depend B A ; "
                     "group B ; replace /t /a ; end", "", 0, """
            module soft
            patches 11
            closed 19
            failing 0""")
        self.assertEqual(closed_and_failing("start ; create /a ; keep /a ; fsync /a")[1], 2)

    def test_rules_for_a_promise(self):
        rows = "create /a ; write /a ; start ; keep /a ; overwrite /a ; write /a"
        self.assertEqual(closed_and_failing(rows), (16, 2))
        self.assertEqual(lines_of(answered(rows)[0], "set"), ["set 2 3 4", "set 1 2 3 4"])
        self.assertEqual(closed_and_failing(rows, "--with Ptr:before-NewData"), (14, 0))
        text = answered(rows, "--with Ptr:before-NewData --enough --explain")[0]
        self.assertEqual(lines_of(text[text.index("enough"):], "enough", "rules", "needs", "fault", "shows", "set"), [
            "enough 2", "rules InitFile:MapSet Ptr:InitFile Ptr:before-NewData",
            "rules Ptr:InitFile Ptr:MapSet Ptr:before-NewData",
            "needs Ptr:InitFile", "fault 3 unwritten pointer: inode 1 slot 1 block 6", "set 0 2 4",
            "needs Ptr:before-NewData", "fault 10 broken promise: line 4", "shows file 46010000 46010000", "set 2 3 4",
            "needs InitFile:MapSet Ptr:MapSet", "fault 5 used block marked free: inode 1 slot 1 block 6",
            "set 0 3 4"])


class Shown(OrderingRows):
    """What paths show."""

    def test_paths_that_come_later(self):
        rows = "create /a ; start ; keep /d/b ; keep /d ; keep /a ; keep /a/b ; mkdir /d ; create /d/b"
        self.assertEqual(self.explained(rows, "", "failing", "promise", "shows"), [
            "failing 0", "promise line 3 keep /d/b", "shows nothing", "shows file", "promise line 4 keep /d",
            "shows nothing", "shows directory", "promise line 5 keep /a", "shows file", "promise line 6 keep /a/b",
            "shows nothing"])
        self.assertEqual(closed_and_failing(rows, "--module async")[1], 30)
        self.assertEqual(closed_and_failing(rows, "--module async --faults 10")[1], 0)

    def test_each_list_once(self):
        rows = "create /a ; start ; keep /a ; write /a ; truncate /a ; unlink /a ; create /a"
        self.assertEqual(self.explained(rows, "", "shows"), ["shows file", "shows file 46010000", "shows nothing"])

    def test_holes(self):
        rows = "create /a ; start ; keep /a ; write /a ; write /a"
        self.assertEqual(self.explained(rows, "--decide", "closed", "fault", "shows", "set"), [
            "closed 16", "shows file", "shows file 46010000", "shows file 46010000 46010000",
            "fault 10 broken promise: line 3", "shows file - 46010000", "set 3 4 5"])
        group = "create /a ; write /a ; start ; keep /a ; group S ; truncate /a ; write /a ; write /a ; write /a ; end"
        text = answered(group, "--explain")[0]
        self.assertEqual(set(lines_of(text[text.index("\nset"):], "shows")), {
            "shows file", "shows file - - 46010000", "shows file - 46010000", "shows file - 46010000 46010000",
            "shows file 46010000 - 46010000", "shows file 46010000 46010000"})

    def test_data_that_are_written_over(self):
        rows = "create /a ; write /a ; overwrite /a 0 ; start ; keep /a ; overwrite /a 0 ; overwrite /a"
        self.assertEqual(self.explained(rows, "", "shows"),
                         ["shows file 46010001", "shows file 46010002", "shows file 46010003"])

    def test_another_directory(self):
        rows = "mkdir /d ; start ; create /a ; create /d/b ; fsync /a ; keep %s"
        self.answers(rows % "/d/b", "", 1, """
            module soft
            patches 4
            closed 9
            failing 2
            set 0 1
            write block 2: 0
            write block 4: 1
            fault 10 broken promise: line 6
            set 0 1 2
            write block 2: 0
            write block 4: 1
            write block 2: 2
            fault 10 broken promise: line 6""")
        self.assertEqual(self.explained(rows % "/d/b", "", "wait", "promise", "shows"), [
            "wait line 5 fsync /a: 0 1", "promise line 6 keep /d/b", "shows file", "shows nothing", "shows nothing"])
        self.assertEqual(self.explained(rows % "/a", "", "failing", "wait", "promise", "shows"), [
            "failing 0", "wait line 5 fsync /a: 0 1", "promise line 6 keep /a", "shows file"])


class Rests(OrderingRows):
    """What a set is allowed: what is there at the line, and at the rests that it can have reached."""

    def test_within_a_group(self):
        rows = ("create /a ; write /a ; start ; group S ; truncate /a ; keep /a ; write /a ; write /a ; end ; write /a")
        text = answered(rows, "--explain --decide")[0]
        self.assertEqual(text[text.index("promise"):], (
            "promise line 6 keep /a\nshows file\nshows file 46010000 46010000\nshows file 46010000 46010000 46010000\n"
            "fault 10 broken promise: line 6\nshows file 46010000\nset\n"))
        self.assertEqual(closed_and_failing(rows), (89, 49))
        self.assertEqual(self.explained("create /a ; start ; keep /a ; group A ; end ; write /a", "", "shows"),
                         ["shows file", "shows file 46010000"])

    def test_the_empty_set(self):
        rows = "start ; create /a ; keep /a"
        self.answers(rows, "", 1, """
            module soft
            patches 2
            closed 3
            failing 2
            set
            fault 10 broken promise: line 3
            set 0
            write block 2: 0
            fault 10 broken promise: line 3""")
        self.assertEqual(answered(rows, "--json")[0], (
            '{"closed":3,"failing":[{"faults":["10 broken promise: line 3"],"set":[],"writes":[]},{"faults":["10 '
            'broken promise: line 3"],"set":[0],"writes":[{"block":2,"patches":[0]}]}],"module":"soft","patches":2}\n'))
        self.assertEqual(answered(rows, "--decide --json")[0], (
            '{"closed":"3","faults":[{"fault":"10 broken promise: line 3","set":[],"writes":[]}],"module":"soft",'
            '"patches":2}\n'))
        found = answered("start ; create /a ; keep /a ; create /b ; keep /b ; keep /a")[0]
        self.assertTrue("failing" in found and found.split("\nset")[1] == "".join(
            "\nfault 10 broken promise: line %d" % line for line in (3, 5, 6)))
        self.assertEqual(closed_and_failing("start ; create /a ; sync ; keep /a"), (3, 0))
        self.assertEqual(answered("start ; create /a ; keep /a ; write /a", "--enough"), (
            "module soft\npatches 5\nclosed 11\nenough 0\nfault 10 broken promise: line 3\nset\n", 1))
        self.assertEqual(answered("start ; keep /a ; create /a", "--search 1")[1], 0)

    def test_what_has_begun(self):
        self.check_counts({
            "start ; create /a ; keep /a ; unlink /a": (5, 2),
            "create /a ; start ; write /a ; keep /a ; truncate /a": (6, 3),
            "create /a ; start ; rename /a /t ; keep /a /t ; rename /t /a": (9, 4),
            "create /a ; write /a ; start ; truncate /a ; keep /a ; write /a": (6, 1),
            "create /a ; start ; link /a /b ; keep /b ; unlink /b ; create /b": (12, 2),
            "start ; create /a ; sync ; keep /a ; unlink /a": (5, 0),
            "start ; create /a ; fsync /a ; keep /a ; unlink /a": (5, 0),
            "start ; group G ; create /a ; keep /a ; unlink /a ; end": (5, 0),
            "start ; group G ; create /a ; keep /a ; end ; unlink /a": (5, 2),
            "start ; create /a ; keep /a ; group G ; unlink /a ; create /b ; end": (7, 2),
            TRUNCATE + " ; truncate /a": (8, 4),
            TRUNCATE.replace(" ; end", " ; truncate /a ; end"): (8, 0)}, "--faults 10")
        for rows in ("start ; create /a ; keep /a ; unlink /a",
                     "create /a ; start ; rename /a /t ; keep /a /t ; rename /t /a"):
            self.assertEqual(first_failing(rows, "--faults 10"), "")
        self.assertEqual(self.explained("start ; create /a ; keep /a ; unlink /a", "--decide", "shows"),
                         ["shows file", "shows nothing", "shows nothing"])


class Spares(OrderingRows):
    """Lines `spare`, and promises of several paths."""

    DATABASE = ("create /db ; write /db ; write /db ; start ; keep /db ; create /j ; write /j ; fsync /j ; "
                "spare /db /j ; group T ; overwrite /db 0 ; overwrite /db 1 ; end ; fsync /db ; unlink /j")
    EDITOR = ("create /a ; write /a ; start ; keep /a ; group S ; rename /a /b ; spare /a /b ; create /a ; write /a ; "
              "fsync /a ; end ; unlink /b")
    PACKED = "create /f ; write /f ; start ; keep /f /g ; group G ; create /g ; write /g ; fsync /g ; unlink /f ; end"

    def test_a_journal_of_a_program(self):
        rows = self.DATABASE
        self.assertEqual(closed_and_failing(rows), (25, 0))
        self.assertEqual(closed_and_failing(rows, "--module async --faults 10"), (42, 0))
        self.assertEqual(closed_and_failing(rows, BIG_JOURNALS[0]), (1413, 0))
        first, second = rows.replace(" ; fsync /j", ""), rows.replace(" ; fsync /db", "")
        for some, counts in ((first, (138, 60)), (second, (58, 18)), (first.replace(" ; fsync /db", ""), (204, 96))):
            self.assertEqual(closed_and_failing(some), counts)
        for some, counts in ((first, (324, 132)), (second, (119, 36)), (first.replace(" ; fsync /db", ""), (864, 414))):
            self.assertEqual(closed_and_failing(some, "--module async --faults 10"), counts)
        self.assertEqual([first_failing(some) for some in (first, second)], ["5", "0 1 2 3 4 5 9"])
        self.assertEqual(self.explained(rows, "", "promise", "shows", "spare"), [
            "promise line 5 keep /db", "shows file 46010000 46010000", "shows file 46010001 46010001",
            "spare /j file 46020000"])
        self.assertEqual(closed_and_failing(rows.replace(" ; spare /db /j", "")), (25, 6))

    def test_an_editor(self):
        no_sync, no_spare = self.EDITOR.replace(" ; fsync /a", ""), self.EDITOR.replace(" ; spare /a /b", "")
        self.check_orderings({self.EDITOR: [(229, 66), (47, 0)], no_sync: [(864, 468), (94, 40)],
                              no_spare: [(229, 132), (47, 20)]}, "--faults 10")
        self.assertEqual(first_failing(no_sync), "0 1 2 9")
        self.assertEqual(first_failing(no_spare), "0 1 2")
        self.assertEqual(closed_and_failing(self.EDITOR, BIG_JOURNALS[0]), (2169, 0))
        inside = self.EDITOR.replace("end ; unlink /b", "unlink /b ; end")
        self.assertEqual(closed_and_failing(inside), (47, 0))

    def test_two_paths(self):
        rows, bare = self.PACKED, self.PACKED.replace(" ; fsync /g", "")
        apart = [some.replace("group G ; ", "").replace(" ; end", "") for some in (rows, bare)]
        self.check_orderings({rows: [(31, 9), (14, 4)], bare: [(192, 148), (44, 34)], apart[0]: [(31, 2), (14, 0)],
                              apart[1]: [(192, 136), (44, 30)]}, "--faults 10")
        self.check_orderings({rows: [(329, 176), (601, 304)], apart[0]: [(329, 0), (601, 0)]}, "", BIG_JOURNALS)
        text = answered(bare, "--explain --decide")[0]
        self.assertEqual(text[text.index("promise"):], (
            "promise line 4 keep /f /g\nshows file 46010000 | nothing\nshows nothing | file 46020000\n"
            "fault 10 broken promise: line 4\nshows nothing | nothing\nset 5\nwrite block 4: 5\n"))
        self.assertEqual(self.explained(apart[0], "", "promise", "shows"), [
            "promise line 4 keep /f /g", "shows file 46010000 | nothing", "shows file 46010000 | file",
            "shows file 46010000 | file 46020000", "shows nothing | file 46020000"])

    def test_several_paths(self):
        rows = "create /a ; create /b ; mkdir /d ; start ; keep /b /a /d /q ; keep /a /a ; rename /b /q"
        text = answered(rows, "--explain --decide")[0]
        self.assertEqual(text[text.index("promise"):], (
            "promise line 5 keep /b /a /d /q\nshows file | file | directory | nothing\n"
            "shows nothing | file | directory | file\npromise line 6 keep /a /a\nshows file | file\n"
            "fault 10 broken promise: line 5\nshows file | file | directory | file\nset 0 1\nwrite block 2: 0\n"
            "write block 4: 1\n"))

    def test_to_which_promises_a_spare_comes(self):
        rows = ("create /a ; write /a ; create /b ; mkdir /d ; start ; fsync /a ; keep /a ; keep /a /a ; keep /b ; "
                "hold /a ; spare /a /b ; group T ; truncate /a ; spare /a /d ; spare /q /d ; spare /a /a ; write /a ; "
                "end ; keep /a ; write /b")
        spares = '"spares":["/b file","/d directory","/a file"]'
        self.assertIn((
            '"promises":[{"after":[],"hold":["/a"],"line":6,"shows":["file 46010000"],%s},{"after":[],"keep":["/a"],'
            '"line":7,"shows":["file 46010000"],%s},{"after":[],"keep":["/a","/a"],"line":8,"shows":["file 46010000 | '
            'file 46010000"],"spares":[]},{"after":[],"keep":["/b"],"line":9,"shows":["file","file 46020000"],"spares":'
            '[]},{"after":[],"hold":["/a"],"line":10,"shows":["file 46010000"],%s},{"after":[],"keep":["/a"],"line":19,'
            '"shows":["file 46010000"],"spares":[]}]') % (spares, spares, spares),
            answered(rows, "--durable --explain --json")[0])
        faults = set(lines_of(answered(rows, "--durable")[0], "fault"))
        self.assertEqual(faults, {"fault 10 broken promise: line 8", "fault 10 broken promise: line 19"})

    def test_a_path_that_stands_in_for_itself(self):
        rows = "create /a ; write /a ; start ; keep /a ; group T ; truncate /a ; spare /a /a ; write /a ; end"
        self.assertEqual(closed_and_failing(rows), (6, 0))
        rows = ("create /a ; write /a ; create /b ; start ; keep /a ; group T ; truncate /a ; write /a ; end ; "
                "spare /a /b")
        self.assertEqual(closed_and_failing(rows)[1], 0)


class CountedFaults(OrderingRows):
    """`--faults`."""

    def test_what_counts(self):
        self.assertEqual(lines_of(answered(SAVE, "--module async --faults 1,3 --decide")[0], "fault", "set"), [
            "fault 1 dangling entry: directory 0 entry 0 inode 1", "set 0 1 2 3 4 9",
            "fault 1 dangling entry: directory 0 entry 1 inode 2", "set 1",
            "fault 3 unwritten pointer: inode 2 slot 0 block 6", "set 0 4"])
        self.assertEqual(closed_and_failing(SAVE, "--module async --faults 7")[1], 0)
        self.assertEqual(closed_and_failing(SAVE, "--module async --faults 1,2,3,4,5,6,10")[1], 40)
        words = "--without MapClear:InodeFree"
        self.assertEqual(closed_and_failing(SAVE, words)[1], 5)
        self.assertEqual(closed_and_failing(SAVE, words, "--faults 10")[1], 0)
        self.assertEqual(answered("start ; create /a", "--module async --faults 3"), (
            "module async\nfaults 3\npatches 2\nclosed 4\nfailing 0\n", 0))

    def test_enough(self):
        self.assertEqual(lines_of(answered(SAVE, "--faults 10 --enough")[0], "enough", "rules", "needs", "set"), [
            "enough 1", "rules InodeFree:EntryClear EntryClear:EntrySet", "needs InodeFree:EntryClear",
            "set 0 1 2 3 4 9", "needs EntryClear:EntrySet", "set 0 1 2 3 4 7 9"])

    def test_the_head_of_a_report(self):
        words = "--generations --whole-blocks --strict --atomic --durable --with Ptr:Ptr --faults 1,10"
        self.answers("start", words, 0, """
            module soft
            with Ptr:Ptr
            generations
            whole blocks
            strict
            atomic
            durable
            faults 1 10
            patches 0
            closed 1
            failing 0""")
        self.assertEqual(answered("start", words, "--json")[0], (
            '{"atomic":true,"closed":1,"counted":[1,10],"durable":true,"failing":[],"generations":true,"module":"soft",'
            '"patches":0,"strict":true,"whole_blocks":true,"with":["Ptr:Ptr"]}\n'))

    def test_command_lines(self):
        for word in ("0", "11", "01", "1,1", "2,1", "1,", ",1", "1,,2", "1;2", "1-3", "ten", "all", "-1", "1,11"):
            self.assertEqual(answered("start", "--faults", word), ("", 2), word)
        for words in ("--faults", "--faults=", "--faults 1 --faults 2"):
            self.assertEqual(answered("start", words), ("", 2), words)
