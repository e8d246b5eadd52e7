"""`overwrite`, `truncate` and `replace`: what they change, when they are refused, and which rules they need."""

from .support import LateRows, answered, closed_and_failing, enough_of, first_failing, lines_of, program, script_of

OVERWRITE = "create /a ; write /a ; write /a ; start ; overwrite /a"
REPLACE = "create /a ; write /a ; create /t ; start ; replace /t /a"
META_6 = "--module meta --journal 6"
NAMES = " ; ".join(["create /a"] + ["link /a /%s" % name for name in "bcdefgh"])


def patches_of(rows, *words):
    """The lines of the patches, with the bytes that they write left out."""
    return lines_of(answered(rows, "--explain", *words)[0], "patch", "after")


class Changes(LateRows):
    """The patches of each operation."""

    def test_overwrite(self):
        self.assertEqual(patches_of(OVERWRITE), [
            "patch 0 line 5 overwrite /a: NewData block 5 offset 3 length 1",
            "patch 1 line 5 overwrite /a: NewData block 6 offset 3 length 1",
            "patch 2 line 5 overwrite /a: Touch block 2 offset 24 length 1"])
        self.assertEqual(closed_and_failing(OVERWRITE), (8, 0))

    def test_overwrite_of_one_block(self):
        for slot, block in ((0, 5), (1, 6)):
            self.assertEqual(patches_of("%s %d" % (OVERWRITE, slot)), [
                "patch 0 line 5 overwrite /a %d: NewData block %d offset 3 length 1" % (slot, block),
                "patch 1 line 5 overwrite /a %d: Touch block 2 offset 24 length 1" % slot])

    def test_truncate(self):
        rows = "create /a ; write /a ; write /a ; start ; truncate /a"
        self.assertEqual(patches_of(rows), [
            "patch 0 line 5 truncate /a: PtrClear block 2 offset 20 length 4",
            "patch 1 line 5 truncate /a: MapClear block 1 offset 5 length 1", "after 0: MapClear:PtrClear",
            "patch 2 line 5 truncate /a: MapClear block 1 offset 6 length 1", "after 0: MapClear:PtrClear"])
        self.assertEqual(closed_and_failing(rows), (5, 0))

    def test_replace(self):
        self.assertEqual(patches_of(REPLACE), [
            "patch 0 line 5 replace /t /a: LinkUp block 2 offset 33 length 1",
            "patch 1 line 5 replace /t /a: EntrySet block 4 offset 8 length 12", "after 0: EntrySet:LinkUp",
            "patch 2 line 5 replace /t /a: EntryClear block 4 offset 20 length 12", "after 1: EntryClear:EntrySet",
            "patch 3 line 5 replace /t /a: LinkDown block 2 offset 33 length 1", "after 0: overlap",
            "after 2: LinkDown:EntryClear",
            "patch 4 line 5 replace /t /a: InodeFree block 2 offset 16 length 16", "after 2: InodeFree:EntryClear",
            "patch 5 line 5 replace /t /a: MapClear block 1 offset 5 length 1", "after 4: MapClear:InodeFree"])
        self.assertEqual(closed_and_failing(REPLACE), (9, 0))

    def test_replace_of_one_name_of_two(self):
        rows = "create /a ; link /a /b ; mkdir /d ; create /d/t ; start ; replace /d/t /a"
        self.assertEqual(patches_of(rows)[-2:], [
            "patch 4 line 6 replace /d/t /a: LinkDown block 2 offset 17 length 1", "after 2: LinkDown:EntryClear"])
        self.assertEqual(closed_and_failing(rows), (7, 0))

    def test_a_file_without_blocks(self):
        for line, part in (("overwrite /a", "Touch"), ("truncate /a", "PtrClear")):
            found = patches_of("create /a ; start ; " + line)
            self.assertEqual((len(found), found[0].split(" ")[6]), (1, part))
            self.assertEqual(closed_and_failing("create /a ; start ; " + line), (2, 0))

    def test_bytes_are_modulo_256(self):
        rows = " ; ".join(["create /a ; write /a"] + ["overwrite /a"] * 255 + ["start ; overwrite /a"])
        out = answered(rows, "--explain --json")[0]
        self.assertIn('"trace":[{"after":[],"block":5,"line":259,"new":"00","offset":3,"part":"NewData","step":'
                      '"overwrite /a","undo":"ff"},{"after":[],"block":2,"line":259,"new":"00","offset":24,'
                      '"part":"Touch","step":"overwrite /a","undo":"ff"}]}', out)
        self.assertIn('"closed":4,', out)
        for key in ("promises", "waits", "shows"):
            self.assertNotIn('"%s"' % key, out)


class UnderAJournal(LateRows):
    """File data that are written over stay out of the metadata journal, and no rule speaks of them."""

    def test_the_metadata_journal(self):
        self.assertEqual(patches_of(OVERWRITE, META_6), [
            "patch 0 line 5 overwrite /a: NewData block 11 offset 3 length 1",
            "patch 1 line 5 overwrite /a: NewData block 12 offset 3 length 1",
            "patch 2 line 5 overwrite /a: Copy block 5 offset 0 length 128",
            "patch 3 line 5 overwrite /a: Commit block 4 offset 0 length 4", "after 2: Commit:Copy",
            "patch 4 line 5 overwrite /a: Touch block 2 offset 24 length 1", "after 3: InPlace:Commit",
            "patch 5 line 5 overwrite /a: Done block 4 offset 0 length 1", "after 3: overlap", "after 4: Done:InPlace"])

    def test_the_full_journal(self):
        found = lines_of("\n".join(patches_of(OVERWRITE, "--module full --journal 6")), "patch")
        self.assertEqual([line.split(" ")[6:9] for line in found], [
            ["Copy", "block", "5"], ["Copy", "block", "6"], ["Copy", "block", "7"], ["Commit", "block", "4"],
            ["NewData", "block", "11"], ["NewData", "block", "12"], ["Touch", "block", "2"], ["Done", "block", "4"]])
        self.assertEqual(closed_and_failing(OVERWRITE, "--module full --journal 6"), (17, 0))

    def test_rules_put_in(self):
        for rule, closed in (("", 20), ("Commit:NewData", 11), ("InPlace:NewData", 14), ("NewData:Commit", 20),
                             ("NewData:Copy", 20), ("NewData:NewData", 15), ("InPlace:InPlace", 20),
                             ("Done:NewData", 17), ("Touch:FileData", 20)):
            words = META_6 + (" --with " + rule if rule else "")
            self.assertEqual(closed_and_failing(OVERWRITE, words), (closed, 0), rule)

    def test_rules_of_the_journal(self):
        whole = "\n".join(patches_of(OVERWRITE, META_6))
        self.assertEqual((whole.count("Commit:FileData"), whole.count("InPlace:Commit")), (0, 1))
        self.assertEqual(closed_and_failing(OVERWRITE, META_6, "--without Commit:FileData"), (20, 0))

    def test_data_behind_data_that_are_written_over(self):
        found = patches_of("create /a ; write /a ; start ; overwrite /a ; write /a", "--module meta --journal 8")
        at = found.index("patch 5 line 5 write /a: FileData block 14 offset 0 length 128")
        self.assertEqual(found[at + 1], "after 2: FileData:previous-Commit")

    def test_operations_that_half_happen(self):
        rows = "create /a ; write /a ; start ; overwrite /a"
        words = "--journal 4 --atomic --module "
        self.assertEqual(closed_and_failing(rows, words + "meta"), (10, 5))
        self.assertEqual(lines_of(answered(rows, words + "meta")[0], "set"),
                         ["set 0", "set 0 1", "set 1 2", "set 1 2 3", "set 1 2 3 4"])
        self.assertEqual(closed_and_failing(rows, words + "full"), (9, 0))

    def test_eight_operations_can_be_too_many(self):
        files = ["/d/t8", "/t9", "/d/t10", "/t11", "/d/t12", "/t13", "/d/t14", "/t15"]
        rows = ["mkdir /d", "create /p"] + ["create /d/f%d" % k for k in range(3, 8)]
        rows += ["create " + name for name in files] + ["write " + name for name in files for _ in range(4)]
        rows += ["start"] + ["replace %s %s" % pair for pair in zip(["/p"] + files, files)]
        for module in ("meta", "full"):
            self.check_refusals({"line 56: 2 too many patches": [" ; ".join(rows)]},
                                "--module", module, "--blocks", "128", "--journal", "60")


class Refusals(LateRows):
    """Operations that are refused."""

    def test_paths(self):
        before = "create /f ; link /f /l ; create /g ; mkdir /d ; start ; "
        lines = {"10 not found": ["overwrite /no", "truncate /no", "replace /no /g", "replace /f /no",
                                  "overwrite /no/b", "replace /no /f/x"],
                 "11 not a directory": ["overwrite /f/b", "truncate /f/b", "replace /f/x /no", "replace /f /g/x"],
                 "12 exists": ["replace /f /f", "replace /f /l"],
                 "13 not a file": ["overwrite /d", "truncate /d", "replace /d /f", "replace /f /d", "replace /d /d"]}
        self.check_refusals({"line 6: " + error: [before + line for line in some] for error, some in lines.items()})
        self.check_refusals({"line 1: 10 not found": ["overwrite /a ; start"]})

    def test_links(self):
        before = NAMES + " ; create /t ; start ; "
        self.check_refusals({"line 11: 19 too many links": [before + "replace /a /t"],
                             "line 11: 12 exists": [before + "replace /a /b"]})
        self.assertEqual(closed_and_failing(before + "replace /t /a"), (7, 0))

    def test_slots(self):
        before = "create /a ; write /a ; write /a ; create /e ; mkdir /d ; start ; "
        lines = {
            "10 not found": ["overwrite /a 2", "overwrite /a 3", "overwrite /e 0", "overwrite /no 0"],
            "11 not a directory": ["overwrite /a/x 0", "overwrite /e/x 3"],
            "13 not a file": ["overwrite /d 0", "overwrite /d 1"],
            "41 bad line": ["overwrite /a 4", "overwrite /a 00", "overwrite /a -1", "overwrite /a +1",
                            "overwrite /a 1.", "overwrite /a /e", "overwrite /a 1 1", "truncate /a 1", "write /a 0",
                            "fsync /a 0"],
            "42 bad path": ["overwrite 1", "overwrite a 1", "overwrite / 1", "overwrite a 4", "overwrite 1 /a"]}
        self.check_refusals({"line 7: " + error: [before + line for line in some] for error, some in lines.items()})
        self.check_refusals({"line 8: 10 not found": [before + "truncate /a ; overwrite /a 0"],
                             "line 2: 10 not found": ["create /a ; overwrite /a 0 ; start"]})


class WhichRules(LateRows):
    """What the rules are needed for."""

    def test_truncate(self):
        rows, words = "create /a ; write /a ; create /b ; start ; truncate /a ; write /b", "--without MapClear:PtrClear"
        self.assertEqual(closed_and_failing(rows, words), (10, 3))
        self.assertTrue(answered(rows, words, "--decide")[0].endswith(
            "fault 5 used block marked free: inode 1 slot 0 block 5\nset 1\nwrite block 1: 1\n"))
        rows = "create /a ; write /a ; start ; truncate /a"
        self.assertEqual(closed_and_failing(rows, "--without MapClear:PtrClear"), (4, 1))

    def test_replace(self):
        self.assertEqual(enough_of(REPLACE), [
            "enough 1",
            "rules EntrySet:LinkUp LinkDown:EntryClear InodeFree:EntryClear MapClear:InodeFree EntryClear:EntrySet",
            "needs EntrySet:LinkUp", "fault 4 low link count: inode 2 entries 2 links 1", "set 1",
            "needs LinkDown:EntryClear", "fault 4 low link count: inode 2 entries 2 links 1", "set 0 1 3",
            "needs InodeFree:EntryClear", "fault 1 dangling entry: directory 0 entry 0 inode 1", "set 4",
            "needs MapClear:InodeFree", "fault 5 used block marked free: inode 1 slot 0 block 5", "set 5",
            "needs EntryClear:EntrySet", "fault 1 dangling entry: directory 0 entry 0 inode 1", "set 2 4"])
        words = "--without EntryClear:EntrySet"
        self.assertEqual((closed_and_failing(REPLACE, words)[0], first_failing(REPLACE, words)), (18, "2 4"))
        self.assertEqual(closed_and_failing(REPLACE, words, "--with InodeFree:EntrySet")[1], 0)

    def test_command_lines(self):
        for words in ("--module async --without MapClear:PtrClear", "--without PtrClear:MapClear",
                      "--without InodeFree:EntrySet", "--with PtrClear:Fsync", "--with Hold:Touch",
                      "--with Overwrite:Touch", "--with wait", "--with Touch:wait-Ptr"):
            self.assertEqual(answered("start", words), ("", 2), words)
        words = "--with PtrClear:Touch --with NewData:before-NewData --with Touch:previous-InPlace"
        self.assertEqual(program(words.split(), script_of("start"))[0].split("\n")[:4], [
            "module soft", "with PtrClear:Touch", "with NewData:before-NewData", "with Touch:previous-InPlace"])
