"""What each rule of an ordering is needed for: what fails without it."""

from ..closed_sets import ids_of
from ..rules import JOURNAL_RULES, rules_of
from .support import (
    BLOCK_REUSE, CREATE, CREATE_IN_DIRECTORY, CREATE_LINK, CREATE_WRITE, DANGLING, DIRECTORY_REUSE, FIVE_OPERATIONS,
    MARKED_FREE, META, RENAME_MKDIR, Rows, UNWRITTEN, WRITE, answered, counts, failing_ids, lines,
    lines_of, parts)


def without_each(rows, **chosen):
    """The numbers of closed and of failing sets without each rule of the ordering, and the first failing set."""
    found = [parts(rows, without=(rule,), **chosen) for rule in rules_of(chosen["module"])]
    return [(len(one.closed), len(one.failing), failing_ids(one)[0] if one.failing else None) for one in found]


class WithoutOneRule(Rows):
    """What fails where one rule is taken out."""

    def test_the_rules_of_a_block_that_another_file_gets(self):
        same = (7, 0, None)
        found = without_each(BLOCK_REUSE, module="soft")
        self.assertEqual(found, [
            same, same, same, (11, 2, [4]), same, (8, 1, [0, 1, 2, 3, 5]), same, same, same, (12, 5, [1]),
            (15, 6, [2]), same, same])
        needed = [rule for rule, (_, failing, _) in zip(rules_of("soft"), found) if failing]
        text, status = answered(BLOCK_REUSE, "--enough")
        self.assertEqual((lines_of(text, "enough", "rules", "needs"), status), (
            ["enough 1", "rules " + " ".join(needed)] + ["needs " + rule for rule in needed], 0))
        self.answers(BLOCK_REUSE, "--decide --without InitFile:MapSet", 1, """
            module soft
            without InitFile:MapSet
            patches 6
            closed 11
            fault 3 unwritten pointer: inode 1 slot 0 block 5
            set 4
            write block 5: 4
            """)
        self.answers(BLOCK_REUSE, "--decide --without Ptr:InitFile", 1, """
            module soft
            without Ptr:InitFile
            patches 6
            closed 8
            fault 3 unwritten pointer: inode 2 slot 0 block 5
            set 0 1 2 3 5
            write block 4: 0
            write block 2: 1
            write block 1: 2 3
            write block 2: 5
            """)

    def test_the_rules_of_five_operations(self):
        self.assertEqual(without_each(FIVE_OPERATIONS, module="soft"), [
            (312, 24, [6]), (408, 14, [0, 1, 2, 3, 11]), (379, 0, None), (360, 0, None), (394, 0, None),
            (360, 64, [5, 7, 9]), (326, 38, [0, 1, 3]), (288, 0, None), (432, 16, [0, 1, 2, 3, 5, 6, 10, 11, 13]),
            (296, 4, [0, 1, 2, 3] + list(range(5, 14)) + [15]), (496, 64, [5, 7, 8, 9, 16]), (384, 0, None),
            (288, 0, None)])

    def test_the_rules_of_the_metadata_journal(self):
        self.assertEqual([counts(DIRECTORY_REUSE, without=(rule,), limit=32768, **META) for rule in JOURNAL_RULES], [
            (21, 725, 80), (21, 19072, 7552), (21, 754, 173), (21, 757, 112), (21, 17005, 10844), (21, 1152, 262),
            (21, 675, 80)])

    def test_the_rules_of_a_written_file(self):
        same, too_many = ("closed 11", 0), ("", 2)
        found = [answered(CREATE_WRITE, "--limit 11 --without", rule) for rule in rules_of("soft")]
        self.assertEqual([((text.split("\n") + [""] * 4)[3], status) for text, status in found], [
            too_many, same, same, too_many, same, too_many] + [same] * 7)

    def test_the_rules_of_a_rename_and_a_new_directory(self):
        same, strict = (37, 0, None), without_each(RENAME_MKDIR, module="soft", strict=True)
        self.assertEqual(strict, [
            same, (52, 7, [1]), (43, 6, [0, 1, 2, 4, 8]), same, (47, 0, None), same, (44, 7, [4, 5, 7]), same,
            (51, 7, [0, 1, 3]), same, same, (61, 24, [2]), same])
        plain = without_each(RENAME_MKDIR, module="soft")
        self.assertEqual([(k, one) for k, one in enumerate(plain) if one != strict[k]], [
            (2, (43, 0, None)), (11, (61, 0, None))])

    def test_rules_that_are_put_in(self):
        added = ("Ptr:MapSet", "EntrySet:InodeInit")
        self.assertEqual(counts(CREATE_WRITE, added=added), (5, 16, 2))
        for left, wanted, first, faults in (("EntrySet:InodeInit", (5, 20, 6), [0, 4], [UNWRITTEN, MARKED_FREE]),
                                            ("Ptr:MapSet", (5, 20, 6), [1], [DANGLING])):
            found = parts(CREATE_WRITE, added=(left,))
            self.assertEqual((counts(CREATE_WRITE, added=(left,)), failing_ids(found)[0], found.failing[0].faults),
                             (wanted, first, faults))

    def test_each_rule_of_the_full_journal_prevents_something(self):
        for rows, rule, wanted, first, fault in ((CREATE, "FileData:previous-Commit", (6, 9, 0), None, None), (CREATE,
            "Commit:Copy", (6, 24, 4), [0, 2], "3 unwritten pointer: inode 0 slot 0 block 10"), (CREATE,
            "Commit:FileData", (6, 9, 0), None, None), (CREATE_LINK, None, (12, 53, 0), None, None), (CREATE_LINK,
            "Commit:previous-Commit", (12, 61, 4), [6, 7, 8, 10], "1 dangling entry: directory 0 entry 1 inode 1"), (
            CREATE, "InPlace:Commit", (6, 21, 4), [4], DANGLING), (CREATE, "Done:InPlace", (6, 12, 1), [0, 1, 2, 4,
            5], DANGLING), (CREATE_IN_DIRECTORY, None, (12, 53, 0), None, None), (CREATE_IN_DIRECTORY,
            "Done:previous-Done", (12, 55, 2), [0, 1, 2, 3, 6, 7, 8, 9, 10, 11],
            "4 low link count: inode 2 entries 2 links 1")):
            found = parts(rows, module="full", journal=6, without=(rule,) if rule else ())
            got = (len(found.patches), len(found.closed), len(found.failing))
            one = found.failing[0] if found.failing else None
            self.assertEqual((got, one and ids_of(one.patch_set), one and one.faults[0]), (wanted, first, fault))

    def test_file_data_before_the_commit(self):
        self.assertEqual(counts(WRITE, module="meta", journal=3), (7, 13, 0))
        text, status = answered(WRITE, "--module meta --journal 3 --without Commit:FileData")
        self.assertEqual((text.split("set ")[0], status), (lines("module meta", "without Commit:FileData",
            "patches 7", "closed 18", "failing 5"), 1))
        self.assertEqual(text.split("set ")[1], lines("1 2 3", "write block 5: 1", "write block 6: 2",
            "write block 4: 3", "fault 3 unwritten pointer: inode 1 slot 0 block 8"))
