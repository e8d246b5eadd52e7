"""`--generations`: data of a deleted file are told from those of the next file with its inode."""

import json

from .support import (DIRECTORY_REUSE, CREATE_WRITE, LateRows, answered, closed_and_failing, first_failing, lines_of)

AGAIN = "create /a ; write /a ; start ; unlink /a ; create /b ; write /b"
DIRECTORY_AGAIN = "mkdir /d ; start ; rmdir /d ; mkdir /e ; create /e/x"


class Generations(LateRows):
    """What the option changes, and what it leaves."""

    def test_data_of_a_file_that_is_gone(self):
        words = "--without Ptr:InitFile"
        self.assertEqual(closed_and_failing(AGAIN, words), (18, 0))
        self.assertEqual(closed_and_failing(AGAIN, words, "--generations"), (18, 2))
        self.assertEqual(lines_of(answered(AGAIN, words, "--generations")[0], "set", "fault"), [
            "set 0 1 2 3 5 7", "fault 3 unwritten pointer: inode 1 slot 0 block 5",
            "set 0 1 2 3 4 5 7", "fault 3 unwritten pointer: inode 1 slot 0 block 5"])

    def test_the_report(self):
        self.assertEqual(answered(AGAIN, "--without Ptr:InitFile --generations --decide --json")[0], (
            '{"closed":"18","faults":[{"fault":"3 unwritten pointer: inode 1 slot 0 block 5","set":[0,1,2,3,5,7],'
            '"writes":[{"block":4,"patches":[0]},{"block":2,"patches":[1]},{"block":1,"patches":[2]},{"block":2,'
            '"patches":[3]},{"block":1,"patches":[5]},{"block":2,"patches":[7]}]}],"generations":true,"module":"soft",'
            '"patches":8,"without":["Ptr:InitFile"]}\n'))

    def test_bytes(self):
        self.assertEqual(closed_and_failing(AGAIN, "--generations"), (16, 0))
        trace = json.loads(answered(AGAIN, "--generations --explain --json")[0])["trace"]
        new = {patch["part"]: patch["new"] for patch in trace}
        self.assertEqual(new["InodeFree"], "00000100000000000000000000000000")
        self.assertEqual(new["InodeInit"], "01010100000000000000000000000000")
        self.assertEqual(new["InitFile"], "460101".ljust(256, "0"))

    def test_directories(self):
        words = "--without Ptr:InitDir"
        self.assertEqual(closed_and_failing(DIRECTORY_AGAIN, words), (32, 0))
        self.assertEqual(first_failing(DIRECTORY_AGAIN, words, "--generations"), "0 1 2 3 4 6")
        self.assertIn("fault 3 unwritten pointer: inode 1 slot 0 block 5",
                      answered(DIRECTORY_AGAIN, words, "--generations")[0])

    def test_what_was_never_freed(self):
        self.assertEqual(answered(CREATE_WRITE, "--generations"), (
            "module soft\ngenerations\npatches 5\nclosed 11\nfailing 0\n", 0))
        self.assertEqual(answered(DIRECTORY_REUSE, "--module full --blocks 24 --journal 12",
                                  "--strict --atomic --generations"), (
            "module full\ngenerations\nstrict\natomic\npatches 22\nclosed 1105\nfailing 0\n", 0))

    def test_what_a_path_shows(self):
        rows = "create /a ; write /a ; start ; keep /b ; unlink /a ; create /b ; write /b"
        self.assertEqual(lines_of(answered(rows, "--generations --explain")[0], "shows"),
                         ["shows nothing", "shows file", "shows file 46010100"])

    def test_command_lines(self):
        for words in ("--generations --generations", "--generations=1"):
            self.assertEqual(answered("start", words), ("", 2))
