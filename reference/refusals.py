"""The numbered refusals, and the reference's own way to give up."""

REFUSAL_TEXTS = {
    1: "bad geometry",
    2: "too many patches",
    10: "not found",
    11: "not a directory",
    12: "exists",
    13: "not a file",
    14: "not empty",
    15: "no free inode",
    16: "no free block",
    17: "directory full",
    18: "file full",
    19: "too many links",
    20: "journal full",
    21: "group fault",
    22: "only after start",
    23: "too many syncs",
    30: "too many closed sets",
    40: "not UTF-8",
    41: "bad line",
    42: "bad path",
    43: "no start line",
    50: "cannot read the script",
    51: "cannot write the report",
    52: "script too long",
    99: "out of memory",
}

MOST_SETS = 200000
"""The most closed sets that the reference enumerates."""

MOST_RULES = 14
"""The most rules whose sublists the reference tries one by one."""

MOST_LINES = 8
"""The most lines `sync` and `fsync` whose sublists the reference tries one by one."""


class Refusal(Exception):
    """A script is refused: the refusal's number, and the line of the script, or None where no line is at fault."""

    def __init__(self, number, line=None):
        super().__init__(number, line)
        self.number = number
        self.line = line

    def printed(self):
        """The line on standard error, without its line feed."""
        where = "" if self.line is None else "line %d: " % self.line
        return "crashmap: %s%d %s" % (where, self.number, REFUSAL_TEXTS[self.number])


class Refused(Exception):
    """An operation is refused: the refusal's number. The caller knows the line."""

    def __init__(self, number):
        super().__init__(number)
        self.number = number


class TooMuch(Exception):
    """The question is too big for the reference, which enumerates. Crashmap itself never answers so."""
