"""Patch groups, comments and line feeds for the lines of a script."""

GROUPS = ["A", "B", "C", "D", "a", "Group1", "0", "ABCDEFGHIJ", "g2", "Z9"]

COMMENTS = ["", "", "#", "# a comment", "#start", "# caf\u00e9", "#create /a", "#  two  spaces ", "#\tx\r"]


class Grouping:
    """Puts lines into groups, so that each step that speaks of groups is accepted."""

    def __init__(self, chance):
        self.chance = chance
        self.spare = GROUPS[:]
        chance.shuffle(self.spare)
        self.out = []
        self.ended = []
        self.empty = []

    def depends_of(self, name):
        """Now and then, makes a group wait for one or two that have ended."""
        others = [one for one in self.ended if one != name]
        if others and self.chance.random() < 0.75:
            for one in self.chance.sample(others, self.chance.randrange(1, min(3, len(others)) + 1)):
                self.out.append("depend %s %s" % (name, one))

    def take(self, lines):
        """Takes the first of the lines, or none of them, and gives those that are left."""
        roll = self.chance.random()
        if roll < 0.12 and len(self.spare) > 1:
            self.empty_group()
        elif roll < 0.2 and self.empty:
            self.depends_of(self.chance.choice(self.empty))
        elif roll < 0.25:
            self.depends_of(self.spare[0] if self.chance.random() < 0.5 else "never")
        elif roll < 0.4:
            self.out.append(lines[0])
            return lines[1:]
        else:
            return self.group(lines)
        return lines

    def empty_group(self):
        """A group without a patch."""
        name = self.spare.pop()
        self.out += ["group " + name, "end"]
        self.ended.append(name)
        self.empty.append(name)

    def group(self, lines):
        """A group of one to three lines."""
        name = self.spare.pop()
        before = self.chance.random() < 0.7
        if before:
            self.depends_of(name)
        self.out.append("group " + name)
        if not before:
            self.depends_of(name)
        count = self.chance.choice([1, 1, 1, 2, 3])
        for line in lines[:count]:
            self.out.append(line)
            if self.chance.random() < 0.15 and self.spare:
                self.depends_of(self.spare[-1])
        if lines[count:] or self.chance.random() < 0.6:
            self.out.append("end")
            self.ended.append(name)
        return lines[count:]


def with_groups(chance, lines):
    """The lines with steps that speak of groups, all of them accepted."""
    grouping = Grouping(chance)
    while lines and grouping.spare:
        lines = grouping.take(lines)
    return grouping.out + lines


def bad_groups(chance, lines):
    """The lines with a step that speaks of groups and is likely to be refused."""
    first = lines[0] if lines else "create /q1"
    kinds = {
        "twice": ["group A", "end", "group A"],
        "nested": ["group A", "group B"],
        "same": ["group A", "group A"],
        "end": ["end"],
        "end twice": ["group A", first, "end", "end"],
        "self": ["group A", "end", "depend A A"],
        "not ended": ["group A", "depend B A", "end"],
        "filled": ["group A", "end", "group B", first, "end", "depend B A"],
        "filled open": ["group A", "end", "group B", first, "depend B A"],
        "filled closed": ["group B", first, "end", "group A", "end", "depend B A"],
        "not opened": ["depend A B"],
        "open": ["group A", first, "end", "group B", "depend C B"],
        "swapped": ["group A", first, "end", "depend B A", "depend A B"],
        "base": [],
    }
    out = chance.choice(list(kinds.values()))
    return out + (lines[1:] if first in out else lines)


def with_comments(chance, lines):
    """The lines with comments and empty lines here and there."""
    out = []
    for line in lines:
        while chance.random() < 0.2:
            out.append(chance.choice(COMMENTS))
        out.append(line)
    return out


def encoded(chance, lines):
    """The bytes of a script, now and then without its last line feed or with more of them."""
    data = "".join(line + "\n" for line in lines).encode()
    if data and chance.random() < 0.15:
        data = data[:-1]
    elif chance.random() < 0.1:
        data += b"\n" * chance.randrange(1, 4)
    return data
