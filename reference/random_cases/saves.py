"""Programs that save files: what is there before, and what they do, wait for and promise.

Each of these grows a world and gives two lists of lines, those before `start` and those after it.
"""

LETTERS = "KLM"
"""The names of the groups that make a save one update."""


def one_update(chance, lines):
    """The lines as one group, or now and then as they are."""
    return ["group " + chance.choice(LETTERS)] + lines + ["end"] if chance.random() < 0.75 else lines


def home_of(chance, world, homes):
    """A directory in which the files are, which is made."""
    home = chance.choice(homes)
    for cut in range(1, home.count("/") + 1):
        world.do("mkdir " + "/".join(home.split("/")[:cut + 1]))
    return home


def file_of_blocks(chance, world, name, counts):
    """Makes a file with some number of blocks, and gives that number."""
    world.do("create " + name)
    count = chance.choice(counts)
    for _ in range(count):
        world.do("write " + name)
    return count


def wait_of(chance, home, other, tidy):
    """What a save waits for before the new file takes the old one's name."""
    if tidy:
        of_home = "fsync " + (home or "/")
        return chance.choice([["fsync " + other], ["fsync " + other, "sync"], [of_home, "fsync " + other], ["sync"]])
    return chance.choice([[], ["fsync " + other], ["fsync " + other], ["sync"]])


def by_replace(chance, name, other, wait):
    """A new file that replaces the old one."""
    return (["create " + other] + ["write " + other] * chance.choice([0, 1, 1, 2]) + wait
            + ["replace %s %s" % (other, name)])


def by_rename(chance, name, other, wait):
    """A new file that is renamed when the old one is gone."""
    return ["create " + other, "write " + other] + wait + ["unlink " + name, "rename %s %s" % (other, name)]


def by_truncate(chance, name, other, wait):
    """The old file made empty and written again."""
    lines = ["truncate " + name, "write " + name]
    return ["group " + chance.choice("ABCDE")] + lines + ["end"] if chance.random() < 0.4 else lines


def by_overwrite(chance, name, other, wait):
    """The old file's data written over."""
    lines = ["overwrite " + name]
    return ["group " + chance.choice("FGHIJ")] + lines * 2 + ["end"] if chance.random() < 0.3 else lines


WAYS = [by_replace, by_replace, by_replace, by_truncate, by_truncate, by_overwrite, by_overwrite, by_rename]


def after_a_save(chance, home, name, other, tidy, last):
    """What a program waits for and promises after a save whose last line this is."""
    lines = []
    if chance.random() < 0.6:
        lines = [chance.choice(["fsync " + name, "fsync " + name, "fsync /", "sync", "fsync " + (home or "/")])]
        last = lines[0]
    if chance.random() < 0.4 and not tidy:
        lines.append("keep " + chance.choice([name, name, name, other, home or "/q"]))
    elif tidy and last in ("sync", "fsync " + name):
        lines += ["keep " + name] * chance.choice([0, 1])
    return lines


def save(chance, world, tidy):
    """A save, once or twice. A tidy one promises at the beginning and behind an `fsync` alone, and has more lines
    `fsync` than it needs."""
    home = home_of(chance, world, ["", "", "", "/d", "/d", "/d/e"])
    name, other = home + "/a", chance.choice([home, home, ""]) + "/t"
    if chance.random() < 0.9:
        file_of_blocks(chance, world, name, [0, 1, 1, 1, 2])
    for line in ("link %s /l" % name, "create /b"):
        if chance.random() < 0.15:
            world.do(line)
    base = world.script_lines()
    lines = [] if chance.random() < (0.15 if tidy else 0.5) else ["keep " + name]
    if chance.random() < 0.2 and world.accepts("create " + name) is not None:
        lines += ["create " + name] + ["write " + name] * chance.choice([0, 1])
        lines += ["fsync " + name] * chance.choice([0, 1])
    way = chance.choice(WAYS)
    for _ in range(chance.choice([1, 1, 1, 2])):
        lines += way(chance, name, other, wait_of(chance, home, other, tidy))
        lines += after_a_save(chance, home, name, other, tidy, lines[-1])
    return base, lines


def spoiled_spare(chance, lines, name, spare):
    """The lines of a backup, now and then with its spare in a wrong place, with another spare, or with one promise
    more."""
    roll = chance.random()
    if roll < 0.1:
        lines.remove(spare)
        lines.insert(chance.randrange(len(lines) + 1), spare)
    elif roll < 0.2:
        other = chance.choice(["spare %s %s" % (name, name), "spare /q " + name, spare])
        lines.insert(chance.randrange(len(lines)), other)
    elif roll < 0.3:
        lines.append("keep " + name)
    return lines


def change_in_place(chance, name, count):
    """A file of this number of blocks changed where it is."""
    if count and chance.random() < 0.3:
        return ["overwrite %s %d" % (name, chance.randrange(count)) for _ in range(chance.choice([1, 2]))]
    return ["overwrite " + name] if chance.random() < 0.7 else ["truncate " + name, "write " + name]


def backup(chance, world, by_copy, tidy):
    """A save under the file's own name, with a backup meanwhile: the old file renamed, or a copy of it."""
    home = home_of(chance, world, ["", "", "", "/d"])
    name, other = home + "/a", chance.choice([home, home, ""]) + "/b"
    count = file_of_blocks(chance, world, name, [0, 1, 1, 2])
    base = world.script_lines()
    promise = ["keep " + name] * chance.choice([1, 1, 1, 2])
    promise += ["keep %s %s" % (name, other)] if chance.random() < 0.15 else []
    if chance.random() < 0.2:
        promise[0] = "fsync " + name
    wait = ["fsync " + other] if tidy or chance.random() < 0.6 else chance.choice([[], ["sync"], ["fsync /"]])
    saved = ["fsync " + name] if tidy or chance.random() < 0.6 else chance.choice([[], ["sync"]])
    gone = ["unlink " + other] if chance.random() < 0.7 else []
    spare = "spare %s %s" % (name, other)
    if by_copy:
        copy = ["create " + other] + ["write " + other] * max(1, count)
        lines = copy + wait + [spare] + one_update(chance, change_in_place(chance, name, count)) + saved + gone
    else:
        lines = ["rename %s %s" % (name, other), spare] + (wait if chance.random() < 0.3 else [])
        lines += ["create " + name] + ["write " + name] * chance.choice([0, 1, 1]) + saved
        inside = gone if chance.random() < 0.7 else []
        lines = one_update(chance, lines + inside) + (gone if not inside else [])
    return base, spoiled_spare(chance, promise + lines, name, spare)


def backup_by_copy(chance, world, tidy):
    """A save with a copy as its backup."""
    return backup(chance, world, True, tidy)


def backup_by_rename(chance, world, tidy):
    """A save with the old file as its backup."""
    return backup(chance, world, False, tidy)


def two_names(chance, world, tidy):
    """Two names in one promise: of a file that is packed into another, or of two that change together."""
    for line, share in (("create /f", 1), ("write /f", 0.8), ("create /h", 0.3)):
        if chance.random() < share:
            world.do(line)
    base = world.script_lines()
    wait = chance.choice([[], ["fsync /g"], ["fsync /g", "fsync /"], ["sync"]])
    lines = ["create /g"] + ["write /g"] * chance.choice([0, 1, 1]) + wait + ["unlink /f"]
    if chance.random() < 0.3:
        lines = chance.choice([["rename /f /g"], ["link /f /g", "unlink /f"], ["overwrite /f", "create /g"],
                               ["truncate /f", "create /g", "write /g"]])
    paths = chance.choice(["/f /g", "/g /f", "/f /g /h", "/f /q /g", "/f /g /q/r /h"])
    paths = "/f /f" if chance.random() < 0.2 else paths
    end = chance.choice([[], [], ["sync"], ["fsync /"]]) + (["keep /g /f"] if chance.random() < 0.3 else [])
    return base, ["keep " + paths] + one_update(chance, lines) + end


def data_line(chance, world, is_first):
    """A line that changes the data of a file."""
    name = chance.choice(world.files())
    slot = "overwrite %s %d" % (name, chance.choice(world.slots(name) or [0]))
    lines = ["overwrite " + name, "overwrite " + name, slot, slot, "write " + name, "truncate " + name]
    return name, chance.choice(lines[:4] if is_first else lines)


def data_written_over(chance, world, tidy):
    """File data that are written over, and lines that wait for them."""
    for name in ["/a", "/b"][:chance.choice([1, 1, 2])]:
        file_of_blocks(chance, world, name, [1, 1, 2, 2, 3])
    if chance.random() < 0.2:
        world.do("link /a /l")
    base = world.script_lines()
    lines = ["keep /a"] if chance.random() < 0.5 else []
    for step in range(chance.choice([1, 2, 2, 3])):
        name, line = data_line(chance, world, step == 0)
        world.do(line)
        lines.append(line)
        if chance.random() < 0.65:
            lines.append(chance.choice(["fsync " + name, "fsync " + name, "sync", "fsync /", "fsync /a"]))
        if chance.random() < 0.4:
            lines.append("keep " + chance.choice([name, name, "/a", "/a /b"]))
    return base, ["group N"] + lines + ["end"] if chance.random() < 0.2 else lines
