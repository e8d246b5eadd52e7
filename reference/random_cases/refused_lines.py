"""Lines that the planner refuses, and worlds in which it does."""

from .world import World

LINES = {
    10: ["write /q", "unlink /q", "create /q/x", "link /q /r", "rename /q /r",
         "rmdir /q", "mkdir /q/r", "write /d/q", "create /d/q/r",
         "rename /d/q /r", "rmdir /d/q", "link /q/a /d/x"],
    11: ["create /q/x", "mkdir /q/x", "write /q/x", "rmdir /q",
         "link /q/a /r", "rename /q /q/x", "create /q/x/y", "unlink /q/x"],
    12: ["create /q", "mkdir /q", "create /q2", "link /q /q", "rename /q /q",
         "link /q /q2", "rename /q2 /q", "mkdir /q2"],
    13: ["write /q", "unlink /q", "link /q /r", "rename /q /r",
         "rename /q /q/r", "link /q /q/r"],
}
"""Lines that are refused with the number, after the lines of `BEFORE`."""

BEFORE = {10: ["mkdir /d"], 11: ["create /q"], 12: ["create /q", "mkdir /q2"], 13: ["mkdir /q"]}


def not_empty(chance, world):
    """A directory with something in it."""
    world.do("mkdir /q")
    world.do(chance.choice(["create /q/x", "mkdir /q/y"]))
    return "rmdir /q"


def no_free_inode(chance, world):
    """All inodes are used."""
    world.do("mkdir /q")
    for k in range(16):
        world.do("create %s/i%d" % ("/q" if k % 2 else "", k))
    return chance.choice(["create /r", "mkdir /r", "create /q/r"])


def no_free_block(chance, world):
    """All blocks are used, where the disk is small."""
    for line in ("create /q", "create /r", "create /s"):
        world.do(line)
    for k in range(12):
        world.do("write " + ["/q", "/r", "/s"][k % 3])
    return chance.choice(["mkdir /t", "write /q"])


def directory_full(chance, world):
    """All ten entries of a directory are used."""
    parent = chance.choice(["", "/q"])
    world.do("mkdir /q")
    world.do("create /r")
    for k in range(10):
        world.do(chance.choice(["create %s/i%d", "link /r %s/i%d"]) % (parent, k))
        world.do("create %s/i%d" % (parent, k))
    return chance.choice(["create %s/w", "mkdir %s/w", "link /r %s/w", "rename /r %s/w"]) % parent


def file_full(chance, world):
    """A file with four blocks."""
    world.do("create /q")
    for _ in range(4):
        world.do("write /q")
    return "write /q"


def too_many_links(chance, world):
    """A file with eight names."""
    world.do("create /q")
    world.do("mkdir /r")
    for k in range(7):
        world.do("link /q %s/i%d" % (chance.choice(["", "/r"]), k))
    return chance.choice(["link /q /r/w", "rename /q /w", "link /q /w", "rename /q /r/w"])


FULL = {14: not_empty, 15: no_free_inode, 16: no_free_block, 17: directory_full, 18: file_full, 19: too_many_links}


def failing_line(chance, world, number):
    """Prepares the world and gives a line that is refused with the number."""
    if number in FULL:
        return FULL[number](chance, world)
    for line in BEFORE[number]:
        world.do(line)
    return chance.choice(LINES[number])


def inodes_and_entries(chance, world):
    """Neither a free inode nor a free entry."""
    for k in range(16):
        world.do("create %s/i%d" % ("/q" if k < 10 else "", k))
    return chance.choice(["create /q/w", "mkdir /q/w"])


def blocks_and_entries(chance, world):
    """Neither a free block nor a free entry."""
    world.do("mkdir /m")
    world.do("create /r")
    for k in range(10):
        world.do(chance.choice(["create /q/i%d", "link /r /q/i%d"]) % k)
        world.do("create /q/i%d" % k)
    return "mkdir /q/w"


def inodes_and_blocks(chance, world):
    """Neither a free inode nor a free block."""
    world.do("mkdir /m")
    for k in range(16):
        world.do("create %s/i%d" % ("/q" if k % 2 else "", k))
    return chance.choice(["mkdir /w", "mkdir /q/w"])


def blocks_and_slots(chance, world):
    """Neither a free block nor a free slot."""
    world.do("create /a")
    for _ in range(4):
        world.do("write /a")
    if chance.random() < 0.5:
        world.do("create /b")
    for line in ("mkdir /l", "mkdir /m", "mkdir /n", "mkdir /o"):
        world.do(line)
    return "write /a"


def entries_and_links(chance, world):
    """Neither a free entry nor one name more for the file."""
    world.do("create /a")
    for k in range(7):
        world.do("link /a %s/l%d" % (chance.choice(["", "/q"]), k))
    for k in range(10):
        world.do("create /q/i%d" % k)
    return chance.choice(["link /a /q/w", "rename /a /q/w"])


def names_and_inodes(chance, world):
    """A name that is taken, or that leads through a file, and no free inode."""
    for k in range(16):
        world.do("create %s/i%d" % ("/q" if k % 2 else "", k))
    return chance.choice(["create /i0", "mkdir /q/i1", "mkdir /q", "create /i0/x"])


def two_names(chance, world):
    """Two paths that are both at fault."""
    world.do("create /a")
    world.do("create /q/b")
    act = chance.choice(["link", "rename"])
    return act + " " + chance.choice([
        "/no /a/x", "/no /no/x", "/a/x /no/y", "/no/y /a/x", "/q /a/x", "/q /no/x", "/q /a",
        "/q /q", "/no /a", "/a /q", "/q/b /a", "/q /q/b", "/a /a", "/no /no"])


# Each with the blocks that are left beside a journal, where few must be left.
TWICE_REFUSED = [(inodes_and_entries, None), (blocks_and_entries, 7), (inodes_and_blocks, 7), (blocks_and_slots, 9),
                 (entries_and_links, None), (two_names, None), (two_names, None), (names_and_inodes, None)]


def twice_refused(chance):
    """A world, and a line that two tests refuse, of which the first decides."""
    make, left = chance.choice(TWICE_REFUSED)
    blocks, journal = 16, 0
    if left is not None:
        blocks = chance.choice([16, 20])
        journal = blocks - left
    world = World(chance, blocks, journal)
    if make is not blocks_and_slots:
        world.do("mkdir /q")
    return world, make(chance, world)
