"""Shapes of scripts that reach the hard places. Each shape grows a world and gives the number of its lines before
`start`."""


def shape_random(world, length):
    """Any operations."""
    base = world.chance.choice([0, 0, 1, 2, 3, 5, 8])
    world.grow(base, {"create": 5, "write": 4, "link": 2, "mkdir": 4})
    cut = len(world.steps)
    world.grow(length)
    return cut


def shape_reuse(world, length):
    """A file's inode and block are given up and taken again."""
    chance = world.chance
    for line in ("create /a", "write /a", "create /b"):
        world.do(line)
    if chance.random() < 0.3:
        world.do("link /a /c")
    if chance.random() < 0.3:
        world.do("write /a")
    cut = len(world.steps)
    world.do("unlink /a")
    world.do(chance.choice(["write /b", "create /a", "mkdir /e", "rename /b /a", "create /x"]))
    world.grow(max(0, length - 2))
    return cut


def shape_directory_block(world, length):
    """A directory's block becomes file data, with the directory written before."""
    chance = world.chance
    world.do("mkdir /d")
    extra = chance.random()
    world.do("create /d/x")
    if extra < 0.3:
        world.do("link /d/x /y")
    world.do("create /f")
    if chance.random() < 0.3:
        world.do("write /f")
    cut = len(world.steps)
    early = chance.random()
    if early < 0.45:
        world.do("unlink /d/x")
    elif early < 0.75:
        world.do("rename /d/x /z")
    elif early < 0.85:
        world.do("link /d/x /z")
        world.do("unlink /d/x")
    else:                               # the directory is emptied before the start
        world.do("unlink /d/x")
        cut = len(world.steps)
    world.do("rmdir /d")
    world.do(chance.choice(["write /f", "write /f", "write /f", "mkdir /e", "create /d"]))
    world.grow(max(0, length - 3), {"write": 5, "unlink": 3, "rename": 2, "create": 2, "mkdir": 2})
    return cut


def shape_other_directory(world, length):
    """A directory's block becomes the block of a directory with another inode."""
    chance = world.chance
    world.do("create /a")
    world.do("mkdir /d")
    if chance.random() < 0.3:
        world.do("create /b")
    world.do("unlink /a")
    cut = len(world.steps)
    world.do("rmdir /d")
    world.do("mkdir /e")
    world.do(chance.choice(["create /e/y", "create /e/y", "mkdir /e/y", "rename /b /e/y"]))
    world.grow(max(0, length - 3), {"create": 3, "unlink": 3, "rename": 2, "write": 1})
    return cut


def shape_links(world, length):
    """A file with many names."""
    chance = world.chance
    world.do("create /a")
    for name in "bcdefgh"[:chance.choice([0, 1, 3, 5, 6, 7])]:
        world.do("link /a /" + name)
    if chance.random() < 0.5:
        world.do("mkdir /d" if world.accepts("mkdir /d") else "mkdir /m0")
    cut = len(world.steps)
    world.grow(length, {"link": 5, "unlink": 5, "rename": 5, "write": 1, "create": 1})
    return cut


def fill_directory(world):
    """A directory with 8 to 10 entries."""
    parent = world.chance.choice(["", "/d"])
    if parent:
        world.do("mkdir /d")
    for k in range(world.chance.choice([8, 9, 10])):
        world.do("create %s/n%d" % (parent, k))


def fill_inodes(world):
    """Nearly all inodes are used."""
    world.do("mkdir /d")
    for k in range(world.chance.choice([12, 13, 14])):
        world.do("create %s/n%d" % ("/d" if k < 10 else "", k))


def fill_pointers(world):
    """A file with 2 to 4 blocks."""
    world.do("create /a")
    for _ in range(world.chance.choice([2, 3, 4])):
        world.do("write /a")


def fill_blocks(world):
    """Few blocks are free."""
    world.do("create /a")
    world.do("create /b")
    for k in range(8):
        if len(world.steps) < 9:
            world.do(world.chance.choice(["write /a", "write /b", "mkdir /m%d" % k]))


def shape_full(world, length):
    """Near the ends: a full directory, all inodes, four pointers, few blocks."""
    world.chance.choice([fill_directory, fill_inodes, fill_pointers, fill_blocks])(world)
    cut = len(world.steps)
    world.grow(length, {"create": 3, "write": 3, "unlink": 5, "rename": 4, "rmdir": 2, "mkdir": 2})
    return cut


def shape_deep(world, length):
    """Paths of four names."""
    chance = world.chance
    for line in ("mkdir /a", "mkdir /a/b", "mkdir /a/b/c", "create /a/b/c/d", "create /a/x"):
        if chance.random() < 0.93:
            world.do(line)
    cut = chance.randrange(len(world.steps) + 1)
    world.grow(length)
    return cut


SHAPES = [(shape_random, 6), (shape_reuse, 4), (shape_directory_block, 5), (shape_links, 3),
          (shape_other_directory, 3), (shape_full, 2), (shape_deep, 2)]


def pick_geometry(chance, module):
    """Numbers of blocks and of blocks of the journal."""
    if module in ("meta", "full"):
        blocks = chance.choice([24, 32, 40, 64, 128, chance.randrange(22, 129)])
        journal = chance.randrange(9, min(blocks - 6, 60) + 1)
        if chance.random() < 0.5:
            journal = blocks - 6 - chance.randrange(0, min(6, blocks - 15))
            journal = max(9, journal)
    else:
        blocks = chance.choice([16, 16, 16, 17, 24, 128, chance.randrange(16, 129)])
        journal = chance.choice([0, 0, 0, blocks - 6, chance.randrange(0, blocks - 5)])
    return blocks, journal


def pick_length(chance, module, heavy):
    """A number of traced operations."""
    if module == "async":
        return chance.choice([1, 2, 2, 3, 3, 4, 4, 5] + ([6] if heavy else []))
    if module == "soft":
        return chance.choice([1, 2, 3, 4, 5, 6, 7, 8, 10, 12])
    return chance.choice([1, 2, 3, 3, 3, 4] + ([5] if heavy else []))


def pick_shape(chance):
    """One of the shapes."""
    return chance.choices([one for one, _ in SHAPES], [weight for _, weight in SHAPES])[0]
