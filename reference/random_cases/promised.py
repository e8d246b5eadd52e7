"""Scripts in which it matters what comes behind a promise, or behind an `fsync`.

Each of these grows a world and gives two lists of lines, those before `start` and those after it.
"""

from .saves import file_of_blocks, home_of, one_update

UNDONE = ["write {a} ; truncate {a}", "create {t} ; unlink {t}", "truncate {a} ; write {a}",
          "rename {a} {t} ; rename {t} {a}", "unlink {a} ; create {a}", "link {a} {t} ; unlink {t}",
          "create {t} ; replace {t} {a}"]
"""Two lines of which the second undoes what the first does."""

NEXT = ["write {n}", "write {n}", "truncate {n}", "overwrite {n}", "unlink {n}", "create {t}", "create {a}",
        "create {c}", "rename {n} {t}", "link {n} {t}", "replace {t} {a}", "replace {c} {n}"]
"""Lines on a file `n`, on the file `a` of the promise, and on two others."""


def filled(chance, lines, **names):
    """One of the lines, with names put in."""
    return chance.choice(lines).format(**names)


def updates_behind(chance, world, names, count, undone):
    """Lines on these names, which are done, up to a number of them. `undone` are two lines that come first."""
    first, last = undone
    lines = world.do_some([first, last], 2) if first else []
    while len(lines) < count:
        files = world.files() or [names["a"]]
        near = names["a"] if names["a"] in files and chance.random() < 0.7 else chance.choice(files)
        lines += world.do_some([filled(chance, NEXT, n=near, **names)], 1)
    return lines


def begun(chance, world):
    """A promise, and behind it several updates of what it is made of, each with a rest of its own: what a set is
    allowed depends on how far it had begun."""
    home = home_of(chance, world, ["", "", "/d"])
    names = dict(a=home + "/a", t=chance.choice([home, ""]) + "/t", c=home + "/n")
    file_of_blocks(chance, world, names["a"], [0, 1, 1, 2])
    if chance.random() < 0.4:
        world.do("create " + names["c"])
    base = world.script_lines()
    is_undone = chance.random() < 0.55
    undone = filled(chance, UNDONE, **names).split(" ; ") if is_undone else [None, None]
    lines = updates_behind(chance, world, names, chance.choice([2, 2, 3]), undone)
    promise = [line.format(**names) for line in chance.choice([
        ["keep {a}"], ["keep {a}"], ["keep {a} {t}"], ["fsync {a}"], ["fsync {a}", "keep {a}"], ["keep {t}"],
        ["sync", "keep {t} {a}"]])]
    if is_undone and names["t"] in undone[0] and chance.random() < 0.7:
        promise = [line.format(**names) for line in chance.choice([
            ["keep {t}"], ["keep {t}"], ["keep {a} {t}"], ["fsync /", "keep {t}"]])]
    at = chance.choice([1, 1, 1, 0, 2] if is_undone else [0, 0, 0, 1])
    lines = lines[:at] + promise + lines[at:]
    if chance.random() < 0.4:
        lines.insert(chance.randrange(at + len(promise), len(lines) + 1),
                     filled(chance, ["sync", "fsync /", "keep {a}", "keep {t}"], **names))
    return base, lines


def hole(chance, world):
    """A file of several blocks that is written, or cut and written again: on the disk a slot can be there without one
    before it."""
    file_of_blocks(chance, world, "/a", [0, 0, 1, 2])
    base = world.script_lines()
    lines = [chance.choice(["keep /a", "keep /a", "fsync /a", "keep /a /b"])] if chance.random() < 0.8 else []
    lines += chance.choice([["write /a"] * 2, ["write /a"] * 2, ["truncate /a", "write /a", "write /a"],
                            ["write /a"] * 3, ["truncate /a", "write /a"], ["write /a", "overwrite /a", "write /a"],
                            ["write /a", "truncate /a", "write /a"]])
    if chance.random() < 0.5:
        lines += [chance.choice(["keep /a", "fsync /a", "sync"])]
        lines += chance.choice([[], ["keep /a"], ["write /a"], ["truncate /a"], ["overwrite /a"], ["unlink /a"]])
    return base, lines


NEAR = ["create {n}", "create {n}", "write {n}", "write {n}", "overwrite {n}", "unlink {n}", "rename {n} {t}",
        "link {n} {t}", "replace {n} {t}", "truncate {n}"]


def neighbour(chance, world):
    """An `fsync` in a directory with other names in it, and behind it steps that touch its path and steps that do
    not."""
    home = chance.choice(["", "/d", "/d"])
    world.do("mkdir /d")
    name, near = home + "/a", home + "/n"
    for line, share in (("mkdir /e", 0.3), ("create " + name, 1), ("write " + name, 0.6), ("create " + near, 0.5)):
        if chance.random() < share:
            world.do(line)
    base = world.script_lines()
    far = ("/e" if "/e" in world.directories() else "/d" if home == "" else "") + "/m"
    names, lines = [name, name, near, near, far, home + "/b"], []
    for _ in range(chance.choice([2, 3, 4, 5])):
        lines += world.do_some([filled(chance, NEAR, n=chance.choice(names), t=chance.choice(names))], 1)
        files = world.files() if sum(line.startswith("fsync") for line in lines) < 2 else []
        if files and chance.random() < 0.25:
            lines.append("fsync " + chance.choice([path for path in files if path == name] * 2 + files))
    if not any(line.startswith("fsync") for line in lines):
        lines.insert(0, "fsync " + chance.choice([name, name, "/d"]))
    if chance.random() < 0.2:
        lines.insert(chance.randrange(len(lines) + 1), chance.choice(["sync", "fsync /", "fsync /d", "keep " + name]))
    return base, lines


def reused_block(chance, world):
    """A directory's block is taken by a file, which is forced: replay can put the directory's old copy over it. Behind
    it come steps that touch the file and steps that do not."""
    for line in ["mkdir /d", "create /d/x", "create /f"] + chance.choice([["mkdir /e", "create /e/h"]] * 2 + [[]]):
        world.do(line)
    base = world.script_lines()
    lines = ["unlink /d/x", "rmdir /d"] + (["fsync /"] if chance.random() < 0.2 else []) + ["write /f"]
    lines += [chance.choice(["fsync /f", "fsync /f", "keep /f"])] + (["keep /f"] if chance.random() < 0.2 else [])
    last = chance.choice([None, "overwrite /f", "overwrite /e/h", "unlink /e/h", "create /g", "rename /f /e/f",
                          "create /e/i"])
    return base, lines + ([last] if last and ("/e" not in last or "mkdir /e" in base) else [])


AGAIN = ["unlink /x", "unlink {n}", "rename {f} /y", "unlink {f}", "rmdir {d}", "mkdir {d}", "rename /y {f}",
         "create {f}"]
MOVES = AGAIN + ["rename {n} {f}", "rename /x {n}", "rename /x {f}", "replace /x {f}", "create {n}", "link {f} /y",
                 "mkdir {d}/m", "write {n}", "replace {n} /x"]


def directory_anew(chance, world, home, names):
    """An `fsync` of a file, and behind it one of the directories on its way is removed and made again."""
    gone = [chance.choice(["unlink {f}", "unlink {f}", "rename {f} /y"]), "unlink {n}", "rmdir {d}"]
    again = ["mkdir {d}"] + chance.choice([[], [], ["create {f}"], ["create {d}/g"]])
    if home != "/d" and chance.random() < 0.6:
        gone, again = gone + ["rmdir /d"], ["mkdir /d"] + again
    first = ["unlink /x"] if chance.random() < 0.6 else []
    between = ["create /z"] if chance.random() < 0.15 else []
    lines = [line.format(**names) for line in first + gone + between + again]
    return ["fsync " + names["f"]] + world.do_some(lines, len(lines))


def way(chance, world):
    """An `fsync` of a file, and what comes behind it on its way: moves into and out of its directory, and directories
    that are emptied, removed and made again."""
    for line, share in (("create /x", 0.6), ("write /x", 0.3)):
        if chance.random() < share:
            world.do(line)
    home = home_of(chance, world, ["/d", "/d", "/d/e"])
    names = dict(f=home + "/f", n=home + "/n", d=home)
    for line, share in (("create {n}", 0.5), ("create {f}", 1), ("write {f}", 0.7)):
        if chance.random() < share:
            world.do(line.format(**names))
    base = world.script_lines()
    if chance.random() < 0.35:
        return base, directory_anew(chance, world, home, names)
    near = names["n"] if names["n"] in world.files() else names["f"]
    lines = ["fsync " + chance.choice([names["f"]] * 3 + [home, near])]
    again = [line for line in AGAIN if chance.random() < 0.5 or "{d}" not in line]
    moves = again if chance.random() < 0.6 else [chance.choice(MOVES) for _ in range(12)]
    moves = [line.format(**names) for line in moves if chance.random() < 0.85]
    for line in world.do_some(moves, chance.choice([2, 2, 3, 4, 5])):
        lines.append(line)
    if chance.random() < 0.15 and world.accepts("overwrite " + names["f"]) is not None:
        lines.append("fsync " + names["f"])
    return base, lines


BY_LINK = ["overwrite {l}", "overwrite {l}", "overwrite {l} 0", "write {l}", "truncate {l}", "unlink {l}",
           "link /a {l}", "link {l} /k", "rename {l} /k", "overwrite /k", "replace /t {l}", "replace {l} /t",
           "create /t", "create {d}/n", "write /t", "unlink /a"]


def linked(chance, world):
    """An `fsync` of a file with a second name, and what is done by way of that name, or beside it."""
    home = home_of(chance, world, ["", "/d"])
    other = home + "/l"
    file_of_blocks(chance, world, "/a", [1, 1, 2])
    for line, share in (("link /a " + other, 0.7), ("create /t", 0.4)):
        if chance.random() < share:
            world.do(line)
    base = world.script_lines()
    lines = world.do_some(["overwrite /a"], 0 if chance.random() < 0.7 else 1)
    lines.append("fsync " + chance.choice(["/a", "/a", other] if other in world.files() else ["/a"]))
    tried = [filled(chance, BY_LINK, l=other, d=home) for _ in range(12)]
    lines += world.do_some(tried, chance.choice([1, 1, 2, 2, 3]))
    if chance.random() < 0.3 and "/a" in world.files():
        lines.append("fsync /a")
    return base, lines


HELD = [["create {b}", "FILL", "WAIT", "replace {b} {a}", "ITSELF"],
        ["truncate {a}", "MAYBE", "write {a}", "ITSELF"], ["overwrite {a}", "ITSELF"],
        ["write {a}", "ITSELF", "write {a}", "ITSELF"],
        ["rename {a} {b}", "OTHER"], ["rename {a} {b}", "OTHER", "create {a}", "write {a}", "ITSELF"],
        ["link {a} {b}", "OTHER", "unlink {a}"], ["create {b}", "FILL", "WAIT", "OTHER", "unlink {a}"],
        ["create {b}", "FILL", "unlink {a}", "OTHER"], ["unlink {a}", "ITSELF"], ["rename {a} {b}", "ITSELF"],
        ["unlink {a}", "ITSELF", "create {a}", "ITSELF"], ["unlink {a}", "rmdir {d}", "MAYBE", "mkdir {d}", "ITSELF"]]
"""Updates of a program behind a line `hold`. Words in capitals stand for a write, for waiting, and for spares."""


def held_lines(chance, home, names):
    """One of the updates, as lines."""
    itself, other = "spare {a} {a}", "spare {a} {b}"
    words = {"FILL": ["write {b}"] * chance.choice([0, 1, 1]), "WAIT": chance.choice([[], [], ["fsync {b}"], ["sync"]]),
             "ITSELF": [itself], "OTHER": [other], "MAYBE": [itself] * chance.choice([0, 0, 1])}
    lines = [line for word in chance.choice(HELD) for line in words.get(word, [word])]
    lines = [line for line in lines if home or "{d}" not in line]
    if chance.random() < 0.15:
        lines = [line for line in lines if not line.startswith("spare") or chance.random() < 0.4]
    return [line.format(**names) for line in lines]


def held(chance, world):
    """A line `hold`, and behind it the update of a program: a save, a move, a file that is packed, with the spares that
    say what may be found behind it, or some of them."""
    home = home_of(chance, world, ["", "", "/d"])
    for line, share in (("mkdir /d", 0.5), ("mkdir /e", 0.3)):
        if chance.random() < share:
            world.do(line)
    name = home + "/a"
    file_of_blocks(chance, world, name, [0, 1, 1, 2])
    base = world.script_lines()
    parents = [""] + [path for path in ("/d", "/e") if path in world.directories()]
    other = chance.choice([parent + "/b" for parent in parents])
    lines = held_lines(chance, home, dict(a=name, b=other, d=home))
    lines = one_update(chance, lines) if chance.random() < 0.25 else lines
    if chance.random() < 0.2:
        lines.insert(chance.randrange(len(lines)),
                     chance.choice(["sync", "fsync " + name, "hold " + name, "keep " + name, "hold " + other]))
    ahead = chance.choice([[], [], ["sync"], ["overwrite " + name], ["overwrite " + name, "fsync " + name],
                           ["write " + name]])
    return base, ahead + ["hold " + name] + lines
