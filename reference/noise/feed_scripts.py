"""Scripts that are no scripts, with the words of a command line."""

import random

SCRIPTS = [
    b"start\ncreate /a\n",
    b"start\ncreate /a\nwrite /a\n",
    b"create /a\nstart\nrename /a /b\n",
    b"create /a\nwrite /a\ncreate /b\nstart\nunlink /a\nwrite /b\n",
    b"mkdir /d\ncreate /d/x\ncreate /f\nstart\nunlink /d/x\nrmdir /d\nwrite /f\n",
    b"create /a\nstart\n" + b"link /a /b\nunlink /b\n" * 12,
    b"# groups\nstart\ngroup A\ncreate /a\nend\ndepend B A\ngroup B\ncreate /b\nend\n",
    b"mkdir /a\nmkdir /a/b\nmkdir /a/b/c\nstart\ncreate /a/b/c/d\nlink /a/b/c/d /x\n",
]
WORDS = [b"start", b"create", b"write", b"link", b"unlink", b"rename", b"mkdir", b"rmdir", b"group", b"end", b"depend",
         b"/a", b"/b", b"/d", b"/d/x", b"/d/y", b"A", b"B", b"C", b"#", b"", b"/", b"//a", b"/A", b"\xc3\xa9", b"\xff",
         b"\0"]
OPERATIONS = [b"create", b"write", b"unlink", b"mkdir", b"rmdir", b"link", b"rename"]
PATHS = [b"/a", b"/b", b"/d", b"/e", b"/d/x", b"/d/y"]
LONGEST = 1048576
"""The most bytes of a script."""


def random_bytes(chance):
    """Bytes of one of three alphabets: all bytes, those of scripts, those of scripts and a few more."""
    alphabet = chance.choice([bytes(range(256)), b"abcdestruhlink/ \nAB#019", b"create /\n\n# \0\r\t\xc3\xa9\xff"])
    length = chance.choice([0, 1, 2, 10, 100, 1000, 20000])
    return bytes(chance.choices(alphabet, k=chance.randrange(length + 1)))


def piece(chance):
    """A piece of a script: from any byte to any byte, or whole lines."""
    script = chance.choice(SCRIPTS)
    if chance.random() < 0.5:
        lines = script.split(b"\n")
        first, last = sorted(chance.choices(range(len(lines) + 1), k=2))
        return b"".join(line + b"\n" for line in lines[first:last] if line != b"start")
    first, last = sorted(chance.choices(range(len(script) + 1), k=2))
    return script[first:last]


def spliced(chance):
    """Pieces of scripts in a row, often after a beginning, now and then with a byte changed."""
    head = chance.choice(SCRIPTS)
    script = head[:chance.choice([0, len(head), chance.randrange(len(head))])]
    script = bytearray(script + b"".join(piece(chance) for _ in range(chance.randrange(4))))
    while script and chance.random() < 0.2:
        script[chance.randrange(len(script))] = chance.randrange(256)
    return bytes(script)


def long_line(chance):
    """A line of up to 300,000 bytes, in a script that is whole without it."""
    length = chance.choice([11, 100, 5000, 300000])
    letters = chance.choice([b"a", b" ", b"/", b"#", b"/a", b" /a", b"0", b"\xc3\xa9", b"\xe2\x82"])
    filler = letters * (length // len(letters))
    forms = [b"%s", b"#%s", b"create %s", b"create /%s", b"link /a /%s", b"group %s", b"depend %s A", b"start%s"]
    line = chance.choice(forms)
    lines = chance.choice(SCRIPTS).split(b"\n")
    lines.insert(chance.randrange(len(lines) + 1), line.replace(b"%s", filler))
    return b"\n".join(lines)


def many_lines(chance):
    """Very many short lines. A few of these scripts are longer than a script may be."""
    count = chance.choice([10, 1000, 30000])
    script = chance.choice([b"\n", b"#\n", b"# x\n", b"end\n", b"create /a\n"]) * count
    if chance.random() < 0.05:
        return b"\n" * (LONGEST + chance.randrange(-1, 3))
    return script + chance.choice(SCRIPTS)


def wordy(chance):
    """Lines of words that scripts have, in any order and number."""
    lines = [b" ".join(chance.choices(WORDS, k=chance.randrange(1, 5))) for _ in range(chance.randrange(1, 12))]
    return b"\n".join(lines)


def operations(chance):
    """Lines that a script may have, on few paths. Many are refused only because of the lines before them."""
    lines = [b"mkdir /d", b"create /a", b"create /d/x"][:chance.choice([0, 3, 3])]
    for _ in range(chance.randrange(1, 4)):
        name = chance.choice(OPERATIONS)
        paths = chance.choices(PATHS, k=2 if name in (b"link", b"rename") else 1)
        lines.append(b" ".join([name] + paths))
    lines.insert(chance.randrange(len(lines) + 1), b"start")
    return b"\n".join(lines) + b"\n"


KINDS = [random_bytes, spliced, long_line, many_lines, wordy, operations]


def settings(chance):
    """The words of a command line; few closed sets, so that many scripts are answered."""
    module = chance.choice(["async", "soft", "meta", "full"])
    blocks = chance.choice([16, 24, 64, 128])
    journal = chance.choice([0, 6, 10] if blocks == 16 else [0, 12, 18, 18])
    words = ["--module", module, "--blocks", str(blocks), "--journal", str(journal)]
    words += ["--limit", str(chance.choice([1, 50, 300, 300, 300])), "--workers", str(chance.choice([1, 1, 2, 8]))]
    return words + ["--json"] * chance.choice([0, 0, 1])


def case_of(seed, index):
    """The kind, the words and the script of one case."""
    chance = random.Random("%s/%d" % (seed, index))
    kind = KINDS[index % len(KINDS)]
    return kind.__name__, settings(chance), kind(chance)
