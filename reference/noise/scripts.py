"""Scripts of noise. Each kind makes a script from a source of bytes and its seed."""

COUNT = 300
"""How many scripts of each kind are made, from the seeds 0 on."""

LETTERS = b"start\ncreate /abd\nlinkmw \n# /A1\xff"
LINES = [b"write /b\n", b"create /a\n", b"create /b\n", b"write /a\n", b"unlink /a\n", b"mkdir /d\n", b"create /d/x\n",
         b"rmdir /d\n", b"link /a /d/y\n", b"rename /a /b\n", b"group A\n", b"end\n", b"depend B A\n", b"group B\n",
         b"# x\n", b"create /c\n"]
BASE = b"mkdir /d\ncreate /a\n"
NAMED = b"mkdir /d\ncreate /a\ncreate /b\ncreate /d/x\ncreate /f\nstart\n"
APART = [b"write /a\n", b"link /a /d/y\n", b"create /c\n", b"rename /b /e\n", b"mkdir /m\n", b"unlink /d/x\n",
         b"create /d/z\n", b"write /f\n"]


def any_bytes(noise, seed):
    """Any bytes."""
    return bytes(noise.byte() for _ in range(seed * 7))


def letters_of_scripts(noise, seed):
    """The letters that scripts are made of."""
    return bytes(LETTERS[noise.below(32)] for _ in range(seed * 7))


def known_lines(noise, _seed):
    """Lines that scripts have, in any order."""
    lines = [BASE] if noise.below(4) != 0 else []
    start = noise.below(3)
    for place in range(noise.below(6)):
        if place == start:
            lines.append(b"start\n")
        lines.append(LINES[noise.below(16)])
    return b"".join(lines)


def lines_apart(noise, _seed):
    """Operations that do not touch each other."""
    first = noise.below(8)
    return NAMED + b"".join(APART[(first + place) % 8] for place in range(8) if noise.below(8) < 3)


KINDS = {"AnyBytes": any_bytes, "TellingBytes": letters_of_scripts, "KnownLines": known_lines,
         "LinesApart": lines_apart}
"""The kinds of scripts."""
