"""Scripts with lines that cannot be read."""

NOT_UTF8 = [b"\xff", b"\xc0\x80", b"\xed\xa0\x80", b"\xf4\x90\x80\x80", b"\xe2\x82", b"\x80",
            b"\xf8\x88\x80\x80\x80", b"\xc3"]

AROUND = [b"%s", b"#%s", b"create /%s", b"start%s", b"%s /a", b"x  %s"]

BAD_LINES = [
    b"crate /a", b"create", b"create /a /b", b"link /a", b"link /a /b /c", b"create  /a",
    b" create /a", b"create /a ", b"create\t/a", b"create /a\r ", b"start x",
    b"group", b"group A B", b"group A-B", b"group ABCDEFGHIJK", b"end x", b"depend A",
    b"depend A B C", b"depend A B!", b" ", b"  ", b"Create /a", b"START", b"end ",
    b"rename /a", b"rmdir", b"mkdir x y", b"unlink", b"\xc3\xa9", b"group \xc3\xa9",
    b"start\r", b"\0", b"\t", b" #", b"depend /a /b", b"group /a", b"rename a", b"\xef\xbb\xbfstart"]

BAD_PATHS = [
    b"create /A", b"create a", b"create /", b"create //a", b"create /a/", b"create /abcdefghijk",
    b"mkdir /a/b/c/d/e", b"link /a b", b"link a /b", b"rename /a /b//c", b"write /a\r",
    b"unlink /a.b", b"rmdir /a_b", b"create /\xc3\xa9", b"create /a\t", b"write /a\0",
    b"link /a/b/c/d/e /x", b"rename / /a", b"unlink .", b"rmdir /..", b"create \xd9\xa1",
    b"create /\xd9\xa1"]


def spoiled_line(chance, number):
    """A line that is refused with 40, 41 or 42."""
    if number == 40:
        around = chance.choice(AROUND)
        return around.replace(b"%s", chance.choice(NOT_UTF8))
    return chance.choice(BAD_LINES if number == 41 else BAD_PATHS)


def without_start(chance, lines):
    """A script without a start line."""
    kind = chance.choice(["none", "none", "empty", "comment", "feeds"])
    if kind == "empty":
        return b""
    if kind == "feeds":
        return b"\n" * chance.randrange(1, 50)
    kept = [b"#start" if kind == "comment" and line == b"start" else line
            for line in lines if kind == "comment" or line != b"start"]
    script = b"".join(line + b"\n" for line in kept)
    return script[:-1] if script and chance.random() < 0.3 else script


def spoil(chance, case, number):
    """Gives the script of a case a bad line, a second start, or no start."""
    lines = case.script.split(b"\n")
    if lines[-1] == b"":
        lines.pop()
    if number == 43:
        case.script = without_start(chance, lines)
        return
    line = spoiled_line(chance, number)
    if number == 41 and chance.random() < 0.12:
        lines.append(b"start")
    else:
        lines.insert(chance.randrange(len(lines) + 1), line)
    if chance.random() < 0.2:
        lines.insert(chance.randrange(len(lines) + 1), spoiled_line(chance, chance.choice([40, 41, 42])))
    case.script = b"\n".join(lines) + (b"" if chance.random() < 0.2 else b"\n")


def with_swapped_lines(chance, data):
    """The bytes with two of their lines swapped."""
    lines = bytes(data).split(b"\n")
    one, other = chance.randrange(len(lines)), chance.randrange(len(lines))
    lines[one], lines[other] = lines[other], lines[one]
    return bytearray(b"\n".join(lines))


def mutate(chance, case):
    """Changes a few bytes anywhere in the script of a case."""
    data = bytearray(case.script)
    for _ in range(chance.choice([1, 1, 2, 4])):
        if not data:
            break
        at = chance.randrange(len(data))
        kind = chance.randrange(4)
        if kind == 0:
            del data[at]
        elif kind == 1:
            data[at] = chance.choice(b"abcdxy01/ \n#AB\xff\xc3")
        elif kind == 2:
            data.insert(at, chance.choice(b"abcdxy01/ \n#AB"))
        else:
            data = with_swapped_lines(chance, data)
    case.script = bytes(data)
