"""Runs a command under strace, and reads the system calls that strace saw."""

import dataclasses
import os
import random
import re
import signal
import subprocess
import sys

from record import Stop

HEX = re.compile(r"\\x([0-9a-f]{2})")
LINE = re.compile(r"(\d+)\s+(.*)", re.DOTALL)
RESUMED = re.compile(r"<\.\.\. \w+ resumed>(.*)", re.DOTALL)
RESULT = re.compile(r"\s*=\s*(0x[0-9a-f]+|-?\d+)(?:<([^>]*)>)?")
DESCRIPTOR = re.compile(r"(-?\d+|AT_FDCWD)(?:<([^>]*)>(\(deleted\))?)?")
TOKEN = re.compile(r'"[^"]*"|<[\\/][^>]*>|/\*.*?\*/|.', re.DOTALL)  # A text, a path, a comment, or one letter.
UNFINISHED = " <unfinished ...>"
SHOWN = 160  # The most characters of a call that a message shows.


@dataclasses.dataclass(eq=False)
class Call:
    """A system call that has returned. `first` and `last` are the lines of the trace where it begins and ends.

    `result` is None where it never returned, and `path` is that of the descriptor which it returned. A call with the
    name `exit` stands for the end of a process, however it ended.
    """
    process: int
    name: str
    arguments: list
    result: int | None
    path: str | None
    first: int
    last: int
    text: str

    def shown(self):
        """The call as strace writes it, with its text readable."""
        return shortened(printable(decoded(self.text)))

    def named(self, top):
        """The call with the files that it is about, their names below the directory `top`: `rename(".n1", "notes")`."""
        texts = [named(it, top.rstrip("/") + "/") for it in self.arguments]
        return shortened(printable(f"{self.name}({', '.join(it for it in texts if it is not None)})"))


def shortened(text):
    return text if len(text) <= SHOWN else text[:SHOWN - 3] + "..."


def named(argument, top):
    """An argument as people read it, or None for what was written and for the working directory."""
    if argument.endswith('"...') or argument.startswith("AT_FDCWD"):
        return None
    path = string_of(argument) if argument.startswith('"') else descriptor_of(argument)[1]
    return argument if path is None else f'"{path.removeprefix(top).removeprefix("./")}"'


def decoded(text):
    """The text that strace wrote in hexadecimal. Bytes that are no UTF-8 become surrogates, as in Python's paths."""
    return HEX.sub(lambda found: chr(int(found[1], 16)), text).encode("latin-1").decode("utf-8", "surrogateescape")


def printable(text):
    """The text on one line: as it is, or with escapes where some of its characters cannot be printed."""
    return text if text.isprintable() else text.encode("unicode_escape").decode()


def string_of(argument):
    """The text of an argument in quotes."""
    return decoded(argument[1:argument.rindex('"')])


def number_of(argument):
    """The number that an argument begins with, also one in brackets."""
    return int(re.match(r"-?(?:0x[0-9a-f]+|\d+)", argument.lstrip("["))[0], 0)


def descriptor_of(argument):
    """A descriptor's number, None for the working directory, and its path as the kernel has it, or None."""
    found = DESCRIPTOR.fullmatch(argument)
    if found is None:
        return None, None
    return None if found[1] == "AT_FDCWD" else int(found[1]), None if found[2] is None else decoded(found[2])


def arguments_of(text):
    """The arguments in the text behind the opening parenthesis, and what follows the closing one."""
    found, depth, begin = [], 0, 0
    for token in TOKEN.finditer(text):
        depth += (token[0] in "([{") - (token[0] in ")]}")
        if depth < 0 or (token[0] == "," and depth == 0):
            found.append(text[begin:token.start()].strip())
            begin = token.end()
        if depth < 0:
            return [it for it in found if it], text[begin:]
    raise ValueError(text)


def call_of(process, text, first, last):
    """The call that a whole line of the trace describes."""
    name, _, rest = text.partition("(")
    try:
        arguments, tail = arguments_of(rest.replace(UNFINISHED + ")", ")"))
    except ValueError:
        raise Stop(f"line {last} of the trace is not understood: {printable(text)[:SHOWN]}") from None
    found = RESULT.match(tail)
    path = decoded(found[2]) if found and found[2] is not None else None
    return Call(process, name, arguments, int(found[1], 0) if found else None, path, first, last, text)


def read(lines):
    """The calls of a trace in the order in which they returned, and the ends of processes among them."""
    begun = {}
    for last, line in enumerate(lines, 1):
        found = LINE.fullmatch(line.rstrip("\n"))
        if found is None:
            raise Stop(f"line {last} of the trace is not understood: {printable(line)[:SHOWN]}")
        process, text, first = int(found[1]), found[2], last
        resumed = RESUMED.fullmatch(text)
        if text.startswith("+++"):
            yield Call(process, "exit", [], 0, None, last, last, text)
        elif text.endswith(UNFINISHED):
            begun[process] = (last, text.removesuffix(UNFINISHED))
        elif not text.startswith("---"):
            if resumed:
                first, before = begun.pop(process, (last, text))
                text = before + resumed[1]
            yield call_of(process, text, first, last)


def run(command, names, place, keeps_output):
    """Runs the command under strace, which writes the calls of these names to the file `place`.

    It runs on one processor, so that calls of two processes seldom overlap. What the command prints goes to standard
    error, but for `keeps_output`. Gives the command's exit status, negative where a signal ended it.
    """
    # -y tells the path of each descriptor, -xx writes all text in hexadecimal, -s 0 leaves the data out.
    words = ["strace", "-f", "-y", "-xx", "-s", "0", "-q", "-e", "signal=none", "-o", place,
             "-e", "trace=" + ",".join("?" + it for it in names), "--", *command]
    def prepare():
        signal.signal(signal.SIGINT, signal.SIG_DFL)
        os.sched_setaffinity(0, {random.choice(list(os.sched_getaffinity(0)))})
    before = signal.signal(signal.SIGINT, signal.SIG_IGN)  # Ctrl-C is for the command.
    try:
        return subprocess.run(words, stdout=None if keeps_output else sys.stderr, check=False, close_fds=False,
                              preexec_fn=prepare).returncode
    except FileNotFoundError:
        raise Stop("the command strace is not installed (Debian: apt-get install strace)") from None
    finally:
        signal.signal(signal.SIGINT, before)
