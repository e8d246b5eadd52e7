"""Runs of a program whose standard error is a terminal."""

import os
import pty
import select
import subprocess
import termios
import threading
import time
from typing import NamedTuple


class Shown(NamedTuple):
    """What a run did: its status, its standard output, what the terminal showed, and how many seconds it took."""

    status: int
    output: bytes
    terminal: bytes
    seconds: float


CALM = 0.03
"""How many seconds nothing comes from a terminal whose program has ended, when all has come."""


def read_all(run, terminal):
    """Returns all that the terminal shows until the run has ended."""
    shown = b""
    while True:
        ended = run.poll() is not None
        if select.select([terminal], [], [], CALM)[0]:
            shown += os.read(terminal, 4096)
        elif ended:
            return shown


def shown_by(run, terminal, other_end, began):
    """Waits for a run to end, and returns what it did. The other end stays open so long, since a terminal may lose what
    was written last when nobody has it open any more."""
    output = []
    # A pipe holds little, so a long report is read while the run writes it.
    reader = threading.Thread(target=lambda: output.append(run.stdout.read() if run.stdout else b""))
    reader.start()
    shown = read_all(run, terminal)
    reader.join()
    os.close(other_end)
    os.close(terminal)
    return Shown(run.returncode, output[0], shown, time.monotonic() - began)


def on_terminal(words, text, stdin=subprocess.PIPE, stdout=subprocess.PIPE, **options):
    """Runs a program with a terminal as its standard error, and this text on standard input, unless that is named.
    Standard output is kept, unless it is named too. The other options are those of `subprocess.Popen`."""
    terminal, other_end = pty.openpty()
    began = time.monotonic()
    with subprocess.Popen(words, stdin=stdin, stdout=stdout, stderr=other_end, **options) as run:
        if run.stdin:
            write_all(run.stdin, text)
        return shown_by(run, terminal, other_end, began)


def write_all(pipe, text):
    """Writes this text to a pipe and closes it. A program that ends early need not read all of it."""
    try:
        with pipe:
            pipe.write(text)
    except BrokenPipeError:
        pass


def typed_on_terminal(words, text, **options):
    """Runs a program whose standard input and standard error are one terminal, on which someone types this text and
    then Ctrl-D. The terminal does not show what is typed. The options are those of `subprocess.Popen`."""
    terminal, other_end = pty.openpty()
    attributes = termios.tcgetattr(other_end)
    attributes[3] &= ~termios.ECHO
    termios.tcsetattr(other_end, termios.TCSANOW, attributes)
    began = time.monotonic()
    with subprocess.Popen(words, stdin=other_end, stdout=subprocess.PIPE, stderr=other_end, **options) as run:
        os.write(terminal, text + b"\x04")
        return shown_by(run, terminal, other_end, began)
