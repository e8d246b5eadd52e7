"""Runs the program, and keeps what it reads and says for hints."""

import os
import pty
import signal
import subprocess
import tempfile
import threading
import tty

QUESTIONS = ("--decide", "--enough", "--search")
"""The options with which the report is kept. A list of failing sets can be long, and no hint needs it."""

SIGNALS = (signal.SIGINT, signal.SIGTERM)

END = b"\0"
"""What is written behind all that the program says on a terminal. No text has this byte."""


def write_all(stream, data):
    """Writes all bytes to an open file."""
    while data:
        data = data[os.write(stream, data):]


def say(text):
    """Writes a text to standard error. What cannot be written is lost."""
    try:
        write_all(2, text)
    except OSError:
        pass


class Terminal:
    """A terminal for the program, which passes on what the program says there as it comes.

    With a pipe in its place the program would not show how far a search is.
    """

    def __init__(self):
        self.said = b""
        self.ours, self.stream = pty.openpty()
        tty.setraw(self.stream)
        self.reader = threading.Thread(target=self.pass_on)
        self.reader.start()

    def pass_on(self):
        while not self.said.endswith(END):
            read = os.read(self.ours, 4096)
            self.said += read
            say(read.removesuffix(END))

    def close(self):
        """Returns all that the program has said."""
        write_all(self.stream, END)
        self.reader.join()
        return self.said.removesuffix(END)


class Kept:
    """A file in the place of a terminal, which passes on what the program says when it has ended."""

    def __init__(self):
        self.file = tempfile.TemporaryFile()
        self.stream = self.file.fileno()

    def close(self):
        """Returns all that the program has said."""
        self.file.seek(0)
        said = self.file.read()
        say(said)
        return said


def wait_for(run):
    """Returns the status of a run. A signal that asks for its end is passed on."""
    earlier = [signal.signal(number, lambda number, _: run.send_signal(number)) for number in SIGNALS]
    status = run.wait()
    for number, handler in zip(SIGNALS, earlier):
        signal.signal(number, handler)
    return status


def run(call, command, script):
    """Runs a command with an open file as its standard input, and fills in how it ended."""
    keeps_report = any(it in call.options for it in QUESTIONS)
    errors = Terminal() if os.isatty(2) else Kept()
    with tempfile.TemporaryFile() as report:
        with subprocess.Popen(command, stdin=script, stdout=report if keeps_report else None,
                              stderr=errors.stream) as started:
            call.status = wait_for(started)
        call.said = errors.close().decode("latin-1")
        report.seek(0)
        call.report = report.read().decode("latin-1")
