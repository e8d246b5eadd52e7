"""The command line: records a command, and writes the script."""

import argparse
import contextlib
import os
import sys

from record import NothingPromised, Stop
from record.recording import observe
from record.script import AS_EXT4
from record.trace import printable
from record.world import PAGE

PROGRAM = "crashmap-record"
WRITTEN, ERROR, NOTHING = 0, 2, 3  # The exit statuses; 3 where no promise would be made.
MOST_NEW = 8


def block_size(text):
    if not text.isdecimal() or int(text) < PAGE or int(text) % PAGE:
        raise argparse.ArgumentTypeError(f"{printable(text)} is not {PAGE} or a multiple of it")
    return int(text)


def place(text):
    """A file that can be written, as far as that is known before the command runs."""
    there = text if os.path.exists(text) else os.path.dirname(text) or "."
    if not text or os.path.isdir(text) or not os.access(there, os.W_OK):
        raise argparse.ArgumentTypeError(f"{printable(text) or 'an empty path'} cannot be written")
    return text


def add_promises(add, many):
    """The options that say what is promised."""
    add("--keep", **many, metavar="PATH", help="promise the old contents of this file or the new ones, and nothing "
        "between; without it, of each file that is changed, made or moved")
    add("--spare", **many, nargs=2, metavar=("PATH", "OTHER"), help="OTHER, a backup or a journal, stands in for PATH")
    add("--most-new", type=int, default=MOST_NEW, metavar="N", help="promise files that were not there before, if they "
        f"are not more than N ({MOST_NEW})")
    add("--each-close", action="store_true", help="allow what a file holds when it is closed, or forced by an fsync")
    add("--each-fsync", action="store_true", help="allow what a file holds when an fsync forces it")
    add("--in-order", **many, nargs=2, metavar=("A", "B"), help="promise that the new contents of B are never there "
        "with the old ones of A")
    add("--together", action="store_true", help="promise all files old, or all files new")
    add("--lasting", action="store_true", help="promise the new ones once the command has ended, too")


def add_options(parser):
    """The options of the recorder, and COMMAND."""
    add, many = parser.add_argument, {"action": "append", "default": []}
    add_promises(add, many)
    add("--delay", action="store_const", const=True, help="write new blocks where the file is forced, or at the end")
    add("--delay-as-ext4", dest="delay", action="store_const", const=AS_EXT4, help="the same, but also where the file "
        "is renamed onto another one, or closed after it was cut to nothing")
    add("--merge", action="store_true", help="put neighbouring writes of a file together, where a script has too many")
    add("--block", type=block_size, default=PAGE, metavar="BYTES", help=f"size of a block: {PAGE} or a multiple of it")
    add("--ignore", **many, metavar="PATTERN", help="leave files out, such as '*.lock'")
    add("--lossy", action="store_true", help="write a comment, and what comes nearest, where the model cannot say it")
    add("--trace", type=place, metavar="FILE", help="keep what strace wrote")
    add("-o", dest="output", type=place, metavar="FILE", help="write the script to this file")
    add("command", nargs=argparse.REMAINDER, metavar="-- COMMAND ..")


def parser_of(program, does):
    """The parser of a program that records a command, and does this with it."""
    return argparse.ArgumentParser(prog=program, allow_abbrev=False,
                                   description=f"Runs COMMAND in the current directory, and {does}")


def options_of(parser, words):
    """The options, with COMMAND as `command` without its dashes. Refuses those that do not go together."""
    add_options(parser)
    options = parser.parse_args(words)
    options.command = options.command[1:] if options.command[:1] == ["--"] else options.command
    if not options.command:
        parser.error("there is no COMMAND")
    if options.together and (options.each_close or options.each_fsync or options.in_order):
        parser.error("--together goes with none of --each-close, --each-fsync and --in-order")
    return options


def parse(words):
    """The options of the recorder."""
    return options_of(parser_of(PROGRAM, "writes a script for crashmap of what it does to the files there. "
                                         "docs/RECORDING.md says more."), words)


def say(text, program=PROGRAM):
    for line in text.splitlines():
        print(f"{program}: {line}", file=sys.stderr)


def run(program, options, work):
    """Records the command, and writes the text that `work` makes of that, or says what is in the way. Gives the exit
    status."""
    try:
        observed = observe(options)
        say("\n".join(observed.warnings), program)
        text, status = work(observed)
        with contextlib.suppress(BrokenPipeError):  # The reader may stop.
            with open(options.output or 1, "wb", closefd=options.output is not None) as output:
                output.write(text.encode("utf-8", "backslashreplace"))
        return status
    except Stop as stop:
        say(str(stop), program)
        return NOTHING if isinstance(stop, NothingPromised) else ERROR
    except OSError as error:
        say(f"{printable(str(error.filename or options.output or 'standard output'))}: {error.strerror}", program)
        return ERROR


def main(words):
    return run(PROGRAM, parse(words), lambda observed: (observed.recording().script, WRITTEN))
