"""Runs of the reference and of other programs, and how they differ."""

import io
import json
import subprocess
from collections import namedtuple

from .answer import answer
from .command_line import program
from .refusals import MOST_SETS, TooMuch
from .second_way.decide import answer as second_answer
from .second_way.decide import prepared

Run = namedtuple("Run", "status out err")
"""The exit status, standard output and standard error."""


def run_reference(words, script, answered=answer):
    """What the reference answers to the words with these bytes on standard input."""
    out, err = io.BytesIO(), io.BytesIO()
    status = program(list(words), io.BytesIO(script), out, err, answered)
    return Run(status, out.getvalue(), err.getvalue())


def run_second_way(words, script):
    """What the second way answers, which does not enumerate, to the questions that it takes."""
    return run_reference(words, script, second_answer)


def run_either_way(words, script):
    """What the reference answers, by the second way where there are too many closed sets to enumerate."""
    return run_reference(words, script, answer_either_way)


def answer_either_way(script, settings):
    """As `answer`, by the second way where there are too many closed sets to enumerate, or where `--enough` comes to
    too many without some of the rules."""
    if settings.search is None and prepared(script, settings)[-1] > MOST_SETS:
        return second_answer(script, settings)
    try:
        return answer(script, settings)
    except TooMuch:
        if settings.search is not None or not settings.enough:
            raise
        return second_answer(script, settings)


def run_program(command, words, script, timeout):
    """What a program answers, or None where it does not within so many seconds. A program that cannot be run has the
    status 127, as in a shell."""
    try:
        done = subprocess.run([*command, *words], input=script, capture_output=True, timeout=timeout)
    except subprocess.TimeoutExpired:
        return None
    except OSError as error:
        return Run(127, b"", str(error).encode())
    return Run(done.returncode, done.stdout, done.stderr)


def differences(got, wanted, errors_matter=True):
    """How a run differs from what is wanted, as lines. Where the errors do not matter, standard error must only not be
    empty."""
    if got is None:
        return ["no answer in time"]
    found = []
    if got.out != wanted.out:
        found.append("standard output: " + first_difference(got.out, wanted.out))
    if got.status != wanted.status:
        found.append("status: got %d, wanted %d" % (got.status, wanted.status))
    if errors_matter and got.err != wanted.err:
        found.append("standard error: got %r, wanted %r" % (got.err[:300], wanted.err[:300]))
    if not errors_matter and not got.err:
        found.append("standard error is empty")
    return found


def first_difference(got, wanted):
    """Where two outputs begin to differ: the path of a JSON value, or a line."""
    try:
        return json_difference("", json.loads(got), json.loads(wanted)) or "only in how it is written: %r" % got[:200]
    except ValueError:
        return line_difference(got.split(b"\n"), wanted.split(b"\n"))


def line_difference(got, wanted):
    """The first line that differs."""
    for k, (one, other) in enumerate(zip(got, wanted), 1):
        if one != other:
            return "line %d: got %r, wanted %r" % (k, one[:200], other[:200])
    return "got %d lines, wanted %d" % (len(got), len(wanted))


def json_difference(path, got, wanted):
    """The path of the first place where two JSON values differ, or None."""
    if isinstance(got, dict) and isinstance(wanted, dict):
        return object_difference(path, got, wanted)
    if isinstance(got, list) and isinstance(wanted, list):
        return list_difference(path, got, wanted)
    if got != wanted or type(got) is not type(wanted):
        return "%s: got %s, wanted %s" % (path or "top", str(got)[:300], str(wanted)[:300])
    return None


def object_difference(path, got, wanted):
    """As `json_difference`, for two objects."""
    for key in sorted(set(got) | set(wanted)):
        if key not in got or key not in wanted:
            return "%s.%s: %s" % (path, key, "missing" if key in wanted else "not wanted")
        found = json_difference("%s.%s" % (path, key), got[key], wanted[key])
        if found:
            return found
    return None


def list_difference(path, got, wanted):
    """As `json_difference`, for two lists."""
    for k, (one, other) in enumerate(zip(got, wanted)):
        found = json_difference("%s[%d]" % (path, k), one, other)
        if found:
            return found
    if len(got) != len(wanted):
        return "%s: got %d members, wanted %d" % (path, len(got), len(wanted))
    return None
