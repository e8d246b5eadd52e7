"""The words of a command line, and what the program does with them."""

import argparse
import re

from .answer import answer
from .faults import FAULT_NAMES
from .refusals import Refusal, TooMuch
from .rules import MODULES, read_rule, rules_of
from .settings import MOST_PATCHES, Settings

MOST_BYTES = 1048576
MOST_GIVEN = 16
MOST_CLOSED_SETS = 32768

TOO_MUCH = 3
"""The exit status where the question is too big for the reference. Crashmap has 0, 1 and 2."""

NUMBERS = {"blocks": (16, 16, 128), "journal": (0, 0, 122), "limit": (4096, 1, MOST_CLOSED_SETS),
           "workers": (1, 1, 16), "search": (None, 1, 8), "max-patches": (MOST_PATCHES, 1, MOST_PATCHES),
           "max-script-bytes": (MOST_BYTES, 0, 10 ** 9)}
"""Options with a number: the number without the option, the least and the greatest."""

FLAGS = ("json", "explain", "strict", "atomic", "whole-blocks", "decide", "enough", "generations", "durable", "syncs",
         "numbers")


class CommandLineFault(Exception):
    """The words of the command line are at fault."""


class Parser(argparse.ArgumentParser):
    """A parser that raises where it is asked to complain."""

    def error(self, message):
        raise CommandLineFault(message)


def once(check):
    """An action for an option that may be given once, with a value that passes the check."""
    class Once(argparse.Action):
        def __call__(self, parser, namespace, value, option=None):
            given = getattr(namespace, "given", set())
            if self.dest in given:
                parser.error("%s given twice" % option)
            namespace.given = given | {self.dest}
            setattr(namespace, self.dest, check(parser, option, value))
    return Once


def number_between(low, high):
    """A check for numbers."""
    def check(parser, option, value):
        if re.fullmatch(r"[0-9]+", value) is None or not low <= int(value) <= high:
            parser.error("%s: not a number from %d to %d" % (option, low, high))
        return int(value)
    return check


def one_of(values):
    """A check for words."""
    def check(parser, option, value):
        if value not in values:
            parser.error("%s: not one of %s" % (option, ", ".join(values)))
        return value
    return check


def numbers_of_faults(parser, option, value):
    """The numbers of faults that count: ascending, with commas between."""
    words = value.split(",")
    if not set(words) <= set(map(str, FAULT_NAMES)):
        parser.error("%s: not numbers of faults: %s" % (option, value))
    numbers = tuple(map(int, words))
    if any(one >= other for one, other in zip(numbers, numbers[1:])):
        parser.error("%s: not ascending: %s" % (option, value))
    return numbers


def parser_of_words():
    """The parser with all options."""
    parser = Parser(prog="reference", allow_abbrev=False, add_help=False)
    parser.add_argument("script", nargs="?", metavar="SCRIPT")
    for name, (default, low, high) in NUMBERS.items():
        parser.add_argument("--" + name, default=default, action=once(number_between(low, high)))
    parser.add_argument("--module", default="soft", action=once(one_of(MODULES)))
    for name in FLAGS:
        parser.add_argument("--" + name, action="store_true")
    parser.add_argument("--faults", dest="counted", action=once(numbers_of_faults))
    parser.add_argument("--with", dest="added", default=[], action="append")
    parser.add_argument("--without", default=[], action="append")
    return parser


def check_rules(parser, call):
    """Refuses rules that are none, that are given twice in all, or that cannot be taken out of the module."""
    for option, given in (("--with", call.added), ("--without", call.without)):
        if len(given) > MOST_GIVEN:
            parser.error("%s: given more than %d times" % (option, MOST_GIVEN))
    every = call.added + call.without
    for word in every:
        if read_rule(word) is None:
            parser.error("not a rule: %s" % word)
        if every.count(word) > 1:
            parser.error("given twice: %s" % word)
    for word in call.without:
        if word not in rules_of(call.module):
            parser.error("--without: not a rule of %s: %s" % (call.module, word))


def check_questions(parser, call):
    """Refuses options that do not go together."""
    asked = [name for name, is_asked in (("decide", call.decide), ("enough", call.enough),
                                         ("search", call.search is not None)) if is_asked]
    if asked and "limit" in getattr(call, "given", set()):
        parser.error("--%s with --limit" % asked[0])
    if call.decide and len(asked) > 1:
        parser.error("--decide with --%s" % asked[1])
    if call.syncs and (not call.enough or call.search is not None):
        parser.error("--syncs without --enough of one script")
    if call.numbers and not call.json:
        parser.error("--numbers without --json")


def read_words(words):
    """The options of a command line; `CommandLineFault` where it is at fault."""
    parser = parser_of_words()
    call = parser.parse_args(words)
    for name in FLAGS:
        if words.count("--" + name) > 1:
            parser.error("given twice: --%s" % name)
    check_rules(parser, call)
    check_questions(parser, call)
    return call


def settings_of(call):
    """The settings that the options name."""
    values = {name: getattr(call, name) for name in Settings._fields}
    return Settings(**dict(values, without=tuple(call.without), added=tuple(call.added)))


def bytes_of(call, standard_input):
    """The script. One that cannot be read or is too long is refused."""
    try:
        if call.script is None:
            script = standard_input.read()
        else:
            with open(call.script, "rb") as source:
                script = source.read()
    except OSError:
        raise Refusal(50) from None
    if len(script) > call.max_script_bytes:
        raise Refusal(52)
    return script


def program(words, standard_input, out, err, answered=answer):
    """Answers a command line and gives the exit status. The three streams carry bytes. `answered` makes the report of
    a script and settings."""
    try:
        call = read_words(words)
        text, failing = answered(bytes_of(call, standard_input), settings_of(call))
    except CommandLineFault as fault:
        err.write(("command line: %s\n" % fault).encode())
        return 2
    except Refusal as refusal:
        err.write((refusal.printed() + "\n").encode())
        return 2
    except TooMuch as fault:
        err.write(("reference: too much to enumerate: %s\n" % fault).encode())
        return TOO_MUCH
    out.write(text.encode())
    return 1 if failing else 0
