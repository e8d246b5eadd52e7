"""What is wrong with a line that says nothing the program knows, and with a path."""

import re

import texts
from quoting import quoted
from verbs import FORMS, LIST, likely_verb

MOST_NAMES = 4
LONGEST_NAME = 10
GROUP = re.compile("[A-Za-z0-9]{1,10}")
LETTERS = re.compile("[a-z0-9]*")

SPACING = (
    (re.compile("\xef\xbb\xbf"), texts.BYTE_ORDER_MARK),
    (re.compile(".*\r"), texts.CARRIAGE_RETURN),
    (re.compile(".*\t"), texts.TAB),
    (re.compile("(?! ).* #"), texts.COMMENT_BEHIND),
    (re.compile("$| |.*  |.* $"), texts.SPACES),
)
"""What can be wrong between the words of a line, and what is said of it, in this order."""


def line_fault(lines, line):
    """Returns what is wrong with a line that is no line of a script."""
    found = (text for fault, text in SPACING if fault.match(line))
    return next(found, None) or words_fault(lines, line)


def words_fault(lines, line):
    """Returns what is wrong with the words of a line."""
    verb, *words = line.split(" ")
    form = FORMS.get(verb)
    if form is None:
        return unknown_verb(verb)
    match verb, len(words):
        case "start", 0:
            return texts.SECOND_START.format(line=lines.index("start") + 1)
        case ("group", 1) | ("depend", 2):
            return texts.GROUP_NAME.format(word=quoted(next(it for it in words if not GROUP.fullmatch(it))))
        case "overwrite", 2:
            return texts.SLOT.format(word=quoted(words[1]))
    return texts.OTHER_FORM.format(follow=form.follow, verb=verb, form=form.text)


def unknown_verb(word):
    """Returns what is said of a word that begins no line."""
    likely = likely_verb(word)
    text = texts.MISSPELLED_VERB if likely else texts.UNKNOWN_VERB
    return text.format(word=quoted(word), likely=likely, verbs=LIST)


def path_fault(line):
    """Returns what is wrong with the first bad path of a line."""
    return next(filter(None, map(fault_in, line.split(" ")[1:])), None)


def fault_in(path):
    """Returns what is wrong with a path, or None if nothing is."""
    if path == "/":
        return texts.ROOT.format(path=quoted(path))
    if not path.startswith("/"):
        return texts.NO_SLASH.format(path=quoted(path))
    names = path[1:].split("/")
    found = next(filter(None, (name_fault(path, name) for name in names)), None)
    return found or (texts.MANY_NAMES.format(path=quoted(path)) if len(names) > MOST_NAMES else None)


def name_fault(path, name):
    """Returns what is wrong with a name of a path, or None if nothing is."""
    if not name:
        text = texts.EMPTY_NAME
    elif not LETTERS.fullmatch(name):
        text = texts.BAD_LETTER
    elif len(name) > LONGEST_NAME:
        text = texts.LONG_NAME
    else:
        return None
    return text.format(path=quoted(path), name=quoted(name), letters=len(name))
