"""What helps a person whose run was refused."""

import texts
from call import Number
from groups import group_fault
from lines import line_fault, path_fault
from operations import operation_fault
from quoting import quoted
from sizes import bad_geometry, too_small

MOST_SCRIPT_BYTES = 1 << 20
MOST_SETS = 32_768
"""The highest limit on closed sets."""

TEXTS = {
    Number.CANNOT_WRITE: texts.UNWRITTEN,
    Number.TOO_LONG: texts.TOO_LONG.format(most=MOST_SCRIPT_BYTES),
    Number.NOT_UTF8: texts.NOT_UTF8,
    Number.NO_START: texts.NO_START,
    Number.ONLY_AFTER_START: texts.ONLY_AFTER_START,
    Number.TOO_MANY_SYNCS: texts.TOO_MANY_SYNCS,
    Number.TOO_MANY_PATCHES: texts.TOO_MANY_PATCHES,
}
"""What is said of a refusal, whatever the script."""


def hint_on(call):
    """Returns the hint on a refusal, or None if none helps."""
    text = text_on(call)
    quotes_line = call.refusal.line and call.refusal.number != Number.NO_START
    return f"{quoted(call.line(call.refusal.line))}: {text}" if text and quotes_line else text


def text_on(call):
    """Returns what is wrong, by the refusal, and what would be right."""
    number, line = call.refusal.number, call.refusal.line
    match number:
        case Number.CANNOT_READ:
            return unread(call)
        case Number.BAD_LINE:
            return line_fault(call.lines, call.line(line))
        case Number.BAD_PATH:
            return path_fault(call.line(line))
        case Number.TOO_MANY_SETS:
            return too_many_sets(call)
        case Number.BAD_GEOMETRY:
            return bad_geometry(call)
        case Number.GROUP_FAULT:
            return group_fault(call.lines, line)
        case Number.NO_BLOCK | Number.JOURNAL_FULL:
            return too_small(call)
    return TEXTS.get(number) or (operation_fault(call) if line else None)


def unread(call):
    """Returns why a script cannot be read, with the system's reason for a file."""
    if call.name is None:
        return texts.UNREAD_INPUT
    return texts.UNREAD_FILE.format(name=call.name, reason=call.reason.strerror)


def too_many_sets(call):
    """Returns that a script has too many closed sets, and the words that ask for each fault of them."""
    sets = int(call.explained["closed"])
    text = texts.SETS_WITHIN_LIMITS if sets <= MOST_SETS else texts.SETS_BEYOND_LIMITS
    words = call.options.but("--limit")
    return text.format(sets=sets, limit=call.options.value("--limit"), command=call.command(*words, "--decide"))
