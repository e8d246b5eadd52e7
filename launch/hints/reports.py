"""Remarks on a report: rules and options that had no effect, and what the report leaves out."""

import json
import re

import texts
from groups import empty_groups
from promises import promise_hints
from quoting import listed, quoted, set_of
from rules import excluding_rules, idle_rules
from steps import steps_of

LOSING = ("unlink", "rename", "replace")
"""The operations in which a crash can lose a file."""

FAULT = re.compile(r"^fault (.+)\n(?:shows .*\n)?set(.*)$", re.MULTILINE)
"""A fault and its first set. With --explain the line of a broken promise has what its paths show behind it."""


def remarks_on(call):
    """Yields each warning and hint on a report, after its kind. A search tries the lines of a pool and not the script
    itself, so it has no warnings."""
    if "--search" not in call.options:
        _, steps = steps_of(call.lines)
        if not any(step.is_operation for step in steps):
            yield "warning", texts.NO_OPERATION
        yield from (("warning", it) for it in empty_groups(steps))
        yield from (("hint", it) for it in promise_hints(call, steps))
        yield from (("hint", it) for it in strictness(call, steps))
        yield from (("warning", it) for it in idle_rules(call))
    finding = finding_of(call)
    if finding:
        yield "hint", finding


def strictness(call, steps):
    """Yields what a strict checker does not ask about, or what one would."""
    if "--strict" in call.options:
        found, text = (step for step in steps if step.verb in ("create", "mkdir")), texts.MADE_LATER
    else:
        found, text = (step for step in steps if step.verb in LOSING), texts.NOT_STRICT
    if step := next(found, None):
        yield text.format(line=step.line, text=quoted(step.text))


def crashes_in(report):
    """Returns each crash that a report shows: the text of a fault, and the ids of the first set that has it."""
    if not report.startswith("{"):
        return [(fault, [int(it) for it in ids.split()]) for fault, ids in FAULT.findall(report)]
    found = json.loads(report)
    crashes = found["faults"] if "faults" in found else [found["first"]]
    return [(crash["fault"], crash["set"]) for crash in crashes]


def finding_of(call):
    """Returns what a report leaves out, or None."""
    options, report = call.options, call.report
    if "--decide" in options:
        return smallest_crash(crashes_in(report))
    if "--enough" in options and "--search" in options:
        return left_out(call)
    if "--enough" in options and is_never_enough(report):
        return allowed_crash(call, *crashes_in(report)[0])
    return None


def smallest_crash(crashes):
    """Returns the smallest crash that a decision shows, if it shows several: sets come in the order of their sizes, and
    those of one size by their highest id in which they differ."""
    if len(crashes) < 2:
        return None
    fault, ids = min(crashes, key=lambda crash: (len(crash[1]), crash[1][::-1]))
    return texts.SMALLEST_CRASH.format(set=set_of(ids), fault=fault)


def left_out(call):
    """Returns that workloads were left out because they fail, and the words that show them."""
    failing = re.search(r'^failing (\d+)$|"failing":"?(\d+)', call.report, re.MULTILINE)
    number = failing[1] or failing[2]
    if number == "0":
        return None
    return texts.LEFT_OUT.format(failing=number, command=call.command(*call.options.but("--enough")))


def is_never_enough(report):
    """Returns whether no rules, or no lines that wait, are enough."""
    return re.search(r'^enough 0$|"enough":\[\]', report, re.MULTILINE) is not None


def allowed_crash(call, _, ids):
    """Returns what would exclude a crash that the whole ordering allows."""
    if "--syncs" in call.options:
        return texts.CRASH_OF_LINES.format(set=set_of(ids))
    rules = excluding_rules(call, ids)
    text = texts.EXCLUDING_RULES if rules else texts.NO_EXCLUDING_RULE
    return text.format(set=set_of(ids), rules=listed(rules))
