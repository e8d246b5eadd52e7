"""Why a line on groups is refused, and groups that get no patch."""

import texts
from quoting import listed, quoted
from steps import steps_of


def group_fault(lines, number):
    """Returns why the line of this number, which is refused for its groups, is refused."""
    _, steps = steps_of(lines)
    place = next((place for place, step in enumerate(steps) if step.line == number), None)
    if place is None:
        return texts.GROUP_BEFORE_START
    before, step = steps[:place], steps[place]
    match step.verb:
        case "group":
            return opening_fault(before, *step.words)
        case "depend":
            return depend_fault(before, *step.words)
        case "hold" | "spare":
            return texts.POOL
    return texts.NO_OPEN_GROUP


def opening_fault(before, name):
    """Returns why a line `group` behind these steps is refused. One that is right in a script is refused in a pool."""
    if found := open_after(before):
        return texts.OPEN_GROUP.format(line=found.line)
    if line := opened_in(before, name):
        return texts.OPENED_GROUP.format(line=line)
    return texts.POOL


def depend_fault(before, later, earlier):
    """Returns why a line `depend` with these two groups is refused."""
    if later == earlier:
        return texts.SAME_GROUP
    found = open_after(before)
    if found and found.words == [earlier]:
        return texts.OPEN_EARLIER_GROUP.format(line=found.line)
    line = opened_in(before, later)
    if line and opened_in(before, earlier):
        return texts.LATER_HAS_PATCHES.format(line=line)
    return texts.NO_EARLIER_GROUP


def open_after(steps):
    """Returns the step that opened the group which is open after these steps, or None."""
    last = next((step for step in reversed(steps) if step.verb in ("group", "end")), None)
    return last if last and last.verb == "group" else None


def opened_in(steps, name):
    """Returns the line of these steps that opened the group, or None."""
    return next((step.line for step in steps if step.verb == "group" and step.words == [name]), None)


def full_groups(steps):
    """Returns the groups that get a patch, in their order."""
    full, name = [], None
    for step in steps:
        if step.verb in ("group", "end"):
            name = next(iter(step.words), None)
        elif step.is_operation and name:
            full.append(name)
            name = None
    return full


def empty_groups(steps):
    """Yields what is said of each name in a line `depend` that is of no group which gets a patch."""
    full = full_groups(steps)
    others = texts.FULL_GROUPS.format(groups=listed([quoted(it) for it in full])) if full else texts.NO_FULL_GROUP
    for step in steps:
        for name in step.words if step.verb == "depend" else ():
            if name not in full:
                yield texts.EMPTY_GROUP.format(line=step.line, text=quoted(step.text), name=quoted(name),
                                               others=others)
