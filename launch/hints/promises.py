"""Lines that wait and lines that promise, and what of them is likely to be meant otherwise."""

import texts
from quoting import quoted


def promise_hints(call, steps):
    """Yields the hints on lines that wait or promise, in the order of the script."""
    for place, step in enumerate(steps):
        before, after = steps[:place], steps[place + 1:]
        for found in (early_promise(before, step), idle_line(call, before, step, after)):
            if found:
                text, words = found
                yield text.format(line=step.line, text=quoted(step.text), **words)


def early_promise(before, step):
    """Returns that nothing has waited for an operation before a promise, or None."""
    last = next((it for it in reversed(before) if it.is_operation or it.waits), None)
    if step.verb in ("keep", "hold") and last and last.is_operation:
        return texts.EARLY_PROMISE, {"operation": last.line}
    return None


def idle_line(call, before, step, after):
    """Returns that a line between these steps has no effect, or that a later one changes what it holds, or None."""
    match step.verb:
        case "fsync" if forces_nothing(call, step):
            return texts.IDLE_FSYNC, {}
        case "keep" if keeps_nothing(call, step):
            return texts.IDLE_KEEP, {}
        case "hold" if change := change_of(after, *step.words):
            return texts.CHANGED_HOLD, {"change": change, "path": step.words[0]}
        case "spare" if not any(promises(call, it, step.words[0]) for it in before):
            return texts.IDLE_SPARE, {"path": step.words[0]}
    return None


def forces_nothing(call, step):
    """Returns whether a line that waits waits for no patch."""
    return any(wait["line"] == step.line and not wait["ids"] for wait in call.explained["waits"])


def keeps_nothing(call, step):
    """Returns whether a line keeps a path that is never there."""
    promise = next(it for it in call.explained["promises"] if it["line"] == step.line)
    shows = [state.split(" | ") for state in promise["shows"]]
    return any(all(it == "nothing" for it in path) for path in zip(*shows))


def change_of(after, path):
    """Returns the line of the first operation on a path, or None if there is none or a spare of the path stands in."""
    if any(step.verb == "spare" and step.words[0] == path for step in after):
        return None
    return next((step.line for step in after if step.is_operation and path in changed_by(step)), None)


def changed_by(step):
    """Returns the paths that an operation changes."""
    return {"link": step.words[1:], "overwrite": step.words[:1]}.get(step.verb, step.words)


def promises(call, step, path):
    """Returns whether a step promises a path, and no other with it."""
    verbs = ("keep", "hold", "fsync") if "--durable" in call.options else ("keep", "hold")
    return step.verb in verbs and step.words == [path]
