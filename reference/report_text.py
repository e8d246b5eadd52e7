"""Reports as lines of text."""

from .closed_sets import ids_of
from .faults import FAULT_NAMES
from .promises import allowed_to_some, spare_texts
from .refusals import REFUSAL_TEXTS
from .rules import written
from .script import spelled_path
from .verdicts import shows_of


def numbers(some):
    """Numbers with a space before each."""
    return "".join(" %d" % number for number in some)


def head_lines(found, settings):
    """The lines that say how the report was asked for."""
    lines = ["module %s" % settings.module]
    lines += ["without " + word for word in found.without]
    lines += ["with " + word for word in found.added]
    flags = (("generations", settings.generations), ("whole blocks", settings.whole_blocks),
             ("strict", settings.strict), ("atomic", settings.atomic), ("durable", settings.durable))
    lines += [word for word, is_asked in flags if is_asked]
    return lines + (["faults" + numbers(settings.counted)] if settings.counted else [])


def trace_lines(found, settings):
    """The patches with their reasons, the lines that wait, and the promises, where they are asked for."""
    if not settings.explain:
        return []
    return ([line for identity, patch in enumerate(found.patches) for line in patch_lines(identity, patch)]
            + ["wait line %d %s:%s" % (wait.line, wait.step, numbers(wait.ids)) for wait in found.waits]
            + [line for promise in found.promises for line in promise_lines(promise)])


def promise_lines(promise):
    """A promise: its paths, its patches, what it allows, and its spares."""
    paths = "".join(" " + spelled_path(path) for path in promise.paths)
    lines = ["promise line %d %s%s" % (promise.line, promise.word, paths)]
    lines += ["after" + numbers(ids_of(promise.ids))] if promise.ids else []
    lines += ["shows " + text for text in allowed_to_some(promise)]
    return lines + ["spare " + text for text in spare_texts(promise)]


def patch_lines(identity, patch):
    """A patch, and the earlier patches that it waits for."""
    head = "patch %d line %d %s: %s block %d offset %d length %d" % (
        identity, patch.line, patch.step, patch.part, patch.block, patch.offset, len(patch.new))
    return [head] + ["after %d: %s" % (earlier, ", ".join(why)) for earlier, why in patch.why.items()]


def set_lines(one, explain):
    """A failing set without its faults."""
    lines = ["set" + numbers(ids_of(one.patch_set))]
    lines += ["write block %d:%s" % (block, numbers(some)) for block, some in one.writes]
    if explain:
        lines += ["replay block %d: %s" % (block, after.hex()) for block, after in one.replay]
    return lines


def told_lines(one, text, explain):
    """A fault of a failing set. With `--explain` a broken promise says what its paths show."""
    shows = shows_of(one)
    return ["fault " + text] + (["shows " + shows[text]] if explain and text in shows else [])


def section_lines(one, explain):
    """A failing set with its faults."""
    return set_lines(one, explain) + [line for text in one.faults for line in told_lines(one, text, explain)]


def fault_lines(fault, explain):
    """A fault and the first set that has it."""
    text, first = fault
    return told_lines(first, text, explain) + set_lines(first, explain)


def asked_line(word, some):
    """A line with a word and then rules, or numbers of lines."""
    return " ".join([word] + [str(one) if isinstance(one, int) else written(one) for one in some])


def enough_lines(enough, settings):
    """Which rules are enough, or which lines that wait, and why."""
    word = "syncs" if settings.syncs else "rules"
    lines = ["enough %d" % len(enough.rules)] + [asked_line(word, some) for some in enough.rules]
    for gone, work, fault in enough.needs:
        lines.append(asked_line("needs", gone))
        lines += ["step " + step for step in work.spelled_steps()] if settings.search is not None else []
        lines += fault_lines(fault, settings.explain)
    return lines + (fault_lines(enough.first, settings.explain) if enough.first else [])


def kind_lines(kind, explain):
    """A kind of fault that a search found."""
    return (["kind %d %s" % (kind.kind, FAULT_NAMES[kind.kind]), "workloads %d" % kind.workloads]
            + ["step " + step for step in kind.steps] + section_lines(kind.first, explain))


def search_lines(found, settings):
    """The report of a search."""
    one = found.search
    lines = ["search %d" % one.most, "pool %d" % one.pool, "workloads %d" % one.workloads, "failing %d" % one.failing]
    lines += ["refused %d %s: %d" % (number, REFUSAL_TEXTS[number], count) for number, count in one.refused]
    if found.enough is not None:
        return lines + enough_lines(found.enough, settings)
    return lines + [line for kind in one.kinds for line in kind_lines(kind, settings.explain)]


def decision_lines(found, settings, closed, decided):
    """The report of `--decide`, and of `--enough` of one script, from the number of closed sets and the faults."""
    lines = ["patches %d" % len(found.patches), "closed %d" % closed] + trace_lines(found, settings)
    if found.enough is not None:
        return lines + enough_lines(found.enough, settings)
    return lines + [line for fault in decided for line in fault_lines(fault, settings.explain)]


def report_lines(found, settings):
    """The report with every failing set."""
    lines = ["patches %d" % len(found.patches), "closed %d" % len(found.closed), "failing %d" % len(found.failing)]
    lines += trace_lines(found, settings)
    return lines + [line for one in found.failing for line in section_lines(one, settings.explain)]


def text_of(found, settings, lines):
    """The whole text: the head and the lines."""
    return "".join(line + "\n" for line in head_lines(found, settings) + lines)
