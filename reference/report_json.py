"""Reports as one line of JSON."""

import json

from .closed_sets import ids_of
from .disk import BLOCK_SIZE
from .faults import FAULT_NAMES, numbers_of
from .promises import allowed_to_some, spare_texts
from .refusals import REFUSAL_TEXTS
from .rules import written
from .script import spelled_path
from .verdicts import shows_of


FORMAT = 1
"""The number of the form of reports."""


def compact(value):
    """The line of a value: keys in their order, no spaces."""
    return json.dumps(value, separators=(",", ":"), sort_keys=True) + "\n"


def head_value(found, settings):
    """The members that say how the report was asked for."""
    value = {"module": settings.module}
    if found.without:
        value["without"] = found.without
    if found.added:
        value["with"] = found.added
    flags = ("strict", "atomic", "whole_blocks", "generations", "durable")
    value.update((name, True) for name in flags if getattr(settings, name))
    if settings.counted:
        value["counted"] = settings.counted
    if settings.numbers:
        value["format"] = FORMAT
        value["geometry"] = {"block_size": BLOCK_SIZE, "blocks": settings.blocks, "journal": settings.journal}
    return value


class Detail:
    """How much is reported of a set: `explained` what replay changes, `shown` what paths show too, `numbers` the
    numbers in the texts of faults."""

    def __init__(self, found, settings):
        self.explained = settings.explain
        self.shown = settings.explain and found.tells_promises
        self.numbers = settings.numbers


def trace_value(found, settings):
    """The members with the base, the patches, the lines that wait and the promises, where they are asked for."""
    detail = Detail(found, settings)
    if not detail.explained:
        return {}
    value = {"base": [found.base.block(block).hex() for block in range(found.base.blocks)],
             "trace": [patch_value(patch) for patch in found.patches]}
    if detail.shown:
        value["promises"] = [promise_value(promise) for promise in found.promises]
        value["waits"] = [{"ids": wait.ids, "line": wait.line, "step": wait.step} for wait in found.waits]
    return value


def promise_value(promise):
    """A promise with what it allows and its spares."""
    return {"after": ids_of(promise.ids), promise.word: [spelled_path(path) for path in promise.paths],
            "line": promise.line, "shows": allowed_to_some(promise), "spares": spare_texts(promise)}


def patch_value(patch):
    """A patch with its bytes and its reasons."""
    return {"after": [{"patch": earlier, "why": why} for earlier, why in patch.why.items()],
            "block": patch.block,
            "line": patch.line,
            "new": patch.new.hex(),
            "offset": patch.offset,
            "part": patch.part,
            "step": patch.step,
            "undo": patch.undo.hex()}


def set_value(one, detail):
    """A failing set without its faults."""
    value = {"set": ids_of(one.patch_set),
             "writes": [{"block": block, "patches": ids} for block, ids in one.writes]}
    if detail.explained:
        value["replay"] = [{"block": block, "bytes": after.hex()} for block, after in one.replay]
    return value


def section_value(one, detail):
    """A failing set with its faults."""
    value = dict(set_value(one, detail), faults=one.faults)
    if detail.shown:
        value["shows"] = one.shows
    if detail.numbers:
        value["fault_numbers"] = [numbers_of(text) for text in one.faults]
    return value


def fault_value(fault, detail):
    """A fault and the first set that has it."""
    text, first = fault
    shows = shows_of(first)
    value = dict(set_value(first, detail), fault=text)
    if detail.shown:
        value["shows"] = [shows[text]] if text in shows else []
    if detail.numbers:
        value["fault_numbers"] = numbers_of(text)
    return value


def asked_values(some):
    """Rules as they are written, or numbers of lines."""
    return [one if isinstance(one, int) else written(one) for one in some]


def enough_value(enough, settings, detail):
    """The members that say which rules are enough, or which lines that wait, and why."""
    word = "syncs" if settings.syncs else "rules"
    value = {"enough": [asked_values(some) for some in enough.rules], "needs": []}
    for gone, work, fault in enough.needs:
        need = dict(fault_value(fault, detail), **{word: asked_values(gone)})
        if settings.search is not None:
            need["steps"] = work.spelled_steps()
        value["needs"].append(need)
    if enough.first:
        value["first"] = fault_value(enough.first, detail)
    return value


def kind_value(kind, detail):
    """A kind of fault that a search found."""
    return dict(section_value(kind.first, detail), kind=kind.kind, name=FAULT_NAMES[kind.kind],
                workloads=kind.workloads, steps=kind.steps)


def search_value(found, settings):
    """The report of a search."""
    one, detail = found.search, Detail(found, settings)
    value = dict(search=one.most, pool=one.pool, workloads=one.workloads, failing=one.failing,
                 refused=[{"number": number, "text": REFUSAL_TEXTS[number], "count": count}
                          for number, count in one.refused])
    if found.enough is not None:
        return dict(value, **enough_value(found.enough, settings, detail))
    return dict(value, kinds=[kind_value(kind, detail) for kind in one.kinds])


def decision_value(found, settings, closed, decided):
    """The report of `--decide`, and of `--enough` of one script, from the number of closed sets and the faults."""
    detail = Detail(found, settings)
    value = dict(trace_value(found, settings), patches=len(found.patches), closed=str(closed))
    if found.enough is not None:
        return dict(value, **enough_value(found.enough, settings, detail))
    return dict(value, faults=[fault_value(fault, detail) for fault in decided])


def report_value(found, settings):
    """The report with every failing set."""
    detail = Detail(found, settings)
    value = dict(trace_value(found, settings), closed=len(found.closed), patches=len(found.patches))
    return dict(value, failing=[section_value(one, detail) for one in found.failing])


def text_of(found, settings, value):
    """The whole line: the head and the value."""
    return compact(dict(head_value(found, settings), **value))
