"""The answer to a script, printed."""

from . import report_json, report_text
from .explore import explore, fails
from .verdicts import first_of_each_fault


def decision(found, settings, closed, decided):
    """The report of `--decide`, and of `--enough` of one script, from the number of closed sets and the faults."""
    if settings.json:
        return report_json.text_of(found, settings, report_json.decision_value(found, settings, closed, decided))
    return report_text.text_of(found, settings, report_text.decision_lines(found, settings, closed, decided))


def report(found, settings):
    """The report of an answer."""
    if found.search is None and (settings.decide or settings.enough):
        return decision(found, settings, len(found.closed), first_of_each_fault(found.failing))
    if settings.json:
        value = report_json.report_value if found.search is None else report_json.search_value
        return report_json.text_of(found, settings, value(found, settings))
    lines = report_text.report_lines if found.search is None else report_text.search_lines
    return report_text.text_of(found, settings, lines(found, settings))


def answer(script, settings):
    """The report on a script, and whether the exit status is 1. `Refusal` where the script is refused, `TooMuch` where
    it is too big for the reference."""
    found = explore(script, settings)
    return report(found, settings), fails(found)
