"""Writes an outcome for a terminal, or as JSON, Markdown or JUnit's XML."""

import json
import shutil
from xml.etree import ElementTree

GAP = "  "


def columns_of(outcome):
    """A column for each promise: its files, and the words for it on each file system."""
    for paths in outcome.files():
        found = [outcome.verdict(it, paths) for it in outcome.systems]
        yield [" + ".join(paths), *(it.words() + " (known)" * outcome.is_known(it) if it else "" for it in found)]


def as_text(outcome):
    """A table of file systems and files, in parts that fit on the terminal, and sentences under it."""
    columns, names, lines = list(columns_of(outcome)), ["", *(it.name for it in outcome.systems)], []
    room = shutil.get_terminal_size().columns - max(map(len, names))
    at_once = max(1, room // max(len(GAP + it) for column in columns for it in column))
    for at in range(0, len(columns), at_once):
        part = [names, *columns[at:at + at_once]]
        widths = [max(map(len, it)) for it in part]
        lines += [GAP.join(it.ljust(width) for it, width in zip(row, widths)).rstrip() for row in zip(*part)] + [""]
    return "\n".join([*lines, *outcome.sentences()]).rstrip("\n") + "\n"


def as_json(outcome):
    """One object, with everything that the other forms say."""
    rows = [{"name": it.name, "title": it.title, "mounts": it.mounts, "verdicts": [
        {"files": verdict.paths, "state": verdict.state, "verdict": verdict.words(), "known": outcome.is_known(verdict),
         "sentence": verdict.told} for verdict in outcome.verdicts if verdict.system == it.name]}
            for it in outcome.systems]
    fsyncs = [{"file": it.path, "call": it.cause.number, "behind": it.cause.text} for it in outcome.cure.fsyncs]
    cure = {"fsyncs": fsyncs, "systems": outcome.cure.systems,
            "hopeless": {why: list(names) for why, names in outcome.cure.hopeless.items()}}
    return json.dumps({"command": outcome.command, "status": outcome.status(), "systems": rows, "cure": cure,
                       "notes": outcome.notes}, indent=2) + "\n"


def as_markdown(outcome):
    """A table with a row for each file system, and a list of the sentences."""
    heads, *rows = zip(*columns_of(outcome))
    lines = [f"`{outcome.command}`", "", row(["file system", *(f"`{it}`" for it in heads)]),
             "|---" * (len(heads) + 1) + "|"]
    for system, cells in zip(outcome.systems, rows):
        cells = [f"**{it}**" if it.startswith("may ") else it for it in cells]
        lines.append(row([f"{system.name} ({system.title})", *cells]))
    return "\n".join([*lines, "", *(f"- {it}" for it in outcome.sentences())]).rstrip("\n") + "\n"


def row(cells):
    return "| " + " | ".join(it.replace("|", "\\|") for it in cells) + " |"


def as_junit(outcome):
    """A test suite for each file system, with a case for each promise. A known break is skipped."""
    root = ElementTree.Element("testsuites", name=outcome.command)
    for system in outcome.systems:
        suite = ElementTree.SubElement(root, "testsuite", name=system.name)
        for it in [it for it in outcome.verdicts if it.system == system.name]:
            case = ElementTree.SubElement(suite, "testcase", classname=system.name, name=" + ".join(it.paths))
            if it.told:
                kind = "error" if it.state == "unknown" else "skipped" if outcome.is_known(it) else "failure"
                ElementTree.SubElement(case, kind, message=f"{it.words()}: {it.told}")
        for key, kind in (("tests", "testcase"), ("failures", ".//failure"), ("errors", ".//error"),
                          ("skipped", ".//skipped")):
            suite.set(key, str(len(suite.findall(kind))))
        ElementTree.SubElement(suite, "system-out").text = "\n".join(outcome.sentences())
    ElementTree.indent(root)
    return ElementTree.tostring(root, encoding="unicode", xml_declaration=True) + "\n"


FORMATS = {"text": as_text, "json": as_json, "markdown": as_markdown, "junit": as_junit}
