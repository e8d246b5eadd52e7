"""Reports that are wrong in one place, made of good ones.

A place is where a value is in a report: the keys and numbers that lead to it. Places that differ in the numbers alone
have one shape. `changed` takes the smallest report for each question and each shape, or for each set of keys where the
value is an object, and changes it there in ways that make it wrong. What all questions have in common, the disk and its
patches, it changes in one of them.
"""

import copy
import json

HEAD = {"atomic", "counted", "durable", "format", "generations", "geometry", "module", "strict", "whole_blocks", "with",
        "without"}
"""The keys that reports on every question can have."""

MAY_LACK = HEAD - {"format", "geometry", "module"}
"""The keys without which a report is right."""

OTHERS = (None, True, 0.5, "other", {"other": 1})
"""Values of other types, none of which is right anywhere, but `True` for some keys."""

TOO_LARGE = {"after": 124, "block": 128, "block_size": 129, "blocks": 129, "closed": 32769, "counted": 11,
             "directory": 16, "entries": 161, "entry": 10, "format": 2, "ids": 124, "inode": 255, "journal": 123,
             "kind": 11, "line": 2**20 + 1, "links": 160, "number": 21, "offset": 128, "patch": 123,
             "patches": 125, "pool": 2**20, "search": 9, "set": 124, "slot": 4}
"""A number above the right ones, for the key that it has or is in a list of."""

TOO_SMALL = {"block": 0, "block_size": 127, "blocks": 15, "closed": 0, "count": 0, "counted": 0, "entries": 0,
             "format": 0, "kind": 0, "line": 1, "number": 0, "search": 0}

WRONG_RULES = ("Ptr", "Ptr:Ptrs", "Ptr:next-Ptr", "Ptr:previous-before-Ptr", "reason", "Ptr:InitFile ")
WRONG_FAULTS = (
    "7 dangling entry: directory 0 entry 0 inode 1", "1 dangling entry: directory 16 entry 0 inode 1",
    "1 dangling entry: directory 0 entry 10 inode 1", "1 dangling entry: directory 0 entry 0 inode 255",
    "2 block used twice: block 3", "2 block used twice: block 128", "2 block used twice",
    "3 unwritten pointer: inode 1 slot 4 block 5", "3 unwritten pointer: inode 16 slot 0 block 5",
    "3 unwritten pointer: inode 1 slot 0 block 05", "4 low link count: inode 1 entries 161 links 1",
    "4 low link count: inode 1 entries 2 links 160", "5 used block marked free: inode 1 slot 0 block 128",
    "6 wild pointer: inode 1 slot 0 block 0", "6 wild pointer: inode 1 slot 0 block 256", "7 lost inode: inode 16",
    "8 directory without a block: inode -1", "9 half-done operation: inode 1", "10 broken promise: line 1",
    "10 broken promise: line 1048577", "11 broken promise: line 3")
WRONG_STEPS = ("copy /a", "create", "create a", "create /", "create /A", "create /a/b/c/d/e", "create /abcdefghijk",
               "create /a /b", "link /a", "overwrite /a 4", "create  /a", "start")
WRONG_PATHS = ("a", "/", "/A", "/a/b/c/d/e", "/abcdefghijk", "/a /b")
WRONG_SHOWN = ("", "File", "file 4", "file wild 46010000 - - -", "nothing directory", "directory |")
WRONG_BYTES = ("", "0", "zz", 256 * "g", 256 * "A", 258 * "0")
WRONG_TEXTS = {
    "base": WRONG_BYTES, "bytes": WRONG_BYTES, "new": WRONG_BYTES, "undo": WRONG_BYTES,
    "closed": ("", "0", "01", "1e3", 39 * "9"),
    "enough": WRONG_RULES, "rules": WRONG_RULES, "why": WRONG_RULES, "with": WRONG_RULES,
    "without": WRONG_RULES + ("Ptr:Ptr",),
    "keep": WRONG_PATHS, "hold": WRONG_PATHS, "shows": WRONG_SHOWN, "spares": ("/a", "file", "/a File", "/a / file"),
    "fault": WRONG_FAULTS, "faults": WRONG_FAULTS,
    "module": ("hard", "Soft"), "name": ("lost block", "Lost inode"), "part": ("InPlace", "Inode"),
    "step": WRONG_STEPS, "steps": WRONG_STEPS, "text": ("no", "Not found", "group fault")}
"""Texts that are wrong for the key that they have or are in a list of."""

NEVER_EMPTY = {"patches", "steps", "keep", "hold", "counted", "why", "fault_numbers", "faults", "rules", "with",
               "without", "base"}
"""Keys of lists that are not empty. `faults` of a whole report can be."""


def question_of(report):
    """What tells reports on one question from others: their keys."""
    return tuple(sorted(set(report) - HEAD - {"base", "trace", "promises", "waits"}))


def places(value, place=()):
    """All values of a report, each as its place and itself."""
    yield place, value
    items = value.items() if isinstance(value, dict) else enumerate(value) if isinstance(value, list) else ()
    for key, inner in items:
        yield from places(inner, place + (key,))


def shape_of(place):
    """A place with a star for each number."""
    return tuple(key if isinstance(key, str) else "*" for key in place)


def key_of(place):
    """The key that a value has, or the list that it is in, and an empty text for the report itself."""
    return next((key for key in reversed(place) if isinstance(key, str)), "")


def what_of(report, place, value):
    """What the changes at a place stand for: a question, or none below the disk and the patches, a shape, and keys."""
    is_shared = len(place) > 1 and place[0] in ("base", "trace")
    keys = tuple(sorted(set(value) - MAY_LACK)) if isinstance(value, dict) else ()
    return () if is_shared else question_of(report), shape_of(place), keys


def set_at(report, place, value):
    """The report with another value at this place."""
    if not place:
        return value
    made = copy.deepcopy(report)
    inner = made
    for key in place[:-1]:
        inner = inner[key]
    inner[place[-1]] = value
    return made


def is_needed(place, key, is_search):
    """Whether the object at this place is wrong without the key. Nothing else tells that a search was explained."""
    return key not in MAY_LACK and not (key == "replay" and is_search)


def wrong_objects(place, value, is_search):
    """An object with a key too many, and without each of its keys."""
    yield dict(value, other=1)
    if {"set", "writes"} <= set(value) and "replay" not in value and not is_search:
        yield dict(value, replay=[])
    if {"set", "writes"} <= set(value) and "fault_numbers" not in value:
        yield dict(value, fault_numbers={"kind": 9} if "fault" in value else [{"kind": 9}])
    for key in value:
        if is_needed(place, key, is_search) and not (key == "shows" and "set" in value):
            yield {other: inner for other, inner in value.items() if other != key}


def wrong_lists(place, value):
    """A list that is empty, and one that has something twice."""
    key = key_of(place)
    if key in NEVER_EMPTY and (len(place) > 1 or key in ("with", "without", "base")):
        yield []
    if value and key in ("set", "patches", "why", "rules"):
        yield value + value[:1]


def wrong_values(place, value, is_search):
    """What is wrong in place of a value."""
    key = key_of(place)
    yield from (False if value is True and other is True else other for other in OTHERS)
    if isinstance(value, dict):
        yield from wrong_objects(place, value, is_search)
    elif isinstance(value, list):
        yield from wrong_lists(place, value)
    elif isinstance(value, str):
        yield from WRONG_TEXTS[key]
    elif value is not True:
        yield from [-1] + [table[key] for table in (TOO_LARGE, TOO_SMALL) if key in table]


def mixed(smallest):
    """Each question's report with a key of another question's."""
    for question, report in smallest.items():
        for other, has in smallest.items():
            for key in sorted(set(other) - set(question)):
                yield f"{question} with {key} of {other}", dict(report, **{key: has[key]})


def of_another_module(reports):
    """Reports whose `without` or `trace` is not of their module."""
    for report in reports:
        parts = {patch["part"] for patch in report.get("trace", [])}
        if "without" in report:
            yield f"{report['without']} of async", dict(report, module="async")
            other = "meta" if report["module"] == "soft" else "soft"
            yield f"{report['without']} of {other}", dict(report, module=other)
        for part, module in (("Copy", "soft"), ("Copy", "async"), ("InitFile", "meta"), ("FileData", "full")):
            if part in parts:
                yield f"{part} of {module}", dict(report, module=module)


def changed(reports):
    """Wrong reports, by what is wrong with them."""
    reports = sorted(reports, key=lambda report: len(json.dumps(report)))
    found, smallest, made = set(), {}, {}
    for report in reports:
        smallest.setdefault(question_of(report), report)
        for place, value in places(report):
            what = what_of(report, place, value)
            if what not in found:
                found.add(what)
                for wrong in wrong_values(place, value, "search" in report):
                    made[f"{len(made)}, {what}: {json.dumps(wrong)[:80]}"] = set_at(report, place, wrong)
    made.update(mixed(smallest))
    made.update(of_another_module(reports))
    return made
