"""Rules of write ordering, and the four orderings that are made of them."""

import re
from collections import namedtuple

from . import level

MODULES = ("async", "soft", "meta", "full")

LATE_ROLES = ("PtrClear", "NewData", "Touch")
"""The roles of `overwrite` and `truncate`."""

ROLES = ("InodeInit", "EntrySet", "EntryClear", "MapSet", "MapClear", "InitFile", "InitDir",
         "Ptr", "LinkUp", "LinkDown", "InodeFree") + LATE_ROLES
PARTS = ROLES + ("FileData", "Copy", "Commit", "Done", "InPlace")

Rule = namedtuple("Rule", "later scope earlier")
"""A patch of the part `later` waits for a patch of the part `earlier`. The scope is `same` where both belong to one
operation, `previous` where the second belongs to the operation just before, `before` where it belongs to any
operation before."""

RULE = re.compile(r"([A-Za-z]+):(?:(previous|before)-)?([A-Za-z]+)")

SOFT_RULES = (
    "EntrySet:InodeInit", "EntrySet:LinkUp", "EntrySet:Ptr",
    "InitFile:MapSet", "InitDir:MapSet",
    "Ptr:InitFile", "Ptr:InitDir", "Ptr:MapSet",
    "LinkDown:EntryClear", "InodeFree:EntryClear", "MapClear:InodeFree",
    "EntryClear:EntrySet", "MapClear:PtrClear",
)
JOURNAL_RULES = (
    "FileData:previous-Commit",
    "Commit:Copy", "Commit:FileData", "Commit:previous-Commit",
    "InPlace:Commit",
    "Done:InPlace", "Done:previous-Done",
)
MODULE_RULES = {"async": (), "soft": SOFT_RULES, "meta": JOURNAL_RULES, "full": JOURNAL_RULES}

LATE_RULES = ("MapClear:PtrClear",)
"""The rules that came with `truncate`."""


def read_rule(word):
    """The rule that a word writes, or None."""
    match = RULE.fullmatch(word)
    if match is None or match[1] not in PARTS or match[3] not in PARTS:
        return None
    return Rule(match[1], match[2] or "same", match[3])


def written(rule):
    """The word that writes a rule."""
    return "%s:%s%s" % (rule.later, "" if rule.scope == "same" else rule.scope + "-", rule.earlier)


def rules_of(module):
    """The rules of an ordering, as they are written."""
    late = () if level.has("operations") else LATE_RULES
    return tuple(word for word in MODULE_RULES[module] if word not in late)


def taken_out(module, without):
    """The rules of the module that are taken out, in the module's order."""
    return [word for word in rules_of(module) if word in without]


def put_in(module, added):
    """The rules that are put in, in their order, but those that the module has already."""
    return [word for word in added if word not in rules_of(module)]


def ordering(module, without=(), added=()):
    """The rules of the module that are left, and then those put in."""
    words = [word for word in rules_of(module) if word not in without]
    return [read_rule(word) for word in words + put_in(module, added)]


def is_in_place(patch):
    """Whether a patch is a change in its own place that the journal has a copy of, or would have. File data that the
    metadata journal leaves out are not."""
    return patch.part in ROLES and not patch.is_data


def has_part(patch, part):
    """Whether a patch is of this part. `InPlace` is every change in its own place."""
    return patch.part == part or (part == "InPlace" and is_in_place(patch))


def in_scope(scope, later, earlier):
    """Whether the scope of a rule fits the operations of two patches."""
    if scope == "before":
        return later.operation > earlier.operation
    return later.operation == earlier.operation + (scope == "previous")


def applies(rule, later, earlier):
    """Whether the rule makes the patch `later` wait for the patch `earlier`."""
    return has_part(later, rule.later) and has_part(earlier, rule.earlier) and in_scope(rule.scope, later, earlier)
