"""The patches of the traced operations, and which of them wait for which."""

from collections import namedtuple

from .changes import apply
from .closed_sets import set_of
from .disk import JOURNAL_START
from .plan import plan
from .refusals import Refusal, Refused
from .replay import COMMITTED, DONE
from .rules import applies, ordering, written
from .script import GROUP_ACTS, WAIT_ACTS, is_operation, operation_of, spelled
from .waits import forced_by, must_be_there

Patch = namedtuple("Patch", "block offset new undo part operation line step group why deps is_data")
"""Bytes for one place of the disk. `undo` has the bytes that were there, `part` what rules call the patch, `operation`
the number of its operation from 1, `line` and `step` that operation's line, `group` its patch group or None. `why` has
for each earlier patch that it waits for the reasons, `deps` those patches as a set. `is_data` says that it is file data
that the metadata journal leaves out."""

Piece = namedtuple("Piece", "part block offset new is_data", defaults=(False,))
"""A patch before anything is known of the others."""

DATA_PARTS = {"InitFile": "FileData", "NewData": "NewData"}
"""The roles of file data, each with what rules call its patch under the metadata journal."""

MOST_SYNCS = 64
"""The most lines `sync` and `fsync` that `--syncs` takes."""


def overlaps(one, other):
    """Whether two patches have a byte in common."""
    return (one.block == other.block and one.offset < other.offset + len(other.new)
            and other.offset < one.offset + len(one.new))


def pieces_of_changes(changes):
    """The changes of an operation as they are."""
    return [Piece(change.role, change.block, change.offset, change.new) for change in changes]


def pieces_in_journal(image, changes, module, transaction, header):
    """The pieces of one transaction of a journal whose header goes to this block. The ordering `meta` writes file data
    outside the journal, `full` writes everything through it."""
    data = [change for change in changes if module == "meta" and change.role in DATA_PARTS]
    journaled = [change for change in changes if change not in data]
    touched = sorted(set(change.block for change in journaled))
    if header + 1 + len(touched) > JOURNAL_START + image.journal:
        raise Refused(20)
    after = image.copy()
    apply(after, changes)
    commit = bytes([COMMITTED, transaction, len(touched)] + touched)
    pieces = [Piece(DATA_PARTS[change.role], change.block, change.offset, change.new, True) for change in data]
    pieces += [Piece("Copy", header + 1 + m, 0, after.block(block)) for m, block in enumerate(touched)]
    pieces += [Piece("Commit", header, 0, commit)] + pieces_of_changes(journaled)
    return pieces + [Piece("Done", header, 0, bytes([DONE]))]


class Groups:
    """The patch groups so far: opened, open, ended, filled with a patch, and the pairs that `depend` put in order."""

    def __init__(self):
        self.opened, self.ended, self.filled = set(), set(), set()
        self.open = None
        self.depends = set()

    def take(self, step):
        """Does a step that speaks of groups."""
        getattr(self, "take_" + step.act)(step)

    def take_group(self, step):
        """Opens a group. Groups are not nested, and no name is opened twice."""
        name = step.words[0]
        if self.open is not None or name in self.opened:
            raise Refusal(21, step.line)
        self.open = name
        self.opened.add(name)

    def take_end(self, step):
        """Ends the open group."""
        if self.open is None:
            raise Refusal(21, step.line)
        self.ended.add(self.open)
        self.open = None

    def take_depend(self, step):
        """Makes a group that has no patch yet wait for another group that has ended."""
        later, earlier = step.words
        if earlier not in self.ended or later == earlier or later in self.filled:
            raise Refusal(21, step.line)
        self.depends.add((later, earlier))


class Tracer:
    """Makes the patches of steps one by one. `waiting` has the lines that wait; without it all of them do."""

    def __init__(self, base, settings, rules, waiting=None):
        self.settings = settings
        self.rules = rules
        self.waiting = waiting
        self.forced = set()
        self.syncs = 0
        self.planned_on = base.copy()
        self.patched = base.copy()
        self.patches = []
        self.groups = Groups()
        self.next_journal = JOURNAL_START
        self.operations = 0

    def take(self, step):
        """Does one step."""
        if step.act in GROUP_ACTS:
            self.groups.take(step)
            return
        try:
            if not is_operation(step):
                self.take_wait_or_promise(step)
                return
            pieces = self.planned(step)
        except Refused as refused:
            raise Refusal(refused.number, step.line) from None
        if len(self.patches) + len(pieces) > self.settings.max_patches:
            raise Refusal(2, step.line)
        self.operations += 1
        apply(self.planned_on, plan(self.planned_on, operation_of(step)))
        if self.settings.module in ("meta", "full"):
            self.next_journal += 1 + sum(piece.part == "Copy" for piece in pieces)
        for piece in pieces:
            self.add(piece, step)

    def take_wait_or_promise(self, step):
        """Does a step that waits. One that promises has nothing to do here, but `spare` must name what is there, or
        the path itself."""
        if step.act == "spare" and step.words[0] != step.words[1]:
            must_be_there(self.planned_on, step.words[1])
        if step.act not in WAIT_ACTS:
            return
        if step.act == "fsync":
            must_be_there(self.planned_on, step.words[0])
        self.syncs += 1
        if self.settings.syncs and self.syncs > MOST_SYNCS:
            raise Refused(23)
        if self.waiting is None or step.line in self.waiting:
            self.forced |= forced_by(step, self.planned_on, self.patches, self.settings.module)

    def planned(self, step):
        """The pieces of an operation."""
        changes = plan(self.planned_on, operation_of(step))
        if self.settings.module in ("async", "soft"):
            return pieces_of_changes(changes)
        return pieces_in_journal(self.planned_on, changes, self.settings.module, self.operations + 1,
                                 self.next_journal)

    def add(self, piece, step):
        """Makes a patch of a piece."""
        undo = self.patched.range(piece.block, piece.offset, len(piece.new))
        patch = Patch(piece.block, piece.offset, piece.new, undo, piece.part, self.operations, step.line,
                      spelled(step), self.groups.open, {}, 0, piece.is_data)
        reasons = [self.reasons(patch, identity, earlier) for identity, earlier in enumerate(self.patches)]
        why = {identity: some for identity, some in enumerate(reasons) if some}
        self.patches.append(patch._replace(why=why, deps=set_of(why)))
        if patch.group is not None:
            self.groups.filled.add(patch.group)
        self.patched.put(piece.block, piece.offset, piece.new)

    def reasons(self, later, identity, earlier):
        """Why one patch waits for another; without a reason it does not."""
        found = []
        if overlaps(later, earlier):
            found.append("overlap")
        if self.settings.whole_blocks and later.block == earlier.block:
            found.append("block")
        if (later.group, earlier.group) in self.groups.depends:
            found.append("group")
        if identity in self.forced:
            found.append("wait")
        return found + [written(rule) for rule in self.rules if applies(rule, later, earlier)]


def trace(base, steps, settings, rules=None, waiting=None):
    """The patches of the steps after `start`. Refused with 2, 10 to 21 and 23. Of the settings only the module, the
    most patches, whole blocks and `--syncs` matter; without rules the module's own hold, and without lines that wait
    all of them do."""
    tracer = Tracer(base, settings, ordering(settings.module) if rules is None else rules, waiting)
    for step in steps:
        tracer.take(step)
    return tracer.patches
