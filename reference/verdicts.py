"""Which closed sets fail, and how."""

import re
from collections import namedtuple

from .closed_sets import writes_to
from .faults import BROKEN_PROMISE, atomic_faults, faults, kept_inodes, number_of, strict_faults, text_of
from .promises import wrongly_shown
from .replay import build, replayed
from .script import disks_after

Failing = namedtuple("Failing", "patch_set writes replay faults shows")
"""A set that fails: the set, its writes by blocks, the blocks whose bytes replay changes, each with its bytes after
it, and the texts of the faults. `shows` has for each broken promise among these what its paths show."""

def shows_of(one):
    """What is shown for each broken promise of a failing set, by the fault's text."""
    return dict(zip([text for text in one.faults if number_of(text) == BROKEN_PROMISE], one.shows))


def in_order(rows):
    """Rows that begin with the text of a fault, in the order of reports: by the number of the fault, and then by the
    numbers in its text."""
    return sorted(rows, key=lambda row: [int(number) for number in re.findall("[0-9]+", row[0])])


def each_fault(failing):
    """Each fault of failing sets with the sets that have it, in the order of reports."""
    having = {}
    for one in failing:
        for text in one.faults:
            having.setdefault(text, []).append(one)
    return in_order(having.items())


def first_of_each_fault(failing):
    """Each fault of failing sets with the first set that has it, in the order of reports."""
    return [(text, some[0]) for text, some in each_fault(failing)]


Look = namedtuple("Look", "replay faults wrong")
"""What a set can fail by, whatever waits: the blocks whose bytes replay changes, the texts of the faults of its image,
and what is shown where a promise does not allow it, as pairs of the promise's place and a text."""


class Judge:
    """Judges sets of patches. It remembers what it has seen of them, since neither rules nor waiting change what image
    a set leaves, and what a promise allows it."""

    def __init__(self, base, steps, settings):
        disks = disks_after(base, steps) if settings.strict or settings.atomic else None
        self.base = base
        self.counted = settings.counted
        self.kept = kept_inodes(disks) if settings.strict else None
        self.disks = disks if settings.atomic else None
        self.known = {}

    def counts(self, number):
        """Whether the faults of this number count."""
        return self.counted is None or number in self.counted

    def faults_of(self, image):
        """The texts of the faults of an image after replay."""
        texts = faults(image)
        if self.kept is not None:
            texts = texts + strict_faults(image, self.kept)
        if self.disks is not None:
            texts = texts + atomic_faults(image, self.disks)
        return [text for text in texts if self.counts(number_of(text))]

    def wrong_on(self, image, patches, patch_set, promises):
        """What promises show on the replayed image of a set that they do not allow it."""
        if not self.counts(BROKEN_PROMISE):
            return []
        shown = [(place, wrongly_shown(image, promise, patches, patch_set)) for place, promise in enumerate(promises)]
        return [(place, text) for place, text in shown if text is not None]

    def look(self, patches, patch_set, promises):
        """What the set can fail by, or None where it can by nothing."""
        image = build(self.base, patches, patch_set)
        after = replayed(image)
        texts = self.faults_of(after)
        wrong = self.wrong_on(after, patches, patch_set, promises)
        if not texts and not wrong:
            return None
        replay = [(block, after.block(block)) for block in range(self.base.blocks)
                  if after.block(block) != image.block(block)]
        return Look(replay, texts, wrong)

    def judged(self, patches, patch_set, promises):
        """The set with its faults, or None where it has none. A set that has not all ids of a promise does not break
        it."""
        if patch_set not in self.known:
            self.known[patch_set] = self.look(patches, patch_set, promises)
        look = self.known[patch_set]
        if look is None:
            return None
        broken = {}
        for place, text in look.wrong:
            if promises[place].ids & ~patch_set == 0:
                broken.setdefault(promises[place].line, text)
        if not look.faults and not broken:
            return None
        lines = sorted(broken)
        texts = look.faults + [text_of(BROKEN_PROMISE, line=line) for line in lines]
        return Failing(patch_set, writes_to(patches, patch_set), look.replay, texts, [broken[line] for line in lines])

    def failing(self, patches, closed, promises):
        """Those of the sets that fail, in their order."""
        verdicts = [self.judged(patches, patch_set, promises) for patch_set in closed]
        return [one for one in verdicts if one is not None]
