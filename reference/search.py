"""Workloads made of the lines after `start` in any order (`--search`)."""

from collections import Counter, namedtuple

from .faults import FAULT_NAMES, number_of
from .refusals import Refusal
from .script import GROUP_ACTS
from .trace import trace
from .work import Work

Search = namedtuple("Search", "most pool workloads failing refused kinds")
"""The most operations, the number of lines to choose from, the numbers of workloads and of those that fail, how often
each refusal came, and the kinds of faults that came."""

Kind = namedtuple("Kind", "kind workloads steps first")
"""The number of a fault, the number of workloads with a set that has it, the steps of the first of them and the first
such set there."""


class Searcher:
    """Tries workloads, shorter ones first. Only those that pass are made longer. `keeps` are promises that every
    workload makes before its first step."""

    def __init__(self, base, keeps, rules, settings):
        self.base, self.keeps, self.rules, self.settings = base, keeps, rules, settings
        self.refused = Counter()
        self.found = []

    def passes(self, steps):
        """Tries one workload; whether it can be done and no set fails."""
        try:
            trace(self.base, steps, self.settings._replace(whole_blocks=False), self.rules)
        except Refusal as refusal:
            self.refused[refusal.number] += 1
            return False
        work = Work(self.base, self.keeps + steps, self.settings)
        failing = work.failing(self.rules)
        self.found.append((work, failing))
        return not failing

    def longer(self, beginnings, pool):
        """The workloads with one line of the pool more that pass."""
        tried = [beginning + [step] for beginning in beginnings for step in pool]
        return [steps for steps in tried if self.passes(steps)]

    def kind(self, number):
        """The workloads that show a fault of this number, or None."""
        showing = [(work, [one for one in failing if number in map(number_of, one.faults)])
                   for work, failing in self.found]
        showing = [(work, having) for work, having in showing if having]
        if not showing:
            return None
        return Kind(number, len(showing), showing[0][0].spelled_steps(), showing[0][1][0])


def search(base, lines, rules, settings):
    """What the search finds, and the workloads that pass. The lines `keep` are no steps of workloads."""
    for step in lines:
        if step.act in GROUP_ACTS or step.act in ("hold", "spare"):
            raise Refusal(21, step.line)
    keeps = [step for step in lines if step.act == "keep"]
    pool = [step for step in lines if step.act != "keep"]
    searcher = Searcher(base, keeps, rules, settings)
    beginnings = [[]]
    for _ in range(settings.search):
        beginnings = searcher.longer(beginnings, pool)
    kinds = [kind for kind in map(searcher.kind, sorted(FAULT_NAMES)) if kind is not None]
    failing = sum(1 for _, failing in searcher.found if failing)
    return (Search(settings.search, len(pool), len(searcher.found), failing, sorted(searcher.refused.items()), kinds),
            [work for work, failing in searcher.found if not failing])
