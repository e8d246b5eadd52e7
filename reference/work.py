"""A workload: a base with traced steps, whose sets can be judged under any rules."""

from .closed_sets import closed_sets, is_closed
from .promises import promises_of
from .refusals import TooMuch
from .rules import written
from .script import spelled
from .trace import trace
from .verdicts import Judge, first_of_each_fault
from .waits import waits_of

NOT_YET = object()

class Work:
    """A base with traced steps, and what is asked of the sets of their patches. Where `waiting` is given only its lines
    wait."""

    def __init__(self, base, steps, settings):
        self.base, self.steps, self.settings = base, steps, settings
        self.judge = Judge(base, steps, settings)
        self.verdicts = {}
        self.without_rules = NOT_YET
        self.graphs = {}

    def graph(self, rules, waiting=None):
        """The patches under the rules."""
        return trace(self.base, self.steps, self.settings, rules, waiting)

    def promises(self, waiting=None):
        """The promises of the steps, which no rule changes."""
        return promises_of(self.base, self.steps, self.graph(()), self.settings, waiting)

    def waits(self):
        """The lines that wait, with what each forces."""
        return waits_of(self.base, self.steps, self.graph(()), self.settings.module)

    def graph_by(self, rule):
        """The patches where this is the only rule."""
        if rule not in self.graphs:
            self.graphs[rule] = self.graph((rule,))
        return self.graphs[rule]

    def closed(self, rules, waiting=None):
        """All closed sets under the rules, without the limit of the settings."""
        return closed_sets(self.graph(rules, waiting))

    def failing(self, rules, waiting=None):
        """The failing sets under the rules, in their order."""
        return self.judge.failing(self.graph(rules, waiting), self.closed(rules, waiting), self.promises(waiting))

    def first_faults(self, rules, waiting):
        """The first fault under the rules, in a list, or an empty list."""
        return first_of_each_fault(self.failing(rules, waiting))[:1]

    def matter(self, rules):
        """Those of the rules that put a pair of patches in order. The others change nothing."""
        return [rule for rule in rules if any(
            written(rule) in why for patch in self.graph_by(rule) for why in patch.why.values())]

    def failing_without_rules(self):
        """The sets that fail where no rule puts anything in order, or None where there are too many sets."""
        if self.without_rules is NOT_YET:
            try:
                self.without_rules = [one.patch_set for one in self.failing(())]
            except TooMuch:
                self.without_rules = None
        return self.without_rules

    def is_excluded(self, rule, patch_set):
        """Whether the set is not closed where this is the only rule."""
        return not is_closed(self.graph_by(rule), patch_set)

    def has_failing(self, rules):
        """Whether a set fails under the rules. A set is closed under them where it is closed under each of them alone,
        and no rule changes its image."""
        without = self.failing_without_rules()
        if without is None:
            return bool(self.failing(rules))
        return any(not any(self.is_excluded(rule, patch_set) for rule in rules) for patch_set in without)

    def first_fault(self, rules):
        """The first fault under the rules: its text and the first set that has it."""
        return first_of_each_fault(self.failing(rules))[0]

    def fails(self, rules):
        """Whether a set fails under the rules."""
        matter = tuple(self.matter(rules))
        if matter not in self.verdicts:
            self.verdicts[matter] = self.has_failing(matter)
        return self.verdicts[matter]

    def spelled_steps(self):
        """The steps as their lines spell them. The promises of a search, which are made before any step, are none."""
        return [spelled(step) for step in self.steps if step.act != "keep"]
