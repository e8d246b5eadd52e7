"""Which patches depend on which, directly or not, and how many closed sets there are."""

from ..closed_sets import ids_of


class Order:
    """For each patch the set of those that it depends on, `below`, and the set of those that depend on it, `above`,
    the patch itself in both."""

    def __init__(self, patches):
        self.size = len(patches)
        self.below, self.above = [], [1 << p for p in range(self.size)]
        self.counted = {0: 1}
        for p, patch in enumerate(patches):
            self.add(p, patch.deps)

    def add(self, p, deps):
        """Takes in the next patch."""
        mask = 1 << p
        for earlier in ids_of(deps):
            mask |= self.below[earlier]
        self.below.append(mask)
        for earlier in ids_of(mask):
            self.above[earlier] |= 1 << p

    def near(self, some):
        """The patches that depend on one of these, or that one of these depends on."""
        found = 0
        for p in ids_of(some):
            found |= self.below[p] | self.above[p]
        return found

    def component(self, some):
        """Those of the patches that hang together with the lowest of them."""
        found, fresh = 0, some & -some
        while fresh:
            found |= fresh
            fresh = self.near(fresh) & some & ~found
        return found

    def count(self, some):
        """How many subsets of these patches have with a patch all of them that it depends on."""
        if some not in self.counted:
            first = self.component(some)
            self.counted[some] = (self.count(first) * self.count(some & ~first) if first != some
                                  else self.count_by_pivot(some))
        return self.counted[some]

    def count_by_pivot(self, some):
        """As `count`: the subsets without the patch that is related to most others, and those with it."""
        pivot = max(ids_of(some), key=lambda p: bin((self.below[p] | self.above[p]) & some).count("1"))
        return self.count(some & ~self.above[pivot]) + self.count(some & ~self.below[pivot])

    def everything(self):
        """The set of all patches."""
        return (1 << self.size) - 1

    def closed_sets(self):
        """The number of closed sets."""
        return self.count(self.everything())
