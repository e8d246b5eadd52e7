"""python3 -m reference.laws [--count N] [--seed S]

Tries the reference against itself on random cases, by laws that follow from the definitions:

decide: `--decide` has each fault of the failing sets once, with the first set that has it.
enough: a list of rules that is made with `--without` and `--with` alone is free of failing sets exactly where it has
    all rules of a list that `--enough` prints. The lists are the smallest that have a rule of each line `needs`, and
    each block there is the first one of `--decide` without those rules.
search: `--search` finds what single scripts find for all sequences of lines of its pool.
full: under the full journal nothing fails with `--atomic --strict`, whatever rules are put in.
before: the closed sets under a rule for all operations before are among those under the rule for the operation before.
two ways: the second way decides, counts and finds enough rules as enumeration does.
full journal keeps promises: no promise is broken there that stands before the first operation, behind a `sync`, or
    behind an `fsync` of its one path, and none of `--durable`.
syncs: where more lines wait, no more sets fail, and a set of lines is enough where a script with these lines alone is.
durable: an `fsync` promises what a `hold` behind it promises, of sets that have begun no later operation.

Prints what differs, how often each law was tried, and a last line `N passed, M failed`.
"""

import argparse
import collections
import itertools
import json
import sys

from .answer import answer
from .closed_sets import closed_sets
from .enough import sublists
from .explore import explore, start
from .faults import BROKEN_PROMISE, FAULT_NAMES, number_of
from .level import LEVELS, raise_to
from .promise_laws import check_promises
from .random_cases.make import chance_of, make_case
from .refusals import Refusal, TooMuch
from .rules import JOURNAL_RULES, PARTS, ordering, rules_of, written
from .script import read_script, spelled
from .second_way import decide
from .settings import Settings
from .trace import trace
from .verdicts import each_fault, in_order

LIMIT = 10 ** 6
SHARES = [0.3, 0.6, 0.8, 0.9, 0.95] * 12
"""How likely a rule is in each of the random lists that a long ordering is tried with."""

BEFORE = ("EntryClear:before-EntrySet", "Done:before-Done", "InPlace:before-Commit")


class Laws:
    """Checks laws, and counts them."""

    def attempt(self, law):
        """Tries a law. One that does not fit its case, since the script is refused or too big, is left out."""
        try:
            law()
        except (Refusal, TooMuch):
            self.done["left out"] += 1

    def __init__(self):
        self.done = collections.Counter()
        self.failed = 0

    def check(self, law, got, wanted=True):
        """Counts a law as tried, and prints how it fails."""
        self.done[law] += 1
        if got != wanted:
            self.failed += 1
            print("%s\n  got    %.600r\n  wanted %.600r" % (law, got, wanted))


def limited(script, settings, **others):
    """The answer to the same script without a question about all sets."""
    return answer(script, settings._replace(decide=False, enough=False, search=None, limit=LIMIT, **others))


def first_block(script, settings, **others):
    """The first fault of `--decide`."""
    settings = settings._replace(json=True, explain=False, enough=False, decide=True, **others)
    return json.loads(answer(script, settings)[0])["faults"][0]


def set_alone(value):
    """A set of a report without its faults."""
    return {key: one for key, one in value.items() if key in ("set", "writes", "replay")}


def check_decide(laws, script, settings):
    """`--decide` has each fault of the failing sets once, with the first set that has it."""
    first = {}
    for one in json.loads(limited(script, settings, json=True)[0])["failing"]:
        for text in one["faults"]:
            first.setdefault(text, set_alone(one))
    faults = json.loads(answer(script, settings._replace(json=True))[0])["faults"]
    laws.check("decide, faults", [one["fault"] for one in faults], [text for text, _ in in_order(first.items())])
    laws.check("decide, first sets", {one["fault"]: set_alone(one) for one in faults}, first)


def is_safe(script, settings, rules):
    """Whether nothing fails under a list of rules, by `--without` and `--with` alone."""
    words = [written(rule) for rule in rules]
    without = tuple(word for word in rules_of(settings.module) if word not in words)
    added = tuple(word for word in settings.added if word in words)
    return not limited(script, settings, without=without, added=added)[1]


def lists_to_try(chance, rules, listed):
    """All lists of some of few rules, or random ones, and those that are enough."""
    every = sublists(rules) if len(rules) <= 7 else [
        [rule for rule in rules if chance.random() < share] for share in SHARES]
    return every + [[rule for rule in rules if written(rule) in one] for one in listed]


def check_enough(laws, chance, script, settings):
    """The lists of rules that are enough."""
    rules = ordering(settings.module, settings.without, settings.added)
    value = json.loads(answer(script, settings._replace(json=True, explain=False))[0])
    listed = [set(one) for one in value["enough"]]
    for some in lists_to_try(chance, rules, listed):
        laws.check("enough, or not", is_safe(script, settings, some),
                   any(one <= set(map(written, some)) for one in listed))
    for one, gone in ((one, gone) for one in listed for gone in one):
        left = [rule for rule in rules if written(rule) in one - {gone}]
        laws.check("enough, no smaller list", is_safe(script, settings, left), False)
    places = list(map(written, rules))
    laws.check("enough, order", value["enough"], sorted(value["enough"], key=lambda one: (
        len(one), [places.index(word) for word in one])))
    if listed:
        check_enough_needs(laws, script, settings, value)
    else:
        laws.check("enough, not enough", value["first"], first_block(script, settings))


def check_enough_needs(laws, script, settings, value):
    """The lists are the smallest that have a rule of each line `needs`, and each block is the first of `--decide`."""
    every = sorted(set(rule for one in value["needs"] for rule in one["rules"]))
    hitting = [set(some) for some in sublists(every)
               if all(set(some) & set(one["rules"]) for one in value["needs"])]
    least = [sorted(some) for some in hitting if not any(one < some for one in hitting)]
    laws.check("enough, needs", sorted(least), sorted(map(sorted, value["enough"])))
    for one in value["needs"]:
        without = tuple(word for word in rules_of(settings.module)
                        if word in settings.without or word in one["rules"])
        added = tuple(word for word in settings.added if word not in one["rules"])
        block = first_block(script, settings, without=without, added=added)
        laws.check("enough, block", dict(block, rules=one["rules"]), one)


def without_shows(value):
    """A set of a report without what paths show. A search says it where any line of the pool waits or promises, and a
    single script where its own lines do."""
    return {key: one for key, one in value.items() if key != "shows"}


class SingleScripts:
    """The sequences of lines of a pool, each as a script of its own."""

    def __init__(self, script, settings):
        read = read_script(script)
        self.settings = settings
        self.base = [spelled(step) for step in read.base]
        self.keeps = [spelled(step) for step in read.traced if step.act == "keep"]
        self.pool = [spelled(step) for step in read.traced if step.act != "keep"]
        self.known = {}

    def verdict(self, places):
        """The failing sets of a sequence as in JSON, or the number of its refusal."""
        if places not in self.known:
            self.known[places] = self.run(places)
        return self.known[places]

    def run(self, places):
        """As `verdict`, found again."""
        rows = self.base + ["start"] + self.keeps + [self.pool[place] for place in places]
        script = "".join(row + "\n" for row in rows).encode()
        try:
            return list(map(without_shows, json.loads(limited(script, self.settings, json=True)[0])["failing"]))
        except Refusal as refusal:
            return refusal.number

    def workloads(self):
        """The sequences all of whose beginnings pass, in their order."""
        for size in range(1, self.settings.search + 1):
            for places in itertools.product(range(len(self.pool)), repeat=size):
                if all(self.verdict(places[:k]) == [] for k in range(1, size)):
                    yield places

    def kind(self, number, workloads):
        """What `--search` has for a fault of this number, in a list, or an empty list."""
        showing = [(places, one) for places in workloads for one in self.verdict(places)
                   if number in map(number_of, one["faults"])]
        if not showing:
            return []
        places, first = showing[0]
        return [dict(first, kind=number, name=FAULT_NAMES[number], steps=[self.pool[place] for place in places],
                     workloads=len(set(places for places, _ in showing)))]


def check_search(laws, script, settings):
    """`--search` by single scripts."""
    single = SingleScripts(script, settings)
    try:
        value = json.loads(answer(script, settings._replace(json=True, enough=False))[0])
    except Refusal as refusal:
        laws.check("search, refused", refusal.number in range(1, 22))
        return
    tried = list(single.workloads())
    refused = collections.Counter(single.verdict(places) for places in tried if isinstance(single.verdict(places), int))
    workloads = [places for places in tried if not isinstance(single.verdict(places), int)]
    laws.check("search, numbers", [value[key] for key in ("workloads", "failing", "pool", "search")],
               [len(workloads), sum(1 for places in workloads if single.verdict(places)), len(single.pool),
                settings.search])
    laws.check("search, refusals", [(one["number"], one["count"]) for one in value["refused"]],
               sorted(refused.items()))
    laws.check("search, kinds", list(map(without_shows, value["kinds"])),
               sum((single.kind(number, workloads) for number in FAULT_NAMES), []))


def check_full(laws, case):
    """Nothing fails under the full journal, but for promises that are broken."""
    added = tuple(rule for rule in case.added if rule not in JOURNAL_RULES)
    settings = Settings("full", case.blocks, case.journal, 3000, added=added, strict=True, atomic=True,
                        generations=case.generations, counted=tuple(range(1, BROKEN_PROMISE)))
    laws.check("full", answer(case.script, settings)[1], False)


def check_before(laws, chance, case):
    """The closed sets under two scopes of a rule."""
    base, steps, _ = start(case.script, case.settings())
    later, earlier = [chance.choice(PARTS + ("InPlace",) * 12) for _ in range(2)]
    sets = {}
    for scope in ("before", "previous"):
        rules = ordering(case.module, (), ("%s:%s-%s" % (later, scope, earlier),))
        sets[scope] = set(closed_sets(trace(base, steps, Settings(case.module), rules), 3000))
    laws.check("before, fewer" if sets["before"] < sets["previous"] else "before, as many",
               sets["before"] <= sets["previous"])


def check_two_ways(laws, chance, case):
    """The second way, on a small script."""
    asked = case.settings()._replace(search=None, strict=chance.random() < 0.5, atomic=chance.random() < 0.5)
    added = case.added + [rule for rule in BEFORE if chance.random() < 0.3 and rule not in case.added]
    asked = asked._replace(added=tuple(added), decide=True, enough=False)
    if not case.has_too_many(1500, ordering(case.module, case.without, added)):
        laws.check("two ways, decide", decide.answer(case.script, asked), answer(case.script, asked))
        laws.check("two ways, numbers", decide.numbers_of(case.script, asked), [
            (text, len(some), some[0].patch_set) for text, some in each_fault(explore(case.script, asked).failing)])
    if len(added) <= 3 and not case.has_too_many(1500, []):
        asked = asked._replace(decide=False, enough=True)
        laws.check("two ways, enough", decide.answer(case.script, asked), answer(case.script, asked))


def check_question(laws, chance, case):
    """The law for the question that a case asks."""
    settings = case.settings()
    if case.decide:
        check_decide(laws, case.script, settings)
    elif case.search:
        check_search(laws, case.script, settings)
    elif case.enough:
        check_enough(laws, chance, case.script, settings)


def check_case(laws, seed, index):
    """Tries all laws on one case, and those about promises on another."""
    chance = chance_of(seed, index, "laws")
    check_promises(laws, chance, seed, index)
    case, _ = make_case(seed, index, level="all" if index % 2 else "promises")
    if not case.is_plain():
        return
    for law in (lambda: check_full(laws, case) if case.module == "full" else None,
                lambda: check_before(laws, chance, case),
                lambda: check_two_ways(laws, chance, case),
                lambda: check_question(laws, chance, case)):
        laws.attempt(law)


def try_laws(seed, count):
    """Tries the laws on the first cases of a seed."""
    laws = Laws()
    for index in range(count):
        check_case(laws, seed, index)
    return laws


def main(words):
    """The command; gives the exit status."""
    parser = argparse.ArgumentParser(prog="python3 -m reference.laws", description=__doc__,
                                     formatter_class=argparse.RawDescriptionHelpFormatter)
    parser.add_argument("--count", type=int, default=100)
    parser.add_argument("--seed", default="1")
    call = parser.parse_args(words)
    raise_to(LEVELS[-1])
    laws = try_laws(call.seed, call.count)
    tried = laws.done.total() - laws.done["left out"]
    for law in sorted(laws.done):
        print("%7d  %s" % (laws.done[law], law))
    print("%d passed, %d failed" % (tried - laws.failed, laws.failed))
    return 1 if laws.failed or not tried else 0


if __name__ == "__main__":
    sys.exit(main(sys.argv[1:]))
