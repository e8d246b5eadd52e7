"""The second way's answers."""

from ..answer import decision, report
from ..closed_sets import canonical_key
from ..enough import enough_of
from ..explore import Found, fails, has_promises, start
from ..refusals import Refusal, TooMuch
from ..rules import put_in, taken_out
from ..trace import trace
from ..verdicts import in_order
from ..work import Work
from .fault_tests import tests_of
from .reader import Problem
from .search import families, first


def firsts(problem):
    """Each fault with the first set that has it, in the order of reports."""
    found = ((text, first(problem, test)) for text, test in tests_of(problem))
    return in_order((text, one) for text, one in found if one is not None)


def decided(problem):
    """Each fault with the number of the sets that have it and the first of them, in the order of reports."""
    everything, found = problem.order.everything(), []
    for text, test in tests_of(problem):
        some = list(families(problem, test))
        if some:
            count = sum(problem.order.count(everything & ~inside & ~outside) for inside, outside in some)
            found.append((text, count, min((inside for inside, _ in some), key=canonical_key)))
    return in_order(found)


def is_safe(problem):
    """Whether no closed set fails."""
    return all(next(families(problem, test), None) is None for _, test in tests_of(problem))


class SecondWork(Work):
    """A workload whose sets are decided without enumeration."""

    def problem(self, rules):
        """The problem of deciding the sets under these rules."""
        return Problem(self.base, self.graph(rules), self.judge, self.promises())

    def closed(self, rules, waiting=None):
        raise AssertionError("nothing is enumerated here")

    def has_failing(self, rules):
        return not is_safe(self.problem(rules))

    def all_faults(self, rules):
        """Each fault with the first set that has it."""
        problem = self.problem(rules)
        return [(text, self.judge.judged(problem.patches, one, problem.promises)) for text, one in firsts(problem)]

    def first_fault(self, rules):
        return self.all_faults(rules)[0]


def prepared(script, settings):
    """What is found before anything is decided: the work, the rules, the parts of the answer, and the number of closed
    sets."""
    base, steps, rules = start(script, settings)
    patches = trace(base, steps, settings, rules)
    work = SecondWork(base, steps, settings)
    found = Found(base, patches, without=taken_out(settings.module, settings.without),
                  added=put_in(settings.module, settings.added), promises=work.promises(), waits=work.waits(),
                  tells_promises=has_promises(steps))
    return work, rules, found, work.problem(rules).order.closed_sets()


def answer(script, settings):
    """The report on a script, and whether the exit status is 1, without enumeration: for `--decide`, for `--enough` of
    one script, and for a report without failing sets. `Refusal` where the script is refused, `TooMuch` for all else."""
    if settings.search is not None or settings.syncs:
        raise TooMuch("a question that the second way does not answer")
    work, rules, found, closed = prepared(script, settings)
    if settings.enough:
        found = found._replace(enough=enough_of(rules, [work]))
        return decision(found, settings, closed, []), fails(found)
    if not settings.decide and closed > settings.limit:
        raise Refusal(30)
    faults = work.all_faults(rules)
    if settings.decide:
        return decision(found, settings, closed, faults), bool(faults)
    if faults:
        raise TooMuch("a report with failing sets")
    return report(found._replace(closed=range(closed), failing=[]), settings), False


def numbers_of(script, settings):
    """Each fault with the number of the sets that have it and the first of them, as a set."""
    base, steps, rules = start(script, settings)
    return decided(SecondWork(base, steps, settings).problem(rules))
