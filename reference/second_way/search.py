"""The search over families of closed sets."""

import heapq

from ..closed_sets import canonical_key
from .reader import Reader, Undecided


def halves(order, inside, outside, patch):
    """The two parts of a family: the sets with a patch, and those without it."""
    return [(inside | order.below[patch], outside), (inside, outside | order.above[patch])]


def beginnings(test):
    """The families that a test is asked about, each with the question. Most tests are asked about all sets; one with
    parts has a question for each of its parts."""
    parts = [(part, part.family) for part in test.parts] if hasattr(test, "parts") else [(test, (0, 0))]
    return [(question, inside, outside) for question, (inside, outside) in parts if not inside & outside]


def families(problem, test):
    """The families for which a test holds: (inside, outside)."""
    waiting = beginnings(test)
    while waiting:
        question, inside, outside = waiting.pop()
        try:
            if question(Reader(problem, inside, outside)):
                yield inside, outside
        except Undecided as split:
            waiting += [(question, *half) for half in halves(problem.order, inside, outside, split.patch)]


def first(problem, test):
    """The first set for which a test holds, or None. Families that begin earlier are asked first."""
    questions = beginnings(test)
    waiting = [(canonical_key(inside), inside, outside, k) for k, (_, inside, outside) in enumerate(questions)]
    heapq.heapify(waiting)
    while waiting:
        _, inside, outside, k = heapq.heappop(waiting)
        try:
            if questions[k][0](Reader(problem, inside, outside)):
                return inside
        except Undecided as split:
            for half in halves(problem.order, inside, outside, split.patch):
                heapq.heappush(waiting, (canonical_key(half[0]), *half, k))
    return None
