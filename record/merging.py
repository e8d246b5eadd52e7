"""Puts neighbouring writes of a file together, where a script has no room for each of them."""

import dataclasses
import itertools


def merged(events):
    """The events, with one write for each block of a file where calls right behind each other write it. The blocks
    stand in the order in which they are written first."""
    found = []
    for (kind, _), run in itertools.groupby(events, key=lambda it: (it.kind, it.node)):
        by_slot = {}
        for number, event in enumerate(run):
            by_slot.setdefault(event.slot if kind == "block" else number, []).append(event)
        found += [dataclasses.replace(it[0], pages=1, merged=tuple(other.call for other in it[1:]),
                                      writes=sum(other.pages for other in it)) for it in by_slot.values()]
    return found
