"""Which disk is large enough for a script. The program itself is asked, on disks of other sizes."""

import bisect

import texts
from call import Number

MOST_BLOCKS = 128
OTHER_BLOCKS = 6
"""How many blocks a disk has beside those of its journal, at least."""

TOO_SMALL = (Number.BAD_GEOMETRY, Number.NO_BLOCK, Number.JOURNAL_FULL)


def number_on(call, blocks, journal):
    """Returns the number of the script's refusal on a disk of this size, or None if it has none."""
    refusal = call.refusal_on(blocks, journal)
    return refusal and refusal.number


def least_blocks(call, journal):
    """Returns the size of the smallest disk with this journal, not below the one asked for, that is not too small, or
    None. On a larger disk the same blocks are taken, so if one is not too small, no larger one is."""
    sizes = range(call.options.number("--blocks"), MOST_BLOCKS + 1)
    place = bisect.bisect_left(sizes, True, key=lambda blocks: number_on(call, blocks, journal) not in TOO_SMALL)
    return sizes[place] if place < len(sizes) else None


def least_journal(call):
    """Returns the size of the smallest journal that has room for each transaction on the largest disk, or None."""
    sizes = range(MOST_BLOCKS - OTHER_BLOCKS + 1)
    place = bisect.bisect_left(sizes, True,
                               key=lambda journal: number_on(call, MOST_BLOCKS, journal) != Number.JOURNAL_FULL)
    return sizes[place] if place < len(sizes) else None


def enough_disk(call):
    """Returns the blocks and the journal of a disk that is large enough, or None. It has the same journal if that is
    possible, otherwise the smallest."""
    asked = call.options.number("--journal")
    for journal in (asked, least_journal(call)):
        blocks = None if journal is None else least_blocks(call, journal)
        if blocks:
            return blocks, journal
    return None


def advice(call):
    """Returns which disk is enough for a script on which the one asked for is too small."""
    found = enough_disk(call)
    if not found:
        return texts.NO_DISK.format(most=MOST_BLOCKS)
    blocks, journal = found
    other = call.refusal_on(blocks, journal)
    has_line = other is not None and other.line is not None
    what = texts.LINES_BEFORE.format(line=other.line) if has_line else texts.ALL_LINES
    size = f"--blocks {blocks}"
    if journal != call.options.number("--journal"):
        size = f"--journal {journal} {size}"
    return texts.LARGER_DISK.format(size=size, what=what)


def too_small(call):
    """Returns that the disk or its journal is too small, and which disk is enough."""
    text = texts.NO_BLOCK if call.refusal.number == Number.NO_BLOCK else texts.JOURNAL_FULL
    options = call.options
    return text.format(blocks=options.value("--blocks"), journal=options.value("--journal"), advice=advice(call))


def bad_geometry(call):
    """Returns that the journal leaves the disk too few blocks."""
    journal = call.options.number("--journal")
    return texts.BAD_GEOMETRY.format(journal=journal, least=journal + OTHER_BLOCKS,
                                     blocks=call.options.value("--blocks"), most=MOST_BLOCKS)
