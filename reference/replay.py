"""The image that a set of patches leaves, and the image after the journal was replayed."""

from .closed_sets import ids_of
from .disk import JOURNAL_START

COMMITTED, DONE = 0xC7, 0xC8


def build(base, patches, patch_set):
    """The base with the patches of the set, in the order of their numbers."""
    image = base.copy()
    for identity in ids_of(patch_set):
        patch = patches[identity]
        image.put(patch.block, patch.offset, patch.new)
    return image


def header_at(image, block, transaction):
    """The blocks that the header of a transaction in this block names, or None where there is no such header."""
    if image.byte(block, 0) not in (COMMITTED, DONE) or image.byte(block, 1) != transaction:
        return None
    count = image.byte(block, 2)
    if not 1 <= count <= 8 or block + count > 3 + image.journal:
        return None
    targets = [image.byte(block, 3 + m) for m in range(count)]
    if any(one >= other for one, other in zip(targets, targets[1:])):
        return None
    if not all(target in (1, 2, 3) or image.in_data_area(target) for target in targets):
        return None
    return targets


def headers_of(image):
    """The headers of the journal up to the first that is none: (block, blocks that it names)."""
    headers = []
    block, transaction = JOURNAL_START, 1
    while block < JOURNAL_START + image.journal:
        targets = header_at(image, block, transaction)
        if targets is None:
            break
        headers.append((block, targets))
        block += 1 + len(targets)
        transaction += 1
    return headers


def replayed(image):
    """The image after the copies of each transaction that is committed and not done were put in place."""
    result = image.copy()
    for header, targets in headers_of(image):
        if image.byte(header, 0) == COMMITTED:
            for m, target in enumerate(targets):
                result.put(target, 0, image.block(header + 1 + m))
    return result
