"""Sets of patches as numbers: bit k is patch k. A closed set has with a patch all that the patch depends on."""

from .refusals import MOST_SETS, Refusal, TooMuch


def ids_of(patch_set):
    """The patches of a set, ascending."""
    return [identity for identity in range(patch_set.bit_length()) if patch_set >> identity & 1]


def set_of(ids):
    """The set of these patches."""
    return sum(1 << identity for identity in set(ids))


def is_closed(patches, patch_set):
    """Whether the set is a closed set of these patches."""
    if patch_set >> len(patches):
        return False
    return all(patches[identity].deps & ~patch_set == 0 for identity in ids_of(patch_set))


def ready(patches, patch_set):
    """The patches outside the set that depend on nothing outside it, ascending."""
    return [identity for identity, patch in enumerate(patches)
            if not patch_set >> identity & 1 and patch.deps & ~patch_set == 0]


def canonical_key(patch_set):
    """The key that sorts sets by their sizes, and sets of one size by their numbers."""
    return bin(patch_set).count("1"), patch_set


def add(found, patch_set, limit):
    """Adds a set to those found. More than the limit are refused; `TooMuch` where there is a lower bound."""
    found.add(patch_set)
    if limit is not None and len(found) > limit:
        raise Refusal(30)
    if len(found) > MOST_SETS:
        raise TooMuch("more than %d closed sets" % MOST_SETS)


def larger_sets(patches, patch_set):
    """The closed sets that have one patch more."""
    return [patch_set | 1 << identity for identity in ready(patches, patch_set)]


def closed_sets(patches, limit=None):
    """All closed sets in their order. More than the limit are refused."""
    found = {0}
    waiting = [0]
    while waiting:
        for larger in larger_sets(patches, waiting.pop()):
            if larger not in found:
                add(found, larger, limit)
                waiting.append(larger)
    return sorted(found, key=canonical_key)


def writes_to(patches, patch_set):
    """The patches of a set, ascending, cut into longest runs of one block: (block, patches)."""
    writes = []
    for identity in ids_of(patch_set):
        block = patches[identity].block
        if writes and writes[-1][0] == block:
            writes[-1][1].append(identity)
        else:
            writes.append((block, [identity]))
    return writes
