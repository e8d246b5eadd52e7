"""What a path shows on an image, and what the lines `keep`, `hold` and `spare` promise of it."""

from collections import namedtuple

from .changes import FIRST_POINTER, inode_place
from .closed_sets import ids_of, set_of
from .disk import DIRECTORY, ENTRY_SIZE, POINTERS, target_of
from .plan import find_entry
from .script import WAIT_ACTS, is_operation, spelled_path
from .waits import Walk, bytes_at, meets, targets_on

SHOWN_BYTES = 4
"""How many bytes of each block of a file are shown."""

Promise = namedtuple("Promise", "line word paths ids here rests spares barred")
"""A promise: its line; `keep`, or `hold`, which `--durable` makes too; its paths; the patches that a set which breaks
it has, as a set; what its paths show at its line; what they show at each rest behind it, as pairs of a number of
operations and a text, none of a `hold`; its spares, as pairs of a path and a text; and the patches none of which a set
has that breaks it, as a set."""


def shown_slot(image, block):
    """What a slot of a file shows that points to this block."""
    if block == 0:
        return "-"
    return image.range(block, 0, SHOWN_BYTES).hex() if image.in_data_area(block) else "wild"


def shown_file(image, inode):
    """What a file shows: its slots, from the first to the last that points to a block."""
    blocks = [image.pointer(inode, slot) for slot in range(POINTERS)]
    while blocks and blocks[-1] == 0:
        blocks.pop()
    return " ".join(["file"] + [shown_slot(image, block) for block in blocks])


def shown(image, path):
    """What a path shows on an image."""
    inode = 0
    for name in path:
        k = find_entry(image, inode, name)
        if k is None:
            return "nothing"
        inode = target_of(image, inode, k)
    if image.kind(inode) == DIRECTORY:
        return "directory" if image.counts(inode) else "nothing"
    return shown_file(image, inode)


def shown_together(image, paths):
    """What the paths of one promise show, in their order."""
    return " | ".join(shown(image, path) for path in paths)


def allowed_to(promise, last):
    """What a promise allows a set whose last operation has this number: what its line sees, and what each rest behind
    the line sees, up to and with the first rest that is not before that operation."""
    texts = [promise.here]
    for operations, text in promise.rests:
        texts.append(text)
        if operations >= last:
            break
    return texts


def allowed_to_some(promise):
    """All that a promise allows some set, in the order in which it first comes."""
    return list(dict.fromkeys([promise.here] + [text for _, text in promise.rests]))


def wrongly_shown(image, promise, patches, patch_set):
    """What the paths of a promise show on the replayed image of a set, where neither the promise nor a spare allows it
    that; else None. Whether the set has the promise's ids is not asked here."""
    if promise.barred & patch_set:
        return None
    text = shown_together(image, promise.paths)
    last = max((patches[k].operation for k in ids_of(patch_set)), default=0)
    if text in allowed_to(promise, last):
        return None
    return None if any(shown(image, path) == wanted for path, wanted in promise.spares) else text


def touched_places(image, path):
    """The bytes by which a patch touches a path that is there: the kind and the pointers of its inode, the bytes of its
    blocks that are shown, and on its way the entries that are taken."""
    inodes = targets_on(image, path)
    block, offset = inode_place(inodes[-1])
    places = {(block, offset)} | bytes_at(block, offset + FIRST_POINTER, POINTERS)
    for slot in range(POINTERS):
        if image.pointer(inodes[-1], slot) != 0:
            places |= bytes_at(image.pointer(inodes[-1], slot), 0, SHOWN_BYTES)
    for directory, name in zip(inodes, path):
        start = 8 + ENTRY_SIZE * find_entry(image, directory, name)
        places |= bytes_at(image.pointer(directory, 0), start, ENTRY_SIZE)
    return places


Stop = namedtuple("Stop", "step disk operations forced is_rest")
"""The place right behind a step: the disk and the number of operations then, the patches that were forced, and whether
no group is open there or nothing comes behind it."""


def stops_of(base, steps, patches, settings, waiting):
    """The places right behind each of the steps, all of which can be done."""
    walk, forced, is_open, stops = Walk(base, patches, settings.module), set(), False, []
    for step in steps:
        walk.take(step)
        if step.act in WAIT_ACTS and (waiting is None or step.line in waiting):
            forced = forced | walk.forced(step)
        if step.act in ("group", "end"):
            is_open = step.act == "group"
        stops.append(Stop(step, walk.disk, walk.operations, forced, not is_open))
    return stops[:-1] + [stop._replace(is_rest=True) for stop in stops[-1:]]


def spares_of(stops):
    """The spares of the promise that is made at the first of these places."""
    paths = stops[0].step.words
    return [(stop.step.words[1], shown(stop.disk, stop.step.words[1])) for stop in stops[1:]
            if stop.step.act == "spare" and stop.step.words[:1] == paths]


def touching(stops, patches):
    """The patches of the operations that touch the path of the `fsync` at the first of these places, as a set."""
    path = stops[0].step.words[0]
    places = touched_places(stops[0].disk, path)
    way = [path[:k] for k in range(1, len(path) + 1)]
    numbers = set()
    for before, after in zip(stops, stops[1:]):
        if is_operation(after.step) and (
                any(shown(before.disk, one) != shown(after.disk, one) for one in way)
                or any(meets(patch, places) for patch in patches if patch.operation == after.operations)):
            numbers.add(after.operations)
    return set_of(k for k, patch in enumerate(patches) if patch.operation in numbers)


def promise_at(stops, patches):
    """The promise that is made at the first of these places."""
    here = stops[0]
    word = "keep" if here.step.act == "keep" else "hold"
    rests = [(stop.operations, shown_together(stop.disk, here.step.words)) for stop in stops if stop.is_rest]
    barred = touching(stops, patches) if here.step.act == "fsync" else 0
    text = shown_together(here.disk, here.step.words)
    return Promise(here.step.line, word, here.step.words, set_of(here.forced), text, rests if word == "keep" else [],
                   spares_of(stops), barred)


def promises_of(base, steps, patches, settings, waiting=None):
    """The promises of the steps, in the order of their lines, where the lines of `waiting` wait, or all without it.
    All steps can be done, and the patches are theirs under any rules. With `--durable` an `fsync` of a path makes the
    promise that a `hold` right behind it would make, whether it waits or not, and no set with a patch of a later
    operation that touches the path breaks it."""
    stops = stops_of(base, steps, patches, settings, waiting)
    return [promise_at(stops[k:], patches) for k, stop in enumerate(stops)
            if stop.step.act in ("keep", "hold")
            or settings.durable and stop.step.act == "fsync" and stop.step.words[0] != ()]


def spare_texts(promise):
    """The spares of a promise, as reports show them."""
    return ["%s %s" % (spelled_path(path), text) for path, text in promise.spares]
