"""Images that no operation makes, as a list of the kind that `listed` answers.

They are filled from fixed seeds, from noise to sound images with a few bytes damaged.
"""

from ..changes import apply
from ..disk import DIRECTORY, DIRECTORY_MARK, formatted
from ..plan import plan
from ..random_cases.world import operation_of_line
from ..replay import COMMITTED, DONE
from .seeded import Noise

COUNT = 100
"""How many images of each shape and size are made, from the seeds 0 on."""

FEW_BYTES = [0, 0, 0, 1, 1, 2, 2, 3, 4, 5, 10, 15, 0x44, 0x46, 0xC7, 0xC8]
"""Bytes that mean something."""

FIRST = ["mkdir /d", "create /a", "write /a", "create /d/x", "link /a /d/y"]
PLANNED = ["create /a", "create /n", "create /d/n", "create /d/x/n", "mkdir /m", "write /a", "write /d", "unlink /a",
           "unlink /d/x", "unlink /d", "link /d/y /z", "link /a /d/w", "rename /a /d/w", "rename /d/x /w", "rmdir /d",
           "rmdir /a"]
SIZES = [(16, 6), (64, 20), (128, 60)]


def few_bytes(noise):
    """A byte that means something."""
    return FEW_BYTES[noise.below(16)]


def fill(image, byte):
    """Fills an image with bytes."""
    for block in range(image.blocks):
        image.put(block, 0, bytes(byte() for _ in range(128)))


def damage(image, noise):
    """Changes ten bytes in places that matter."""
    for _ in range(10):
        block = 1 + noise.below(3) if noise.below(2) == 0 else image.journal + 4 + noise.below(4)
        offset = noise.below(64)
        value = few_bytes(noise)
        if block < image.blocks:
            image.put(block, offset, bytes([value]))


def header(noise, journal, transaction, count):
    """A header of the journal, now and then with a wrong byte."""
    mark = DONE if noise.below(4) == 0 else COMMITTED
    root = journal + 4
    targets = [1 + noise.below(3), root + noise.below(2), root + 2 + noise.below(2)]
    first = noise.below(4 - count)
    result = bytearray([mark, transaction, count] + (targets[first:] + [0, 0, 0])[:3])
    if noise.below(6) == 0:
        place = noise.below(6)
        result[place] = few_bytes(noise)
    return bytes(result)


def copy_blocks(image, noise, at, count):
    """Copies of any blocks after a header. It takes three bytes of noise, whatever the count."""
    for copy in range(1, 4):
        source = noise.byte()
        if copy <= count:
            image.put(at + copy, 0, image.block(source % image.blocks))


def log_transactions(image, noise):
    """Fills the journal with transactions."""
    at = 4
    for transaction in range(1, 41):
        count = 1 + noise.below(3)
        if at + 1 + count > 4 + image.journal:
            return
        image.put(at, 0, header(noise, image.journal, transaction, count))
        copy_blocks(image, noise, at, count)
        at += 1 + count


def any_bytes(image, noise):
    """Any bytes everywhere."""
    fill(image, noise.byte)


def bytes_that_mean_something(image, noise):
    """Few different bytes everywhere, and a root directory."""
    fill(image, lambda: few_bytes(noise))
    image.put(2, 0, bytes([DIRECTORY, 1, 0, 0, image.root_block()]))
    image.put(image.root_block(), 0, bytes([DIRECTORY_MARK, 0]))


def sound(image):
    """A few files and directories."""
    for line in FIRST:
        apply(image, plan(image, operation_of_line(line)))


def damaged(image, noise):
    """A sound image with a few bytes changed."""
    sound(image)
    damage(image, noise)


def journaled(image, noise):
    """A sound image with transactions in its journal."""
    sound(image)
    log_transactions(image, noise)


SHAPES = {"AnyBytes": any_bytes, "FewBytes": bytes_that_mean_something, "Damaged": damaged, "Journaled": journaled}
"""The shapes of images by their names."""


def line_of(shape, blocks, journal, seed):
    """An image of a shape, as a line of a list: its bytes, and the operations that are planned on it."""
    disk, image = formatted(blocks, journal), formatted(blocks, journal)
    SHAPES[shape](image, Noise(seed))
    puts = ["%d 0 %s" % (block, bytes(image.block(block)).hex()) for block in range(blocks)
            if image.block(block) != disk.block(block)]
    return "; ".join(["%s of %d blocks, %d" % (shape, blocks, seed), "%d %d" % (blocks, journal), *puts, *PLANNED])


def lines(shape, blocks, journal, count=COUNT):
    """The images of one shape and size, as the lines of a list."""
    return [line_of(shape, blocks, journal, seed) for seed in range(count)]
