"""What replay, the checker and the planner answer on the images of a list.

The file `crates/hostile_images/stdin` is such a list, and says what a line means.
"""

from ..disk import formatted
from ..faults import faults
from ..plan import plan
from ..random_cases.world import operation_of_line
from ..refusals import REFUSAL_TEXTS, Refused
from ..replay import replayed


def put_bytes(image, field):
    """Puts the bytes of a field into an image, as often as it says."""
    block, offset, digits, *times = field.split()
    image.put(int(block), int(offset), bytes.fromhex(digits) * (int(times[0]) if times else 1))


def plan_lines(image, line):
    """The changes that an operation plans on an image, or why it is refused."""
    try:
        changes = plan(image, operation_of_line(line))
    except Refused as refused:
        return ["%s: %d %s" % (line, refused.number, REFUSAL_TEXTS[refused.number])]
    return ["%s: %s %d %d %s" % (line, change.role, change.block, change.offset, change.new.hex())
            for change in changes]


def fault_lines(image):
    """The faults of an image, or that it is clean."""
    return ["fault " + text for text in faults(image)] or ["clean"]


def replay_lines(image):
    """The blocks that replay changes, with their bytes after it, and the faults of the image then."""
    after = replayed(image)
    changed = [block for block in range(image.blocks) if image.block(block) != after.block(block)]
    return (["replay block %d: %s" % (block, bytes(after.block(block)).hex()) for block in changed]
            + ["after replay"] + fault_lines(after))


def image_lines(line):
    """What is answered on the image of a line."""
    name, disk, *fields = [field.strip() for field in line.split(";")]
    image, lines = formatted(*map(int, disk.split())), ["image " + name]
    for field in fields:
        if field[0].isdigit():
            put_bytes(image, field)
        else:
            lines += plan_lines(image, field)
    return lines + fault_lines(image) + replay_lines(image)


def lines(text):
    """What is answered on each image of a list."""
    return [answer for line in text.splitlines() if line and not line.startswith("#") for answer in image_lines(line)]
