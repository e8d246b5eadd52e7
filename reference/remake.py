"""python3 -m reference.remake [--write] [PART..]

Makes every expected value that the repository keeps, and prints what differs. The parts are cases, gallery, page
and images; without PART all of them. With --write the values that differ are written. Prints for each part how many
values it keeps, and a last line `N passed, M failed`; the exit status is 1 where something differs, written or not.
"""

import argparse
import sys

from .kept import gallery, noise_images, page
from .kept_cases import cases

PARTS = {"cases": cases, "gallery": gallery, "page": page, "images": noise_images}


def remake_value(value, write):
    """Prints what is wrong with a value, and writes it where that is asked for; whether it is right."""
    if value.problem is None:
        return True
    is_written = write and value.write is not None
    print("%s: %s%s" % (value.name, value.problem, " (written)" if is_written else ""))
    if is_written:
        value.write()
    return False


def main(words):
    """The command; gives the exit status."""
    parser = argparse.ArgumentParser(prog="python3 -m reference.remake", description=__doc__,
                                     formatter_class=argparse.RawDescriptionHelpFormatter)
    parser.add_argument("part", nargs="*", help=", ".join(PARTS))
    parser.add_argument("--write", action="store_true")
    call = parser.parse_args(words)
    for name in call.part:
        if name not in PARTS:
            parser.error("no such part: " + name)
    right = []
    for name in call.part or PARTS:
        values = [remake_value(value, call.write) for value in PARTS[name]()]
        print("%s: %d values, %d differ" % (name, len(values), values.count(False)))
        right += values
    print("%d passed, %d failed" % (right.count(True), right.count(False)))
    return 0 if right and all(right) else 1


if __name__ == "__main__":
    sys.exit(main(sys.argv[1:]))
