"""What is asked of a script."""

from collections import namedtuple

MOST_PATCHES = 124

Settings = namedtuple(
    "Settings",
    "module blocks journal limit json max_patches without added explain strict"
    " atomic decide enough search whole_blocks generations durable counted syncs numbers",
    defaults=("soft", 16, 0, 4096, False, MOST_PATCHES, (), (), False, False,
              False, False, False, None, False, False, False, None, False, False))
"""The options of one run: the module, the sizes of the disk in blocks, the most closed sets, and the rest by the names
of the options. `without` and `added` are rules as they are written. `search` is None or the most operations. `counted`
is None or the numbers of the faults that count, ascending."""
