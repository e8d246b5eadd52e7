"""What the files of a script hold, so that no two contents of a file read alike.

In the model a block reads as the number of its file's inode and how often it was written over. An inode is free again
when its file is deleted, and a file that is cut to nothing is counted from the beginning.
"""

import collections
import itertools


class Contents:
    """The inodes of the files and the counts of their blocks, as the lines so far leave them.

    `watched` are the paths whose contents promises compare. `alike` has the first two contents of such a path that
    read alike, as the keys of the places where they began: see `change`.
    """

    def __init__(self, watched):
        self.watched, self.alike = watched, None
        self.inodes, self.counts, self.versions = {}, collections.defaultdict(list), collections.Counter()
        self.begun, self.seen = {}, {path: {} for path in watched}

    def change(self, word, node, key=None, slot=None):
        """What an operation does to a file, or `free`. `key` names the place of a new block, where it can be written
        more often, and `slot` the block that is written over, or None for all."""
        self.versions[node] += word in ("write", "overwrite")
        if word in ("create", "mkdir"):
            self.inodes[node] = next(it for it in itertools.count(1) if it not in self.inodes.values())
        elif word == "write":
            self.begun[node] = self.begun[node] if self.counts[node] else key
            self.counts[node].append(0)
        elif word == "overwrite":
            self.counts[node] = [it + (slot in (None, at)) for at, it in enumerate(self.counts[node])]
        elif word in ("truncate", "free"):
            self.counts[node] = []
        if word in ("free", "rmdir"):
            del self.inodes[node]

    def look(self, at):
        """Compares what the watched paths hold with what they held before, where `at` has the file of each path."""
        for path in self.watched:
            node = at.get(path)
            if node in self.inodes and self.counts[node]:
                here = node, self.versions[node], self.begun[node]
                before = self.seen[path].setdefault((self.inodes[node], *self.counts[node]), here)
                if before[:2] != here[:2] and self.alike is None:
                    self.alike = before[2], here[2]
