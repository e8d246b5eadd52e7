"""The names of a script: up to four for each path, of up to ten small letters and digits."""

import os
import re

DEPTH, LENGTH = 4, 10  # The most names of a path, and the most letters of a name.
SIGNS = {"~": "tilde", "#": "hash", "+": "plus"}


def above(path):
    """The directories on the way to a path and the path itself, the uppermost first."""
    parts = path.split("/") if path else []
    return ["/".join(parts[:length + 1]) for length in range(len(parts))]


class Names:
    """Which path of the script stands for which real path.

    Where a path has too many names, directories of which nothing changes are left out of all paths. That is exact,
    since no patch is about them. `changing` are the directories of which something does.
    """

    def __init__(self, paths, changing):
        directories = {it for path in paths for it in above(path)[:-1]}
        self.dropped = directories - changing if any(len(above(path)) > DEPTH for path in paths) else set()
        self.parts, self.taken = {}, set()

    def path(self, real):
        """The script's path for a real one, `/` for the directory itself."""
        place = ""
        for prefix in above(real):
            if prefix not in self.dropped:
                if prefix not in self.parts:
                    self.parts[prefix] = self.free_name(place, os.path.basename(prefix))
                place += "/" + self.parts[prefix]
        return place or "/"

    def free_name(self, place, name):
        """A name that resembles this one, and that nothing else has at that place."""
        plain = re.sub("[^a-z0-9]", "", "".join(SIGNS.get(letter, letter) for letter in name.lower()))
        found, number = plain[:LENGTH] or "x", 2
        while (place, found) in self.taken:
            found, number = plain[:LENGTH - len(str(number))] + str(number), number + 1
        self.taken.add((place, found))
        return found
