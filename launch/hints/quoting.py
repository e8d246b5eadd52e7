"""How parts of a script, and lists, are shown on a terminal."""

MOST_SHOWN = 60
"""The most bytes of a part of a script that are shown."""

MOST_LISTED = 8
"""The most things of a list that are shown."""

ESCAPES = {"\t": "\\t", "\r": "\\r"}


def shown(byte):
    """Returns a byte of a script, escaped if a terminal would not show it as itself."""
    return byte if " " <= byte <= "~" else ESCAPES.get(byte) or f"\\x{ord(byte):02x}"


def quoted(text):
    """Returns a part of a script between backquotes, cut if it is long."""
    return f"`{''.join(map(shown, text[:MOST_SHOWN]))}{'..' if len(text) > MOST_SHOWN else ''}`"


def listed(things):
    """Returns the first things of a list, and whether there are more."""
    return " ".join(things[:MOST_LISTED]) + (" .." if len(things) > MOST_LISTED else "")


def set_of(ids):
    """Returns a set of patches as reports write it."""
    return " ".join(["set", *map(str, ids)])
