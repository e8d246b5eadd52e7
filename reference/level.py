"""Which options and lines the product of today has. Change it here when later ones land."""

LEVELS = ("plain", "extended", "deciding", "choosing", "searching", "reaching", "all", "operations", "promises",
          "syncs", "numbers")
"""`plain`: those of the first release. `extended`: also rules, `--explain` and `--strict`. `deciding`: also
`--decide`. `choosing`: also `--enough`. `searching`: also `--search`. `reaching`: also
`--whole-blocks`, rules with `before`, and `--search` with `--enough`. `all`: also `--atomic`. `operations`: also
`overwrite`, `truncate` and `replace`, the soft rule `MapClear:PtrClear`, and `--generations`. `promises`: also `sync`
and `fsync`, `keep`, `hold` and `spare`, `--durable` and `--faults`. `syncs`: also `--enough --syncs`. `numbers`: also
`--numbers`."""

LEVEL = "numbers"
"""The level of today. The reference answers lines and options of all levels, but its lists of rules are those of this
level, and random cases keep to it."""


def has(level):
    """Whether the product of today has the options and lines of a level."""
    return LEVELS.index(level) <= LEVELS.index(LEVEL)


def raise_to(level):
    """Takes a level for that of today, where it is above it."""
    global LEVEL
    if not has(level):
        LEVEL = level
