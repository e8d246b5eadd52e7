"""The file systems that are asked about: the table of `file-systems.toml`."""

import dataclasses
import pathlib
import tomllib

TABLE = pathlib.Path(__file__).resolve().parent / "file-systems.toml"


@dataclasses.dataclass(frozen=True)
class System:
    """A file system, as the table has it: `options` are words for crashmap, and `recordings` words for the recorder."""
    name: str
    title: str
    mounts: tuple
    options: tuple
    recordings: tuple
    known: str
    sources: tuple
    left_out: str


def plain(value):
    """Texts on one line, and lists as tuples."""
    return " ".join(value.split()) if isinstance(value, str) else tuple(map(plain, value))


def systems():
    """All file systems of the table, by their names."""
    table = tomllib.loads(TABLE.read_text(encoding="utf-8"))
    return {name: System(name, **{key: plain(value) for key, value in row.items()}) for name, row in table.items()}
