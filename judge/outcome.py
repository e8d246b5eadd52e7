"""What is found of a command: the verdicts, what would help, and which of it was known before."""

import dataclasses
import json

from record.command import ERROR

KEPT, BROKEN = 0, 1  # The exit statuses beside the recorder's ERROR and NOTHING.
# What a crash can leave of a file, the worst first, in a table and in a sentence.
STATES = {
    "gone": ("may be gone", "is gone"),
    "empty": ("may be empty", "is empty"),
    "torn": ("may be torn", "is torn"),
    "older": ("may be older than its fsync", "is older than its fsync"),
    "undone": ("may be old at the end", "is old although the command has ended"),
    "unknown": ("not judged", ""),
    "kept": ("old or new", ""),
}


@dataclasses.dataclass(frozen=True)
class Verdict:
    """What is left of the files of a promise on a file system. `state` is a key of STATES, `told` a sentence where the
    promise is broken or not judged."""
    system: str
    paths: tuple
    state: str
    was_there: bool = True
    told: str = ""

    def is_broken(self):
        return self.state not in ("kept", "unknown")

    def words(self):
        """The words of the table."""
        return "absent or whole" if self.state == "kept" and not self.was_there else STATES[self.state][0]


def worst(states):
    return min(states, key=list(STATES).index)


@dataclasses.dataclass(frozen=True)
class Cure:
    """What would help where promises are broken: the `fsyncs` to add, on the file systems of these names. `hopeless`
    has for each reason why no fsync helps the names of the file systems where it does not."""
    fsyncs: tuple = ()
    systems: tuple = ()
    hopeless: dict = dataclasses.field(default_factory=dict)


@dataclasses.dataclass(frozen=True)
class Outcome:
    """The verdicts on a command. `notes` say what they do not cover, and `known` has the broken promises of a baseline:
    the name of a file system, the paths and the state."""
    command: str
    systems: tuple
    verdicts: tuple
    cure: Cure
    notes: tuple
    known: frozenset = frozenset()

    def files(self):
        """The paths of each promise."""
        return list(dict.fromkeys(it.paths for it in self.verdicts))

    def verdict(self, system, paths):
        return next((it for it in self.verdicts if (it.system, it.paths) == (system.name, paths)), None)

    def is_known(self, verdict):
        return (verdict.system, verdict.paths, verdict.state) in self.known

    def status(self):
        if any(it.is_broken() and not self.is_known(it) for it in self.verdicts):
            return BROKEN
        return ERROR if any(it.state == "unknown" for it in self.verdicts) else KEPT

    def on(self, names):
        """The file systems of these names, for a sentence."""
        is_all = len(names) == len(self.systems) > 1
        return f"each of the {len(names)} file systems" if is_all else listed(names)

    def sentences(self):
        """A sentence for each way in which promises are broken, what would help, and the notes."""
        told = {}
        for it in self.verdicts:
            if it.told:
                told.setdefault(it.told, []).append(it.system)
        for sentence, names in told.items():
            yield f"On {self.on(names)}: {sentence}."
        if self.cure.fsyncs:
            added = listed([f"fsync {it.path} behind {it.cause}" for it in self.cure.fsyncs])
            yield f"What helps on {self.on(self.cure.systems)}: {added}."
        for why, names in self.cure.hopeless.items():
            yield f"No fsync helps on {self.on(list(names))}: {why}."
        yield from self.notes


def baseline(text):
    """The broken promises of an outcome that was written as JSON. Raises `ValueError` for another text."""
    try:
        return frozenset((row["name"], tuple(it["files"]), it["state"]) for row in json.loads(text)["systems"]
                         for it in row["verdicts"] if it["state"] != "kept")
    except (TypeError, KeyError) as error:
        raise ValueError(f"no outcome of crashmap-judge: {error!r}") from None


def listed(names):
    """Several names in a sentence."""
    *front, last = names
    return f"{', '.join(front)} and {last}" if front else last
