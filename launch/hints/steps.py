"""The steps of a script that can be read."""

import dataclasses

OPERATIONS = ("create", "write", "overwrite", "truncate", "link", "unlink", "rename", "replace", "mkdir", "rmdir")
WAITS = ("sync", "fsync")


@dataclasses.dataclass(frozen=True)
class Step:
    """A line of a script that is neither empty, nor a comment, nor `start`."""

    line: int
    text: str

    @property
    def verb(self):
        return self.text.partition(" ")[0]

    @property
    def words(self):
        """The words behind the verb."""
        return self.text.split(" ")[1:]

    @property
    def is_operation(self):
        return self.verb in OPERATIONS

    @property
    def waits(self):
        return self.verb in WAITS


def steps_of(lines):
    """Returns the steps before `start`, and those after it."""
    steps = [Step(number, line) for number, line in enumerate(lines, 1) if line and not line.startswith("#")]
    at = next(place for place, step in enumerate(steps) if step.text == "start")
    return steps[:at], steps[at + 1:]
