"""Places in a script the fsyncs that a program could add, so that `--enough --syncs` says which of them it needs."""

import dataclasses
import itertools

MOST_WAITS = 64  # As many lines that wait as crashmap asks about.


@dataclasses.dataclass(frozen=True)
class Candidate:
    """An fsync that could be added: of the file `path` (`.` for the directory itself), behind the call `cause`, which
    is behind the line `behind` of the recording."""
    path: str
    cause: object
    behind: int


def with_candidates(recording):
    """The script of a recording with an fsync behind the calls that change a file, of that file or its directory, and
    a `Candidate` for each line that was added, by its number.

    Of calls that change one file right behind each other only the last one gets a candidate. Where there is no room
    for all candidates, the last ones are left out.
    """
    found, script, candidates = [], [], {}
    for forced, run in itertools.groupby(recording.lines.items(), key=lambda it: it[1].forced):
        *_, (number, line) = run
        found += [Candidate(path, line.causes[-1], number) for path in forced]
    room = max(0, MOST_WAITS - sum(not it.forced for it in recording.lines.values()))
    script_paths = {real: place for place, real in recording.names.items()}
    for number, text in enumerate(recording.script.split("\n"), 1):
        script.append(text)
        for it in found[:room]:
            if it.behind == number:
                script.append(f"fsync {script_paths[it.path]}")
                candidates[len(script)] = it
    return "\n".join(script), candidates
