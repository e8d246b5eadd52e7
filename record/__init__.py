"""Records what a command does to the files of a directory, as a script for crashmap. See docs/RECORDING.md."""


class Stop(Exception):
    """The recording cannot go on. The text says why, and `--lossy` does not help."""


class NothingPromised(Stop):
    """The script would make no promise, so that crashmap could not but say that each is kept."""
