"""Compiles a program with checks in place of proofs, and keeps it.

`rt try` compiles such a program, runs it once and throws it away. So it is told to run the program on a script that
comes through a pipe, and while the program waits for that script its file is copied.
"""

import argparse
import os
import pathlib
import subprocess
import sys
import tempfile
import time

from keeping import Build, end_by_signals, say

# How long to wait, in seconds, before looking again whether the program runs.
PAUSE = 0.1
# How long `rt try` lets the program wait for its script, in seconds. Copying it takes less than one.
PATIENCE = "600"


def opened(pipe):
    """Returns the end of the pipe to write to, or None where no program reads the other end."""
    try:
        return os.open(pipe, os.O_WRONLY | os.O_NONBLOCK)
    except OSError:
        return None


def wait_for_reader(run, pipe):
    """Returns the end of the pipe to write to as soon as a program reads the other end, or None where the run ends
    before."""
    while run.poll() is None:
        end = opened(pipe)
        if end is not None:
            return end
        time.sleep(PAUSE)
    return None


def programs_in(folder):
    """Returns the files below a folder that can be run."""
    return [it for it in folder.rglob("*") if it.is_file() and os.access(it, os.X_OK)]


def keep_running(build, run, pipe, work):
    """Keeps the program that the run compiles below the folder `work`. Returns whether there is one."""
    end = wait_for_reader(run, pipe)
    if end is None:
        return False
    try:
        programs = programs_in(work)
        if len(programs) != 1:
            say("the program is compiled, but rt try does not run it from where it is looked for")
            return False
        build.keep(programs[0])
        return True
    finally:
        os.close(end)


def compile_and_keep(top, program):
    """Returns whether a program is compiled and kept. Nothing else is left behind, however that ends."""
    with tempfile.TemporaryDirectory(prefix="crashmap-") as folder, Build(top, program, "unproved") as build:
        pipe, errors, work = (pathlib.Path(folder) / name for name in ("script", "errors", "work"))
        os.mkfifo(pipe)
        work.mkdir()
        with open(errors, "wb") as sink:
            run = subprocess.Popen(["rt", "try", "--steps", "1", "--seconds", PATIENCE, "--", pipe],
                                   cwd=top / "crates" / program, env=os.environ | {"TMPDIR": str(work)},
                                   stdin=subprocess.DEVNULL, stdout=subprocess.DEVNULL, stderr=sink)
        try:
            is_kept = keep_running(build, run, pipe, work)
        finally:
            # What it has started ends with it.
            run.terminate()
            run.wait()
        if not is_kept:
            print(errors.read_text(errors="replace"), end="", file=sys.stderr)
        return is_kept


def main():
    parser = argparse.ArgumentParser(description=__doc__.splitlines()[0])
    parser.add_argument("top", type=pathlib.Path, help="the folder of the repository")
    parser.add_argument("program", help="the name of a crate that is a program")
    asked = parser.parse_args()
    end_by_signals()
    return 0 if compile_and_keep(asked.top.resolve(), asked.program) else 1


if __name__ == "__main__":
    sys.exit(main())
