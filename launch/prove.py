"""Proves and builds a program by the gate's own command, in a copy of the crates that it needs.

In the checkout `rt ci` would prove the tests and try the wrong bodies too; the copy has neither. Where the kit keeps
proofs on the machine, the gate and this command use what the other has proved.
"""

import argparse
import os
import pathlib
import re
import shutil
import signal
import subprocess
import sys
import tempfile

from keeping import Build, end_by_signals, say

SOURCES = ("src", "specs", "proofs")

# What a program is tried on once it is built, and what it must write.
TRIAL = ("args", "stdin", "stdout")


def copy(top, program, rows, room):
    """Copies what is proved and built of these crates to a folder, which becomes the top of a repository."""
    shutil.copy(top / "HANDLES", room)
    (room / ".git").mkdir()
    (room / "crates.txt").write_text("".join(rows.values()))
    for name in rows:
        for part in SOURCES:
            if (top / "crates" / name / part).is_dir():
                shutil.copytree(top / "crates" / name / part, room / "crates" / name / part)
    for part in TRIAL:
        if (top / "crates" / program / part).is_file():
            shutil.copy(top / "crates" / program / part, room / "crates" / program)


def follow(run, whole):
    """Tells of each crate that a run has proved. Returns what it said of one that it could not prove, or at its end."""
    done, said, lost = set(), [], None
    for line in run.stdout:
        said.append(line.rstrip("\n"))
        found = re.match(r"rt: (\w+) (proved|is kept|NOT PROVED)", line)
        if found and found[2] == "NOT PROVED":
            lost = lost or said
        elif found and found[1] not in done:
            done.add(found[1])
            say(f"proved {found[1]}, {len(done)} of {whole}")
        if found or line.startswith("== "):
            said = said[:0] if found else [said[-1]]
    return lost or said


def report(said):
    """Prints what the prover says of a crate, in twenty lines at most."""
    lines = [it for it in said if re.search(r"^== |error[:\[]|not proved|no proof|did not prove|^rt: ", it)]
    print("\n".join(lines[:20] or said[-20:]), file=sys.stderr)


def prove(room, whole):
    """Returns whether all crates of that repository are proved and its program is built."""
    run = subprocess.Popen(["rt", "ci"], cwd=room, start_new_session=True, errors="replace", stdin=subprocess.DEVNULL,
                           stdout=subprocess.PIPE, stderr=subprocess.STDOUT)
    try:
        said = follow(run, whole)
        if run.wait():
            report(said)
        return run.returncode == 0
    finally:
        # What it has started ends with it.
        if run.poll() is None:
            os.killpg(run.pid, signal.SIGTERM)
            run.wait()


def prove_and_build(top, program):
    """Returns whether a program is proved and built. Nothing else is left behind, however that ends."""
    with tempfile.TemporaryDirectory(prefix="crashmap-") as folder, Build(top, program, "proved") as build:
        room, whole = pathlib.Path(folder), len(build.rows)
        say(f"proving and building {program}: {whole} crates")
        copy(top, program, build.rows, room)
        if not prove(room, whole):
            return False
        build.keep(room / "crates" / program / "out" / program)
    say(f"built {program}")
    return True


def main():
    parser = argparse.ArgumentParser(description=__doc__.splitlines()[0])
    parser.add_argument("top", type=pathlib.Path, help="the folder of the repository")
    parser.add_argument("program", help="the name of a crate that is a program")
    asked = parser.parse_args()
    end_by_signals()
    return 0 if prove_and_build(asked.top.resolve(), asked.program) else 1


if __name__ == "__main__":
    sys.exit(main())
