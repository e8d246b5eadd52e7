"""Records the programs again: `python3 -m saves.record [NAME..]`. Not part of the gate, since versions change."""

import contextlib
import json
import os
import pathlib
import pty
import shutil
import subprocess
import sys
import tempfile
import threading
import time

from saves.programs import PROGRAMS

FOLDER = pathlib.Path(__file__).resolve().parent
RECORDER = FOLDER / "observe.py"
SECONDS = 120  # The longest that a recording may take.
SECONDS_TO_START = 8  # What an editor has until the first key is typed.


def type_keys(terminal, keys):
    """Types the keys on a terminal, one after the other, and reads what is shown there."""
    def read():
        with contextlib.suppress(OSError):
            while os.read(terminal, 4096):
                pass
    threading.Thread(target=read, daemon=True).start()
    time.sleep(SECONDS_TO_START)
    for key in keys:
        os.write(terminal, key.encode())
        time.sleep(0.3)


def run(words, keys, **more):
    """Runs the recorder, on a terminal where keys are typed. Gives its status and what it printed."""
    here, there = pty.openpty() if keys else (None, subprocess.DEVNULL)
    with subprocess.Popen(words, stdin=there, stdout=subprocess.PIPE, stderr=there if keys else None, **more) as child:
        if keys:
            type_keys(here, keys)
        try:
            return child.communicate(timeout=SECONDS)[0], child.returncode
        except subprocess.TimeoutExpired:
            child.kill()
            return b"", 2


def record(program):
    """The scripts that are recorded of a program, by their suffixes, or none. What is wrong goes to standard error."""
    # Editors make no backups of files in /tmp.
    with tempfile.TemporaryDirectory(dir="/var/tmp") as room, tempfile.TemporaryDirectory(dir="/var/tmp") as home:
        environment = {**os.environ, "HOME": home, "LC_ALL": "C", "TERM": "xterm", "GIT_CONFIG_NOSYSTEM": "1"}
        subprocess.run(["sh", "-c", program.before], cwd=room, check=True, stdout=subprocess.DEVNULL, env=environment,
                       stderr=subprocess.DEVNULL)
        words = [sys.executable, RECORDER, *program.options, "--", *program.command]
        text, status = run(words, program.keys, cwd=room, env=environment)
        return {} if status else json.loads(text)


def main(names):
    failed = 0
    for program in PROGRAMS:
        if names and program.name not in names:
            continue
        scripts = record(program) if shutil.which(program.needs or program.command[0]) else {}
        for suffix, text in scripts.items():
            (FOLDER / f"{program.name}{suffix}.script").write_text(text)
        if not scripts:
            print(f"{program.name}: not recorded", file=sys.stderr)
            failed += 1
    return 1 if failed else 0


if __name__ == "__main__":
    sys.exit(main(sys.argv[1:]))
