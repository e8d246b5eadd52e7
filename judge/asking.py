"""Asks crashmap about scripts."""

import concurrent.futures
import json
import os
import pathlib
import subprocess
import sys

from record import Stop

LAUNCHER = pathlib.Path(__file__).resolve().parent.parent / "crashmap"
NO_ROOM = ("too many patches", "journal full", "no free block")  # Refusals of a script that does too much.


class Refused(Stop):
    """crashmap refuses a script. The text is what it says."""

    def is_no_room(self):
        return str(self).endswith(NO_ROOM)


class Asker:
    """Gives crashmap's reports. Each question, a script and words, is asked once."""

    def __init__(self):
        self.program, self.found = os.environ.get("CRASHMAP_PROGRAM", str(LAUNCHER)), {}

    def ask(self, script, words):
        """The report, with the crashes as `--explain` has them. Raises `Refused`."""
        self.ask_all([(script, words)])
        if isinstance(self.found[script, words], Refused):
            raise self.found[script, words]
        return self.found[script, words]

    def ask_all(self, questions):
        """Asks several questions at the same time, so that `ask` has their answers."""
        wanted = [it for it in dict.fromkeys(questions) if it not in self.found]
        if wanted and not self.found:  # The launcher says that its program is not proved, or compiles one first.
            subprocess.run([self.program], input=b"start\n", stdout=subprocess.DEVNULL, stderr=sys.stderr, check=False)
        with concurrent.futures.ThreadPoolExecutor(os.cpu_count()) as pool:
            self.found.update(zip(wanted, pool.map(lambda it: self.run(*it), wanted)))

    def run(self, script, words):
        words = [self.program, *words, "--faults", "10", "--explain", "--json", "--numbers"]
        run = subprocess.run(words, input=script.encode(), capture_output=True, check=False)
        if run.returncode in (0, 1):
            return json.loads(run.stdout)
        said = run.stderr.decode(errors="replace").strip().splitlines()
        return Refused(said[-1] if said else f"{self.program} ended with status {run.returncode}")
