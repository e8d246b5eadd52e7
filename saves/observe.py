"""Prints the scripts of what a command does, as a JSON object by their suffixes. `saves.record` runs this."""

import json
import pathlib
import sys

sys.dont_write_bytecode = True
sys.path.insert(0, str(pathlib.Path(__file__).resolve().parent.parent))
from record import Stop
from record.command import parse, say
from record.recording import observe
from record.script import AS_EXT4

# How blocks are allocated in each script: at once, late, or as ext4 does.
DELAYS = {"": None, ".delay": True, ".ext4": AS_EXT4}


def main(words):
    try:
        observed = observe(parse(words))
        scripts = {suffix: observed.recording(delay=delay).script for suffix, delay in DELAYS.items()}
    except Stop as stop:
        say(str(stop))
        return 2
    print(json.dumps(scripts))
    return 0


if __name__ == "__main__":
    sys.exit(main(sys.argv[1:]))
