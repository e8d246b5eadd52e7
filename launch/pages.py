"""What the program prints on itself, kept as files that `./crashmap` shows while no program is proved.

`pages.py PROGRAM` writes the files anew by what the program prints. The suite compares them with it.
"""

import pathlib
import subprocess
import sys

FOLDER = pathlib.Path(__file__).resolve().parent / "pages"
MODULES = ("async", "soft", "meta", "full")

# The words that each file answers.
WORDS = {
    "help": ("--help",),
    "version": ("--version",),
    "options": ("--options",),
    **{f"rules-{module}": ("--rules", "--module", module) for module in MODULES},
}


def printed(program, words):
    """Returns what the program prints for these words."""
    return subprocess.run([program, *words], stdin=subprocess.DEVNULL, stdout=subprocess.PIPE, check=True).stdout


if __name__ == "__main__":
    FOLDER.mkdir(exist_ok=True)
    for name, words in WORDS.items():
        (FOLDER / name).write_bytes(printed(sys.argv[1], words))
