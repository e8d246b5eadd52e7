"""python3 -m reference [SCRIPT] [options]: answers a script as crashmap does."""

import sys

from .command_line import program

if __name__ == "__main__":
    status = program(sys.argv[1:], sys.stdin.buffer, sys.stdout.buffer, sys.stderr.buffer)
    sys.stdout.flush()
    sys.exit(status)
