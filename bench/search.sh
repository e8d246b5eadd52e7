#!/usr/bin/env bash
# search.sh [save]: how long a whole run of --search takes, on two kinds of pools. With the word `save` only the second
# kind is searched. Not part of the gate.
#
# The first is the pool of 44 operations over a written file and a directory, with one worker and with four. Each search
# is run ROUNDS times (3), and the shortest run counts.
#
# The second is the pool of a save over a written file, by one worker: 14 operations on two names, an fsync of each, and
# a promise at its beginning. It takes turns with a pool of as many operations and no promise, in ROUNDS rounds, and the
# median run counts. Both the time by the clock and the processor time are printed.
#
# Every run is a process of its own, so the time to start it is part of each number. CRASHMAP_PROGRAM names another
# program to time than the one that is built here.
set -eu
top=$(cd "$(dirname "${BASH_SOURCE[0]}")/.." && pwd)
. "$top/launch/programs.sh"
program=$(program_to_time)
work=$(mktemp -d)
trap 'rm -rf "$work"' EXIT
cd "$top"
GLIBC_TUNABLES=$tunables python3 -m bench.time_searches "$work" "${ROUNDS:-3}" "$program" "${1:-all}"
