#!/usr/bin/env bash
# enough.sh [COUNT [SEED]]: how long a whole run of --enough --strict takes on random scripts of 100 to 124 patches. It
# makes COUNT scripts (60) of each kind: soft updates with their twelve rules, and the two journals with their seven.
# Not part of the gate.
#
# Each script is run ROUNDS times (3) by one worker, and the shortest run counts. Every run is a process of its own, so
# the time to start it is part of each number. CRASHMAP_PROGRAM names another program to time than the one that is built
# here.
set -eu
top=$(cd "$(dirname "${BASH_SOURCE[0]}")/.." && pwd)
. "$top/launch/programs.sh"
program=$(program_to_time)
work=$(mktemp -d)
trap 'rm -rf "$work"' EXIT
cd "$top"
GLIBC_TUNABLES=$tunables python3 -m bench.time_enough "$work" "${1:-60}" "${2:-bench}" "${ROUNDS:-3}" "$program"
