#!/usr/bin/env bash
# Tries the program that is there by the suite of tests/: the proved one where it is built, or else an unproved one,
# without what takes that one too long. It installs what the suite needs and this machine lacks.
set -eu
top=$(cd "$(dirname "${BASH_SOURCE[0]}")/.." && pwd)
cd "$top"
. launch/programs.sh

.ci/install || say "the browser, node, strace or jsonschema is missing, so tests that need it will fail"
if is_built crashmap; then
    # Its crates are among those of the proved program, so little is left to prove.
    is_built hostile_images || build hostile_images
    export CRASHMAP_PROGRAM CRASHMAP_IMAGES
    CRASHMAP_PROGRAM=$(program_of crashmap) CRASHMAP_IMAGES=$(program_of hostile_images)
else
    need_unproved crashmap
    export CRASHMAP_PROGRAM CRASHMAP_UNPROVED=1
    CRASHMAP_PROGRAM=$(program_of crashmap unproved)
fi
exec python3 tests/run.py
