#!/usr/bin/env bash
# decide.sh [COUNT [SEED]]: how long a whole run of --decide --strict takes on random scripts of 100 to 124 patches,
# and how much memory it holds. It makes COUNT scripts (60) of each kind: the four orderings, soft updates without
# their rules, and a metadata journal without its rules. Not part of the gate.
#
# Each script is run ROUNDS times (3) by one worker, and the shortest run counts. The slowest tenth is run again by
# four workers. At the end ten creates with five writes under soft updates are timed beside a script without
# operations. Every run is a process of its own, so the time to start it is part of each number.
#
# PROMISES says how many lines `keep` or `hold` a second script has beside each of these, which is otherwise the same
# (0, and then there is none). It takes its turns, and how much longer it takes is printed, by the clock and in
# processor time.
#
# Where DECIDE_TRIAL names the folder of the unverified trial in Rust, and cargo is there, the trial is built and takes
# its turns. Its times are shown beside, and the faults and their first sets must be the same. CRASHMAP_PROGRAM names
# another program to time than the one that is built here.
set -eu
top=$(cd "$(dirname "${BASH_SOURCE[0]}")/.." && pwd)
. "$top/launch/programs.sh"
program=$(program_to_time)
work=$(mktemp -d)
trap 'rm -rf "$work"' EXIT

trial=()
if [ -n "${DECIDE_TRIAL:-}" ] && command -v cargo >/dev/null; then
    cargo build --quiet --release --offline --manifest-path "$DECIDE_TRIAL/Cargo.toml" --target-dir "$work/target" \
        2>"$work/cargo" || { cat "$work/cargo" >&2; exit 1; }
    trial=("$work/target/release/decide")
fi
cd "$top"
GLIBC_TUNABLES=$tunables python3 -m bench.time_decisions "$work" "${1:-60}" "${2:-bench}" "${ROUNDS:-3}" \
    "${PROMISES:-0}" "$program" ${trial[@]+"${trial[@]}"}
