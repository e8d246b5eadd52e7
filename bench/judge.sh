#!/usr/bin/env bash
# judge.sh [SCRIPT [OPTION..]]: how many sets that a crash can leave are judged a second, which is to move one image
# to the set, replay its journal and check it. Without a script it takes the one stored with the program, under each
# ordering. Not part of the gate.
set -eu
top=$(cd "$(dirname "${BASH_SOURCE[0]}")/.." && pwd)
. "$top/launch/programs.sh"
is_built bench_judge || build bench_judge
program=$(program_of bench_judge)

if [ $# -gt 0 ]; then
    script=$1
    shift
    exec "$program" "$@" <"$script"
fi
for order in async soft meta full; do
    words=(--module "$order" --blocks 24 --journal 12 --limit 32768)
    echo "$order: $("$program" "${words[@]}" <"$top/crates/bench_judge/stdin" 2>&1 | paste -sd ' ')"
done
