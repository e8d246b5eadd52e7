#!/usr/bin/env bash
# explore.sh [SCRIPT [OPTION..]]: how long a whole run takes with 1, 2 and 4 workers, how many closed sets a second
# that is, and where the time goes. Without a script it times scripts of 4 to 7 creates without an ordering, which
# have 256, 1,024, 4,096 and 16,384 closed sets, and one of 62 links and unlinks, which has 3,969. The limit is 32768.
# Not part of the gate.
#
# What is timed takes turns in 15 rounds (or ROUNDS), and of each the shortest run counts, so that all meet the machine
# alike. The first line gives the machine's load before and after. Where RIVAL names another program that takes the same
# arguments, it takes its turns too, and its time is printed next to it.
#
# 'start' is a run on a script with nothing to explore at limit 1: the process, and the shortest of reports. 'open' is
# what the same run takes longer at the limit, which is what the board of that limit costs. 'collisions' is what the
# run takes longer than one whose limit is the largest prime below, 32749: their boards are as large, and an index of
# prime size has next to none. Where the board is made for the number of the closed sets and not for the limit, both
# are next to nothing, and what opening it costs is part of the rest. 'judging' is what judging these sets takes by
# itself, by the rate of the first 4,096 (see judge.sh), divided by the workers. 'rest' is the trace, exploring, the
# report and the wait at the end. A part of less than a millisecond drowns in what two runs differ by, and may come
# out negative.
set -eu
top=$(cd "$(dirname "${BASH_SOURCE[0]}")/.." && pwd)
. "$top/launch/programs.sh"
for name in crashmap bench_judge; do is_built "$name" || build "$name"; done
program=$(program_of crashmap)
judge=$(program_of bench_judge)
rival=${RIVAL:-}
rounds=${ROUNDS:-15}
limit=32768
prime=32749
work=$(mktemp -d)
trap 'rm -rf "$work"' EXIT
echo start >"$work/nothing"

# ours SCRIPT OPTION..: runs the program with memory as the launcher has it
ours() { GLIBC_TUNABLES=$tunables "$program" "$@"; }

# time_once NAME COMMAND..: keeps under that name how long the shortest run took, in microseconds
declare -A best
time_once() {
    local name=$1 before spent
    shift
    before=$(date +%s%N)
    "$@" >/dev/null 2>&1 || true
    spent=$((($(date +%s%N) - before) / 1000))
    if [ -z "${best[$name]:-}" ] || [ "$spent" -lt "${best[$name]}" ]; then best[$name]=$spent; fi
}

# time_round SCRIPT OPTION..: a turn of each
time_round() {
    local script=$1 workers
    shift
    time_once start ours "$work/nothing" "$@" --limit 1 --workers 1
    time_once open ours "$work/nothing" "$@" --limit "$limit" --workers 1
    for workers in 1 2 4; do
        time_once "$workers" ours "$script" "$@" --limit "$limit" --workers "$workers"
        time_once "$workers prime" ours "$script" "$@" --limit "$prime" --workers "$workers"
        if [ -n "$rival" ]; then
            time_once "$workers rival" "$rival" "$script" "$@" --limit "$limit" --workers "$workers"
        fi
    done
}

# time_one NAME SCRIPT OPTION..: times a script, and prints a line for each number of workers
time_one() {
    local name=$1 script=$2 closed rate workers load whole start open judging collisions beside
    shift 2
    best=()
    closed=$("$program" "$script" "$@" --limit "$limit" | sed -n 's/^closed //p' || true)
    rate=$("$judge" "$@" --limit 4096 <"$script" 2>&1 >/dev/null | sed -n 's/ judged a second$//p')
    load=$(cut -d' ' -f1 /proc/loadavg)
    for _ in $(seq "$rounds"); do time_round "$script" "$@"; done
    printf '%s: %d sets, %d rounds, load %s before and %s after\n' \
        "$name" "$closed" "$rounds" "$load" "$(cut -d' ' -f1 /proc/loadavg)"
    start=${best[start]} open=$((best[open] - best[start]))
    for workers in 1 2 4; do
        whole=${best[$workers]}
        judging=$((closed * 1000000 / rate / workers))
        collisions=$((whole - best["$workers prime"]))
        beside=
        if [ -n "$rival" ]; then beside="; the rival $((best["$workers rival"])) us"; fi
        printf '  %s workers: %d us, %d sets a second%s\n' "$workers" "$whole" $((closed * 1000000 / whole)) "$beside"
        printf '    start %d us, open %d us, collisions %d us, judging %d us, rest %d us\n' \
            "$start" "$open" "$collisions" "$judging" $((whole - start - open - collisions - judging))
    done
}

if [ $# -gt 0 ]; then
    time_one "$(basename "$1")" "$@"
    exit
fi
for count in 4 5 6 7; do
    { echo start; for name in a b c d e f g; do echo "create /$name"; done | head -n "$count"; } >"$work/creates"
    time_one "$count creates" "$work/creates" --module async
done
{ echo 'create /a'; echo start; for _ in $(seq 31); do printf 'link /a /b\nunlink /b\n'; done; } >"$work/links"
time_one "62 links and unlinks" "$work/links" --module async
