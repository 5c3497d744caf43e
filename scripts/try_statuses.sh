#!/usr/bin/env bash
# Runs the built program once for each way to end, and compares what it writes and its exit status: no proof sees what
# `main` makes of an ending, nor what a device does. Prints a line for each run, and ends with 0 where all are right.
# usage: scripts/try_statuses.sh [PROGRAM]      (ALLOCD_PROGRAM, or the launcher `allocd` where left out)
set -u
root=$(cd "$(dirname "$0")/.." && pwd)
program=${1:-${ALLOCD_PROGRAM:-$root/allocd}}
one_of_two=$root/examples/one-of-two.json
bad=0

# is_right NAME STATUS TEXT FOUND: what was found is the text with a line feed (nothing where it is empty), and the status.
is_right() {
    local wanted="${3:+$3$'\n'}status $2"
    if [ "$4" = "$wanted" ]; then
        echo "ok: $1: ${3:-nothing}, status $2"
    else
        echo "WRONG: $1: wanted [$wanted], found [$4]"
        bad=1
    fi
}

# run WORD..: what the program writes, and then its status
run() {
    "$program" "$@"
    printf 'status %s' "$?"
}

run check < "$one_of_two" > /dev/null    # builds the program where that is still to do
is_right "done" 0 'best covered=1 moved=0' "$(run check < "$one_of_two")"
is_right "refused" 1 'refused SumsDiffer 4 3' "$(sed 's/"pairs":\[\[0,0\]\]/"pairs":[[1,0]]/' "$one_of_two" | run check)"
is_right "unreadable" 2 'unreadable NotJson' "$(echo '{' | run check)"
is_right "no argument" 2 '' "$(run < "$one_of_two" 2> /dev/null)"
is_right "two arguments" 2 '' "$(run check check < "$one_of_two" 2> /dev/null)"
is_right "the version" 0 'allocd 0.1.0' "$(run --version < "$one_of_two")"
is_right "a session that is no JSON" 2 'unreadable NotJson' "$(echo '{' | run session)"
is_right "an argument that is no text" 2 '' "$(run $'\xff' < "$one_of_two" 2> /dev/null)"
is_right "a read that fails" 3 'device' "$(run check < "$root")"
is_right "no memory" 3 'memory' "$(head -c 60000000 /dev/zero | (ulimit -v 50000; run check))"
is_right "a full device" 3 '' "$("$program" check < "$one_of_two" > /dev/full; printf 'status %s' "$?")"
is_right "a closed output" 3 '' "$("$program" check < "$one_of_two" >&-; printf 'status %s' "$?")"
exit "$bad"
