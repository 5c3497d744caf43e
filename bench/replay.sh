#!/usr/bin/env bash
# Processor time and peak memory of `allocd replay` on the day of a full fleet, beside those of `allocd check` on the same
# certificate.
# usage: bench/replay.sh [RUNS]      (5 where left out; the least processor time of the runs is printed)
set -eu
root=$(cd "$(dirname "$0")/.." && pwd)
runs=${1:-5}
folder=$(mktemp -d)
trap 'rm -rf "$folder"' EXIT
python3 "$root/bench/full_fleet.py" replay > "$folder/replay"
python3 "$root/bench/full_fleet.py" certificate > "$folder/check"
. "$root/bench/programs.sh"

# least seconds and most megabytes of the runs of a command on the file of its name
measure() {
    python3 "$root/bench/measure.py" "$folder/$1" "$runs" "$allocd" "$1"
}

read -r check_seconds check_memory < <(measure check)
read -r replay_seconds replay_memory < <(measure replay)
echo "256 collectors, 16,384 targets of 16 jobs, 4,194,304 allowed pairs; the replay says: $("$allocd" replay < "$folder/replay" | tail -n 2 | paste -sd ' ')"
echo "| command | bytes read | processor seconds | MB at the most |"
echo "|---|---|---|---|"
echo "| allocd check | $(stat -c %s "$folder/check") | $check_seconds | $check_memory |"
echo "| allocd replay | $(stat -c %s "$folder/replay") | $replay_seconds | $replay_memory |"
python3 -c "print(f'replay takes {$replay_seconds / $check_seconds:.2f} times as long as check')"
