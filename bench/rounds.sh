#!/usr/bin/env bash
# Processor time and peak memory of `allocd replay` on as many rounds of reports as its input holds, beside those of serde_json
# alone on the same lines.
# usage: bench/rounds.sh [RUNS]      (5 where left out; the least processor time of the runs is printed)
set -eu
root=$(cd "$(dirname "$0")/.." && pwd)
runs=${1:-5}
folder=$(mktemp -d)
trap 'rm -rf "$folder"' EXIT
python3 "$root/bench/full_fleet.py" rounds > "$folder/rounds"
. "$root/bench/programs.sh"
programs=$(bench_programs)

# least seconds and most megabytes of the runs of a command on the lines
measure() {
    python3 "$root/bench/measure.py" "$folder/rounds" "$runs" "$@"
}

# a line Booked for each report
"$allocd" replay < "$folder/rounds" > "$folder/answers"
lines=$(wc -l < "$folder/rounds")
reports=$(grep -c '^{"event":"report"' "$folder/rounds")
booked=$(grep -cx 'Booked' "$folder/answers")
if [ "$booked" -ne "$reports" ]; then
    echo "$booked of $reports reports were booked" >&2
    exit 1
fi

said=$("$programs" json-lines < "$folder/rounds")
if [ "$said" != "json lines $lines" ]; then
    echo "serde_json alone reads other lines: $said of $lines" >&2
    exit 1
fi
read -r json_seconds json_memory < <(measure "$programs" json-lines)
read -r replay_seconds replay_memory < <(measure "$allocd" replay)

rounds=$(($(grep -c '^RoundOpen ' "$folder/answers") + 1))
events=$((lines - 1))
echo "256 collectors, 16,384 targets; $rounds rounds, $reports reports, each of them booked; $events events; the replay says: $(tail -n 1 "$folder/answers")"
echo "| program | bytes read | processor seconds | MB at the most | events a second |"
echo "|---|---|---|---|---|"
python3 - "$(stat -c %s "$folder/rounds")" "$events" "$json_seconds" "$json_memory" "$replay_seconds" "$replay_memory" <<'PY'
import sys
bytes_read, events, json_seconds, json_memory, replay_seconds, replay_memory = (float(word) for word in sys.argv[1:])
for name, seconds, memory in [("serde_json alone", json_seconds, json_memory), ("allocd replay", replay_seconds, replay_memory)]:
    print(f"| {name} | {bytes_read:.0f} | {seconds:.3f} | {memory:.0f} | {events / seconds:.0f} |")
print(f"replay takes {replay_seconds / json_seconds:.2f} times as long as serde_json alone")
PY
