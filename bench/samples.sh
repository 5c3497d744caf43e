#!/usr/bin/env bash
# How fast the samples of a scraped body are counted, beside a copy of the same bytes, for each family of bench/bodies.py.
# Each is done TURNS times over 4 MiB; the processor time of reading the body alone is taken off.
# usage: bench/samples.sh [TURNS [RUNS]]      (512 and 5 where left out; the least processor time of the runs counts)
set -eu
root=$(cd "$(dirname "$0")/.." && pwd)
turns=${1:-512}
runs=${2:-5}
body=$(mktemp)
trap 'rm -f "$body"' EXIT
. "$root/bench/programs.sh"
programs=$(bench_programs)

# least seconds of the runs of the program, which counts and copies so many times
measure() {
    local seconds
    read -r seconds _ < <(python3 "$root/bench/measure.py" --digits 6 "$body" "$runs" "$programs" samples "$@")
    echo "$seconds"
}

echo "| body | bytes a line | count, GB/s | copy, GB/s | count / copy |"
echo "|---|---|---|---|---|"
for family in metrics long short; do
    python3 "$root/bench/bodies.py" "$family" > "$body"
    idle=$(measure 0 0)
    count=$(measure "$turns" 0)
    copy=$(measure 0 "$turns")
    python3 - "$body" "$family" "$turns" "$idle" "$count" "$copy" <<'PY'
import sys
body, family, turns = open(sys.argv[1], "rb").read(), sys.argv[2], int(sys.argv[3])
idle, count, copy = (float(word) for word in sys.argv[4:])
gigabytes = len(body) * turns / 1e9
rates = [gigabytes / max(seconds - idle, 1e-9) for seconds in (count, copy)]
print(f"| {family} | {len(body) / body.count(10):.0f} | {rates[0]:.1f} | {rates[1]:.1f} | {rates[0] / rates[1]:.2f} |")
PY
done
