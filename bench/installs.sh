#!/usr/bin/env bash
# Processor time that `allocd replay` takes to build the instance of a moment, at a full fleet of one job whose collectors have a few
# rules each: that of PLANS plans which are refused for their lengths, once the instance is built, without that of the other lines.
# usage: bench/installs.sh [PLANS [RUNS]]      (20 and 5 where left out; the least processor time of the runs counts)
set -eu
root=$(cd "$(dirname "$0")/.." && pwd)
plans=${1:-20}
runs=${2:-5}
folder=$(mktemp -d)
trap 'rm -rf "$folder"' EXIT
python3 "$root/bench/full_fleet.py" installs 0 > "$folder/without"
python3 "$root/bench/full_fleet.py" installs "$plans" > "$folder/with"
. "$root/bench/programs.sh"

# least seconds and most megabytes of the runs on a file
measure() {
    python3 "$root/bench/measure.py" "$folder/$1" "$runs" "$allocd" replay
}

read -r without without_memory < <(measure without)
read -r with with_memory < <(measure with)
echo "| lines | processor seconds | MB at the most |"
echo "|---|---|---|"
echo "| a fleet | $without | $without_memory |"
echo "| the same, and $plans instances | $with | $with_memory |"
python3 -c "print(f'an instance takes {($with - $without) / $plans * 1000:.1f} ms')"
