#!/usr/bin/env bash
# Processor time and peak memory of `allocd plan` and of `allocd plan --spread` on the same file in one run, for the families of
# bench/instances.py that are made for it, the highest load of a collector in each plan, and how many items move. Times are of whole
# programs, reading and writing included, the least of some runs. `allocd check` has to find each plan best.
# usage: bench/spread.sh [FAMILY..]      (RUNS=3 in the environment says how many runs, PROGRAM=PATH which program to measure)
set -eu
root=$(cd "$(dirname "$0")/.." && pwd)
. "$root/scripts/program.sh"
allocd=${PROGRAM:-$(allocd_program "$root" < /dev/null)}
folder=$(mktemp -d)
trap 'rm -rf "$folder"' EXIT
runs=${RUNS:-3}
families=("$@")
[ $# -gt 0 ] || families=(spread-one spread-new spread-zones spread-slope spread-stairs spread-jobs spread-sparse)

# least seconds and most megabytes of the runs of a command on the instance, whose output goes to $folder/plan
measure() {
    python3 "$root/bench/measure.py" --output "$folder/plan" "$folder/instance" "$runs" "$@"
}

# the highest load of a collector with so many bins in a row in the plan, and what `check` says of the plan
said_of() {
    local verdict
    verdict=$("$allocd" check < "$folder/plan")
    python3 - "$1" "$folder/plan" "$verdict" << 'END'
import collections, json, sys
jobs, plan, verdict = int(sys.argv[1]), json.load(open(sys.argv[2])), sys.argv[3]
draining = set(plan["draining"])
loads = collections.Counter(bin // jobs for _, bin in plan["pairs"] if bin not in draining)
assert verdict.startswith("best"), verdict
moved = next(word for word in verdict.split() if word.startswith("moved="))
print(max(loads.values()), moved.removeprefix("moved="), "yes" if "even" in verdict.split() else "no")
END
}

echo "| family | plan, seconds | MB at the most | highest load | moved | slack | plan --spread, seconds | to plan | MB at the most | highest load | moved | proved even |"
echo "|---|---|---|---|---|---|---|---|---|---|---|---|"
for family in "${families[@]}"; do
    jobs=1
    [ "$family" != spread-jobs ] || jobs=64
    python3 "$root/bench/instances.py" "$family" > "$folder/instance"
    read -r seconds memory < <(measure "$allocd" plan)
    read -r highest moved _ < <(said_of "$jobs")
    for slack in 0 10 25; do
        read -r spread_seconds spread_memory < <(measure "$allocd" plan --spread "$slack" --jobs "$jobs")
        read -r spread_highest spread_moved even < <(said_of "$jobs")
        echo "| $family | $seconds | $memory | $highest | $moved | $slack | $spread_seconds |" \
            "$(python3 -c "print(f'{$spread_seconds / $seconds:.2f}')") | $spread_memory | $spread_highest | $spread_moved | $even |"
    done
done
