#!/usr/bin/env bash
# Processor time and peak memory of `allocd plan` for each family of bench/instances.py, the work that the engine had, the time of
# `allocd check` on the result, and that of LEMON's network simplex and cost scaling on the same file (bench/lemon.cpp; Debian's
# liblemon-dev). Times are of whole programs, reading and writing included, the least of some runs.
# usage: bench/plan.sh [FAMILY..]      (RUNS=3 in the environment says how many runs, VERSION=2 writes all families in version 2)
set -eu
root=$(cd "$(dirname "$0")/.." && pwd)
. "$root/bench/programs.sh"
programs=$(bench_programs)
folder=$(mktemp -d)
trap 'rm -rf "$folder"' EXIT
runs=${RUNS:-3}
patience=20 # processor seconds of a run of LEMON
c++ -O3 -o "$folder/lemon" "$root/bench/lemon.cpp" -llemon
families=("$@")
[ $# -gt 0 ] || families=(ring ring-less dense dense-before dense-one fleet sparse sparse-before sparse-long sparse-long-before
    chain crowd gate gate-few stairs stairs-steps flat ladder draining draining-dense draining-tight)

# least seconds and most megabytes of the runs of a command on a file, whose output goes to $folder/said
measure() {
    python3 "$root/bench/measure.py" --output "$folder/said" "$1" "$runs" "${@:2}"
}

# least seconds of LEMON on the instance, whose verdict has to be this one, or that a run of it takes too long
lemon_seconds() {
    local said seconds
    read -r seconds _ < <(ulimit -t "$patience"; measure "$folder/instance" "$folder/lemon" "$1" 2> /dev/null)
    if [ -z "$seconds" ]; then
        echo "over $patience"
        return
    fi
    said=$(head -1 "$folder/said")
    [ "best $said" = "$2" ] || { echo "LEMON says $said, check $2" >&2; exit 1; }
    echo "$seconds"
}

ratio() {
    python3 -c "print(f'{$1 / $2:.2f}')"
}

echo "| family | plan, seconds | MB at the most | work | check, seconds | plan / check | LEMON simplex | LEMON scaling | plan / LEMON | verdict |"
echo "|---|---|---|---|---|---|---|---|---|---|"
for family in "${families[@]}"; do
    python3 "$root/bench/instances.py" "$family" 1 "${VERSION:-1}" > "$folder/instance"
    "$allocd" plan < "$folder/instance" > "$folder/plan"
    verdict=$("$allocd" check < "$folder/plan")
    work=$("$programs" plan < "$folder/instance")
    read -r seconds memory < <(measure "$folder/instance" "$allocd" plan)
    read -r check_seconds _ < <(measure "$folder/plan" "$allocd" check)
    simplex=$(lemon_seconds simplex "$verdict")
    scaling=$(lemon_seconds scaling "$verdict")
    echo "| $family | $seconds | $memory | $work | $check_seconds | $(ratio "$seconds" "$check_seconds") | $simplex | $scaling |" \
        "$(ratio "$seconds" "min(${simplex/over /}, ${scaling/over /})") | $verdict |"
done
