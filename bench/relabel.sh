#!/usr/bin/env bash
# Processor time a target of relabelling a job's targets with ten ordinary rules, and with none, which leaves their first labels
# and their finish. The targets are relabelled several times in one run, and a run that does so once is taken off, so that
# reading the configuration does not count.
# usage: bench/relabel.sh [RUNS]      (5 where left out; the least processor times of the runs are taken)
set -eu
root=$(cd "$(dirname "$0")/.." && pwd)
runs=${1:-5}
folder=$(mktemp -d)
trap 'rm -rf "$folder"' EXIT
python3 "$root/bench/relabel_config.py" > "$folder/none"
python3 "$root/bench/relabel_config.py" rules > "$folder/ten"
. "$root/bench/programs.sh"
programs=$(bench_programs)
more=10

# least seconds, and megabytes at the most, where the targets are relabelled so many times
measure() {
    python3 "$root/bench/measure.py" --digits 6 "$folder/$1" "$runs" "$programs" relabel "$2"
}

echo "16,384 targets of 16 labels; with the rules: $("$programs" relabel 1 < "$folder/ten")"
echo "| rules | nanoseconds a target | whole program, seconds | MB at the most |"
echo "|---|---|---|---|"
for rules in none ten; do
    read -r once megabytes < <(measure "$rules" 1)
    read -r often _ < <(measure "$rules" $((1 + more)))
    read -r nanoseconds seconds < <(python3 -c "print(f'{($often - $once) / $more / 16_384 * 1e9:.0f} {$once:.3f}')")
    echo "| $rules | $nanoseconds | $seconds | $megabytes |"
done
