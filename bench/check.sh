#!/usr/bin/env bash
# Time and peak memory of `allocd check` on the largest document, beside those of serde_json alone on the same text.
# usage: bench/check.sh [RUNS]      (5 where left out; the least processor time of the runs is printed)
set -eu
root=$(cd "$(dirname "$0")/.." && pwd)
runs=${1:-5}
document=$(mktemp)
trap 'rm -f "$document"' EXIT
python3 "$root/bench/dense_document.py" > "$document"
. "$root/bench/programs.sh"
programs=$(bench_programs)

# least seconds and most megabytes of the runs of a command on the document
measure() {
    python3 "$root/bench/measure.py" "$document" "$runs" "$@"
}

read -r json_seconds json_memory < <(measure "$programs" json)
read -r check_seconds check_memory < <(measure "$allocd" check)
echo "document: $(stat -c %s "$document") bytes, 16,384 items, 256 bins, 4,194,304 allowed pairs"
echo "| program | processor seconds | MB at the most |"
echo "|---|---|---|"
echo "| serde_json alone | $json_seconds | $json_memory |"
echo "| allocd check | $check_seconds | $check_memory |"
python3 -c "print(f'check takes {$check_seconds / $json_seconds:.2f} times as long as serde_json alone')"
