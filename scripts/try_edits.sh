#!/usr/bin/env bash
# Tries the wrong bodies of edits/CRATE, which the gate has no time for: the prover must refuse each. It takes the crates that have changed, or a
# crate below them or their edits, since their edits were last all refused (dist/.edits, which git does not know). It works on a copy of the repository
# with what was proved here before, and proves what is missing. Its last line is 'N passed, N failed'.
# usage: scripts/try_edits.sh [--all] [CRATE ..]     all crates of edits/ where none is named; --all: also those that have not changed
set -u
root=$(cd "$(dirname "${BASH_SOURCE[0]}")/.." && pwd) || exit 2
. "$root/scripts/program.sh" || exit 2
record=$root/dist/.edits
every=
[ "${1:-}" != --all ] || { every=1 && shift; }
[ $# -gt 0 ] || set -- $(ls "$root/edits")
for crate; do
    [ -d "$root/edits/$crate" ] || { echo "try_edits: edits/$crate is no folder" >&2 && exit 2; }
done

# One hash over a crate's edits, its files, those of the crates below it, and the logic.
# usage: sum_of CRATE
sum_of() {
    { echo "$logic" && sources_hash "$root" "$1" && (cd "$root/edits/$1" && sha256sum -- *); } | sha256sum | cut -d' ' -f1
}

# usage: count CRATE LOG     (of its edits, how many a log says are refused)
count() {
    grep -c "^rt: must-fail $1/[^ ]*: refused, as it must be" "$2"
}

declare -A sums
changed=()
for crate; do
    sums[$crate]=$(sum_of "$crate")
    if [ -n "$every" ] || ! grep -qsx "$crate ${sums[$crate]}" "$record"; then
        changed+=("$crate")
    else
        echo "$crate: nothing has changed since its edits were refused"
    fi
done
[ "${#changed[@]}" -gt 0 ] || { echo "0 passed, 0 failed" && exit 0; }

copy=$(mktemp -d) || exit 2
trap 'rm -rf "$copy"' EXIT
cp -a "$root/crates" "$root/crates.txt" "$root/HANDLES" "$copy" || exit 2
for crate in "${changed[@]}"; do
    rm -rf "$copy/crates/$crate/must-fail"
    cp -a "$root/edits/$crate" "$copy/crates/$crate/must-fail" || exit 2
done
(cd "$copy" && rt must-fail "${changed[@]}") 2>&1 | tee "$copy/log"

passed=0 failed=0
for crate in "${changed[@]}"; do
    of=$(ls "$root/edits/$crate" | wc -l)
    refused=$(count "$crate" "$copy/log")
    passed=$((passed + refused)) failed=$((failed + of - refused))
    [ "$refused" = "$of" ] || continue
    { grep -sv "^$crate " "$record"; echo "$crate ${sums[$crate]}"; } > "$record.part"
    mv "$record.part" "$record"
done
echo "$passed passed, $failed failed"
[ "$failed" = 0 ]
