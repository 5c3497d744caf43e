#!/usr/bin/env bash
# Runs a crate's tests with the N-th allocation of each test refused, for N = 1, 2, .. to a bound: each test must pass,
# or fail for want of memory. Each N builds the tests anew, which takes half a minute and more. Not part of the gate.
# usage: scripts/refuse_allocations.sh CRATE [LAST [FIRST]]      (20 and 1 where left out)
set -u
root=$(cd "$(dirname "$0")/.." && pwd)
crate=${1:?usage: scripts/refuse_allocations.sh CRATE [LAST [FIRST]]}
last=${2:-20}
first=${3:-1}
cd "$root/crates/$crate" || exit 2
bad=0
for n in $(seq "$first" "$last"); do
    log=$(rt try --test --fail-alloc "$n" 2>&1)
    if ! grep -q '^test result' <<< "$log"; then
        echo "N=$n: the tests did not run"
        bad=1
        continue
    fi
    # a failed test whose lines name no want of memory
    others=$(awk '/^test /{ if (name != "" && !ok) print name; name = $2; ok = / ok$/ ; next }
        /AllocError|AllocFailed|Memory|no memory|out of memory|OutOfMemory/ { ok = 1 }
        /^test result/ { if (name != "" && !ok) print name; name = "" }' <<< "$log" | grep -v '^result' )
    if [ -n "$others" ]; then
        echo "N=$n: failed for another cause:" $others
        bad=1
    fi
    if ! grep -q FAILED <<< "$log"; then
        echo "N=$n: no test met the refused allocation; all pass"
        break
    fi
done
[ "$bad" = 0 ] && echo "$crate: each test passed or found no memory, N=$first to $n"
exit "$bad"
