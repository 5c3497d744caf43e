#!/usr/bin/env bash
# Writes the files of every crate in the layout of `rt fmt`, without which the gate proves nothing of that crate.
cd "$(dirname "$0")/../crates" || exit 1
status=0
for crate in */; do
    (cd "$crate" && rt fmt) || status=1
done
exit "$status"
