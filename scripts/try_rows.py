#!/usr/bin/env python3
"""Tells whether the tables of rows are whole: each line of a program's stdout is that of its stdin, a row with its answer behind ` =`: try_rows.py

What an answer is to be, the gate tells. This needs no program, so that a comment that was mended in one file alone is seen before the gate sees it."""

import glob
import itertools
import os
import sys

import told_rows
from allocd_service import ROOT


def lines_of(path):
    with open(path, newline="") as it:
        return it.read().split("\n")


def faults(folder):
    rows, told = (lines_of(f"{folder}/{name}") for name in ("stdin", "stdout"))
    for number, (row, line) in enumerate(itertools.zip_longest(rows, told), 1):
        if row is None or line is None:
            yield f"line {number}: one of stdin and stdout ends"
        elif row == "" or row.startswith("#"):
            if line != row:
                yield f"line {number}: {line[:80]!r} is not {row[:80]!r}"
        elif not line.startswith(f"{row} ="):
            yield f"line {number}: {line[:80]!r} does not begin with {row[:80]!r}"


def main():
    tell = told_rows.Teller()
    for path in sorted(glob.glob(f"{ROOT}/crates/*_rows/stdin")):
        folder = os.path.dirname(path)
        found = list(faults(folder))
        tell(f"the rows of {os.path.basename(folder)}", not found, "\n".join(found[:8]))
    return tell.end()


if __name__ == "__main__":
    sys.exit(main())
