#!/usr/bin/env python3
"""Reads the recipes of docs/develop/CONTRIBUTING.md, and tells of each whether its files are there and have its representative: try_recipes.py

A recipe is a section with a line that begins with the representative's names, in backquotes and behind them a colon, and a table whose first column has paths in
backquotes. It needs no program."""

import os
import re
import sys

import told_rows
from allocd_service import ROOT

PAGE = "docs/develop/CONTRIBUTING.md"


def recipes():
    """Each recipe's title, the names of its representative, and its files."""
    with open(f"{ROOT}/{PAGE}") as it:
        section = re.search(r"^## Recipes\n(.*?)(?=^## )", it.read(), re.M | re.S).group(1)
    for title, text in re.findall(r"^### ([^\n]*)\n(.*?)(?=^### |\Z)", section, re.M | re.S):
        line = next(line for line in text.split("\n") if line.startswith("`"))
        names = re.findall(r"`([^`]+)`", line.partition("`:")[0] + "`")
        rows = [line.split("|")[1] for line in text.split("\n") if line.startswith("| `")]
        yield title, names, [path for row in rows for path in re.findall(r"`([^`]+)`", row)]


def lacking(names, path):
    """Why a file is not as its recipe says. None where it is."""
    if not os.path.exists(f"{ROOT}/{path}"):
        return f"{path} is not there"
    with open(f"{ROOT}/{path}") as it:
        text = it.read()
    if not any(re.search(rf"(?<!\w){re.escape(name)}(?!\w)", text) for name in names):
        return f"{path} has none of {', '.join(names)}"
    return None


def main():
    tell = told_rows.Teller()
    for title, names, files in recipes():
        faults = [fault for fault in (lacking(names, path) for path in files) if fault]
        tell(f"{title[0].lower()}{title[1:]}: {len(files)} files", files and not faults, "\n".join(faults))
    return tell.end()


if __name__ == "__main__":
    sys.exit(main())
