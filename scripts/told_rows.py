"""Rows of what is done wrongly, and what is to be told of it. A row that is marked `later` is open today: it fails no run, and is told where it passes."""

import concurrent.futures
import os
import sys
import tempfile


class Row:
    """A name, what it does in a folder of its own, which gives whether it holds and what was found, and whether it is open."""

    def __init__(self, name, run, later=False):
        self.name, self.run, self.later = name, run, later


class Teller:
    """Tells of things that are tried one after the other, and counts them."""

    def __init__(self):
        self.passed = self.failed = 0

    def __call__(self, what, holds, more=""):
        self.passed += bool(holds)
        self.failed += not holds
        print(f"{'ok' if holds else 'NOT'}: {what}{'' if holds else f': {more}'}", flush=True)

    def end(self):
        """Tells how many there were, and gives the status of the script."""
        print(f"{self.passed} passed, {self.failed} failed")
        return 1 if self.failed else 0


def files_of(folder):
    """Each file beneath, with its bytes; what is no file, with its kind."""
    found = {}
    for top, folders, names in os.walk(folder):
        for name in folders + names:
            path = os.path.join(top, name)
            at = os.path.relpath(path, folder)
            if os.path.islink(path):
                found[at] = ("link", os.readlink(path))
            elif os.path.isfile(path):
                with open(path, "rb") as it:
                    found[at] = it.read()
            else:
                found[at] = "folder" if os.path.isdir(path) else "special"
    return found


def changes(before, after):
    """The names of what is other than before, with a word for each."""
    names = sorted(set(before) | set(after))
    words = [("made" if name not in before else "gone" if name not in after else "changed", name) for name in names if before.get(name) != after.get(name)]
    return [f"{name} {word}" for word, name in words]


def run_row(row):
    with tempfile.TemporaryDirectory() as folder:
        try:
            holds, found = row.run(folder)
        except Exception as fault:
            holds, found = False, f"{type(fault).__name__}: {fault}"
    return bool(holds), " ".join(str(found).split())[:400]


def main(rows):
    """Runs the rows, or those whose names have one of the words of the command line, and tells of each. Ends with 0 where only open ones fail."""
    rows = [row for row in rows if len(sys.argv) < 2 or any(word in row.name for word in sys.argv[1:])]
    passed = failed = still_open = now_pass = 0
    with concurrent.futures.ThreadPoolExecutor(12) as pool:
        for row, (holds, found) in zip(rows, pool.map(run_row, rows)):
            word = ("now passes" if holds else "open") if row.later else ("ok" if holds else "NOT")
            print(f"{word}: {row.name}{'' if holds else f': {found}'}", flush=True)
            passed += holds
            failed += not holds
            still_open += row.later and not holds
            now_pass += row.later and holds
    print(f"{still_open} of those that fail are open, {now_pass} that were open pass")
    print(f"{passed} passed, {failed} failed")
    return 1 if failed > still_open else 0
