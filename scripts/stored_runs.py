"""The stored runs of the program: tests/COMMAND/NAME/ holds what a run is given and what comes of it.

stdin     what it reads, nothing where there is no such file
args      its words, one a line; COMMAND alone where there is no such file
data/     files that lie where it runs
stdout    what it writes
stderr    what it writes to standard error; anything where there is no such file
checked   in place of stdout: what `check` writes of that, for a plan may be any best one
status    its exit status, 0 where there is no such file
"""

import difflib
import os
import shutil
import tempfile

# Of a difference so many lines are shown, and so many characters of each.
MOST_LINES, MOST_WIDTH = 12, 200


class StoredRun:
    def __init__(self, top, command, name):
        self.command, self.name, self.folder = command, f"{command}/{name}", f"{top}/{command}/{name}"

    def file(self, name):
        """The bytes of one of its files, or None."""
        path = f"{self.folder}/{name}"
        if not os.path.isfile(path):
            return None
        with open(path, "rb") as it:
            return it.read()

    def words(self):
        args = self.file("args")
        return [self.command] if args is None else args.decode(errors="surrogateescape").split("\n")[:-1]

    def faults(self, outcome, room):
        """What is wrong with a run in a new folder of the room, or None. The call `outcome` gives the status and the output of words and an input there."""
        data = f"{room}/data"
        shutil.rmtree(data, ignore_errors=True)
        if os.path.isdir(f"{self.folder}/data"):
            shutil.copytree(f"{self.folder}/data", data)
        else:
            os.mkdir(data)
        with tempfile.TemporaryFile() as errors:
            status, found = outcome(self.words(), self.file("stdin") or b"", data, errors)
            errors.seek(0)
            told = errors.read()
        wanted = self.file("checked")
        if wanted is None:
            wanted = self.file("stdout") or b""
        elif status == 0:
            status, found = outcome(["check"], found, data)
        right = int(self.file("status") or b"0")
        lines = [] if found == wanted else difference(wanted, found)
        wanted = self.file("stderr")
        lines += [] if wanted is None or told == wanted else difference(wanted, told)
        lines += [] if status == right else [f"status {status}, and not {right}"]
        return lines or None


def difference(wanted, found):
    """The lines that are wanted and not found (-), and the others (+)."""
    texts = [it.decode(errors="backslashreplace").split("\n") for it in (wanted, found)]
    lines = [it[:MOST_WIDTH] for it in difflib.unified_diff(*texts, lineterm="", n=0)][2:]
    lines = [it for it in lines if not it.startswith("@@")]
    return lines[:MOST_LINES] + ([f"and {len(lines) - MOST_LINES} more lines"] if len(lines) > MOST_LINES else [])


def stored_runs(top):
    """All of them, by command."""
    folders = {it: sorted(os.listdir(f"{top}/{it}")) for it in sorted(os.listdir(top)) if os.path.isdir(f"{top}/{it}")}
    return {command: [StoredRun(top, command, name) for name in names] for command, names in folders.items()}
