"""What the scripts share that try the program part by part: a line for each thing that is tried, and parts that are picked by name."""

import os
import sys
import tempfile

failed = 0


def tell(name, holds, more=""):
    """A line on whether something holds, with more to say of it."""
    global failed
    failed += not holds
    print(f"{'ok' if holds else 'NOT'}: {name}{': ' + str(more) if more != '' else ''}", flush=True)


def run_parts(parts, words):
    """Runs the parts that the words name, or all, each with a folder of its own, and ends with 0 where all holds. `--parts` prints their names."""
    known = {part.__name__: part for part in parts}
    if words == ["--parts"]:
        print(*known, sep="\n")
        sys.exit(0)
    unknown = [word for word in words if word not in known]
    if unknown:
        sys.exit(f"no part {unknown[0]}: {' '.join(known)}")
    with tempfile.TemporaryDirectory() as top:
        for name in words or known:
            os.mkdir(f"{top}/{name}")
            known[name](f"{top}/{name}")
    sys.exit(1 if failed else 0)
