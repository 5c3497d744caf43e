#!/usr/bin/env python3
"""How the repository is tested, in numbers: for each crate its lines, its tests, its edits that must fail and its rows; and the stored runs of ./test.

usage: scripts/count_tests.py                prints the table
       scripts/count_tests.py --write FILE   writes it between the marks of a document (docs/trust/TESTING.md)
"""
import pathlib
import sys

from marked import write_part

ROOT = pathlib.Path(__file__).resolve().parent.parent / "crates"
EDITS = ROOT.parent / "edits"


def lines_in(files):
    return sum(sum(1 for line in file.read_text().splitlines() if line.strip()) for file in files)


# whether a file of a crate holds tests, by its path from the folder of crates
def is_test(file):
    return file.parts[0].endswith("_tests") or "tests" in file.parts or file.name == "tests.rt"


# how many runs are stored of a crate's program, or how many rows it is given in one run
def stored(crate):
    if not (crate / "stdout").is_file():
        return 0
    rows = [line for line in (crate / "stdin").read_bytes().split(b"\n") if line and not line.startswith(b"#")]
    return len(rows) if crate.name.endswith("_rows") else 1


def row(crate):
    code = sorted(crate.glob("src/**/*.rt"))
    tests = [file for file in code if is_test(file.relative_to(ROOT))]
    return [
        lines_in(file for file in code if file not in tests),
        lines_in(tests),
        lines_in(crate.glob("specs/**/*.antt")),
        lines_in(crate.glob("proofs/**/*.antt")),
        sum(file.read_text().count("#[test]") for file in code),
        len(list(crate.glob("must-fail/*.edit"))),
        len(list((EDITS / crate.name).glob("*.edit"))),
        stored(crate),
    ]


def table():
    crates = sorted(it for it in ROOT.iterdir() if (it / "src").is_dir())
    rows = [(f"`{crate.name}`", row(crate)) for crate in crates]
    rows.append(("`tests/`, by `./test`", [0] * 7 + [sum(it.is_dir() for it in (ROOT.parent / "tests").glob("*/*"))]))
    yield "| Crate | Code | Lines of tests | Definitions | Proofs | Tests | Edits of the gate | Other edits | Stored rows |\n"
    yield "|---|---|---|---|---|---|---|---|---|\n"
    for name, counts in rows:
        yield f"| {name} | {' | '.join(f'{it:,}' for it in counts)} |\n"
    yield f"| all | {' | '.join(f'{sum(it):,}' for it in zip(*(counts for _, counts in rows)))} |\n"


def main():
    text = "".join(table())
    if len(sys.argv) == 3 and sys.argv[1] == "--write":
        write_part(sys.argv[2], "counted tests", text)
    elif len(sys.argv) == 1:
        print(text, end="")
    else:
        sys.exit(__doc__)


main()
