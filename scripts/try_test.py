#!/usr/bin/env python3
"""Shows that ./test fails where a byte of the program's answers changes: try_test.py [PROGRAM]

For each group a copy of the program (dist/allocd where none is named), in which one byte of a text that it writes is another one, is given to ./test:
the group must fail. A line for each; it ends with 0 where all failed."""

import os
import subprocess
import sys
import tempfile

from allocd_service import ROOT

# What ./test is to run, a text of the program, and that text with another byte.
ROWS = (
    ("check", b"unreadable Shape", b"unreadable Shapf"),
    ("plan", b"bin_prices", b"bin_pricet"),
    ("relabel", b"UnknownAction", b"UnknownActiom"),
    ("replay", b"Joined ", b"Joinee "),
    ("audit", b"consistent files=", b"consistent filet="),
    ("books", b',"samples":', b',"samplet":'),
    ("session", b"AlreadyJoined", b"AlreadyJoimed"),
    ("words", b"a similar subcommand exists", b"a similar subcommand exisst"),
    ("http", b"allocd is healthy", b"allocd is wealthy"),
    ("statuses", b"unreadable NotJson", b"unreadable NotJsom"),
    ("damage/nesting", b"unreadable Shape", b"unreadable Shapf"),
    ("serve/routes", b"allocd_targets", b"allocd_targett"),
    ("serve/unknown_members_come_in_order", b"unknown member", b"unknown membes"),
    ("edge/figures", b"allocd_events_total", b"allocd_events_totam"),
    ("edge/requests", b"UnknownCollector", b"UnknownCollectos"),
    ("fetches/nowhere", b" booked ", b" bookee "),
    ("device/fails", b"NotKept", b"NotKepu"),
    ("supervise", b"allocd ends. Goodbye", b"allocd ends. Goodbyf"),
    ("wrong_uses", b"unknown member", b"unknown membes"),
    ("losses", b"another service has this journal", b"another service had this journal"),
)


def fails(program, folder):
    with open(program, "rb") as it:
        right = it.read()
    for name, text, other in ROWS:
        wrong = f"{folder}/allocd"
        with open(wrong, "wb") as it:
            it.write(right.replace(text, other))
        os.chmod(wrong, 0o755)
        done = subprocess.run([f"{ROOT}/test", "--program", wrong, name], stdout=subprocess.PIPE, stderr=subprocess.DEVNULL, universal_newlines=True)
        last = done.stdout.rstrip("\n").rpartition("\n")[2]
        holds = text in right and done.returncode == 1 and not last.endswith(" 0 failed")
        print(f"{'ok' if holds else 'NOT'}: {name} fails where {text.decode()!r} is {other.decode()!r}: {last}", flush=True)
        yield holds


with tempfile.TemporaryDirectory() as top:
    all_fail = all([*fails(sys.argv[1] if len(sys.argv) > 1 else f"{ROOT}/dist/allocd", top)])
sys.exit(0 if all_fail else 1)
