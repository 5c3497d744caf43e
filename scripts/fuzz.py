#!/usr/bin/env python3
"""Runs each public reader on changed seeds for a time, and tells of crashes, of runs that hang, and of statuses that are not 0:
fuzz.py SECONDS [SEED [NAME ..]]

The seeds are the files of examples/fuzz/NAME, the programs those of the crates document_rows, history_rows and request_rows (in the folder FUZZ_PROGRAMS, or
where rt ci built them). An outside fuzzer can drive the same programs: afl-fuzz -n -i examples/fuzz/NAME -o OUT -- crates/CRATE/out/CRATE NAME. What is
found is written to the folder fuzz-found. It ends with 0 where nothing is."""

import collections
import os
import random
import re
import subprocess
import sys
import time

ROOT = os.path.dirname(os.path.dirname(os.path.abspath(__file__)))
# Which program has which readers.
READERS = {
    "document_rows": ("address", "certificate", "config", "discovery", "duration", "groups", "instance", "rules", "samples", "settings", "url"),
    "history_rows": ("event", "history", "journal", "replay"),
    "request_rows": ("request", "session"),
}
PROGRAMS = {name: program for program, names in READERS.items() for name in names}
# How a line begins where its input is read, and how the line of a request that is refused ends.
READ = ("read", "best", "{", "rounds ")
REFUSED = re.compile(r"^no (method|target)$|(^|=> )(NoRoute|Method\(\w+\)|Shape|BadName|TooManyRules)$")
SEEDS = f"{ROOT}/examples/fuzz"
FOUND = "fuzz-found"
# A run of a small input takes milliseconds.
LONGEST_SECONDS = 20
NUMBERS = (b"0", b"1", b"-1", b"1.5", b"1e400", b"255", b"256", b"65535", b"65536", b"4294967295", b"4294967296", b"18446744073709551616", b"00")
PIECES = (b"[", b"]", b"{", b"}", b'"', b",", b":", b"null", b"true", b"\\u0000", b"\\ud800", b"\xff", b"\xc3\xbc", b"\n", b"\r\n", b"", b" ", b"%", b"/", b"?")
PIECES += (b"[" * 130, b"a" * 200, b'{"a":' * 130)


def seeds_of(name):
    folder = f"{SEEDS}/{name}"
    seeds = []
    for file in sorted(os.listdir(folder)):
        with open(f"{folder}/{file}", "rb") as it:
            seeds.append(it.read())
    return seeds


def flipped(dice, text, _):
    at = dice.randrange(len(text))
    return text[:at] + bytes([text[at] ^ 1 << dice.randrange(8)]) + text[at + 1 :]


def cut(dice, text, _):
    return text[: dice.randrange(len(text))]


def with_piece(dice, text, _):
    at, end = dice.randrange(len(text) + 1), dice.choice((0, 1, 5))
    return text[:at] + dice.choice(PIECES + NUMBERS) + text[at + end :]


def without_piece(dice, text, _):
    at = dice.randrange(len(text))
    return text[:at] + text[at + dice.randrange(1, 20) :]


def doubled(dice, text, _):
    begin, end = sorted(dice.randrange(len(text) + 1) for _ in range(2))
    return text[:end] + text[begin:end] * dice.choice((1, 2, 40)) + text[end:]


def crossed(dice, text, seeds):
    other = dice.choice(seeds)
    return text[: dice.randrange(len(text))] + other[dice.randrange(len(other) + 1) :]


def with_number(dice, text, _):
    digits = [at for at, byte in enumerate(text) if chr(byte).isdigit()]
    if not digits:
        return text
    at = dice.choice(digits)
    return text[:at] + dice.choice(NUMBERS) + text[at + 1 :]


def changed(dice, seeds):
    text = dice.choice(seeds)
    for _ in range(dice.choice((0, 1, 1, 2, 4, 8))):
        if text:
            text = dice.choice((flipped, cut, with_piece, without_piece, doubled, crossed, with_number))(dice, text, seeds)
    return text[:1_000_000]


def path_of(program):
    folder = os.environ.get("FUZZ_PROGRAMS", f"{ROOT}/crates/{program}/out")
    return f"{folder}/{program}"


def is_read(name, line):
    return not REFUSED.search(line) if name == "request" else line.startswith(READ)


def run(program, name, text):
    """What came of a run, and the line that it wrote."""
    try:
        done = subprocess.run([path_of(program), name], input=text, capture_output=True, timeout=LONGEST_SECONDS)
    except subprocess.TimeoutExpired:
        return "hangs", ""
    except BrokenPipeError:
        return "does not read", ""
    line = done.stdout.decode(errors="replace").split("\n")[0]
    return ("" if done.returncode == 0 and line and not done.stderr else f"status {done.returncode}"), line


def keep(name, number, text, why):
    os.makedirs(FOUND, exist_ok=True)
    with open(f"{FOUND}/{name}-{number}", "wb") as it:
        it.write(text)
    print(f"NOT: {name}: {why}: {FOUND}/{name}-{number}", flush=True)


def main():
    seconds = float(sys.argv[1])
    seed = sys.argv[2] if len(sys.argv) > 2 else "1"
    names = sys.argv[3:] or sorted(os.listdir(SEEDS))
    dice = random.Random(seed)
    seeds = {name: seeds_of(name) for name in names}
    runs, read, lines, found = collections.Counter(), collections.Counter(), collections.defaultdict(set), 0
    for name in names:
        for number, text in enumerate(seeds[name]):
            why, _ = run(PROGRAMS[name], name, text)
            found += bool(why)
            if why:
                keep(name, f"seed{number}", text, why)
    for program in sorted({PROGRAMS[name] for name in names}):
        if run(program, "none", b"")[0] != "status 2":
            found += 1
            print(f"NOT: {program}: an unknown name has another status than 2")
    end = time.monotonic() + seconds
    while time.monotonic() < end:
        for name in names:
            text = changed(dice, seeds[name])
            why, line = run(PROGRAMS[name], name, text)
            runs[name] += 1
            read[name] += is_read(name, line)
            lines[name].add("read" if is_read(name, line) else line)
            if why:
                found += 1
                keep(name, runs[name], text, why)
    print("| Reader | Seeds | Runs | Read | Different lines |\n|---|---|---|---|---|")
    for name in names:
        print(f"| `{name}` | {len(seeds[name])} | {runs[name]:,} | {read[name]:,} | {len(lines[name]):,} |")
    print(f"\n{sum(runs.values()):,} runs, crashes, hangs and other statuses: {found}")
    sys.exit(1 if found else 0)


main()
