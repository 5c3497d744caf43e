#!/usr/bin/env python3
"""The least processor time, in seconds, and the most memory, in megabytes, of the runs of a command on a file, which it reads
as standard input. What it writes goes to the file OUTPUT, where that is given. With --elapsed the time that passed stands third; with
--median times are those of the middle run.

usage: measure.py [--digits N] [--elapsed] [--median] [--output OUTPUT] FILE RUNS COMMAND..
       (3 digits of the seconds where left out)
"""
import argparse
import os
import statistics
import subprocess
import sys
import time


def run(source, target, command):
    with open(source, "rb") as text, open(target, "wb") as out:
        begun = time.monotonic()
        process = subprocess.Popen(command, stdin=text, stdout=out)
        _, status, usage = os.wait4(process.pid, 0)
        elapsed = time.monotonic() - begun
    if os.waitstatus_to_exitcode(status) != 0:
        sys.exit(f"{command}: status {status}")
    return usage.ru_utime + usage.ru_stime, usage.ru_maxrss / 1024, elapsed


def main():
    parser = argparse.ArgumentParser(usage=__doc__)
    parser.add_argument("--digits", type=int, default=3)
    parser.add_argument("--elapsed", action="store_true")
    parser.add_argument("--median", action="store_true")
    parser.add_argument("--output", default=os.devnull)
    parser.add_argument("source")
    parser.add_argument("runs", type=int, choices=range(1, 1000))
    parser.add_argument("command", nargs=argparse.REMAINDER)
    given = parser.parse_args()
    if not given.command:
        sys.exit(__doc__)
    seconds, megabytes, elapsed = zip(*[run(given.source, given.output, given.command) for _ in range(given.runs)])
    chosen = statistics.median if given.median else min
    words = [f"{chosen(seconds):.{given.digits}f}", f"{max(megabytes):.0f}"]
    if given.elapsed:
        words.append(f"{chosen(elapsed):.{given.digits}f}")
    print(*words)


main()
