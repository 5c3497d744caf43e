#!/usr/bin/env python3
"""Writes a day of a full fleet: 256 collectors join, 16,384 targets of 16 jobs come up, and a certified plan is installed.
Every collector reaches every target, so 4,194,304 pairs are allowed; a collector takes 4 targets of each job.

usage: full_fleet.py replay         the lines for `allocd replay`
       full_fleet.py certificate    the document of the same instance and plan, for `allocd check`
       full_fleet.py certificate-1  the same in version 1
       full_fleet.py rounds         the replay's lines, a take by each collector, and then as many rounds of reports, one for
                                    each target by the collector that holds it, as `allocd replay` reads
       full_fleet.py installs N     the lines of a fleet of as many targets of one job in 16 zones, where each collector has three
                                    rules and reaches three zones, and of N plans, each refused for its lengths
       full_fleet.py desk N         the lines of a fleet of as many targets of 16 jobs, and of 16 collectors, which take 64 of each job
                                    at the most; a certified plan is installed, and each collector takes it
"""
import json
import sys

COLLECTORS, JOBS, TARGETS = 256, 16, 16384
EACH = TARGETS // JOBS
LIMIT = EACH // COLLECTORS
ZONES = 16
INPUT_BYTES = 67_108_864


def compact(value):
    return json.dumps(value, separators=(",", ":"))


def holder(t):
    return t % EACH % COLLECTORS


# what a pair is worth where nothing drains and nothing was before
def worth(version):
    return TARGETS + 1 if version == 1 else (TARGETS + 1) ** 2 + TARGETS + 1


def plan(version):
    pairs = [[t, holder(t) * JOBS + t // EACH] for t in range(TARGETS)]
    return {"pairs": pairs, "item_prices": [worth(version)] * TARGETS, "bin_prices": [0] * (COLLECTORS * JOBS)}


def replay():
    yield {"scrape_configs": [{"job_name": f"job-{j}", "target_limit": LIMIT} for j in range(JOBS)]}
    for c in range(COLLECTORS):
        yield {"event": "join", "name": f"collector-{c}", "reach": [{"allow": True, "test": "any"}]}
    for j in range(JOBS):
        targets = [{"labels": {"zone": f"z{t % 4}"}, "targets": [f"10.{j}.{t // 256}.{t % 256}:9100"]} for t in range(EACH)]
        yield {"event": "discover", "job": f"job-{j}", "source": 0, "targets": targets}
    yield {"event": "install", **plan(2)}


def report(t, round_number):
    return {"event": "report", "collector": holder(t) + 1, "number": 1, "target": t, "round": round_number, "up": True, "samples": t % 1000}


# the lines of the rounds that fit the input, each with its line feed
def rounds():
    start = [compact(line) + "\n" for line in replay()]
    start += [compact({"event": "take", "collector": c + 1}) + "\n" for c in range(COLLECTORS)]
    yield from start
    left, round_number = INPUT_BYTES - sum(map(len, start)), 1
    while True:
        lines = [] if round_number == 1 else [compact({"event": "round"}) + "\n"]
        lines += [compact(report(t, round_number)) + "\n" for t in range(TARGETS)]
        left -= sum(map(len, lines))
        if left < 0:
            return
        yield from lines
        round_number += 1


def installs(count):
    yield {"scrape_configs": [{"job_name": "job", "target_limit": 0}]}
    for c in range(COLLECTORS):
        reach = [{"allow": True, "test": "equals", "label": "zone", "value": f"z{(c + 5 * turn) % ZONES}"} for turn in range(3)]
        yield {"event": "join", "name": f"collector-{c}", "reach": reach}
    targets = [{"labels": {"zone": f"z{t % ZONES}"}, "targets": [f"10.0.{t // 256}.{t % 256}:9100"]} for t in range(TARGETS)]
    yield {"event": "discover", "job": "job", "source": 0, "targets": targets}
    for _ in range(count):
        yield {"event": "install", "pairs": [], "item_prices": [], "bin_prices": []}


def desk(count):
    collectors, limit, each = 16, 64, count // JOBS
    yield {"scrape_configs": [{"job_name": f"job-{j}", "target_limit": limit} for j in range(JOBS)]}
    for c in range(collectors):
        yield {"event": "join", "name": f"collector-{c}", "reach": [{"allow": True, "test": "any"}]}
    for j in range(JOBS):
        targets = [{"labels": {"zone": f"z{t % 4}"}, "targets": [f"10.{j}.{t // 256}.{t % 256}:9100"]} for t in range(each)]
        yield {"event": "discover", "job": f"job-{j}", "source": 0, "targets": targets}
    pairs = [[t, t % each % collectors * JOBS + t // each] for t in range(count)]
    prices = {"item_prices": [(count + 1) ** 2 + count + 1] * count, "bin_prices": [0] * (collectors * JOBS)}
    yield {"event": "install", "pairs": pairs, **prices}
    for c in range(collectors):
        yield {"event": "take", "collector": c + 1}


def certificate(version):
    rows = [[c * JOBS + j for c in range(COLLECTORS)] for j in range(JOBS)]
    reach = [rows[t // EACH] for t in range(TARGETS)]
    draining = {} if version == 1 else {"draining": []}
    return {"version": version, "bins": [LIMIT] * (COLLECTORS * JOBS), **draining, "reach": reach, "before": [], **plan(version)}


def main():
    arguments = sys.argv[1:]
    if arguments == ["replay"]:
        for line in replay():
            print(compact(line))
    elif arguments[:1] == ["installs"] and len(arguments) == 2:
        for line in installs(int(arguments[1])):
            print(compact(line))
    elif arguments[:1] == ["desk"] and len(arguments) == 2:
        for line in desk(int(arguments[1])):
            print(compact(line))
    elif arguments == ["certificate"]:
        print(compact(certificate(2)))
    elif arguments == ["certificate-1"]:
        print(compact(certificate(1)))
    elif arguments == ["rounds"]:
        sys.stdout.writelines(rounds())
    else:
        sys.exit(__doc__)


if __name__ == "__main__":
    main()
