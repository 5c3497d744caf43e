#!/usr/bin/env python3
"""A fleet over days, allocated anew after each change by `allocd plan`, by `allocd plan --spread`, and in the ways of others: who moves how
many targets, covers how many, and how even it is. Every plan is judged by `allocd check`.

usage: spread_days.py PROGRAM [--steps N] [--seeds N] [--world zones|free]..      (96 reallocations of 3 seeds, both worlds)

  zones   3 zones, a limit for two of 5 jobs, some collectors with an own limit, some that reach two zones, some that reach 3 jobs
  free    every collector reaches all, no limits

Some 1,500 targets. Between two reallocations 0 to 3 percent of them go and about as many come; now and then a collector joins, one goes,
or one drains and goes later. Hashing is told who reaches what, and of limits, which it does not know where it is at home:

  rendezvous hashing      a target goes to the highest hash of target and collector
  consistent hashing      1,061 parts on a ring with 5 points a collector, a collector with at most 1.1 times its share of parts
  least weight            who has a collector keeps it; others go to the one with the fewest
  bounded loads           a ring with 40 points a collector; none above 1.25 times the mean
"""
import argparse
import bisect
import collections
import hashlib
import json
import math
import random
import subprocess

JOBS = 5
SHARES = [40, 30, 15, 5, 10]
LIMITED = {3: 25, 4: 40}
FIRST_TARGETS, FIRST_COLLECTORS, MOST_COLLECTORS, FEWEST_COLLECTORS = 1500, 9, 14, 7


def hash_of(*parts):
    text = "/".join(map(str, parts)).encode()
    return int.from_bytes(hashlib.blake2b(text, digest_size=8).digest(), "big")


class Target:
    def __init__(self, world):
        world.targets_made += 1
        number = world.targets_made
        self.key = f"10.{number >> 16}.{number >> 8 & 255}.{number & 255}:9100"
        self.job = world.source.choices(range(JOBS), SHARES)[0]
        self.zone = world.source.choices(range(world.zones), [5, 3, 2][: world.zones])[0]


class Collector:
    def __init__(self, world, zone=None):
        world.collectors_made += 1
        self.name = world.collectors_made
        source = world.source
        self.zones = {source.randrange(world.zones) if zone is None else zone}
        self.jobs, self.limits, self.draining = set(range(JOBS)), {}, False
        if world.zones > 1:
            if source.random() < 0.4:
                self.zones.add(source.randrange(world.zones))
            if source.random() < 0.15:
                self.jobs = set(source.sample(range(JOBS), 3))
            self.limits = dict(LIMITED)
            if source.random() < 0.2:
                self.limits[3] = 10

    def reaches(self, target):
        return target.zone in self.zones and target.job in self.jobs

    def limit(self, job):
        return self.limits.get(job, 0)


class World:
    """The targets and the collectors, as they change."""

    def __init__(self, name, seed):
        self.source = random.Random(seed)
        self.zones = 3 if name == "zones" else 1
        self.targets_made = self.collectors_made = 0
        self.targets = [Target(self) for _ in range(FIRST_TARGETS)]
        self.collectors = [Collector(self, place % self.zones) for place in range(FIRST_COLLECTORS)]

    def change(self):
        source = self.source
        many = max(1, len(self.targets) * source.choice([0, 1, 1, 2, 3]) // 100)
        gone = set(source.sample(range(len(self.targets)), many))
        come = many + source.randint(-6, 8) if many > 6 else many
        self.targets = [t for place, t in enumerate(self.targets) if place not in gone] + [Target(self) for _ in range(come)]
        chance = source.random()
        draining = any(c.draining for c in self.collectors)
        if chance < 0.12 and len(self.collectors) < MOST_COLLECTORS:
            self.collectors.append(Collector(self))
        elif chance < 0.20 and len(self.collectors) > FEWEST_COLLECTORS:
            self.collectors.remove(source.choice(self.collectors))
        elif chance < 0.28 and len(self.collectors) > FEWEST_COLLECTORS and not draining:
            source.choice(self.collectors).draining = True
        elif chance < 0.60 and draining:
            self.collectors = [c for c in self.collectors if not c.draining]

    def steady(self):
        return [c for c in self.collectors if not c.draining] or self.collectors


# ---- by the program


def document(world, held):
    places = {c.name: place for place, c in enumerate(world.collectors)}
    rows = [[place * JOBS + t.job for place, c in enumerate(world.collectors) if c.reaches(t)] for t in world.targets]
    before = [[item, places[held[t.key]] * JOBS + t.job] for item, t in enumerate(world.targets) if held.get(t.key) in places]
    return {
        "version": 2,
        "bins": [c.limit(job) for c in world.collectors for job in range(JOBS)],
        "draining": [place * JOBS + job for place, c in enumerate(world.collectors) if c.draining for job in range(JOBS)],
        "reach": rows,
        "before": before,
    }


def answer(program, words, text):
    return subprocess.run([program, *words], input=text, capture_output=True, text=True, check=True).stdout


def planned(program, *words):
    def plan(world, held):
        text = answer(program, ["plan", *words], json.dumps(document(world, held)))
        verdict = answer(program, ["check"], text)
        assert verdict.startswith("best"), verdict
        return {world.targets[item].key: world.collectors[bin // JOBS].name for item, bin in json.loads(text)["pairs"]}

    return plan


def spread(program, slack):
    return planned(program, "--spread", str(slack), "--jobs", str(JOBS))


# ---- in the ways of others


class Rooms:
    """What the limits leave."""

    def __init__(self):
        self.uses = collections.Counter()

    def takes(self, collector, target):
        limit = collector.limit(target.job)
        if not collector.reaches(target) or limit and self.uses[collector.name, target.job] >= limit:
            return False
        self.uses[collector.name, target.job] += 1
        return True


def rendezvous(world, held):
    rooms, chosen = Rooms(), {}
    for target in world.targets:
        for collector in sorted(world.steady(), key=lambda c: -hash_of(target.key, target.job, c.name)):
            if rooms.takes(collector, target):
                chosen[target.key] = collector.name
                break
    return chosen


def ring_of(members, points):
    return sorted((hash_of("member", c.name, point), c) for c in members for point in range(points))


def along(ring, place):
    start = bisect.bisect_left(ring, place, key=lambda entry: entry[0])
    return (ring[(start + step) % len(ring)][1] for step in range(len(ring)))


def consistent(world, held, parts=1061, points=5, load=1.1):
    members = world.steady()
    ring = sorted(ring_of(members, points), key=lambda entry: entry[0])
    most, counts, owners = math.ceil(parts / len(members) * load), collections.Counter(), []
    for part in range(parts):
        owner = next(c for c in along(ring, hash_of("part", part)) if counts[c.name] < most)
        counts[owner.name] += 1
        owners.append(owner)
    rooms, chosen = Rooms(), {}
    for target in world.targets:
        first = hash_of("target", target.job, target.key)
        for step in range(parts):
            owner = owners[(first + step) % parts]
            if rooms.takes(owner, target):
                chosen[target.key] = owner.name
                break
    return chosen


def least_weight(world, held):
    members = {c.name: c for c in world.steady()}
    rooms, chosen, counts = Rooms(), {}, collections.Counter()
    for target in world.targets:
        collector = members.get(held.get(target.key))
        if collector and rooms.takes(collector, target):
            chosen[target.key] = collector.name
            counts[collector.name] += 1
    for target in world.targets:
        if target.key in chosen:
            continue
        for collector in sorted(members.values(), key=lambda c: (counts[c.name], c.name)):
            if rooms.takes(collector, target):
                chosen[target.key] = collector.name
                counts[collector.name] += 1
                break
    return chosen


def bounded(world, held, points=40, load=1.25):
    members = world.steady()
    ring = sorted(ring_of(members, points), key=lambda entry: entry[0])
    most, counts, rooms, chosen = math.ceil(load * len(world.targets) / len(members)), collections.Counter(), Rooms(), {}
    for target in sorted(world.targets, key=lambda t: hash_of("order", t.key)):
        for collector in along(ring, hash_of("target", target.job, target.key)):
            if counts[collector.name] < most and rooms.takes(collector, target):
                counts[collector.name] += 1
                chosen[target.key] = collector.name
                break
    return chosen


# ---- what it comes to


class Sums:
    def __init__(self):
        self.held, self.moved, self.uncovered, self.fullest, self.squares = {}, 0, 0, [], []

    def step(self, world, plan, best, first):
        """Counts a plan beside one that is as even as can be."""
        listed, there = {t.key for t in world.targets}, {c.name for c in world.collectors}
        if not first:
            self.moved += sum(key in listed and name in there and plan.get(key) != name for key, name in self.held.items())
        self.uncovered += len(best) - len(plan)
        loads, least = loads_of(world, plan), loads_of(world, best)
        self.fullest.append(max(loads) / max(least))
        self.squares.append(sum(n * n for n in loads) / sum(n * n for n in least))
        self.held = plan


def loads_of(world, plan):
    counts = collections.Counter(plan.values())
    return [counts[c.name] for c in world.collectors if not c.draining]


def days(program, name, seed, steps, ways):
    world, sums, evenest = World(name, seed), {way: Sums() for way in ways}, spread(program, 0)
    for step in range(steps):
        if step:
            world.change()
        best = evenest(world, {})
        for way, plan in ways.items():
            sums[way].step(world, plan(world, sums[way].held), best, step == 0)
    return sums


def main():
    parser = argparse.ArgumentParser(usage=__doc__)
    parser.add_argument("program")
    parser.add_argument("--steps", type=int, default=96)
    parser.add_argument("--seeds", type=int, default=3)
    parser.add_argument("--world", action="append", choices=["zones", "free"])
    given = parser.parse_args()
    ways = {
        "`allocd plan`": planned(given.program),
        **{f"`allocd plan --spread {slack}`": spread(given.program, slack) for slack in (0, 10, 25)},
        "rendezvous hashing": rendezvous,
        "consistent hashing": consistent,
        "least weight": least_weight,
        "bounded loads": bounded,
    }
    for name in given.world or ["zones", "free"]:
        runs = [days(given.program, name, seed, given.steps, ways) for seed in range(1, given.seeds + 1)]
        print(f"\n| {name}: {given.seeds} runs of {given.steps} | moved | not covered | fullest: mean | worst | squares |\n|---|---|---|---|---|---|")
        for way in ways:
            sums = [run[way] for run in runs]
            fullest = [ratio for one in sums for ratio in one.fullest]
            squares = [ratio for one in sums for ratio in one.squares]
            moved, uncovered = sum(one.moved for one in sums), sum(one.uncovered for one in sums)
            print(f"| {way} | {moved:,} | {uncovered:,} | {sum(fullest) / len(fullest):.2f} | {max(fullest):.2f} | {sum(squares) / len(squares):.3f} |")


main()
