#!/usr/bin/env python3
"""Writes an instance document of a family, the same for the same name and seed.

usage: instances.py FAMILY [SEED [VERSION]]      (seed 1 and version 1 where left out)

  ring          16,384 items, 256 bins; item t reaches bins t and t + 1 (mod 256), was at the latter; limits just enough
  ring-less     the same with limits one less
  dense         all of 16,384 * 256 pairs allowed, limits 64, nothing before
  dense-before  the same, everything before and spread evenly
  dense-one     the same, everything before in one bin
  fleet         4 zones; a best allocation of 256 collectors of which one has gone
  sparse        16,384 bins of limit 1, eight random bins an item, nothing before
  chain         16,384 bins of limit 1; the last item in needs a path through every bin
  crowd         16,384 items that all want one full bin first; half may use another

Families that are hard for one search after another:

  gate          480 bins of limit 1 in the way of 7,900 new items, whose only way out is over the items of one full bin
  gate-few      the same with 200 bins of limit 32 in the way and 4,000 new items: few bins, each with long rows
  stairs        2,890 bins of limit 1; later items reach fewer bins, so they push earlier ones up
  stairs-steps  the same with 500 bins of limit 32
  flat          stairs of 2,047 bins, all rows filled up to one length by full bins whose items cannot move
  ladder        170 full chains of 1 to 170 bins, each with a new item at its foot, so no two ways out are of one length
  sparse-before sparse where each item was in one of its bins
  sparse-2      sparse with two random bins an item, and so on up to sparse-7; sparse-2-before: with
  sparse-long   the same with some 256 random bins an item, nothing before; sparse-long-before: with

Families of version 2 alone, in which a quarter of the bins drain:

  draining        4 zones, everything before and spread evenly; what drains can be emptied
  draining-dense  the same with all of 16,384 * 256 pairs allowed
  draining-tight  draining where the other bins have no room, so that a quarter stays

Families of version 2 alone for `allocd plan --spread`, without limits where nothing else is said:

  spread-one      all of 16,384 * 256 pairs allowed, everything before in one bin
  spread-new      the same, nothing before
  spread-zones    16 zones of unequal size with 16 bins each, everything before in the first bin of its zone
  spread-slope    each item reaches its bin and the next; most stand at the first bins, so that ways are long
  spread-stairs   each item reaches a stretch of bins of random length that ends at a random bin, and was in its first
  spread-jobs     64 jobs of unequal size with a limit each, 64 collectors with a bin for each job, 4 zones; 4 collectors drain
  spread-sparse   16,384 bins, some 254 random ones an item, everything before in one of the first 64
"""
import random
import sys

ITEMS, BINS = 16384, 256
# So few bins an item has in the sparsest families.
FEW = range(2, 8)


def ring(limit):
    rows = [sorted({t % BINS, (t + 1) % BINS}) for t in range(ITEMS)]
    return [limit] * BINS, rows, [(t, (t + 1) % BINS) for t in range(ITEMS)]


def dense(before):
    row = list(range(BINS))
    return [ITEMS // BINS] * BINS, [row] * ITEMS, before


def fleet():
    # collectors 0 .. 254 are left of 256; target t is in zone t mod 4 and reached by the collectors of its zone
    rows = [[b for b in range(BINS - 1) if b % 4 == t % 4] for t in range(ITEMS)]
    held = [(t, t % BINS) for t in range(ITEMS) if t % BINS != BINS - 1]
    return [66] * (BINS - 1), rows, held


# every collector has its share of the targets of its zone, or of all, and the first quarter of the collectors drains
def draining(zones, limit):
    rows = [[b for b in range(BINS) if b % zones == t % zones] for t in range(ITEMS)]
    return [limit] * BINS, rows, [(t, t % BINS) for t in range(ITEMS)], list(range(BINS // 4))


def sparse(reach, has_before, seed):
    source = random.Random(seed)
    rows = [sorted(set(source.randrange(ITEMS) for _ in range(reach))) for _ in range(ITEMS)]
    return [1] * ITEMS, rows, [(t, source.choice(rows[t])) for t in range(ITEMS)] if has_before else []


def chain():
    rows = [[t, t + 1] if t + 1 < ITEMS else [t] for t in range(ITEMS - 1)] + [[0]]
    return [1] * ITEMS, rows, [(t, t) for t in range(ITEMS - 1)]


def crowd():
    half = ITEMS // 2
    rows = [[0, 1]] * half + [[0]] * half
    return [half, half], rows, [(t, 0) for t in range(half)]


def gate(bins, limit, movers):
    # the items of the bins in the way reach them all and the gate; the gate is full of movers, who alone reach what is free
    held = [t % bins for t in range(bins * limit)] + [bins] * movers
    in_the_way = list(range(bins + 1))
    rows = [in_the_way] * (bins * limit) + [[bins, bins + 1]] * movers + [in_the_way] * movers
    return [limit] * bins + [movers] * 2, rows, list(enumerate(held))


def stairs(bins, limit):
    return [limit] * bins, [list(range(bins - t // limit)) for t in range(bins * limit)], []


def flat(bins):
    rows = [list(range(bins - t)) + list(range(bins, bins + t)) for t in range(bins)]
    held = [(bins + t, bins + t) for t in range(bins)]
    return [1] * (2 * bins), rows + [[bin] for _, bin in held], held


def ladder(chains, reach):
    # chain c has c + 1 full bins and a free one; all of its items, and the new one, also reach bins that nobody can leave
    last = chains * (chains + 1) // 2 + chains
    stuck = ITEMS - last
    limits, rows, before = [], [], []
    for chain in range(chains):
        foot = len(limits)
        for step in range(chain + 1):
            before.append((len(rows), foot + step))
            rows.append([foot + step, foot + step + 1] + stuck_bins(last, stuck, len(rows), reach))
        rows.append([foot] + stuck_bins(last, stuck, len(rows), reach))
        limits.extend([1] * (chain + 2))
    for bin in range(last, last + stuck):
        before.append((len(rows), bin))
        rows.append([bin])
    return limits + [1] * stuck, rows, before


def stuck_bins(first, count, turn, reach):
    return sorted(first + (turn * 7 + k) % count for k in range(reach))


# at most a place of a list, from a distribution that favours the first ones
def early(source, mean, places):
    return min(int(source.expovariate(1 / mean)), places - 1)


def spread_zones(source):
    zones = [early(source, 4, 16) for _ in range(ITEMS)]
    rows = [list(range(16 * zone, 16 * zone + 16)) for zone in zones]
    return [0] * BINS, rows, [(t, row[0]) for t, row in enumerate(rows)]


def spread_slope(source):
    homes = [early(source, 40, BINS) for _ in range(ITEMS)]
    rows = [sorted({home, min(home + 1, BINS - 1)}) for home in homes]
    return [0] * BINS, rows, list(enumerate(homes))


def spread_stairs(source):
    rows = []
    for _ in range(ITEMS):
        last = source.randrange(BINS)
        rows.append(list(range(last - early(source, 10, last + 1), last + 1)))
    return [0] * BINS, rows, [(t, row[0]) for t, row in enumerate(rows)]


# a collector has a bin for each job, one after the other
def spread_jobs(source, collectors=64, jobs=64, zones=4):
    kinds = [(early(source, 12.5, jobs), source.randrange(zones)) for _ in range(ITEMS)]
    rows = [[c * jobs + job for c in range(zone, collectors, zones)] for job, zone in kinds]
    limits = [max(1, max(kinds.count((job, zone)) for zone in range(zones)) // 10) for job in range(jobs)]
    draining = [c * jobs + job for c in range(0, collectors, 16) for job in range(jobs)]
    return limits * collectors, rows, [(t, row[0]) for t, row in enumerate(rows)], draining


def spread_sparse(source):
    rows = [sorted({source.randrange(ITEMS) for _ in range(254)} | {t % 64}) for t in range(ITEMS)]
    return [0] * ITEMS, rows, [(t, t % 64) for t in range(ITEMS)]


def main():
    family = sys.argv[1] if len(sys.argv) > 1 else ""
    seed = int(sys.argv[2]) if len(sys.argv) > 2 else 1
    version = int(sys.argv[3]) if len(sys.argv) > 3 else 1
    families = {
        "ring": lambda: ring(64),
        "ring-less": lambda: ring(63),
        "dense": lambda: dense([]),
        "dense-before": lambda: dense([(t, t % BINS) for t in range(ITEMS)]),
        "dense-one": lambda: dense([(t, 0) for t in range(ITEMS)]),
        "fleet": fleet,
        "sparse": lambda: sparse(8, False, seed),
        "chain": chain,
        "crowd": crowd,
        "gate": lambda: gate(480, 1, 7900),
        "gate-few": lambda: gate(200, 32, 4000),
        "stairs": lambda: stairs(2890, 1),
        "stairs-steps": lambda: stairs(500, 32),
        "flat": lambda: flat(2047),
        "ladder": lambda: ladder(170, 250),
        "sparse-before": lambda: sparse(8, True, seed),
        **{f"sparse-{count}": lambda count=count: sparse(count, False, seed) for count in FEW},
        **{f"sparse-{count}-before": lambda count=count: sparse(count, True, seed) for count in FEW},
        "sparse-long": lambda: sparse(256, False, seed),
        "sparse-long-before": lambda: sparse(256, True, seed),
        "draining": lambda: draining(4, 86),
        "draining-dense": lambda: draining(1, 86),
        "draining-tight": lambda: draining(4, 64),
        "spread-one": lambda: ([0] * BINS, [list(range(BINS))] * ITEMS, [(t, 0) for t in range(ITEMS)], []),
        "spread-new": lambda: ([0] * BINS, [list(range(BINS))] * ITEMS, [], []),
        "spread-zones": lambda: (*spread_zones(random.Random(seed)), []),
        "spread-slope": lambda: (*spread_slope(random.Random(seed)), []),
        "spread-stairs": lambda: (*spread_stairs(random.Random(seed)), []),
        "spread-jobs": lambda: spread_jobs(random.Random(seed)),
        "spread-sparse": lambda: (*spread_sparse(random.Random(seed)), []),
    }
    if family not in families:
        sys.exit(__doc__)
    limits, rows, before, *drained = families[family]()
    if drained or version == 2:
        draining_member = f'"draining":[{",".join(map(str, drained[0] if drained else []))}],'
        version = 2
    else:
        draining_member = ""
    numbers = lambda xs: "[" + ",".join(map(str, xs)) + "]"
    pairs = "[" + ",".join(f"[{t},{b}]" for t, b in before) + "]"
    reach = "[" + ",".join(map(numbers, rows)) + "]"
    sys.stdout.write(f'{{"before":{pairs},"bins":{numbers(limits)},{draining_member}"reach":{reach},"version":{version}}}\n')


main()
