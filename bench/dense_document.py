#!/usr/bin/env python3
"""Writes the largest certificate document: every one of ITEMS items may use every one of BINS bins.

usage: dense_document.py [ITEMS [BINS]]      (16384 and 256 where left out)

The limits are just enough, item t was in bin t mod BINS and stays there, and each item's price is the weight of a pair
that is kept, so the plan is certified: `best covered=ITEMS moved=0`.
"""
import sys

items = int(sys.argv[1]) if len(sys.argv) > 1 else 16384
bins = int(sys.argv[2]) if len(sys.argv) > 2 else 256
limit = -(-items // bins)
pairs = ",".join(f"[{item},{item % bins}]" for item in range(items))
row = "[" + ",".join(str(b) for b in range(bins)) + "]"
out = sys.stdout
out.write('{"before":[' + pairs + '],"bin_prices":[' + ",".join("0" for _ in range(bins)))
out.write('],"bins":[' + ",".join(str(limit) for _ in range(bins)))
out.write('],"item_prices":[' + ",".join(str(items + 2) for _ in range(items)))
out.write('],"pairs":[' + pairs + '],"reach":[')
for item in range(items):
    out.write(row if item == 0 else "," + row)
out.write('],"version":1}\n')
