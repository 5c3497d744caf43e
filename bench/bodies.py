#!/usr/bin/env python3
"""Writes a scraped body of 4 MiB of a family, the same for the same name.

usage: bodies.py FAMILY

  metrics   ordinary metrics: HELP and TYPE lines, and ten samples of two or three labels each
  long      samples of twenty labels, in lines of about 700 bytes
  short     samples of no label, in lines of about 8 bytes
"""
import sys

SIZE = 4 * 1024 * 1024


def metrics(n):
    name = f"http_requests_total_{n}"
    lines = [f"# HELP {name} The requests that were answered, by method and code.", f"# TYPE {name} counter"]
    for k in range(10):
        code = 200 + k * 37 % 300
        lines.append(f'{name}{{method="get",code="{code}",handler="/api/v1/query_{k}"}} {n * 7919 + k}')
    return lines


def long(n):
    labels = ",".join(f'label_name_{k}="some_longer_value_{n * k % 997}"' for k in range(20))
    return [f"wide_metric{{{labels}}} {n}"]


def short(n):
    return [f"m{n % 100} {n % 1000}"]


def main():
    families = {"metrics": metrics, "long": long, "short": short}
    if len(sys.argv) != 2 or sys.argv[1] not in families:
        sys.exit(__doc__)
    family, lines, size, n = families[sys.argv[1]], [], 0, 0
    while size < SIZE:
        for line in family(n):
            lines.append(line)
            size += len(line) + 1
        n += 1
    sys.stdout.write(("\n".join(lines) + "\n")[:SIZE])


main()
