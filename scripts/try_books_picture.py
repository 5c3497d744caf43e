#!/usr/bin/env python3
"""Has headless Chromium take a picture of a service's books, once a round of a small fleet is over: try_books_picture.py [PICTURE]

Two collectors report what they hold of two jobs: of one target nobody reports, and one is down. The picture is docs/operate/books.png where nothing is named.
The program is ALLOCD_PROGRAM, or dist/allocd. It needs Debian's package chromium."""

import json
import os
import subprocess
import sys
import tempfile

from allocd_service import ROOT, Service, ask, comes

ANY = [{"allow": True, "test": "any"}]
PICTURE = os.path.abspath(sys.argv[1]) if len(sys.argv) > 1 else f"{ROOT}/docs/operate/books.png"
JOBS = {"node": [f"10.0.0.{i}:9100" for i in range(1, 7)], "web": [f"10.0.1.{i}:8080" for i in range(1, 5)]}
CONFIG = {
    "global": {"scrape_interval": "5s"},
    "scrape_configs": [{"job_name": job, "static_configs": [{"targets": targets}]} for job, targets in JOBS.items()],
    "allocator": {"settle": "100ms", "spread": {}, "collectors": [{"name": name, "reach": ANY} for name in ("a", "b")]},
}


def taken(port, name):
    """What a collector holds: the number and the round of its lists, and its targets' numbers by job."""
    held, head = {}, None
    for job in JOBS:
        listed = subprocess.run(["curl", "-si", f"http://127.0.0.1:{port}/jobs/{job}/targets?collector_id={name}"], capture_output=True, text=True).stdout
        lines, _, body = listed.partition("\n\n")
        fields = dict(line.lower().split(": ", 1) for line in lines.split("\n")[1:])
        head = int(fields["x-allocation-number"]), int(fields["x-scrape-round"])
        held[job] = [int(group["labels"]["__meta_allocator_target"]) for group in json.loads(body)]
    return head, held


def report(port, collector, name, leave_out):
    (number, round_of), held = taken(port, name)
    for job, targets in held.items():
        for place, target in enumerate(targets[:-1] if job == leave_out else targets):
            up = {"up": True, "samples": 700 + 31 * target} if place else {"up": False}
            ask(port, "POST", "/reports", {"collector": collector, "number": number, "target": target, "round": round_of, **up})
    return round_of


def main():
    with tempfile.TemporaryDirectory() as folder:
        service = Service(folder, CONFIG)
        try:
            service.is_up()
            take_picture(service.port)
        finally:
            service.it.kill()
            service.it.wait()
    print(PICTURE)


def take_picture(port):
    comes(lambda: 'allocd_targets_covered{job="node"} 6' in (ask(port, "GET", "/metrics")[1] or ""))
    told = report(port, 1, "a", None)
    report(port, 2, "b", "node")
    comes(lambda: json.loads(ask(port, "GET", "/books")[1])["round"] == told, 20)
    words = ["--headless", "--no-sandbox", "--disable-gpu", "--hide-scrollbars", "--window-size=1280,440", f"--screenshot={PICTURE}"]
    subprocess.run(["chromium", *words, f"http://127.0.0.1:{port}/books"], check=True, capture_output=True)


main()
