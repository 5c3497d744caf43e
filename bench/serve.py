#!/usr/bin/env python3
"""The service over a long journal, and how soon a change of a source reaches a collector: serve.py [EVENTS]

It needs the program (ALLOCD_PROGRAM, or dist/allocd)."""

import hashlib
import http.client
import http.server
import json
import os
import socket
import statistics
import subprocess
import sys
import tempfile
import threading
import time

ROOT = os.path.dirname(os.path.dirname(os.path.abspath(__file__)))
PROGRAM = os.environ.get("ALLOCD_PROGRAM", f"{ROOT}/dist/allocd")
EVENTS = int(sys.argv[1]) if len(sys.argv) > 1 else 1_000_000
CHANGES = 20
REFRESH, SETTLE = 100, 50  # milliseconds


def free_port():
    with socket.socket() as it:
        it.bind(("127.0.0.1", 0))
        return it.getsockname()[1]


def get(port, path):
    it = http.client.HTTPConnection("127.0.0.1", port, timeout=60)
    try:
        it.request("GET", path)
        return it.getresponse().read().decode()
    finally:
        it.close()


def megabytes(it):
    with open(f"/proc/{it.pid}/status") as file:
        return next(int(line.split()[1]) // 1024 for line in file if line.startswith("VmHWM"))


def started(folder, config, journal):
    """The service, its port, and how long it took until it answered."""
    port = free_port()
    with open(f"{folder}/config.json", "w") as it:
        json.dump(config, it)
    words = [PROGRAM, "serve", "--config", f"{folder}/config.json", "--listen", f"127.0.0.1:{port}", "--journal", journal]
    began = time.monotonic()
    it = subprocess.Popen(words, stderr=subprocess.DEVNULL)
    while True:
        try:
            get(port, "/-/healthy")
            return it, port, time.monotonic() - began
        except OSError:
            if it.poll() is not None:
                sys.exit("the service does not start")
            time.sleep(0.005)


CONFIG = {
    "scrape_configs": [{"job_name": "node", "static_configs": [{"targets": [f"h{i}:80" for i in range(64)]}]}],
    "allocator": {"settle": f"{SETTLE}ms", "collectors": [{"name": "a", "reach": [{"allow": True, "test": "any"}]}]},
}


def sealed(lines):
    """The lines with their digests, each of the digest before it and of the line."""
    digest = b"0" * 16
    for line in lines:
        digest = hashlib.sha256(digest + line).hexdigest()[:16].encode()
        yield line + b' "' + digest + b'"\n'


def plain(file):
    """A file's lines without their digests."""
    return [line.rpartition(b' "')[0] for line in file.read().splitlines()]


def long_journals(folder):
    """Journals as the service writes them, of takes and of reports: its own beginning, and behind it so many lines more."""
    journal = f"{folder}/journal"
    it, port, _ = started(folder, CONFIG, journal)
    while "h63:80" not in get(port, "/jobs/node/targets"):
        time.sleep(0.05)
    it.kill()
    it.wait()
    with open(journal, "rb") as file:
        front = plain(file)
    take = b'{"event":"take","collector":1}'
    report = '{{"event":"report","collector":1,"number":1,"target":{},"round":{},"up":true,"samples":900}}'
    lines = [take]
    for i in range(EVENTS):
        if i % 65 == 64:
            lines.append(b'{"event":"round"}')
        else:
            lines.append(report.format(i % 65, i // 65 + 1).encode())
    for name, more in (("takes", [take] * EVENTS), ("a round of reports, and the next round", lines)):
        with open(journal, "wb") as file:
            file.writelines(sealed(front + more))
        it, port, seconds = started(folder, CONFIG, journal)
        total = next(line for line in get(port, "/metrics").split("\n") if line.startswith("allocd_samples_booked_total"))
        print(f"| {name} | {os.path.getsize(journal) / 1e6:.0f} | {seconds:.2f} | {EVENTS / seconds / 1e6:.2f} | {megabytes(it)} | {total.split()[1]} |", flush=True)
        it.kill()
        it.wait()


class Source(http.server.BaseHTTPRequestHandler):
    targets = ["h0:80"]

    def do_GET(self):
        body = json.dumps([{"targets": Source.targets}]).encode()
        self.send_response(200)
        self.send_header("content-type", "application/json")
        self.send_header("content-length", str(len(body)))
        self.end_headers()
        self.wfile.write(body)

    def log_message(self, *_):
        pass


def change_to_list(folder, many):
    """How long it takes from a source's change until a collector is given the new target, in seconds."""
    source = http.server.ThreadingHTTPServer(("127.0.0.1", 0), Source)
    threading.Thread(target=source.serve_forever, daemon=True).start()
    Source.targets = [f"h{i}:80" for i in range(many)]
    config = json.loads(json.dumps(CONFIG))
    url = f"http://127.0.0.1:{source.server_port}/"
    config["scrape_configs"] = [{"job_name": "node", "http_sd_configs": [{"url": url, "refresh_interval": f"{REFRESH}ms"}]}]
    it, port, _ = started(folder, config, f"{folder}/changing")
    seen = []
    for i in range(CHANGES):
        new = f"new{i}:80"
        Source.targets = [*Source.targets[1:], new]
        began = time.monotonic()
        while f'"{new}"' not in get(port, "/jobs/node/targets?collector_id=a"):
            time.sleep(0.005)
        seen.append(time.monotonic() - began)
        time.sleep(0.05)
    it.kill()
    it.wait()
    source.shutdown()
    os.remove(f"{folder}/changing")
    print(f"| {many} | {statistics.median(seen[1:]):.2f} | {max(seen[1:]):.2f} |", flush=True)


with tempfile.TemporaryDirectory() as top:
    print(f"A start over a journal of {EVENTS} events")
    print("| of | MB on disk | seconds | million events a second | MB at the most | samples |")
    print("|---|---|---|---|---|---|")
    long_journals(top)
    print(f"From a source's change to a collector's list, seconds ({REFRESH} ms between refreshes, {SETTLE} ms to settle)")
    print("| targets | median | most |")
    print("|---|---|---|")
    for many in (16, 4096):
        change_to_list(top, many)
