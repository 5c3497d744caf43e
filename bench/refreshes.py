#!/usr/bin/env python3
"""What a refresh of a discovery source costs the service: refreshes.py [TARGETS [REFRESHES]]

A source lists so many targets (16,384), and is asked each second. A row for a list that is always the same, and one for a list of which one target is another
in each refresh: processor milliseconds a refresh, those of a service whose source lists nothing taken off. It needs the program (ALLOCD_PROGRAM, or
dist/allocd)."""

import http.server
import json
import os
import sys
import tempfile
import threading
import time

ROOT = os.path.dirname(os.path.dirname(os.path.abspath(__file__)))
sys.path.insert(0, f"{ROOT}/scripts")

from allocd_service import Service, comes

WORDS = [int(word) for word in sys.argv[1:]] + [None] * 2
TARGETS, REFRESHES = (given or usual for given, usual in zip(WORDS, (16_384, 20)))


class Source(http.server.BaseHTTPRequestHandler):
    """So many targets. The first one has the number of the refresh where `changes` says so."""

    protocol_version = "HTTP/1.1"
    targets, changes, asked = 0, False, 0

    def do_GET(self):
        Source.asked += 1
        named = [f"10.0.{i // 250}.{i % 250}:9100" for i in range(Source.targets)]
        if Source.changes:
            named[0] = f"first{Source.asked}:9100"
        body = json.dumps([{"targets": named, "labels": {"zone": "east"}}] if named else []).encode()
        self.send_response(200)
        self.send_header("content-type", "application/json")
        self.send_header("content-length", str(len(body)))
        self.end_headers()
        self.wfile.write(body)

    def log_message(self, *_):
        pass


def processor_seconds(pid):
    with open(f"/proc/{pid}/stat") as it:
        fields = it.read().rpartition(")")[2].split()
    return (int(fields[11]) + int(fields[12])) / os.sysconf("SC_CLK_TCK")


def cost(folder, source, targets, changes):
    """Processor milliseconds a refresh, behind the first few."""
    Source.targets, Source.changes, Source.asked = targets, changes, 0
    os.makedirs(folder)
    config = {
        "scrape_configs": [{"job_name": "node", "http_sd_configs": [{"url": f"http://127.0.0.1:{source}/", "refresh_interval": "1s"}]}],
        "allocator": {"settle": "0", "lifecycle": True, "collectors": [{"name": "a", "reach": [{"allow": True, "test": "any"}]}]},
    }
    it = Service(folder, config, None)
    try:
        if not it.is_up() or not comes(lambda: Source.asked >= 4, 30):
            sys.exit("the source is not asked")
        began, before = Source.asked, processor_seconds(it.it.pid)
        if not comes(lambda: Source.asked >= began + REFRESHES, 5 * REFRESHES):
            sys.exit("the source is not asked each second")
        return 1000 * (processor_seconds(it.it.pid) - before) / (Source.asked - began)
    finally:
        it.it.kill()
        it.it.wait()


def main():
    server = http.server.ThreadingHTTPServer(("127.0.0.1", 0), Source)
    server.handle_error = lambda *_: None
    threading.Thread(target=server.serve_forever, daemon=True).start()
    port = server.server_address[1]
    with tempfile.TemporaryDirectory() as folder:
        os.chmod(folder, 0o755)
        idle = cost(f"{folder}/idle", port, 0, False)
        print("| a refresh of | processor, ms |")
        print("|---|---|")
        for name, changes in (("an unchanged list", False), ("a list of which one target is another", True)):
            print(f"| {name} of {TARGETS:,} | {cost(f'{folder}/{changes}', port, TARGETS, changes) - idle:.1f} |", flush=True)


main()
