#!/usr/bin/env python3
"""Three Prometheus servers share six targets by `allocd serve`; one of them is drained and leaves. Tells of each thing whether it holds.

It needs Debian's package prometheus and the program (ALLOCD_PROGRAM, or dist/allocd); it takes about two minutes."""

import collections
import http.client
import http.server
import json
import os
import socket
import subprocess
import sys
import tempfile
import threading
import time
import urllib.parse

ROOT = os.path.dirname(os.path.dirname(os.path.abspath(__file__)))
PROGRAM = os.environ.get("ALLOCD_PROGRAM", f"{ROOT}/dist/allocd")
REFRESH, SCRAPE = 5, 1
failed = 0
scrapes = collections.defaultdict(list)  # of a target's port: when, and by whom


def tell(name, holds, more=""):
    global failed
    failed += not holds
    print(f"{'ok' if holds else 'NOT'}: {name}{': ' + str(more) if more != '' else ''}", flush=True)


class Target(http.server.BaseHTTPRequestHandler):
    def do_GET(self):
        who = urllib.parse.parse_qs(urllib.parse.urlsplit(self.path).query).get("from", ["?"])[0]
        scrapes[self.server.server_port].append((time.monotonic(), who))
        body = b"# TYPE lamps_lit gauge\nlamps_lit 1\n"
        self.send_response(200)
        self.send_header("content-type", "text/plain; version=0.0.4")
        self.send_header("content-length", str(len(body)))
        self.end_headers()
        self.wfile.write(body)

    def log_message(self, *_):
        pass


def free_port():
    with socket.socket() as it:
        it.bind(("127.0.0.1", 0))
        return it.getsockname()[1]


def ask(port, method, path, body=None):
    it = http.client.HTTPConnection("127.0.0.1", port, timeout=10)
    try:
        headers = {} if body is None else {"content-type": "application/json"}
        it.request(method, path, body=None if body is None else json.dumps(body), headers=headers)
        said = it.getresponse()
        return said.status, said.read().decode()
    finally:
        it.close()


def holders(since):
    """Who scraped each target since then."""
    return {port: {who for at, who in all if at >= since} for port, all in scrapes.items()}


def longest_gap(since):
    now, gap = time.monotonic(), 0
    for all in scrapes.values():
        times = [since, *[at for at, _ in all if at >= since], now]
        gap = max(gap, *[b - a for a, b in zip(times, times[1:])])
    return gap


def prometheus(folder, name, allocator):
    port = free_port()
    jobs = f"""
global: {{scrape_interval: {SCRAPE}s}}
scrape_configs:
  - job_name: node
    params: {{from: [{name}]}}
    http_sd_configs:
      - url: http://127.0.0.1:{allocator}/jobs/node/targets?collector_id={name}
        refresh_interval: {REFRESH}s
"""
    if name == "a":
        jobs += f"""
  - job_name: allocd
    static_configs: [{{targets: ["127.0.0.1:{allocator}"]}}]
"""
    os.mkdir(f"{folder}/{name}")
    with open(f"{folder}/{name}/prometheus.yml", "w") as it:
        it.write(jobs)
    log = open(f"{folder}/{name}/log", "wb")
    words = ["prometheus", f"--config.file={folder}/{name}/prometheus.yml", f"--storage.tsdb.path={folder}/{name}/data"]
    words += [f"--web.listen-address=127.0.0.1:{port}"]
    return port, subprocess.Popen(words, stdout=log, stderr=log)


def main(folder):
    servers = [http.server.ThreadingHTTPServer(("127.0.0.1", 0), Target) for _ in range(6)]
    for it in servers:
        threading.Thread(target=it.serve_forever, daemon=True).start()
        scrapes[it.server_port] = []
    everything = [{"allow": True, "test": "any"}]
    config = {
        "scrape_configs": [{"job_name": "node", "target_limit": 3, "static_configs": [{"targets": [f"127.0.0.1:{it.server_port}" for it in servers]}]}],
        "allocator": {"settle": "200ms", "lifecycle": True, "collectors": [{"name": it, "reach": everything} for it in "abc"]},
    }
    with open(f"{folder}/serve.json", "w") as it:
        json.dump(config, it)
    port = free_port()
    log = open(f"{folder}/allocd.log", "wb")
    words = [PROGRAM, "serve", "--config", f"{folder}/serve.json", "--listen", f"127.0.0.1:{port}", "--journal", f"{folder}/journal"]
    service = subprocess.Popen(words, stderr=log)
    time.sleep(1.5)
    peers = [prometheus(folder, name, port) for name in "abc"]
    try:
        time.sleep(2 * REFRESH + 5)
        since = time.monotonic()
        time.sleep(5)
        found = holders(since)
        tell("each target is scraped by exactly one", all(len(it) == 1 for it in found.values()), sorted("".join(it) for it in found.values()))
        status, text = ask(port, "POST", "/collectors/3/drain", {})
        tell("c drains", status == 200, text)
        since = time.monotonic()
        time.sleep(2 * REFRESH + 5)
        tell("while c is emptied no target waits longer than two refreshes", longest_gap(since) <= 2 * REFRESH, f"{longest_gap(since):.1f} seconds at most")
        since = time.monotonic()
        time.sleep(5)
        found = holders(since)
        tell("then a and b scrape all of them, each one of them", all(len(it) == 1 and it <= {"a", "b"} for it in found.values()), sorted("".join(it) for it in found.values()))
        status, text = ask(port, "DELETE", "/collectors/3")
        tell("c leaves", status == 200, text)
        since = time.monotonic()
        time.sleep(2 * REFRESH)
        tell("nothing is scraped twice or by nobody after that", all(len(it) == 1 and it <= {"a", "b"} for it in holders(since).values()))
        _, text = ask(peers[0][0], "GET", "/api/v1/query?query=" + urllib.parse.quote('allocd_targets_covered{job="allocd"}'))
        _, other = ask(peers[0][0], "GET", "/api/v1/query?query=" + urllib.parse.quote('allocd_targets_covered'))
        value = [it["value"][1] for it in json.loads(other)["data"]["result"]]
        tell("Prometheus scrapes the allocator's own metrics", value == ["6"], value)
        with open(f"{folder}/a/log") as it:
            warned = [line for line in it if "level=warn" in line or "level=error" in line]
        tell("without a warning", not warned, "".join(warned[:3]))
        done = subprocess.run([PROGRAM, "replay"], stdin=open(f"{folder}/journal", "rb"), capture_output=True, text=True)
        tell("the journal replays", done.returncode == 0, done.stdout.count("\n"))
        status, _ = ask(port, "POST", "/-/quit")
        tell("the service ends", status == 200 and service.wait(20) == 0)
    finally:
        service.kill()
        for _, it in peers:
            it.terminate()
            it.wait()


with tempfile.TemporaryDirectory() as top:
    main(top)
sys.exit(1 if failed else 0)
