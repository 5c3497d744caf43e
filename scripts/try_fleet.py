#!/usr/bin/env python3
"""Three Prometheus servers share targets by `allocd serve`, their refreshes out of step, and things happen to them. Tells what was scraped by nobody
and what by two, in target-seconds, and whether it is within what docs/operate/SERVE.md says: try_fleet.py [ordered|free] [REFRESH SECONDS]

Each target logs each scrape. A gap is the time after a scrape and the interval in which nobody scrapes a target that is live; a double is the time in which two servers
have it between their first and last scrape. It needs Debian's package prometheus and the program (ALLOCD_PROGRAM, or dist/allocd); it takes about eight minutes."""

import bisect
import collections
import http.server
import json
import os
import signal
import subprocess
import sys
import tempfile
import threading
import time
import urllib.parse

from allocd_service import Service, comes
from parts import tell

ANY = [{"allow": True, "test": "any"}]
JOBS, EACH, INTERVAL = ("alpha", "beta gamma", "delta"), 40, 2
# From a list that is answered to the scrapes that follow it: Prometheus's discovery manager looks each 5 seconds.
FOLLOWS = 5
TIMEOUT, SETTLE = 20, 1


class Log:
    """Of each target who scraped it when."""

    def __init__(self):
        self.lock, self.scrapes = threading.Lock(), collections.defaultdict(list)

    def note(self, target, who):
        with self.lock:
            self.scrapes[target].append((time.monotonic(), who))

    def gaps(self, targets, begin, end):
        """Target-seconds without a scrape beyond the interval, and the longest."""
        found = []
        for target in targets:
            with self.lock:
                times = [at for at, _ in self.scrapes[target]]
            inside = [at for at in times if begin - INTERVAL <= at <= end]
            for one, next_one in zip([begin - INTERVAL, *inside], [*inside, end]):
                found.append(max(0, next_one - one - INTERVAL - 0.6))
        return sum(found), max(found, default=0)

    def doubles(self, targets, begin, end):
        """Target-seconds in which two have a target, and the longest."""
        found = []
        for target in targets:
            with self.lock:
                log = list(self.scrapes[target])
            spans = []
            for who in sorted({who for _, who in log}):
                for at in (at for at, other in log if other == who):
                    if spans and spans[-1][0] == who and at - spans[-1][2] < 3 * INTERVAL:
                        spans[-1][2] = at
                    else:
                        spans.append([who, at, at])
            for i, (who, first, last) in enumerate(spans):
                for other, other_first, other_last in spans[:i]:
                    if who != other:
                        found.append(max(0, min(last, other_last, end) - max(first, other_first, begin)))
        return sum(found), max(found, default=0)


LOG = Log()


class Target(http.server.BaseHTTPRequestHandler):
    protocol_version = "HTTP/1.1"

    def do_GET(self):
        query = urllib.parse.parse_qs(urllib.parse.urlsplit(self.path).query)
        LOG.note(query["target"][0], query["from"][0])
        body = b"lamps_lit 1\n"
        self.send_response(200)
        self.send_header("content-type", "text/plain; version=0.0.4")
        self.send_header("content-length", str(len(body)))
        self.end_headers()
        self.wfile.write(body)

    def log_message(self, *_):
        pass


class Server:
    """A Prometheus server as a collector."""

    def __init__(self, folder, name, port, refresh):
        self.name, self.folder, self.it = name, f"{folder}/{name}", None
        os.mkdir(self.folder)
        jobs = [
            {
                "job_name": job,
                "params": {"from": [name]},
                "http_sd_configs": [{"url": f"http://127.0.0.1:{port}/jobs/{urllib.parse.quote(job)}/targets?collector_id={name}", "refresh_interval": f"{refresh}s"}],
            }
            for job in JOBS
        ]
        config = {"global": {"scrape_interval": f"{INTERVAL}s", "scrape_timeout": "2s"}, "scrape_configs": jobs}
        with open(f"{self.folder}/prometheus.yml", "w") as it:
            json.dump(config, it)

    def start(self):
        arguments = [f"--config.file={self.folder}/prometheus.yml", f"--storage.tsdb.path={self.folder}/data", "--web.listen-address=127.0.0.1:0"]
        self.it = subprocess.Popen(["prometheus", *arguments], stdout=subprocess.DEVNULL, stderr=subprocess.DEVNULL)

    def kill(self):
        self.it.send_signal(signal.SIGKILL)
        self.it.wait()

    def stop(self):
        if self.it and self.it.poll() is None:
            self.it.terminate()
            self.it.wait()


def config(order, address):
    jobs = [
        {
            "job_name": job,
            "static_configs": [{"targets": [address], "labels": {"__param_target": f"{job}{i}", "instance": f"{job}{i}"}} for i in range(EACH)],
        }
        for job in JOBS
    ]
    allocator = {
        "settle": f"{SETTLE}s",
        "handover": order,
        "collector_timeout": f"{TIMEOUT}s",
        "lifecycle": True,
        "collectors": [{"name": name, "reach": ANY, "limits": {job: 20 for job in JOBS}} for name in "abc"],
    }
    return {"scrape_configs": jobs, "allocator": allocator}


class Fleet:
    def __init__(self, folder, order, refresh):
        self.order, self.refresh = order, refresh
        it = http.server.ThreadingHTTPServer(("127.0.0.1", 0), Target)
        threading.Thread(target=it.serve_forever, daemon=True).start()
        self.service = Service(folder, config(order, f"127.0.0.1:{it.server_port}"), f"{folder}/journal")
        self.service.is_up()
        self.servers = {name: Server(folder, name, self.service.port, refresh) for name in "abc"}
        self.targets = [f"{job}{i}" for job in JOBS for i in range(EACH)]
        self.ids = {name: i + 1 for i, name in enumerate("abc")}

    def busiest(self):
        held = {name: sum(len(json.loads(self.service.ask("GET", f"/jobs/{urllib.parse.quote(job)}/targets")[1]).get(name, {"targets": []})["targets"]) for job in JOBS) for name in "abc"}
        return max(sorted(held), key=held.get)

    def event(self, name, act, seconds, most_gap, most_double):
        """What comes of something, in so many seconds, and that no gap and no double is longer than it may be."""
        begin = time.monotonic()
        act()
        time.sleep(seconds)
        end = time.monotonic()
        gap, longest_gap = LOG.gaps(self.targets, begin, end)
        double, longest_double = LOG.doubles(self.targets, begin, end)
        shown = f"gaps {gap:.0f} target-seconds, {longest_gap:.1f} at most; doubles {double:.0f}, {longest_double:.1f} at most"
        tell(f"{self.order}, {self.refresh} s: {name}", longest_gap <= most_gap and longest_double <= most_double, shown)


def tried(folder, order, refresh):
    fleet = Fleet(folder, order, refresh)
    ask = fleet.service.ask
    step = refresh + FOLLOWS
    # A scrape that is under way when its list is answered is one more.
    double = INTERVAL + 0.5 if order == "ordered" else step
    try:
        for server in fleet.servers.values():
            server.start()
            time.sleep(refresh / 3 + 0.5)
        comes(lambda: all(LOG.scrapes[target] for target in fleet.targets), 60)
        time.sleep(step)
        fleet.event("nothing happens", lambda: None, 15, 1, 0)
        one = fleet.busiest()
        fleet.event(f"{one} drains", lambda: ask("POST", f"/collectors/{fleet.ids[one]}/drain"), 2 * step + SETTLE + 5, 2 * step, double)
        fleet.event(f"{one} leaves, and joins anew by asking", lambda: ask("DELETE", f"/collectors/{fleet.ids[one]}"), 2 * step + 5, 2 * step, double)
        two = fleet.busiest()
        fleet.event(f"{two} leaves without a drain, and its server goes on", lambda: ask("DELETE", f"/collectors/{fleet.ids[two]}"), 2 * step + SETTLE + 5, 2 * step, double)
        three = fleet.servers[fleet.busiest()]
        fleet.event(f"the server of {three.name} is killed", three.kill, 2 * TIMEOUT + 2 * step + SETTLE + 5, TIMEOUT + SETTLE + 2 * step + 5, double)
        fleet.event(f"it is back", three.start, 2 * step + 5, 2 * step, double)
        fleet.event("the allocator is killed, and back after 10 seconds", lambda: again(fleet), 2 * step, 2 * step, double)
    finally:
        for server in fleet.servers.values():
            server.stop()
        fleet.service.quit()


def again(fleet):
    fleet.service.it.kill()
    fleet.service.it.wait()
    time.sleep(10)
    with open(f"{fleet.service.folder}/log", "ab") as log:
        fleet.service.it = subprocess.Popen(fleet.service.it.args, stderr=log, stdout=subprocess.DEVNULL)
    fleet.service.is_up()


if __name__ == "__main__":
    order = sys.argv[1] if len(sys.argv) > 1 else "ordered"
    with tempfile.TemporaryDirectory() as made:
        tried(made, order, int(sys.argv[2]) if len(sys.argv) > 2 else 5)
