#!/usr/bin/env python3
"""Memory over a day of a full fleet, as fast as it goes: day.py [HOURS [INTERVAL]]     (24 hours, a round each 2s)

16,384 targets and 256 collectors. In each round of a minute each collector asks for its list once, and each target is reported once by
its holder. The service keeps a journal and renews itself when that is full. As docs/operate/SERVE.md has it, it is run with one arena of the C
library; MALLOC_ARENA_MAX says another number. It needs the program (ALLOCD_PROGRAM, or dist/allocd)."""

import http.client
import json
import os
import re
import socket
import subprocess
import sys
import tempfile
import threading
import time

ROOT = os.path.dirname(os.path.dirname(os.path.abspath(__file__)))
PROGRAM = os.environ.get("ALLOCD_PROGRAM", f"{ROOT}/dist/allocd")
HOURS = float(sys.argv[1]) if len(sys.argv) > 1 else 24
INTERVAL = sys.argv[2] if len(sys.argv) > 2 else "2s"
TARGETS, COLLECTORS, CONNECTIONS = 16_384, 256, 16
VERSION = b"HTTP/1.1 "


def free_port():
    with socket.socket() as it:
        it.bind(("127.0.0.1", 0))
        return it.getsockname()[1]


def get(port, path):
    it = http.client.HTTPConnection("127.0.0.1", port, timeout=60)
    try:
        it.request("GET", path)
        return it.getresponse().read().decode()
    finally:
        it.close()


def figure(port, name):
    text = get(port, "/metrics")
    return int(re.search(rf"^{name} (\d+)$", text, re.M)[1])


def megabytes(it, what):
    with open(f"/proc/{it.pid}/status") as file:
        return next(int(line.split()[1]) // 1024 for line in file if line.startswith(what))


class Client:
    """A connection on which requests are sent many at once."""

    def __init__(self, port):
        self.port, self.it = port, None

    def send(self, requests):
        """The answers, each from behind its version on; fewer where the connection ended."""
        data = b""
        try:
            if self.it is None:
                self.it = socket.create_connection(("127.0.0.1", self.port), timeout=60)
            self.it.sendall(b"".join(requests))
            while data.count(VERSION) < len(requests) or not is_whole(data):
                more = self.it.recv(1 << 20)
                if not more:
                    self.it = None
                    break
                data += more
        except OSError:
            self.it = None
        return data.split(VERSION)[1:]


def is_whole(data):
    """Whether the last answer has its head and its body."""
    head, blank, body = data[data.rindex(VERSION) :].partition(b"\r\n\r\n")
    return blank and len(body) >= int(re.search(rb"content-length: (\d+)", head)[1])


def take(name):
    return f"GET /jobs/node/targets?collector_id={name} HTTP/1.1\r\nhost: localhost\r\n\r\n".encode()


def report(collector, number, target, round_):
    body = f'{{"collector":{collector},"number":{number},"target":{target},"round":{round_},"up":true,"samples":900}}'
    return f"POST /reports HTTP/1.1\r\nhost: localhost\r\ncontent-type: application/json\r\ncontent-length: {len(body)}\r\n\r\n{body}".encode()


def round_of(port, ids, done, lock):
    """A round of the collectors of one connection: their lists, and then their reports."""
    client = Client(port)
    for name, collector in ids:
        answers = client.send([take(name)])
        if not answers or not answers[0].startswith(b"200 "):
            continue
        head, _, body = answers[0].partition(b"\r\n\r\n")
        number = int(re.search(rb"x-allocation-number: (\d+)", head)[1])
        open_round = int(re.search(rb"x-scrape-round: (\d+)", head)[1])
        held = [int(it) for it in re.findall(rb'"__meta_allocator_target":"(\d+)"', body)]
        answers = client.send([report(collector, number, it, open_round) for it in held])
        booked = sum(b"Booked" in it for it in answers)
        with lock:
            done["lists"] += 1
            done["reports"] += len(held)
            done["booked"] += booked


with tempfile.TemporaryDirectory() as top:
    groups = [{"targets": [f"10.0.{i // 250}.{i % 250}:9100" for i in range(TARGETS)]}]
    collectors = [{"name": f"c{i}", "reach": [{"allow": True, "test": "any"}]} for i in range(COLLECTORS)]
    config = {
        "global": {"scrape_interval": INTERVAL},
        "scrape_configs": [{"job_name": "node", "target_limit": TARGETS // COLLECTORS, "static_configs": groups}],
        "allocator": {"settle": "0", "keep": 2, "collectors": collectors},
    }
    with open(f"{top}/config.json", "w") as it:
        json.dump(config, it)
    port = free_port()
    words = [PROGRAM, "serve", "--config", f"{top}/config.json", "--listen", f"127.0.0.1:{port}", "--journal", f"{top}/journal"]
    log = open(f"{top}/log", "w")
    service = subprocess.Popen(words, stderr=log, env={"MALLOC_ARENA_MAX": "1", **os.environ})
    while True:
        try:
            if figure(port, "allocd_allocation") >= 1:
                break
        except (OSError, TypeError):
            pass
        if service.poll() is not None:
            sys.exit("the service does not start")
        time.sleep(0.1)
    ids = [(f"c{i}", i + 1) for i in range(COLLECTORS)]
    done, lock, began = {"lists": 0, "reports": 0, "booked": 0}, threading.Lock(), time.monotonic()
    print("| hours | reports | booked | renewals | entries | MB now | MB at the most | seconds |")
    print("|---|---|---|---|---|---|---|---|")
    rounds, last = int(HOURS * 60), 0
    step = max(1, rounds // 12)
    for i in range(rounds):
        while True:
            try:
                now = figure(port, "allocd_round")
                if now != last:
                    break
            except (OSError, TypeError):
                pass
            time.sleep(0.01)
        last = now
        threads = [threading.Thread(target=round_of, args=(port, ids[k::CONNECTIONS], done, lock)) for k in range(CONNECTIONS)]
        for it in threads:
            it.start()
        for it in threads:
            it.join()
        if (i + 1) % step == 0:
            with open(f"{top}/log") as it:
                renewals = it.read().count("the allocator is renewed\"")
            try:
                entries = figure(port, "allocd_journal_entries")
            except (OSError, TypeError):
                entries = "-"
            print(f"| {(i + 1) / 60:.1f} | {done['reports']} | {done['booked']} | {renewals} | {entries} | {megabytes(service, 'VmRSS')} | {megabytes(service, 'VmHWM')} | {time.monotonic() - began:.0f} |", flush=True)
    service.kill()
    service.wait()
