#!/usr/bin/env python3
"""Requests to `allocd serve` beside nginx, which gives the same bytes from a file: serve_http.py [SECONDS [TURNS [PART ..]]]

Parts: rates (requests a second, latencies and processor time with 1, 32, 256 and 2,000 connections, by turns of so many seconds each, of which the middle one
counts), bare (the same of a program that has the event loops and hyper alone, beside nginx: bare_server.sh), strangers (a good client beside idle and slow ones),
memory (64 of the largest pages at once). It needs Debian's packages wrk and nginx-light, and the program (ALLOCD_PROGRAM, or dist/allocd)."""

import contextlib
import http.client
import json
import os
import re
import statistics
import subprocess
import sys
import tempfile
import threading
import time

ROOT = os.path.dirname(os.path.dirname(os.path.abspath(__file__)))
sys.path.insert(0, f"{ROOT}/scripts")

from allocd_service import Service, comes, free_port
from try_connections import HALF_BODY, HALF_HEAD, Client, Slowly, good_client, more_descriptors

WORDS = sys.argv[1:]
SECONDS = int(WORDS.pop(0)) if WORDS and WORDS[0].isdigit() else 5
TURNS = int(WORDS.pop(0)) if WORDS and WORDS[0].isdigit() else 3
CONNECTIONS = (1, 32, 256, 2000)
LIST = "/jobs/node/targets?collector_id=a"
ANY = [{"allow": True, "test": "any"}]


def get(port, path):
    it = http.client.HTTPConnection("127.0.0.1", port, timeout=60)
    try:
        it.request("GET", path)
        return it.getresponse().read()
    finally:
        it.close()


def processor_seconds(pids):
    ticks = 0
    for pid in pids:
        with open(f"/proc/{pid}/stat") as it:
            fields = it.read().rpartition(")")[2].split()
        ticks += int(fields[11]) + int(fields[12])
    return ticks / os.sysconf("SC_CLK_TCK")


def megabytes(pid, what):
    with open(f"/proc/{pid}/status") as it:
        return next(int(line.split()[1]) for line in it if line.startswith(what)) / 1024


class Turn:
    """What wrk saw of a server for so many seconds, and the server's processor time."""

    def __init__(self, pids, port, path, connections):
        words = ["wrk", "--latency", "--timeout", "30s", f"-t{min(2, connections)}", f"-c{connections}", f"-d{SECONDS}s", f"http://127.0.0.1:{port}{path}"]
        before = processor_seconds(pids)
        said = subprocess.run(words, capture_output=True, text=True).stdout
        took = processor_seconds(pids) - before
        self.rate = float(re.search(r"Requests/sec:\s*([\d.]+)", said)[1])
        self.middle, self.most = (milliseconds(re.search(rf"^ +{part}%\s+(\S+)", said, re.M)[1]) for part in (50, 99))
        self.each = 1e6 * took / max(1, int(re.search(r"(\d+) requests in", said)[1]))
        self.wrong = " ".join(re.findall(r"Socket errors.*|Non-2xx.*", said))


def milliseconds(text):
    number, unit = re.match(r"([\d.]+|-?nan)(us|ms|s|m)", text).groups()
    return float(number) * {"us": 0.001, "ms": 1, "s": 1000, "m": 60000}[unit]


@contextlib.contextmanager
def service(folder, targets, journal=False, collectors=("a",), jobs=("node",)):
    """A service whose first collector has all targets of the job, or as many as there are, evenly."""
    os.makedirs(folder)
    each = targets // len(jobs)
    configs = []
    for job in jobs:
        configs.append({"job_name": job, "static_configs": [{"targets": [f"10.0.{i // 250}.{i % 250}:9100" for i in range(each)]}]})
    allocator = {"settle": "0", "lifecycle": True, "collectors": [{"name": name, "reach": ANY} for name in collectors]}
    it = Service(folder, {"scrape_configs": configs, "allocator": allocator}, f"{folder}/journal" if journal else None)
    try:
        if not it.is_up() or not comes(lambda: it.figure("allocd_allocation") == 1):
            sys.exit("the service gives no allocation")
        yield it
    finally:
        it.it.kill()
        it.it.wait()


@contextlib.contextmanager
def nginx(folder, pages):
    """As many workers as the service has loops, and these pages by name. It keeps no log, and no files open."""
    port = free_port()
    os.makedirs(f"{folder}/pages")
    for name, page in pages.items():
        with open(f"{folder}/pages/{name}", "wb") as it:
            it.write(page)
    with open(f"{folder}/nginx.conf", "w") as it:
        it.write(f"""
worker_processes 4; worker_rlimit_nofile 16384; pid {folder}/nginx.pid; error_log {folder}/nginx.log; daemon off;
events {{ worker_connections 8192; }}
http {{ access_log off; default_type application/json; keepalive_requests 1000000000; sendfile on; tcp_nopush on;
  server {{ listen 127.0.0.1:{port} backlog=4096; root {folder}/pages; }} }}
""")
    it = subprocess.Popen(["nginx", "-c", f"{folder}/nginx.conf"], stderr=subprocess.DEVNULL)
    try:
        time.sleep(1)
        with open(f"/proc/{it.pid}/task/{it.pid}/children") as children:
            yield port, [it.pid, *map(int, children.read().split())]
    finally:
        it.terminate()
        it.wait()


def rates_of(name, ours, theirs, path, page, size, counts=CONNECTIONS):
    """Rows of a page, each with as many turns of both, one after the other."""
    (pid, port), (peers, static) = ours, theirs
    for count in counts:
        own, other = [], []
        for _ in range(TURNS):
            own.append(Turn([pid], port, path, count))
            other.append(Turn(peers, static, page, count))
        middle = lambda turns, what: statistics.median(getattr(it, what) for it in turns)
        cells = [str(name), f"{count:,}", f"{size:,}"]
        for turns in (own, other):
            cells += [f"{middle(turns, 'rate'):,.0f}", f"{middle(turns, 'middle'):.2f}", f"{middle(turns, 'most'):.1f}", f"{middle(turns, 'each'):,.1f}"]
        cells += [f"{middle(own, 'rate') / middle(other, 'rate'):.2f}", f"{middle(own, 'each') / middle(other, 'each'):.2f}"]
        wrong = " ".join(sorted({f"{who}: {it.wrong}" for who, turns in (("allocd", own), ("nginx", other)) for it in turns if it.wrong}))
        print("| " + " | ".join(cells) + " |", wrong, flush=True)


def bare(top):
    """Rows of what answers each request alike, with as many bytes and fields as the jobs and a list have."""
    print("| fields beside those of hyper | connections | bytes | loops and hyper, a second | median, ms | 99 %, ms | us each | nginx, a second | median, ms | 99 %, ms | us each | a second, ratio | us, ratio |")
    print("|---|---|---|---|---|---|---|---|---|---|---|---|---|")
    sizes = {"small": 10_467, "jobs": 39}
    with nginx(f"{top}/nginx", {name: b"x" * size for name, size in sizes.items()}) as (static, peers):
        for page, fields in (("jobs", 1), ("small", 1), ("small", 12)):
            port = free_port()
            it = subprocess.Popen([os.environ["BARE_SERVER"], str(port), str(sizes[page]), str(fields), "4"])
            time.sleep(1)
            rates_of(fields, (it.pid, port), (peers, static), "/", f"/{page}", sizes[page])
            it.kill()
            it.wait()


def rates(top):
    print("| what | connections | bytes | allocd, a second | median, ms | 99 %, ms | us each | nginx, a second | median, ms | 99 %, ms | us each | a second, ratio | us, ratio |")
    print("|---|---|---|---|---|---|---|---|---|---|---|---|---|")
    with service(f"{top}/small", 64) as small, service(f"{top}/kept", 64, journal=True) as kept, service(f"{top}/large", 16_384) as large:
        pages = {"jobs": get(small.port, "/jobs"), "small": get(small.port, LIST), "large": get(large.port, LIST)}
        with nginx(f"{top}/nginx", pages) as (static, peers):
            rows = (
                ("the jobs", small, "/jobs", "jobs", CONNECTIONS),
                ("a list of 64 that is taken", small, LIST, "small", CONNECTIONS),
                ("the same, each kept in a journal's file", kept, LIST, "small", CONNECTIONS),
                ("a list of 16,384 that is taken", large, LIST, "large", (1, 32, 256)),
            )
            for name, it, path, page, counts in rows:
                rates_of(name, (it.it.pid, it.port), (peers, static), path, f"/{page}", len(pages[page]), counts)


def strangers(top):
    """A good client's times beside others, and what those take of memory and of the processor."""
    print("| beside | 50 %, ms | 99 %, ms | most, ms | answers | MB | processor, % |")
    print("|---|---|---|---|---|---|---|")
    with service(f"{top}/strangers", 16_384) as it:
        size = len(get(it.port, LIST))

        def row(name):
            before, began = processor_seconds([it.it.pid]), time.monotonic()
            times = good_client(it.port, 300, "/jobs")
            share = 100 * (processor_seconds([it.it.pid]) - before) / (time.monotonic() - began)
            figures = " | ".join(f"{1000 * times.at(part):.1f}" for part in (0.5, 0.99, 1))
            print(f"| {name} | {figures} | {len(times.seconds) - len(times.wrong)} of {len(times.seconds)} | {megabytes(it.it.pid, 'VmRSS'):.0f} | {share:.0f} |", flush=True)

        row("nobody")
        idle = []
        for count in (64, 256, 2000):
            while len(idle) < count:
                idle.append(Client(it.port))
                idle[-1].ask("GET", "/-/healthy")
            row(f"{count:,} idle ones")
        for client in idle:
            client.close()
        for name, first, byte in (
            ("256 heads that come a byte a second", HALF_HEAD, b"x"),
            ("256 bodies that come a byte a second", HALF_BODY, b" "),
        ):
            slow = [Client(it.port) for _ in range(256)]
            for client in slow:
                client.it.sendall(first)
            by = Slowly(slow, byte)
            row(name)
            for client in slow:
                client.close()
            by.thread.join()
        unread = [Client(it.port, buffer=4096) for _ in range(64)]
        for client in unread:
            client.send("GET", LIST)
        time.sleep(1)
        row(f"64 that ask for {size:,} bytes and do not read")
        for client in unread:
            client.close()
        readers = subprocess.Popen(["wrk", "-t1", "-c32", "-d20s", f"http://127.0.0.1:{it.port}{LIST}"], stdout=subprocess.DEVNULL)
        time.sleep(1)
        row(f"32 that ask for {size:,} bytes all the time")
        readers.terminate()
        readers.wait()


def memory(top):
    """The most memory of 64 of the largest pages that are asked for at once."""
    print("| page | bytes | MB before | MB with 64 at once, at the most | with 64 that do not read |")
    print("|---|---|---|---|---|")
    names = tuple(f"c{i}" for i in range(256))
    jobs = tuple(f"j{i}" for i in range(16))
    for name, path, more in (
        ("a list of 16,384 that is taken", LIST, {}),
        ("`/jobs/node/targets` of 16,384", "/jobs/node/targets", {}),
        ("the certificate of 16,384 targets and 256 collectors", "/certificate", {"collectors": names, "jobs": jobs}),
    ):
        with service(f"{top}/{len(os.listdir(top))}", 16_384, **more) as it:
            size = len(get(it.port, path))
            before = megabytes(it.it.pid, "VmRSS")
            with open(f"/proc/{it.it.pid}/clear_refs", "w") as most:
                most.write("5")
            threads = [threading.Thread(target=get, args=(it.port, path)) for _ in range(64)]
            for thread in threads:
                thread.start()
            for thread in threads:
                thread.join()
            read = megabytes(it.it.pid, "VmHWM")
            with open(f"/proc/{it.it.pid}/clear_refs", "w") as most:
                most.write("5")
            unread = [Client(it.port, buffer=4096) for _ in range(64)]
            for client in unread:
                client.send("GET", path)
            time.sleep(10)
            print(f"| {name} | {size:,} | {before:.0f} | {read:.0f} | {megabytes(it.it.pid, 'VmHWM'):.0f} |", flush=True)
            for client in unread:
                client.close()


PARTS = {part.__name__: part for part in (rates, bare, strangers, memory)}
more_descriptors(4096)
with tempfile.TemporaryDirectory() as folder:
    os.chmod(folder, 0o755)
    for word in WORDS or ("rates", "strangers", "memory"):
        PARTS[word](folder)
