#!/usr/bin/env python3
"""What news costs the service, and what is no news: news.py [changes] [PROGRAM ..]     (ALLOCD_PROGRAM, or dist/allocd; `changes`: changed targets alone)

A fleet of 16,384 targets of 16 jobs, from sources over HTTP, and of 256 collectors with the same three rules, or with eight kinds of them by which a collector
reaches some of eight zones. A column for each program, one after the other on one machine: what a changed target costs, a refresh of one source of all targets, a
list that is asked for, and reports by 32 clients that each wait for their answer, with a journal on the disk, with one where the disk costs nothing, and with
none. What a service takes whose sources list the same is taken off the cost of a change. It needs a C++ compiler and /dev/shm."""

import http.client
import http.server
import json
import os
import re
import subprocess
import sys
import tempfile
import threading
import time

ROOT = os.path.dirname(os.path.dirname(os.path.abspath(__file__)))
sys.path.insert(0, f"{ROOT}/scripts")

import allocd_service
from allocd_service import Service, comes

JOBS, TARGETS, COLLECTORS = 16, 16_384, 256
SECONDS, ASKED, ROUNDS = 10, 4_000, 3
ZONES = 8
IS_SHORT = sys.argv[1:2] == ["changes"]
WORDS = sys.argv[2 if IS_SHORT else 1 :]
RULES = [
    {"allow": False, "test": "equals", "label": "zone", "value": "none"},
    {"allow": True, "test": "equals", "label": "zone", "value": "other"},
    {"allow": True, "test": "present", "label": "zone"},
]


def rules_of(number, kinds):
    """The rules of a collector: the same for all, or those of its kind, which leave one zone out."""
    if kinds == 1:
        return RULES
    return [{"allow": False, "test": "equals", "label": "zone", "value": f"z{number % kinds}"}, *RULES[1:]]


class Sources:
    """What the sources list: as many targets each. `changes` says of how many targets the lists were changed so far."""

    def __init__(self, sources, targets):
        self.lists = [[self.group(f"10.{job}.{i // 250}.{i % 250}:9100", i) for i in range(targets // sources)] for job in range(sources)]
        self.changes, self.asked, self.is_moving = 0, 0, False
        of = self

        class Handler(http.server.BaseHTTPRequestHandler):
            protocol_version = "HTTP/1.1"

            def do_GET(self):
                of.asked += 1
                if of.is_moving:
                    of.change()
                body = ("[" + ",".join(of.lists[int(self.path[1:])]) + "]").encode()
                self.send_response(200)
                self.send_header("content-type", "application/json")
                self.send_header("content-length", str(len(body)))
                self.end_headers()
                self.wfile.write(body)

            def log_message(self, *_):
                pass

        self.server = http.server.ThreadingHTTPServer(("127.0.0.1", 0), Handler)
        self.server.handle_error = lambda *_: None
        self.port = self.server.server_address[1]
        threading.Thread(target=self.server.serve_forever, daemon=True).start()

    def group(self, target, number):
        return json.dumps({"targets": [target], "labels": {"zone": f"z{number % ZONES}"}})

    def change(self):
        """A target of the next job goes, and another one comes."""
        job = self.changes % len(self.lists)
        self.lists[job].pop(0)
        self.lists[job].append(self.group(f"new{self.changes}:9100", self.changes))
        self.changes += 1


def processor_seconds(service):
    with open(f"/proc/{service.it.pid}/stat") as it:
        fields = it.read().rpartition(")")[2].split()
    return (int(fields[11]) + int(fields[12])) / os.sysconf("SC_CLK_TCK")


def running(folder, config, journal=None):
    """A service in which all targets are given to collectors."""
    os.makedirs(folder)
    it = Service(folder, config, journal, {"MALLOC_ARENA_MAX": "1"})
    if not it.is_up() or not comes(lambda: covered(it) == TARGETS, 120):
        sys.exit("the service does not give all targets")
    time.sleep(2)
    return it


def covered(service):
    text = service.ask("GET", "/metrics")[1] or ""
    return sum(int(float(it)) for it in re.findall(r"^allocd_targets_covered\{[^}]*\} (\S+)$", text, re.M))


def ended(service):
    service.it.kill()
    service.it.wait()


def job(name, port, path, more=None):
    return {"job_name": name, "http_sd_configs": [{"url": f"http://127.0.0.1:{port}/{path}", "refresh_interval": "1s"}], **(more or {})}


def changed_targets(folder, kinds):
    """A change: bytes of the journal, kilobytes of memory, processor milliseconds."""
    sources = Sources(JOBS, TARGETS)
    configs = [job(f"job-{i}", sources.port, i, {"target_limit": 2 * TARGETS // JOBS // COLLECTORS}) for i in range(JOBS)]
    config = {"scrape_configs": configs, "allocator": {"settle": "0", "collectors": [{"name": f"c{i}", "reach": rules_of(i, kinds)} for i in range(COLLECTORS)]}}
    it = running(folder, config, f"{folder}.journal")
    try:
        idle = spent_in(it, SECONDS, lambda: None)
        spent_in(it, 3, sources.change)
        size, memory = os.path.getsize(f"{folder}.journal"), it.memory()
        spent = spent_in(it, SECONDS, sources.change)
        return (os.path.getsize(f"{folder}.journal") - size) / SECONDS, (it.memory() - memory) / SECONDS, 1000 * (spent - idle) / SECONDS
    finally:
        ended(it)


def spent_in(service, seconds, call):
    """Processor seconds of a service in these seconds, in each of which there is a call."""
    before = processor_seconds(service)
    for _ in range(seconds):
        call()
        time.sleep(1)
    return processor_seconds(service) - before


def refreshed(folder, is_moving):
    """Processor milliseconds of a refresh of one source of all targets."""
    sources = Sources(1, TARGETS)
    sources.is_moving = is_moving
    config = {"scrape_configs": [job("node", sources.port, 0)], "allocator": {"settle": "0", "collectors": [{"name": "a", "reach": [{"allow": True, "test": "any"}]}]}}
    it = running(folder, config)
    try:
        asked, spent = sources.asked, spent_in(it, SECONDS, lambda: None)
        return 1000 * spent / (sources.asked - asked)
    finally:
        ended(it)


def static_jobs():
    return [{"job_name": "node", "static_configs": [{"targets": [f"10.0.{i // 250}.{i % 250}:9100" for i in range(TARGETS)]}]}, {"job_name": "none", "static_configs": []}]


def one_collector():
    return {"settle": "0", "collectors": [{"name": "a", "reach": [{"allow": True, "test": "any"}]}]}


def asked_for(folder):
    """Bytes that are kept of a list that is asked for: one of a job without targets, by a collector that holds all of another job."""
    it = running(folder, {"scrape_configs": static_jobs(), "allocator": one_collector()})
    try:
        client = http.client.HTTPConnection("127.0.0.1", it.port, timeout=60)

        def ask():
            client.request("GET", "/jobs/none/targets?collector_id=a")
            client.getresponse().read()

        ask()
        memory = it.memory()
        for _ in range(ASKED):
            ask()
        return 1024 * (it.memory() - memory) / ASKED
    finally:
        ended(it)


def reports_a_second(folder, client, journal):
    """Reports a second by 32 clients, the middle one of some rounds of all targets."""
    config = {"global": {"scrape_interval": "10s"}, "scrape_configs": static_jobs(), "allocator": one_collector()}
    it = running(folder, config, journal)
    try:
        rates, last = [], None
        while len(rates) < ROUNDS:
            taker = http.client.HTTPConnection("127.0.0.1", it.port, timeout=60)
            taker.request("GET", "/jobs/node/targets?collector_id=a")
            said = taker.getresponse()
            said.read()
            taker.close()
            number, opened, collector, epoch = (said.getheader(name) for name in ("x-allocation-number", "x-scrape-round", "x-collector", "x-allocator-epoch"))
            if opened == last:
                time.sleep(0.02)
                continue
            last = opened
            told = subprocess.run([client, str(it.port), "32", str(TARGETS), collector, number, opened, epoch or "0"], capture_output=True, text=True, check=True).stdout.split()
            if int(told[0]) < TARGETS:
                sys.exit(f"only {told[0]} of {TARGETS} reports were booked")
            rates.append(TARGETS / float(told[1]))
        return sorted(rates)[ROUNDS // 2]
    finally:
        ended(it)


def measured(top, program, reports):
    """Figures by their names, each told as soon as it is there."""
    allocd_service.PROGRAM = program
    for kinds in (1, 8):
        journal, memory, spent = changed_targets(f"{top}/changed{kinds}", kinds)
        rules = "one kind of rules" if kinds == 1 else f"{kinds} kinds of rules"
        yield f"a changed target, {rules}: processor milliseconds", spent
        yield f"a changed target, {rules}: kilobytes of the journal", journal / 1000
        yield f"a changed target, {rules}: kilobytes of memory", memory
    if IS_SHORT:
        return
    yield "a refresh of a list that is the same: processor milliseconds", refreshed(f"{top}/same", False)
    yield "a refresh of a list with another target: processor milliseconds", refreshed(f"{top}/moving", True)
    yield "a list that is asked for: bytes kept", asked_for(f"{top}/asked")
    yield "reports a second, journal on disk", reports_a_second(f"{top}/disk", reports, f"{top}/disk.journal")
    with tempfile.TemporaryDirectory(dir="/dev/shm") as free:
        yield "reports a second, where the disk costs nothing", reports_a_second(f"{top}/free", reports, f"{free}/journal")
    yield "reports a second, no journal", reports_a_second(f"{top}/none", reports, None)


def main():
    programs = [os.path.abspath(it) for it in WORDS] or [allocd_service.PROGRAM]
    columns = []
    with tempfile.TemporaryDirectory() as top:
        reports = f"{top}/reports"
        subprocess.run(["g++", "-O2", "-o", reports, f"{ROOT}/bench/reports.cpp"], check=True)
        for place, program in enumerate(programs):
            folder = f"{top}/{place}"
            os.makedirs(folder)
            columns.append({})
            for name, figure in measured(folder, program, reports):
                columns[-1][name] = figure
                print(f"{os.path.basename(program)}: {name}: {figure:,.1f}", file=sys.stderr, flush=True)
    print("| | " + " | ".join(os.path.basename(it) for it in programs) + " |")
    print("|---|" + "---|" * len(programs))
    for name in columns[0]:
        print(f"| {name} | " + " | ".join(f"{column[name]:,.1f}" for column in columns) + " |")


if __name__ == "__main__":
    main()
