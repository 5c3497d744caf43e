#!/usr/bin/env python3
"""A day of a fleet that changes, faster than it goes: churn.py [MINUTES [SPEED]]     (60 minutes of the day, 10 times as fast)

16,384 targets of 16 jobs come from sources over HTTP, and in each second of the day one of them goes and another one comes. 256 collectors, with three rules
each, ask for their list of each job each 30 seconds, and report each target that they hold once a minute (collectors.cpp). The service has a journal. Told are
the renewals, the most bytes of the journal's file, the memory, of a long run each four hours, too, and how long a request took, each by itself. As docs/operate/SERVE.md has it, the service is run
with one arena of the C library. It needs the program (ALLOCD_PROGRAM, or dist/allocd) and g++."""

import http.server
import json
import os
import subprocess
import sys
import tempfile
import threading
import time

ROOT = os.path.dirname(os.path.dirname(os.path.abspath(__file__)))
sys.path.insert(0, f"{ROOT}/scripts")

from allocd_service import Service, comes

MINUTES = int(sys.argv[1]) if len(sys.argv) > 1 else 60
SPEED = float(sys.argv[2]) if len(sys.argv) > 2 else 10
COLLECTORS, JOBS, TARGETS = 256, 16, 16_384
# After so many hours each a longer run tells its memory.
EACH_HOURS = 4
EACH = TARGETS // JOBS
REACH = [
    {"allow": False, "test": "equals", "label": "zone", "value": "z9"},
    {"allow": True, "test": "equals", "label": "zone", "value": "z8"},
    {"allow": True, "test": "present", "label": "zone"},
]


class Sources:
    """What the sources of the jobs list."""

    def __init__(self):
        self.lists = [[self.group(job, number) for number in range(EACH)] for job in range(JOBS)]
        self.next = [EACH] * JOBS
        self.changes, self.lock = 0, threading.Lock()
        sources = self

        class Handler(http.server.BaseHTTPRequestHandler):
            protocol_version = "HTTP/1.1"

            def do_GET(self):
                with sources.lock:
                    body = ("[" + ",".join(sources.lists[int(self.path[1:])]) + "]").encode()
                self.send_response(200)
                self.send_header("content-type", "application/json")
                self.send_header("content-length", str(len(body)))
                self.end_headers()
                self.wfile.write(body)

            def log_message(self, *words):
                pass

        self.server = http.server.ThreadingHTTPServer(("127.0.0.1", 0), Handler)
        # (the service ends while a list is on its way)
        self.server.handle_error = lambda *words: None
        self.port = self.server.server_address[1]
        threading.Thread(target=self.server.serve_forever, daemon=True).start()

    def group(self, job, number):
        labels = {"zone": f"z{number % 4}", "pod": f"pod-{job}-{number}"}
        return json.dumps({"targets": [f"10.{job}.{number // 250 % 250}.{number % 250}:{9100 + number // 62500}"], "labels": labels})

    def change(self):
        """The target that is in the list for longest goes, and another one comes."""
        with self.lock:
            job = self.changes % JOBS
            self.lists[job].pop(0)
            self.lists[job].append(self.group(job, self.next[job]))
            self.next[job] += 1
            self.changes += 1

    def churn(self, until):
        began = time.monotonic()
        while time.monotonic() < until:
            while self.changes < (time.monotonic() - began) * SPEED:
                self.change()
            time.sleep(0.005)


def megabytes(pid, what):
    with open(f"/proc/{pid}/status") as file:
        return next(int(line.split()[1]) // 1024 for line in file if line.startswith(what))


def renewals_in(log):
    with open(log) as file:
        return sum('the allocator is renewed"' in line for line in file)


def main():
    sources = Sources()
    configs = [
        {
            "job_name": f"job-{job}",
            "target_limit": 2 * EACH // COLLECTORS,
            "http_sd_configs": [{"url": f"http://127.0.0.1:{sources.port}/{job}", "refresh_interval": "1s"}],
        }
        for job in range(JOBS)
    ]
    collectors = [{"name": f"c{i}", "reach": REACH} for i in range(COLLECTORS)]
    interval = f"{max(1, round(60 / SPEED))}s"
    config = {"global": {"scrape_interval": interval}, "scrape_configs": configs, "allocator": {"settle": "0", "keep": 2, "collectors": collectors}}
    with tempfile.TemporaryDirectory() as top:
        collectors_program = f"{top}/collectors"
        subprocess.run(["g++", "-O2", "-o", collectors_program, f"{ROOT}/bench/collectors.cpp"], check=True)
        os.environ.setdefault("MALLOC_ARENA_MAX", "1")
        service = Service(top, config, f"{top}/journal")
        if not service.is_up() or not comes(lambda: (service.figure("allocd_allocation") or 0) >= 1, 120):
            sys.exit("the service gives no allocation")
        time.sleep(2)
        until = time.monotonic() + 60 * MINUTES / SPEED
        clients = subprocess.Popen([collectors_program, str(service.port), str(MINUTES), str(SPEED), str(COLLECTORS), str(JOBS)], stdout=subprocess.PIPE, text=True)
        churn = threading.Thread(target=sources.churn, args=(until,))
        churn.start()
        most, told_at = 0, EACH_HOURS * 3_600
        if MINUTES >= 60 * EACH_HOURS:
            print("| hours | renewals | MB of the journal, most | MB now | MB at the most |\n|---|---|---|---|---|", flush=True)
        while time.monotonic() < until:
            most = max(most, os.path.getsize(f"{top}/journal"))
            if sources.changes >= told_at:
                cells = [told_at // 3_600, renewals_in(f"{top}/log"), f"{most / 1e6:.1f}", megabytes(service.it.pid, "VmRSS"), megabytes(service.it.pid, "VmHWM")]
                print("| " + " | ".join(str(it) for it in cells) + " |", flush=True)
                told_at += EACH_HOURS * 3_600
            time.sleep(0.05)
        churn.join()
        told = clients.communicate()[0].split()
        with open(f"{top}/log") as log:
            lines = log.read()
        print("| minutes | changes | lists | reports | booked | refused | cut | allocations | renewals | MB of the journal, most | MB now | MB at the most | 50 %, ms | 99 % | 99.9 % | longest | behind, ms |")
        print("|" + "---|" * 17)
        row = [MINUTES, sources.changes, *told[:5], lines.count("allocation published"), renewals_in(f"{top}/log"), f"{most / 1e6:.1f}"]
        row += [megabytes(service.it.pid, "VmRSS"), megabytes(service.it.pid, "VmHWM"), *told[5:]]
        print("| " + " | ".join(str(it) for it in row) + " |", flush=True)
        service.it.kill()
        service.it.wait()


if __name__ == "__main__":
    main()
