#!/usr/bin/env python3
"""A renewal of a full fleet by the service, and a start from what it leaves: renewal.py [RUNS]     (5)

16,384 targets of 16 jobs are live and held by 256 collectors, and three reloads put others in their place, until 65,535 are known and the service renews its
allocator. Meanwhile a client asks for a list and for the jobs, one after the other. Then the service is started over the journal that begins with the history.
It needs the program (ALLOCD_PROGRAM, or dist/allocd)."""

import datetime
import json
import os
import sys
import tempfile
import threading
import time

ROOT = os.path.dirname(os.path.dirname(os.path.abspath(__file__)))
sys.path.insert(0, f"{ROOT}/scripts")

from allocd_service import Service, ask, comes

RUNS = int(sys.argv[1]) if len(sys.argv) > 1 else 5
COLLECTORS, JOBS, TARGETS = 256, 16, 16_384
EACH = TARGETS // JOBS
WAVES = (TARGETS, TARGETS, TARGETS - 1, TARGETS)
REACHES = {
    "one rule that all targets meet": [{"allow": True, "test": "any"}],
    "three rules": [
        {"allow": False, "test": "equals", "label": "zone", "value": "z9"},
        {"allow": True, "test": "equals", "label": "zone", "value": "z8"},
        {"allow": True, "test": "present", "label": "zone"},
    ],
}


def configuration(wave, reach):
    """The configuration of a wave: no two waves have a target in common."""
    configs = []
    for j in range(JOBS):
        count = min(EACH, WAVES[wave] - j * EACH)
        groups = [{"labels": {"zone": f"z{z}"}, "targets": [f"10.{wave}{j:02}.{t // 256}.{t % 256}:9100" for t in range(z, count, 4)]} for z in range(4)]
        configs.append({"job_name": f"job-{j}", "target_limit": EACH // COLLECTORS, "static_configs": groups})
    collectors = [{"name": f"c{i}", "reach": reach} for i in range(COLLECTORS)]
    return {"scrape_configs": configs, "allocator": {"settle": "0", "lifecycle": True, "collectors": collectors}}


def time_in(log, text):
    """When the log had a line with this text last, in seconds; None where it has none."""
    with open(log) as file:
        lines = [line for line in file if f'msg="{text}' in line]
    if not lines:
        return None
    whole, part = lines[-1].split()[0].removeprefix("ts=").removesuffix("Z").split(".")
    return datetime.datetime.fromisoformat(f"{whole}+00:00").timestamp() + float(f"0.{part}")


class Waits:
    """A client that asks all the time, and how long its answers take."""

    def __init__(self, port):
        self.port, self.over, self.all = port, threading.Event(), []
        self.thread = threading.Thread(target=self.run)
        self.thread.start()

    def run(self):
        while not self.over.is_set():
            for path in ("/jobs", "/jobs/job-0/targets?collector_id=c0"):
                began = time.time()
                ask(self.port, "GET", path)
                self.all.append((began, time.time()))
            time.sleep(0.005)

    def longest(self, begun, ended):
        """The longest of those that waited between two times, in seconds since 1970."""
        self.over.set()
        self.thread.join()
        return max(after - before for before, after in self.all if before < ended and after > begun)


def megabytes(pid):
    with open(f"/proc/{pid}/status") as file:
        return next(int(line.split()[1]) // 1024 for line in file if line.startswith("VmHWM"))


def processor_seconds(pid):
    with open(f"/proc/{pid}/stat") as it:
        fields = it.read().rpartition(")")[2].split()
    return (int(fields[11]) + int(fields[12])) / os.sysconf("SC_CLK_TCK")


def is_covered(service):
    """Whether all targets of the wave have a collector."""
    text = service.ask("GET", "/metrics")[1] or ""
    held = [float(line.rsplit(" ", 1)[1]) for line in text.split("\n") if line.startswith("allocd_targets_covered{")]
    return sum(held) >= TARGETS - 1


def renewal(folder, reach):
    """Of one renewal: its seconds by the log, those of the processor, the longest wait of who asks meanwhile, and the most megabytes. Then of the start behind
    it: its seconds, and the megabytes of the history."""
    os.mkdir(folder)
    journal = f"{folder}/journal"
    service = Service(folder, configuration(0, reach), journal)
    waits = None
    try:
        for wave in range(len(WAVES)):
            if wave:
                service.write(configuration(wave, reach))
                before = processor_seconds(service.it.pid)
                waits = waits or (Waits(service.port) if wave == len(WAVES) - 2 else None)
                service.ask("POST", "/-/reload")
            if wave < len(WAVES) - 1 and not comes(lambda: is_covered(service), 300):
                sys.exit("the service gives no allocation")
            time.sleep(1)
        if not comes(lambda: time_in(f"{folder}/log", "the allocator is renewed"), 300):
            sys.exit("the allocator is not renewed")
        begun, ended = time_in(f"{folder}/log", "nearly full"), time_in(f"{folder}/log", "the allocator is renewed")
        time.sleep(1)
        row = ended - begun, processor_seconds(service.it.pid) - before, waits.longest(begun, ended), megabytes(service.it.pid)
    finally:
        service.it.kill()
        service.it.wait()
    began = time.monotonic()
    service = Service(folder, configuration(len(WAVES) - 1, reach), journal)
    try:
        if not service.is_up(300):
            sys.exit("the service does not start")
        started = time.monotonic() - began
    finally:
        service.it.kill()
        service.it.wait()
    with open(journal, "rb") as it:
        return *row, started, len(it.readline()) / 1e6


def main():
    print("| each collector has | the renewal, s | processor beside the reload, s | the longest wait, s | MB at the most | a start from the history, s | MB of it |")
    print("|---|---|---|---|---|---|---|")
    with tempfile.TemporaryDirectory() as top:
        for name, reach in REACHES.items():
            rows = [renewal(f"{top}/{name} {number}", reach) for number in range(RUNS)]
            least = [min(row[i] for row in rows) for i in range(len(rows[0]))]
            print(f"| {name} | " + " | ".join(f"{it:.2f}" if it < 30 else f"{it:.0f}" for it in least) + " |", flush=True)


if __name__ == "__main__":
    main()
