#!/usr/bin/env python3
"""Collectors that refresh their lists as Prometheus does, and how many refreshes fail: collectors.py [SECONDS [COLLECTORS JOBS INTERVAL]]

Each collector has a connection for each of its jobs, which it keeps, and asks on all of them at once each INTERVAL seconds; collectors begin one after the
other within an interval (64 with 10 jobs and 30 seconds, and 256 with 16 and 60, where nothing is named). A request on a kept connection that ends before the
first byte of its answer is asked once more on a new one, as Go's client does with a GET. Any other end, and any status but 200, is a failed refresh, and
so is what takes more than 10 seconds. Each second somebody who has a new connection each time asks for a page. In the middle the configuration is read again, first with
the same jobs, 10 seconds later with one job more. It needs the program (ALLOCD_PROGRAM, or dist/allocd)."""

import asyncio
import os
import random
import sys
import tempfile
import time

ROOT = os.path.dirname(os.path.dirname(os.path.abspath(__file__)))
sys.path.insert(0, f"{ROOT}/scripts")

from allocd_service import Service, comes
from try_connections import more_descriptors

WORDS = [int(word) for word in sys.argv[1:]]
SECONDS = WORDS.pop(0) if WORDS else 120
FLEETS = (tuple(WORDS),) if WORDS else ((64, 10, 30), (256, 16, 60))
TARGETS = 16_384
LONGEST = 10
ANY = [{"allow": True, "test": "any"}]


class Closed(Exception):
    """A connection that ended before the first byte of an answer."""


class Failed(Exception):
    """A refresh that failed."""


class Seen:
    def __init__(self):
        self.seconds, self.pages, self.failed, self.again, self.said_close, self.opened, self.bytes = [], [], [], 0, 0, 0, 0


class Job:
    """A connection of a collector for one of its jobs."""

    def __init__(self, port, path, seen):
        self.port, self.path, self.seen, self.reader, self.writer = port, path, seen, None, None

    async def refresh(self):
        began = time.monotonic()
        try:
            await asyncio.wait_for(self.asked(), LONGEST)
        except asyncio.TimeoutError:
            self.close()
            self.seen.failed.append("timeout")
        except (OSError, Failed, asyncio.IncompleteReadError, asyncio.LimitOverrunError) as fault:
            self.close()
            self.seen.failed.append(f"{type(fault).__name__} {fault}")
        else:
            self.seen.seconds.append(time.monotonic() - began)

    async def asked(self):
        if self.writer and self.reader.at_eof():
            self.close()
        if self.writer:
            try:
                return await self.exchange()
            except Closed:
                self.seen.again += 1
                self.close()
        self.reader, self.writer = await asyncio.open_connection("127.0.0.1", self.port)
        self.seen.opened += 1
        try:
            await self.exchange()
        except Closed:
            raise Failed("a new connection was closed") from None

    async def exchange(self):
        try:
            self.writer.write(f"GET {self.path} HTTP/1.1\r\nHost: localhost\r\nUser-Agent: Prometheus/2.42.0\r\nAccept: application/json\r\n\r\n".encode())
            await self.writer.drain()
            head = await self.reader.readuntil(b"\r\n\r\n")
        except ConnectionError:
            raise Closed from None
        except asyncio.IncompleteReadError as fault:
            if fault.partial:
                raise
            raise Closed from None
        first, *fields = head.lower().strip().split(b"\r\n")
        fields = dict(field.split(b": ", 1) for field in fields)
        body = await self.reader.readexactly(int(fields[b"content-length"]))
        self.seen.bytes += len(body)
        if fields.get(b"connection") == b"close":
            self.seen.said_close += 1
            self.close()
        if first.split(b" ")[1] != b"200":
            raise Failed(first.decode())

    def close(self):
        if self.writer:
            self.writer.close()
        self.reader = self.writer = None


async def collector(port, name, jobs, interval, seen, end):
    """Refreshes the lists of one collector until the end."""
    await asyncio.sleep(random.uniform(0, min(interval, end - time.monotonic())))
    held = [Job(port, f"/jobs/{job}/targets?collector_id={name}", seen) for job in jobs]
    while time.monotonic() < end:
        begun = time.monotonic()
        await asyncio.gather(*(job.refresh() for job in held))
        await asyncio.sleep(max(0, interval - (time.monotonic() - begun)))
    for job in held:
        job.close()


async def newcomer(port, seen, end):
    while time.monotonic() < end:
        one = Seen()
        job = Job(port, "/jobs", one)
        await job.refresh()
        job.close()
        seen.pages += one.seconds
        seen.failed += [f"a page: {fault}" for fault in one.failed]
        await asyncio.sleep(1)


def config(names, jobs):
    each = TARGETS // 16
    configs = [{"job_name": job, "static_configs": [{"targets": [f"10.{place}.{i // 250}.{i % 250}:9100" for i in range(each)]}]} for place, job in enumerate(jobs)]
    allocator = {"settle": "100ms", "lifecycle": True, "collectors": [{"name": name, "reach": ANY} for name in names]}
    return {"global": {"scrape_interval": "1m"}, "scrape_configs": configs, "allocator": allocator}


async def reload(service, names, jobs, end):
    """Reads the configuration again in the middle, and once more with another job."""
    said = []
    for pause, document in ((SECONDS / 2, config(names, jobs)), (10, config(names, [*jobs, "another"]))):
        await asyncio.sleep(pause)
        service.write(document)
        said.append(await asyncio.get_running_loop().run_in_executor(None, lambda: service.ask("POST", "/-/reload")[0]))
    return said


async def fleet(service, count, job_count, interval):
    names, jobs = [f"c{i}" for i in range(count)], [f"j{i}" for i in range(job_count)]
    seen, end = Seen(), time.monotonic() + SECONDS
    crews = [collector(service.port, name, jobs, interval, seen, end) for name in names]
    *_, said = await asyncio.gather(*crews, newcomer(service.port, seen, end), reload(service, names, jobs, end))
    return seen, said


def at(seconds, part):
    return 1000 * sorted(seconds)[min(len(seconds) - 1, int(part * len(seconds)))]


def run(count, job_count, interval):
    names, jobs = [f"c{i}" for i in range(count)], [f"j{i}" for i in range(job_count)]
    with tempfile.TemporaryDirectory() as folder:
        service = Service(folder, config(names, jobs), f"{folder}/journal")
        try:
            if not service.is_up() or not comes(lambda: service.figure("allocd_allocation") == 1):
                sys.exit("the service gives no allocation")
            seen, said = asyncio.run(fleet(service, count, job_count, interval))
            most = service.figure("allocd_http_connections_max")
            with open(f"/proc/{service.it.pid}/status") as it:
                memory = next(int(line.split()[1]) for line in it if line.startswith("VmHWM")) // 1024
            with open(f"/proc/{service.it.pid}/stat") as it:
                fields = it.read().rpartition(")")[2].split()
            took = (int(fields[11]) + int(fields[12])) / os.sysconf("SC_CLK_TCK")
        finally:
            service.it.kill()
            service.it.wait()
    figures = " / ".join(f"{at(seen.seconds, part):.1f}" for part in (0.5, 0.99, 1))
    pages = " / ".join(f"{at(seen.pages, part):.1f}" for part in (0.5, 0.99, 1))
    cells = [f"{count} x {job_count} at {interval} s", f"{len(seen.seconds):,}", f"{len(seen.failed)}", f"{seen.again}", f"{seen.said_close}", f"{seen.opened:,}", figures, pages, f"{took:.1f}", f"{memory}"]
    print("| " + " | ".join(cells) + " |", f"places {most}, reloads {said}", *sorted(set(seen.failed))[:5], flush=True)
    return len(seen.failed)


more_descriptors(10_000)
print(f"{SECONDS} seconds each, times in ms: half, 99 of 100, all")
print("| collectors x jobs | refreshes | failed | asked again | said close | connections | times | a newcomer's page | processor seconds | MB at the most |")
print("|---|---|---|---|---|---|---|---|---|---|")
sys.exit(1 if sum(run(*it) for it in FLEETS) else 0)
