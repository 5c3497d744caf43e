#!/usr/bin/env python3
"""Agents that report what their Prometheus servers scrape, round by round: agents.py [ROUNDS [AGENTS TARGETS SECONDS]]

One client plays all agents (64 over 16,384 targets of 16 jobs, in 6 rounds of 15 seconds, where nothing is named). It serves the targets itself, by
`http_sd_configs`. Each agent has a connection that it keeps, and takes its lists of all jobs before the first round. In a round it asks for one of them with the
entity tag that it has, which tells the round, and then posts one list of reports: all that it holds, of which one in 100 is down. In the first half of the rounds
the agents report one after the other over most of the round, in the second half all at once. What is refused is not reported again. A line a round tells
how many were booked, how long the lists took, and what the round cost the service. It ends after these rounds, or where a round does not open in time, with
status 1 where anything was not booked. It needs the program (ALLOCD_PROGRAM, or dist/allocd)."""

import collections
import concurrent.futures
import http.client
import http.server
import json
import os
import sys
import tempfile
import threading
import time

ROOT = os.path.dirname(os.path.dirname(os.path.abspath(__file__)))
sys.path.insert(0, f"{ROOT}/scripts")

from allocd_service import Service, comes

WORDS = [int(word) for word in sys.argv[1:]] + [None] * 4
ROUNDS, AGENTS, TARGETS, SECONDS = (given or usual for given, usual in zip(WORDS, (6, 64, 16_384, 15)))
JOBS = [f"j{i}" for i in range(16)]
ANY = [{"allow": True, "test": "any"}]
# How much of a round the agents use where they report one after the other, and how many reports a list has at most.
PART, MOST_REPORTS = 0.8, 4096
# How long a request may take, and how much later than it should a round may open.
LONGEST, LATE = 10, 10


class Source(http.server.BaseHTTPRequestHandler):
    """The targets of each job by its name."""

    protocol_version = "HTTP/1.1"

    def do_GET(self):
        place = JOBS.index(self.path.strip("/"))
        body = json.dumps([{"targets": [f"10.{place}.{i // 250}.{i % 250}:9100" for i in range(TARGETS // len(JOBS))]}]).encode()
        self.send_response(200)
        self.send_header("content-type", "application/json")
        self.send_header("content-length", str(len(body)))
        self.end_headers()
        self.wfile.write(body)

    def log_message(self, *_):
        pass


class Agent:
    """An agent with a connection that it keeps, and what its lists have: the targets by the allocation that their list is of."""

    def __init__(self, port, place):
        self.name, self.place, self.lists = f"c{place}", place, {}
        self.connection = http.client.HTTPConnection("127.0.0.1", port, timeout=LONGEST)

    def ask(self, method, path, body=None, headers=None):
        self.connection.request(method, path, body=body, headers=headers or {})
        answer = self.connection.getresponse()
        return answer.status, answer.headers, answer.read()

    def take(self, job, headers=None):
        """The list of a job, with the headers of what is told now. Where it is the same it is not sent again."""
        status, head, text = self.ask("GET", f"/jobs/{job}/targets?collector_id={self.name}", headers=headers)
        if status not in (200, 304):
            raise OSError(f"a list is answered {status}")
        if status == 200:
            self.lists[job] = (head, [int(group["labels"]["__meta_allocator_target"]) for group in json.loads(text)])
        return head

    def take_all(self):
        for job in JOBS:
            self.take(job)
        return sum(len(targets) for _, targets in self.lists.values())

    def report(self, opened, length, at_once):
        """The answers to what is reported in a round that opened then, and how long each list of reports took."""
        share = 0.02 if at_once else 0.02 + PART * self.place / AGENTS
        time.sleep(max(0, opened + share * length - time.monotonic()))
        head = self.take(JOBS[0], {"if-none-match": self.lists[JOBS[0]][0]["etag"] or ""})
        answers, times = collections.Counter(), []
        for body in self.bodies(int(head["x-scrape-round"])):
            began = time.monotonic()
            status, _, text = self.ask("POST", "/reports", body, {"content-type": "application/json"})
            times.append(time.monotonic() - began)
            answers.update(json.loads(text)["answers"] if status == 200 else [f"status {status}"])
        return answers, times

    def bodies(self, round):
        """The lists of reports of a round."""
        numbers = collections.defaultdict(list)
        for head, targets in self.lists.values():
            numbers[head["x-allocation-number"], head["x-collector"], head["x-allocator-epoch"]] += targets
        for (number, collector, epoch), targets in numbers.items():
            shared = {"collector": int(collector), "number": int(number), "round": round, "epoch": int(epoch)}
            for first in range(0, len(targets), MOST_REPORTS):
                reports = [reported(target) for target in targets[first : first + MOST_REPORTS]]
                yield json.dumps({**shared, "reports": reports}, separators=(",", ":"))


def reported(target):
    return {"target": target, "up": False} if target % 100 == 99 else {"target": target, "up": True, "samples": 500 + target % 800}


def config(port):
    jobs = [{"job_name": job, "http_sd_configs": [{"url": f"http://127.0.0.1:{port}/{job}", "refresh_interval": "1m"}]} for job in JOBS]
    collectors = [{"name": f"c{place}", "reach": ANY} for place in range(AGENTS)]
    return {"global": {"scrape_interval": f"{SECONDS}s"}, "scrape_configs": jobs, "allocator": {"settle": "1s", "spread": {}, "collectors": collectors}}


def cost(pid):
    """The processor seconds of a process up to now, and its memory now and at the most, in MB."""
    with open(f"/proc/{pid}/stat") as it:
        fields = it.read().rpartition(")")[2].split()
    with open(f"/proc/{pid}/status") as it:
        status = dict(line.split(":", 1) for line in it)
    megabytes = lambda name: int(status[name].split()[0]) // 1024
    return (int(fields[11]) + int(fields[12])) / os.sysconf("SC_CLK_TCK"), megabytes("VmRSS"), megabytes("VmHWM")


def open_round(agent):
    """The open round, when it opened and how long it is, as a look at a list tells."""
    status, head, _ = agent.ask("GET", f"/jobs/{JOBS[0]}/targets?collector_id={agent.name}&take=false")
    if status != 200:
        raise OSError(f"a look is answered {status}")
    return int(head["x-scrape-round"]), time.monotonic() - int(head["x-scrape-round-age"]) / 1000, int(head["x-scrape-round-length"]) / 1000


def next_round(agent, last):
    """The first round after that of a number. None where it does not open in time."""
    end = time.monotonic() + SECONDS + LATE
    while time.monotonic() < end:
        found = open_round(agent)
        if found[0] > last:
            return found
        time.sleep(0.05)
    return None


def books(agent, round):
    """How long the books of a round take, where the program has them, and how many reports they tell of."""
    began = time.monotonic()
    status, _, text = agent.ask("GET", f"/books?round={round}")
    took = 1000 * (time.monotonic() - began)
    return f"{took:.1f} ({sum(job['up'] + job['down'] for job in json.loads(text)['jobs']):,})" if status == 200 else "-"


def at(seconds, part):
    return 1000 * sorted(seconds)[min(len(seconds) - 1, int(part * len(seconds)))]


def rounds(service, crew):
    """A line for each round. How many reports were not booked."""
    agents = [Agent(service.port, place) for place in range(AGENTS)]
    held, lost, looker = sum(crew.map(Agent.take_all, agents)), 0, Agent(service.port, 0)
    print(f"{AGENTS} agents hold {held:,} of {TARGETS:,} targets of {len(JOBS)} jobs", flush=True)
    print("| round | agents report | booked | other answers | lists | half, 99 of 100, all: ms | processor seconds | MB, at the most | books: ms |")
    print("|---|---|---|---|---|---|---|---|---|")
    last = open_round(looker)[0]
    for turn in range(ROUNDS):
        found = next_round(looker, last)
        if not found:
            return lost + held
        last, opened, length = found
        before = cost(service.it.pid)
        at_once = 2 * turn >= ROUNDS
        done = [crew.submit(agent.report, opened, length, at_once) for agent in agents]
        answers, times = collections.Counter(), []
        for one in done:
            said, took = one.result(SECONDS + LATE)
            answers.update(said)
            times += took
        time.sleep(max(0, opened + 0.9 * length - time.monotonic()))
        after = cost(service.it.pid)
        booked = answers.pop("Booked", 0)
        lost += held - booked
        others = ", ".join(f"{count} {name}" for name, count in answers.most_common(3)) or "-"
        figures = " / ".join(f"{at(times, part):.1f}" for part in (0.5, 0.99, 1))
        cells = [last, "at once" if at_once else "one after the other", f"{booked:,}", others, len(times), figures, f"{after[0] - before[0]:.2f}", f"{after[1]}, {after[2]}", books(looker, last)]
        print("| " + " | ".join(map(str, cells)) + " |", flush=True)
    return lost


def main():
    source = http.server.ThreadingHTTPServer(("127.0.0.1", 0), Source)
    threading.Thread(target=source.serve_forever, daemon=True).start()
    with tempfile.TemporaryDirectory() as folder, concurrent.futures.ThreadPoolExecutor(AGENTS) as crew:
        service = Service(folder, config(source.server_port), f"{folder}/journal")
        try:
            covered = lambda: sum(service.figure(f'allocd_targets_covered{{job="{job}"}}') or 0 for job in JOBS)
            if not service.is_up() or not comes(lambda: covered() == TARGETS // len(JOBS) * len(JOBS), 120):
                sys.exit("the service gives no allocation of all targets")
            lost = rounds(service, crew)
            print(f"a journal of {os.path.getsize(f'{folder}/journal') / 1e6:.1f} MB", flush=True)
        finally:
            service.it.kill()
            service.it.wait()
    return 1 if lost else 0


if __name__ == "__main__":
    sys.exit(main())
