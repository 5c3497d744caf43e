#!/usr/bin/env python3
"""Three Prometheus servers with an `allocd agent` each, over targets that count who scraped what, and things happen to them: try_agents.py [SECONDS [INTERVAL]]

Each scrape of a target has another number of samples than the ones around it, so that each report in the journal is one scrape. In a steady stretch of
so many seconds (60) each scrape is to be booked with its samples, but for the youngest ones that wait. Through drains, leaves, kills of an agent, of a
server and of the allocator and a renewal no scrape is to be booked twice, none with other samples, and at least 99 of 100 are to be. Of a server that is
killed the last scrapes before that are lost with it. Four of the targets differ in their paths alone, so that of those that one server has the scrapes stand in
one series: of these no report is to be of another one's scrape, and half of them are to be booked in the steady stretch. Scrapes and rounds are so many seconds apart (5); on a machine that has much else to do take 15, and
three times as long. The texts of the agent's log lines and its metrics are compared with docs/operate/AGENT.md. It needs Debian's package prometheus and
the program (ALLOCD_PROGRAM, or dist/allocd), and takes about six minutes."""

import collections
import glob
import http.server
import json
import os
import re
import shutil
import signal
import subprocess
import sys
import tempfile
import threading
import time
import urllib.parse

from allocd_service import PROGRAM, ROOT, Service, ask, comes, events_in, free_port, lines_of
from told_rows import Teller

ANY = [{"allow": True, "test": "any"}]
JOBS, EACH, REFRESH = ("alpha", "beta gamma"), 30, 5
# Targets of the first job with the same public labels, each at a path of its own.
TWINS = tuple(f"twin{i}" for i in range(4))
# How long it is between two scrapes, and how long a round is, in seconds.
INTERVAL = ROUND = int(sys.argv[2]) if len(sys.argv) > 2 else 5
# So many scrapes of a target wait for their reports at most, and one is under way.
WAITING = 3
# The numbers of samples of a target's scrapes, one after the other. Each twin has numbers of its own.
CYCLE, APART = 97, 100
tell = Teller()


class Log:
    """Of each target its scrapes: when, by whom, how many samples."""

    def __init__(self):
        self.lock, self.scrapes = threading.Lock(), collections.defaultdict(list)

    def note(self, target, who):
        with self.lock:
            done = self.scrapes[target]
            twin = APART * (1 + TWINS.index(target)) if target in TWINS else 0
            samples = twin + 1 + (len(done) * 7) % CYCLE
            done.append((time.time(), who, samples))
            return samples

    def of(self, target):
        with self.lock:
            return list(self.scrapes[target])


LOG = Log()


class Target(http.server.BaseHTTPRequestHandler):
    protocol_version = "HTTP/1.1"

    def do_GET(self):
        url = urllib.parse.urlsplit(self.path)
        query = urllib.parse.parse_qs(url.query)
        samples = LOG.note(query.get("target", [url.path[1:]])[0], query["from"][0])
        body = "".join(f'lamps_lit{{floor="{i}"}} 1\n' for i in range(samples)).encode()
        self.send_response(200)
        self.send_header("content-type", "text/plain; version=0.0.4")
        self.send_header("content-length", str(len(body)))
        self.end_headers()
        self.wfile.write(body)

    def log_message(self, *_):
        pass


class Pair:
    """A Prometheus server and its agent."""

    def __init__(self, folder, name, port):
        self.name, self.folder, self.allocator = name, f"{folder}/{name}", port
        self.web, self.lists, self.server, self.agent = free_port(), free_port(), None, None
        os.mkdir(self.folder)
        jobs = [
            {
                "job_name": job,
                "params": {"from": [name]},
                "http_sd_configs": [{"url": f"http://127.0.0.1:{self.lists}/jobs/{urllib.parse.quote(job)}/targets", "refresh_interval": f"{REFRESH}s"}],
            }
            for job in JOBS
        ]
        with open(f"{self.folder}/prometheus.yml", "w") as it:
            json.dump({"global": {"scrape_interval": f"{INTERVAL}s", "scrape_timeout": "2s"}, "scrape_configs": jobs}, it)
        told = {
            "name": name,
            "allocator": f"http://127.0.0.1:{port}",
            "prometheus": f"http://127.0.0.1:{self.web}/",
            "listen": f"127.0.0.1:{self.lists}",
            "state": f"{self.folder}/state.json",
            "join": {"reach": ANY, "limits": {job: 2 * EACH for job in JOBS}},
        }
        with open(f"{self.folder}/agent.json", "w") as it:
            json.dump(told, it)

    def start_server(self):
        words = [f"--config.file={self.folder}/prometheus.yml", f"--storage.tsdb.path={self.folder}/data", f"--web.listen-address=127.0.0.1:{self.web}"]
        self.server = subprocess.Popen(["prometheus", *words], stdout=subprocess.DEVNULL, stderr=subprocess.DEVNULL)

    def start_agent(self):
        with open(f"{self.folder}/log", "ab") as log:
            self.agent = subprocess.Popen([PROGRAM, "agent", "--config", f"{self.folder}/agent.json"], stderr=log, stdout=subprocess.DEVNULL)

    def start(self):
        self.start_server()
        self.start_agent()

    def figure(self, name):
        """A figure of the agent's metrics, by its name."""
        text = ask(self.lists, "GET", "/metrics")[1] or ""
        return next((line.rsplit(" ", 1)[1] for line in text.split("\n") if line.startswith(f"{name} ")), None)

    def stop(self):
        for it in (self.agent, self.server):
            if it and it.poll() is None:
                it.kill()
                it.wait()


def killed(it):
    it.send_signal(signal.SIGKILL)
    it.wait()


def groups_of(job, address):
    """The targets of a job."""
    groups = [{"targets": [address], "labels": {"__param_target": f"{job}{i}", "instance": f"{job}{i}"}} for i in range(EACH)]
    twins = [{"targets": [address], "labels": {"__metrics_path__": f"/{twin}", "instance": "twin"}} for twin in TWINS]
    return groups + twins if job == JOBS[0] else groups


def config(address, jobs=JOBS):
    scraped = [{"job_name": job, "static_configs": groups_of(job, address)} for job in jobs]
    return {"global": {"scrape_interval": f"{ROUND}s"}, "scrape_configs": scraped, "allocator": {"settle": "1s", "collector_timeout": "60s", "lifecycle": True, "spread": {}}}


class Books:
    """What is booked, by the journals: of each target the samples of its reports, in order."""

    def __init__(self, journal):
        self.journal, self.names = journal, {}

    def learn(self, service):
        """Which target has which number, in the journal that is written now."""
        names = {}
        for job in JOBS:
            for held in json.loads(service.ask("GET", f"/jobs/{urllib.parse.quote(job)}/targets")[1]).values():
                for group in held["targets"]:
                    labels = group["labels"]
                    name = labels["__metrics_path__"][1:] if labels["instance"] == "twin" else labels["instance"]
                    names[int(labels["__meta_allocator_target"])] = name
        self.names.setdefault(len(self.old()), {}).update(names)

    def old(self):
        return sorted((path for path in glob.glob(f"{self.journal}.*") if path.rsplit(".", 1)[1].isdigit()), key=lambda path: int(path.rsplit(".", 1)[1]))

    def read(self):
        found = collections.defaultdict(list)
        for place, path in enumerate([*self.old(), self.journal]):
            names = self.names.get(place, {})
            for event in events_in(lines_of(path)):
                if event.get("event") == "report":
                    found[names.get(event["target"])].append(event["samples"] if event["up"] else None)
        return found


def matched(scrapes, booked):
    """The places of the scrapes that reports are of, in their order and each once; and how many reports are of none."""
    places, wrong, place = set(), 0, 0
    numbers = [samples for _, _, samples in scrapes]
    for samples in booked:
        if samples in numbers[place:]:
            at = numbers.index(samples, place)
            places.add(at)
            place = at + 1
        else:
            wrong += 1
    return places, wrong


class Fleet:
    def __init__(self, folder):
        it = http.server.ThreadingHTTPServer(("127.0.0.1", 0), Target)
        threading.Thread(target=it.serve_forever, daemon=True).start()
        self.address = f"127.0.0.1:{it.server_port}"
        self.service = Service(folder, config(self.address), f"{folder}/journal")
        self.service.is_up()
        self.pairs = {name: Pair(folder, name, self.service.port) for name in "abc"}
        self.targets = [f"{job}{i}" for job in JOBS for i in range(EACH)]
        self.books = Books(f"{folder}/journal")

    def found(self, since, targets):
        """Of the scrapes of targets since a time how many are booked, how many are not and wait no more, and how many reports are of none."""
        self.books.learn(self.service)
        booked = self.books.read()
        good = lost = wrong = 0
        for target in targets:
            scrapes = LOG.of(target)
            places, other = matched(scrapes, booked.get(target, []))
            wrong += other
            for place, (time_of, _, _) in enumerate(scrapes):
                if time_of >= since:
                    good += place in places
                    lost += place not in places and place < len(scrapes) - WAITING
        return good, lost, wrong

    def phase(self, what, act, seconds, most=1):
        """Does something, and tells what is booked of the scrapes since: at most so many of 100 are not."""
        since = time.time()
        act()
        self.books.learn(self.service)
        time.sleep(seconds * INTERVAL / 5)
        good, lost, wrong = self.found(since, self.targets)
        tell(f"{what}: no report is of another scrape, or of one that was booked", wrong == 0, f"{wrong}")
        tell(f"{what}: {100 - most} of 100 scrapes are booked", good and 100 * lost <= most * (good + lost), f"{good}, and {lost} are not")
        shared, unknown, others = self.found(since, TWINS)
        tell(f"{what}: of a series that is shared no report is of another target's scrape, or of one that was booked", others == 0, f"{others}")
        print(f"   {what}: {good} booked, {lost} not; of the shared series {shared}, and {unknown} not", flush=True)
        return shared, unknown

    def is_even(self):
        """Whether each collector holds a part, and each agent serves all of it."""
        held = [int(pair.figure("allocd_agent_targets_held") or 0) for pair in self.pairs.values()]
        served = [int(pair.figure("allocd_agent_targets_served") or 0) for pair in self.pairs.values()]
        return held == served and sum(held) == len(self.targets) + len(TWINS) and min(held) > 0


def texts_of_the_agent():
    """What docs/operate/AGENT.md has to say of the agent's log lines and metrics."""
    with open(f"{ROOT}/docs/operate/AGENT.md") as it:
        page = it.read()
    lines, metrics = set(), set()
    for path in glob.glob(f"{ROOT}/crates/agent_command/src/*.rt") + glob.glob(f"{ROOT}/crates/agent_lists/src/*.rt"):
        with open(path) as it:
            text = it.read()
        for call in re.findall(r"(?:info|warn|error)!\(Logfmt\(\*rt\);(?:[^\";]*;)? *\"([^\"]*)\"", text):
            lines.add(re.sub(r"\{[^}]*\}", "..", call))
        metrics.update(re.findall(r'"(allocd_agent_\w+)"', text))
    for line in sorted(lines):
        tell(f"AGENT.md has the line `{line}`", f"`{line}`" in page)
    for metric in sorted(metrics):
        tell(f"AGENT.md has the metric {metric}", f"`{metric}`" in page)


def again(service):
    killed(service.it)
    time.sleep(5)
    with open(f"{service.folder}/log", "ab") as log:
        service.it = subprocess.Popen(service.it.args, stderr=log, stdout=subprocess.DEVNULL)
    service.is_up()


def renewed(fleet):
    """The jobs change places, so the allocator is renewed."""
    fleet.service.write(config(fleet.address, JOBS[::-1]))
    fleet.service.ask("POST", "/-/reload")


def tried(folder, steady):
    fleet = Fleet(folder)
    pairs, ask = fleet.pairs, fleet.service.ask
    try:
        for pair in pairs.values():
            pair.start()
        tell("each collector gets a part", comes(lambda: fleet.is_even(), 120))
        time.sleep(WAITING * INTERVAL)
        shared, unknown = fleet.phase("a steady stretch", lambda: None, steady, most=0)
        tell("a steady stretch: half of the scrapes of a shared series are booked", shared and unknown <= shared, f"{shared}, and {unknown} are not")
        fleet.phase("a drains", lambda: ask("POST", "/collectors/a/drain"), 40)
        fleet.phase("a leaves, and joins anew by itself", lambda: ask("DELETE", "/collectors/a"), 40)
        fleet.phase("an agent is killed, and back at once", lambda: (killed(pairs["b"].agent), pairs["b"].start_agent()), 25)
        fleet.phase("a server is killed, and back at once", lambda: (killed(pairs["c"].server), pairs["c"].start_server()), 40)
        fleet.phase("the allocator is killed, and back after 5 seconds", lambda: again(fleet.service), 30)
        fleet.phase("the allocator is renewed", lambda: renewed(fleet), 40)
    finally:
        for pair in pairs.values():
            pair.stop()
        fleet.service.quit()


if __name__ == "__main__":
    if not shutil.which("prometheus"):
        print("try_agents: prometheus is not here: apt-get install prometheus", file=sys.stderr)
        sys.exit(2)
    texts_of_the_agent()
    with tempfile.TemporaryDirectory() as made:
        tried(made, int(sys.argv[1]) if len(sys.argv) > 1 else 60)
    sys.exit(tell.end())
