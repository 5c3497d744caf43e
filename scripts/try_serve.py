#!/usr/bin/env python3
"""Runs `allocd serve` as an operator would, and tells of each thing whether it holds: try_serve.py [KILLS [PART ..]]

Routes, faults of the configuration and of the machine, reloads, signals, a second start, torn, damaged and long journals, starts under other
jobs, kills under load and in the midst of starts, many, silent and idle clients, clients that come as it ends, sources that trickle or fall silent, a
full disk, also as a journal is to begin (where a small file system can be mounted). It needs Linux and the program (ALLOCD_PROGRAM, or dist/allocd)."""

import collections
import contextlib
import hashlib
import http.client
import http.server
import itertools
import json
import os
import random
import resource
import signal
import socket
import subprocess
import sys
import tempfile
import threading
import time

from allocd_service import PROGRAM, ROOT, events_in, free_port, hears_signals, line_of, lines_of, supervisor_can_ask
from parts import run_parts, tell

WORDS = sys.argv[1:]
KILLS = int(WORDS.pop(0)) if WORDS and WORDS[0].isdigit() else 5


def ask(port, method, path, body=None):
    """The status, the headers and the body of an answer."""
    it = http.client.HTTPConnection("127.0.0.1", port, timeout=10)
    try:
        headers = {} if body is None else {"content-type": "application/json"}
        it.request(method, path, body=None if body is None else json.dumps(body), headers=headers)
        said = it.getresponse()
        return said.status, said.headers, said.read().decode()
    finally:
        it.close()


CONFIG = {
    "global": {"scrape_interval": "1s"},
    "scrape_configs": [
        {
            "job_name": "node",
            "static_configs": [{"targets": [f"127.0.0.1:{9100 + i}" for i in range(20)]}],
        },
        {"job_name": "odd \"job\" \\ ü", "target_limit": 1},
    ],
    "allocator": {
        "settle": "50ms",
        "lifecycle": True,
        "collectors": [{"name": "a", "reach": [{"allow": True, "test": "any"}]}],
    },
}


class Service:
    def __init__(self, folder, journal=None, config=CONFIG, more=(), prepare=None):
        self.port = free_port()
        self.config = f"{folder}/config.json"
        with open(self.config, "w") as it:
            json.dump(config, it, indent=1)
        words = [PROGRAM, "serve", "--config", self.config, "--listen", f"127.0.0.1:{self.port}"]
        words += ["--journal", journal] if journal else []
        self.log = open(f"{folder}/log", "ab")
        self.it = subprocess.Popen([*words, *more], stderr=self.log, stdout=subprocess.PIPE, preexec_fn=prepare)

    def is_up(self):
        for _ in range(400):
            if self.it.poll() is not None:
                return False
            try:
                return ask(self.port, "GET", "/-/ready")[0] in (200, 503)
            except OSError:
                time.sleep(0.02)
        return False

    def ended(self, seconds=20):
        try:
            return self.it.wait(seconds)
        except subprocess.TimeoutExpired:
            self.it.kill()
            return None

    def quit(self):
        status = ask(self.port, "POST", "/-/quit")[0]
        return status, self.ended()


def run(*words):
    done = subprocess.run([PROGRAM, *words], capture_output=True, text=True, stdin=subprocess.DEVNULL)
    return done.returncode, done.stdout, done.stderr


def waits_for(port, text):
    for _ in range(200):
        if text in ask(port, "GET", "/metrics")[2]:
            return True
        time.sleep(0.02)
    return False


def words_and_configurations(folder):
    status, out, _ = run("serve", "--help")
    tell("--help", status == 0 and "Usage: allocd serve" in out and "Exit status:" in out)
    status, _, err = run("serve", "--frob")
    tell("an unknown option", status == 2, err.strip())
    status, _, err = run("serve")
    tell("no configuration", status == 2, err.strip())
    status, _, err = run("serve", "--config", f"{folder}/missing.json")
    tell("a configuration that is not there", status == 2 and "missing.json" in err)
    rows = [
        ('{"scrape_configs":[{"job_name":"a"},{"job_name":"a"}]}', "two jobs of a name"),
        ('{"allocator":{"setle":"1s"}}', "a member that is misspelt"),
        ('{"allocator":{"settle":"1 s"}}', "a duration with a space"),
        ('{"scrape_configs":[{"job_name":"a","relabel_configs":[{"action":"frob"}]}]}', "an action that is none"),
        ("{", "no JSON"),
    ]
    for text, name in rows:
        with open(f"{folder}/bad.json", "w") as it:
            it.write(text)
        status, out, err = run("serve", "--check-config", "--config", f"{folder}/bad.json")
        tell(name, status == 2 and out == "" and err.startswith(f"{folder}/bad.json: "), err.strip().replace(f"{folder}/", "", 1))
    with open(f"{folder}/good.json", "w") as it:
        json.dump(CONFIG, it)
    status, out, _ = run("serve", "--check-config", "--config", f"{folder}/good.json")
    tell("a configuration that is right", status == 0, out.strip())


FAULTY = {
    "scrape_configs": [
        {"job_name": "node", "target_limit": -1},
        {"job_name": "well"},
        {"job_name": "web", "relabel_configs": [{"action": "frob"}]},
        {"job_name": "a \"b\"", "params": 7},
    ]
}
FAULTS = [
    'scrape_configs[0], job "node": target_limit: no whole number of 32 bits',
    'scrape_configs[2], job "web": relabel_configs: rule 1: an unknown action',
    'scrape_configs[3], job "a \\"b\\"": params: no object',
]


def lines_told(folder, text):
    """The lines of a fault, without the path that each begins with."""
    return [line.split(".json: ", 1)[-1] for line in text.strip().split("\n")]


def faults(folder):
    with open(f"{folder}/bad.json", "w") as it:
        json.dump(FAULTY, it)
    status, out, err = run("serve", "--check-config", "--config", f"{folder}/bad.json")
    tell("each job's fault is told, with its member", status == 2 and out == "" and lines_told(folder, err) == FAULTS, lines_told(folder, err))
    service = Service(folder, config=FAULTY)
    ended = service.ended()
    with open(f"{folder}/log") as it:
        told = it.read()
    tell("a start tells the same, and is none", ended == 2 and lines_told(folder, told) == FAULTS)
    service = Service(folder)
    service.is_up()
    status, _, text = rewrite(service, FAULTY)
    tell("a reload tells the first", status == 500 and lines_told(folder, text) == FAULTS[:1], text.strip().replace(f"{folder}/", "", 1))
    many = {"scrape_configs": [{"job_name": f"j{i}", "params": 7} for i in range(40)]}
    with open(f"{folder}/bad.json", "w") as it:
        json.dump(many, it)
    status, _, err = run("serve", "--check-config", "--config", f"{folder}/bad.json")
    tell("of many faults 16 are told", status == 2 and len(lines_told(folder, err)) == 16)
    tell("ends", service.quit() == (200, 0))


def members_of_prometheus(folder):
    node, *others = CONFIG["scrape_configs"]
    more = {**CONFIG, "rule_files": [], "scrape_configs": [{**node, "sample_limit": 500}, *others]}
    ways = ["rule_files", "scrape_configs[0].sample_limit"]
    lines = lambda: [line for line in log_of(folder).split("\n") if "not followed" in line]
    service = Service(folder, config=more)
    tell("members that are not followed refuse nothing", service.is_up())
    tell("they are a warning each", ['level=warn' in line and f'member="{way}"' in line for line, way in zip(lines(), ways)] == [True, True] and len(lines()) == 2)
    status, _, text = rewrite(service, more)
    tell("a reload says nothing more of them", status == 200 and len(lines()) == 2)
    tell("it is followed", comes(lambda: ask(service.port, "GET", "/-/ready")[0] == 200))
    time.sleep(0.5)
    status, _, text = rewrite(service, {**CONFIG, "scrape_configs": [{**node, "target_limt": 5}, *others]})
    tell("a reload with an unknown member is refused", status == 500 and lines_told(folder, text) == ["scrape_configs[0].target_limt: unknown member; is target_limit meant?"], text.strip().replace(f"{folder}/", "", 1))
    tell("ends", service.quit() == (200, 0))
    status, _, err = run("serve", "--config", f"{folder}/config.json")
    tell("a start with it is none", status == 2 and lines_told(folder, err) == ["scrape_configs[0].target_limt: unknown member; is target_limit meant?"])


def log_of(folder):
    with open(f"{folder}/log") as it:
        return it.read()


def failures(folder):
    service = Service(folder, f"{folder}/missing/journal")
    tell("a journal in a folder that is not there", service.ended() == 3 and f"{folder}/missing/journal" in log_of(folder))
    os.mkdir(f"{folder}/journal.d")
    service = Service(folder, f"{folder}/journal.d")
    tell("a journal that is a folder", service.ended() == 2 and f"{folder}/journal.d: no regular file" in log_of(folder))
    first = Service(folder, f"{folder}/journal")
    first.is_up()
    second = Service(folder, f"{folder}/journal")
    tell("a journal that another service has", second.ended() == 2 and f"{folder}/journal: another service has this journal" in log_of(folder))
    taken = Service(folder, more=("--listen", f"127.0.0.1:{first.port}"))
    tell("a port that another has", taken.ended() == 3 and f"address=127.0.0.1:{first.port}" in log_of(folder))
    tell("ends", first.quit() == (200, 0))


def routes(folder):
    service = Service(folder)
    tell("it starts", service.is_up())
    port = service.port
    tell("it has an allocation", waits_for(port, "allocd_allocation 1"))
    tell("it is ready", comes(lambda: ask(port, "GET", "/-/ready")[0] == 200))
    rows = [
        ("GET", "/-/healthy", None, 200), ("GET", "/livez", None, 200), ("GET", "/readyz", None, 200),
        ("GET", "/scrape_configs", None, 200), ("GET", "/jobs", None, 200), ("GET", "/allocations", None, 200), ("GET", "/certificate", None, 200),
        ("GET", "/jobs/node/targets", None, 200), ("GET", "/jobs/node/targets?collector_id=a", None, 200),
        ("GET", "/jobs/node/targets?collector_id=z", None, 404), ("GET", "/nothing", None, 404), ("GET", "/", None, 200),
        ("GET", "/jobs/node/uncovered", None, 200), ("GET", "/jobs/z/uncovered", None, 404),
        ("POST", "/jobs", None, 405), ("POST", "/collectors", {"name": "a", "reach": []}, 409),
        ("POST", "/collectors", {"name": "b", "reach": [{"allow": True, "test": "any"}]}, 200),
        ("PUT", "/collectors/2/limits", {"limits": {"node": 3}}, 200), ("POST", "/collectors/2/drain", {}, 200),
        ("DELETE", "/collectors/2", None, 200), ("POST", "/reports", {"collector": 1, "number": 1, "target": 0, "round": 1, "up": True, "samples": 5}, None),
    ]
    for method, path, body, wanted in rows:
        status, _, text = ask(port, method, path, body)
        tell(f"{method} {path}", status == wanted or (wanted is None and status in (200, 409)), f"{status} {text[:60].strip()}")
    metrics = ask(port, "GET", "/metrics")[2]
    tell("metrics show names whatever they hold", 'allocd_targets{job="odd \\"job\\" \\\\ ü"} 0' in metrics)
    tell("/-/quit ends it with status 0", service.quit() == (200, 0))
    config = json.loads(json.dumps(CONFIG))
    config["allocator"]["lifecycle"] = False
    service = Service(folder, config=config)
    service.is_up()
    tell("/-/quit is 403 where it is not allowed", ask(service.port, "POST", "/-/quit")[0] == 403)
    service.it.kill()
    service.ended()


def rewrite(service, config):
    with open(service.config, "w") as it:
        it.write(config if isinstance(config, str) else json.dumps(config))
    return ask(service.port, "POST", "/-/reload")


def comes(test, seconds=20):
    """Whether a test of the service holds soon."""
    end = time.monotonic() + seconds
    while time.monotonic() < end:
        try:
            if test():
                return True
        except OSError:
            pass
        time.sleep(0.05)
    return False


def reloads(folder):
    journal = f"{folder}/journal"
    service = Service(folder, journal)
    service.is_up()
    port = service.port
    waits_for(port, "allocd_allocation 1")
    before = ask(port, "GET", "/jobs/node/targets")[2]
    status, _, text = rewrite(service, "{")
    tell("a faulty configuration is not taken", status == 500 and "no JSON" in text, text.strip().replace(f"{folder}/", "", 1))
    tell("the figures say so", "allocd_config_last_reload_successful 0" in ask(port, "GET", "/metrics")[2])
    tell("and nothing changes", ask(port, "GET", "/jobs/node/targets")[2] == before)
    config = json.loads(json.dumps(CONFIG))
    config["scrape_configs"][0]["static_configs"][0]["targets"].append("127.0.0.1:9199")
    config["allocator"]["collectors"].append({"name": "new", "reach": []})
    status, _, text = rewrite(service, config)
    tell("a good one is taken", status == 200, text.strip())
    tell("another target is found", comes(lambda: 'allocd_targets{job="node"} 21' in ask(port, "GET", "/metrics")[2]))
    tell("another collector joins", comes(lambda: '"new"' in ask(port, "GET", "/jobs/node/targets")[2]))
    tell("the journal goes on", not os.path.exists(f"{journal}.1"))
    comes(lambda: 'allocd_targets_covered{job="node"} 21' in ask(port, "GET", "/metrics")[2])
    before = json.loads(ask(port, "GET", "/jobs/node/targets")[2])
    config["scrape_configs"][0]["target_limit"] = 15
    config["scrape_configs"].append({"job_name": "more", "static_configs": [{"targets": ["127.0.0.1:9300"]}]})
    status, _, text = rewrite(service, config)
    tell("one with other jobs is taken", status == 200, text.strip())
    tell("the allocator is renewed", comes(lambda: os.path.exists(f"{journal}.1") and '"more"' in ask(port, "GET", "/jobs")[2]))
    comes(lambda: 'allocd_targets_covered{job="more"} 1' in ask(port, "GET", "/metrics")[2])
    comes(lambda: 'allocd_targets_covered{job="node"} 15' in ask(port, "GET", "/metrics")[2])
    after = json.loads(ask(port, "GET", "/jobs/node/targets")[2])
    held = [{group["targets"][0] for group in it["a"]["targets"]} for it in (before, after)]
    tell("no target is new at a collector", held[1] < held[0] and len(held[1]) == 15, f"{len(held[0])} before, {len(held[1])} after")
    uncovered = json.loads(ask(port, "GET", "/jobs/node/uncovered")[2])
    tell("who is uncovered, and why", len(uncovered["full"]) == 6 and uncovered["unreached"] == [])
    page = ask(port, "GET", "/")
    tell("the page shows names as text", page[0] == 200 and "odd &quot;job&quot; \\ ü" in page[2], page[1]["content-type"])
    def rewrites():
        # The service may end first.
        with contextlib.suppress(OSError, http.client.HTTPException):
            rewrite(service, config)

    threads = [threading.Thread(target=rewrites) for _ in range(8)]
    for it in threads:
        it.start()
    tell("the service ends while others ask for a reload", service.quit() == (200, 0))
    for it in threads:
        it.join()
    for name in ("journal.1", "journal"):
        status, events, answers = replayed(f"{folder}/{name}")
        tell(f"{name} replays", status == 0 and len(events) + 1 == len(answers), f"{len(events)} events")
    status, out, _ = run("audit", f"{journal}.1", journal)
    tell("they are audited", status == 0 and out.endswith("\n"), out.strip().split("\n")[-1])
    status, out, _ = run("audit", journal, f"{journal}.1")
    tell("in another order they are not", status == 1, out.strip().split("\n")[-1])


def signals(folder):
    if not supervisor_can_ask():
        return
    config = f"{folder}/config.json"
    with open(config, "w") as it:
        json.dump(CONFIG, it)
    port = free_port()
    bridge = [f"{ROOT}/scripts/allocd-supervise", PROGRAM, "serve", "--config", config, "--listen", f"127.0.0.1:{port}"]
    it = subprocess.Popen(bridge, stderr=subprocess.PIPE, text=True, preexec_fn=hears_signals)
    up = comes(lambda: ask(port, "GET", "/-/healthy")[0] == 200)
    more = json.loads(json.dumps(CONFIG))
    more["scrape_configs"][0]["static_configs"][0]["targets"].append("127.0.0.1:9199")
    with open(config, "w") as file:
        json.dump(more, file)
    it.send_signal(signal.SIGHUP)
    tell("SIGHUP has it read its configuration again", up and comes(lambda: 'allocd_targets{job="node"} 21' in ask(port, "GET", "/metrics")[2]))
    it.send_signal(signal.SIGTERM)
    tell("SIGTERM ends it with status 0", it.wait(20) == 0)
    it = subprocess.Popen(bridge, stderr=subprocess.PIPE, text=True, preexec_fn=hears_signals)
    up = comes(lambda: ask(port, "GET", "/-/healthy")[0] == 200)
    it.send_signal(signal.SIGINT)
    tell("SIGINT, too", up and it.wait(20) == 0)


def absences(folder):
    config = json.loads(json.dumps(CONFIG))
    config["allocator"]["collector_timeout"] = "1s"
    config["allocator"]["collectors"].append({"name": "b", "reach": [{"allow": True, "test": "any"}]})
    journal = f"{folder}/journal"
    service = Service(folder, journal, config)
    service.is_up()
    began = time.monotonic()
    while time.monotonic() < began + 3.5:
        ask(service.port, "GET", "/jobs/node/targets?collector_id=a")
        time.sleep(0.2)
    status, _, text = ask(service.port, "GET", "/jobs/node/targets")
    tell("a collector that asks for nothing leaves", status == 200 and list(json.loads(text)) == ["a"], list(json.loads(text)))
    service.quit()
    _, events, answers = replayed(journal)
    said = [answer for event, answer in zip(events, answers) if event["event"] in ("drain", "leave")]
    tell("it drains first, and the one that asks stays", said == ["Draining", "Left"], said)


def lists_of(port, name, until, seconds=5):
    """The answers under a name until one is as it is to be, or for so long."""
    seen, end = [], time.monotonic() + seconds
    while time.monotonic() < end:
        status, _, text = ask(port, "GET", f"/jobs/node/targets?collector_id={name}")
        seen.append((status, text))
        if until(status, text):
            break
        time.sleep(0.05)
    return seen


def is_filled(status, text):
    return status == 200 and len(json.loads(text)) > 0


def returns(folder):
    config = json.loads(json.dumps(CONFIG))
    config["allocator"]["collector_timeout"] = "1s"
    reach = [{"allow": True, "test": "any"}]
    journal = f"{folder}/journal"
    service = Service(folder, journal, config)
    service.is_up()
    port = service.port
    tell("a collector of the configuration has its list", is_filled(*lists_of(port, "a", is_filled)[-1]))
    time.sleep(1.4)
    drained = 'allocd_collector_draining{collector="a"} 1' in ask(port, "GET", "/metrics")[2]
    again = lists_of(port, "a", lambda status, text: 'allocd_collector_draining{collector="a"} 0' in ask(port, "GET", "/metrics")[2])
    tell("drained since it was absent, it joins anew where it asks again", drained and again[-1][0] == 200, again[-1][0])
    tell("and gets its targets back", is_filled(*lists_of(port, "a", is_filled)[-1]))
    time.sleep(2.6)
    gone = ask(port, "GET", "/jobs/node/targets")[2] == "{}"
    seen = lists_of(port, "a", is_filled)
    tell("one that has left is told to let go, and joins by asking", gone and seen[0] == (200, "[]") and is_filled(*seen[-1]), (seen[0], seen[-1][0]))
    ask(port, "POST", "/collectors", {"name": "h", "reach": reach})
    ask(port, "GET", "/jobs/node/targets?collector_id=h")
    number = json.loads(ask(port, "POST", "/collectors", {"name": "h", "reach": reach})[2])["refused"].split()[1]
    ask(port, "DELETE", f"/collectors/{number}")
    seen = lists_of(port, "h", is_filled, 1)
    tell("one that joined over HTTP and left is told to let go, and stays away", set(seen) == {(200, "[]")}, seen[0])
    tell("a name that nobody had is not known", ask(port, "GET", "/jobs/node/targets?collector_id=z")[0] == 404)
    service.quit()
    config["allocator"]["rejoin"] = False
    service = Service(folder, journal, config)
    service.is_up()
    time.sleep(2.6)
    seen = lists_of(service.port, "a", is_filled, 1)
    tell("with rejoin false it stays away", set(seen) == {(200, "[]")}, seen[0])
    seen = lists_of(service.port, "h", is_filled, 0.2)
    tell("who left is known after a start, too", set(seen) == {(200, "[]")}, seen[0])
    config["scrape_configs"].append({"job_name": "one more"})
    with open(service.config, "w") as it:
        json.dump(config, it)
    ask(service.port, "POST", "/-/reload")
    comes(lambda: ask(service.port, "GET", "/jobs")[2].count("one more") > 0, 5)
    service.quit()
    service = Service(folder, journal, config)
    service.is_up()
    seen = lists_of(service.port, "h", is_filled, 0.2)
    tell("and after a renewal and a start", set(seen) == {(200, "[]")}, seen[0])
    service.quit()


def list_of(port, name, more=""):
    """A collector's list of the job `node`: the status, the headers, the targets."""
    it = http.client.HTTPConnection("127.0.0.1", port, timeout=60)
    try:
        it.request("GET", f"/jobs/node/targets?collector_id={name}{more}")
        said = it.getresponse()
        groups = json.loads(said.read())
        return said.status, said.headers, {one for group in groups for one in group["targets"]} if said.status == 200 else set()
    finally:
        it.close()


def figure(port, name):
    """A figure of the service's."""
    return next((float(line.split()[-1]) for line in ask(port, "GET", "/metrics")[2].split("\n") if line.startswith(f"{name} ")), None)


def handing_over(port):
    """How many targets of the job are handed over."""
    return len(json.loads(ask(port, "GET", "/jobs/node/uncovered")[2])["handing_over"])


def hand_overs(folder):
    """Lists are given in order: no target is in two of them until the first of the two has asked again, or is let go."""
    config = json.loads(json.dumps(CONFIG))
    reach = [{"allow": True, "test": "any"}]
    config["allocator"]["join_by_asking"] = [{"pattern": "pod-*", "reach": reach, "limits": {"node": 3}}]
    journal = f"{folder}/journal"
    service = Service(folder, journal, config)
    service.is_up()
    port = service.port
    waits_for(port, "allocd_allocation 1")
    status, head, all_of_a = list_of(port, "a")
    names = ("x-allocation-number", "x-scrape-round", "x-left-out", "x-collector", "x-allocator-epoch", "x-scrape-round-age", "x-scrape-round-length")
    numbers = [int(head.get(name, "-1")) for name in names]
    tell("a list has its head", status == 200 and len(all_of_a) == 20 and min(numbers) >= 0 and numbers[2:4] == [0, 1] and numbers[6] == 1000, numbers)
    epoch = numbers[4]
    entries = figure(port, "allocd_journal_entries")
    list_of(port, "a", "&take=false")
    list_of(port, "a")
    tell("a look and a list that is the same are no events", [event["event"] for event in events_in(lines_of(journal))].count("serve") == 1, entries)
    ask(port, "PUT", "/collectors/1/limits", {"limits": {"node": 12}})
    ask(port, "POST", "/collectors", {"name": "b", "reach": reach})
    waits_for(port, "allocd_allocation 2")
    _, head, early = list_of(port, "b")
    waiting = handing_over(port)
    tell("the list of who gets targets leaves out what the other list still has", (early, head["x-left-out"], waiting) == (set(), "8", 8), (len(early), head["x-left-out"], waiting))
    tell("the figures say so", (figure(port, 'allocd_collector_waited_for{collector="a"}'), figure(port, 'allocd_targets_handing_over{job="node"}')) == (8, 8))
    fewer = list_of(port, "a")[2]
    later = list_of(port, "b")[2]
    tell("it has them once the other has asked again", len(fewer) == 12 and len(later) == 8 and fewer | later == all_of_a, (len(fewer), len(later)))
    report = {"collector": 1, "number": 2, "target": 0, "round": 1, "up": True, "samples": 5}
    other = ask(port, "POST", "/reports", dict(report, epoch=epoch + 1))
    tell("a report of another epoch is refused", (other[0], line_of(other[2])) == (409, "OtherEpoch"), other[2])
    tell("one of this epoch is read", line_of(ask(port, "POST", "/reports", dict(report, epoch=epoch))[2]) != "OtherEpoch")
    ask(port, "PUT", "/collectors/2/limits", {"limits": {"node": 20}})
    ask(port, "DELETE", "/collectors/1")
    waits_for(port, "allocd_allocation 3")
    kept = list_of(port, "b")
    tell("what a collector that left was given last waits for it", len(kept[2]) == 8 and kept[1]["x-left-out"] == "12", kept[1]["x-left-out"])
    released = line_of(ask(port, "POST", "/collectors/1/release")[2])
    tell("until its lists are let go by hand", released == "Released 12" and len(list_of(port, "b")[2]) == 20, released)
    first = ask(port, "GET", "/jobs/node/targets?collector_id=pod-7")[0]
    joined = comes(lambda: list_of(port, "pod-7")[0] == 200, 5)
    tell("who asks under a name that matches a pattern joins", first == 404 and joined)
    tell("under another name nobody does", ask(port, "GET", "/jobs/node/targets?collector_id=pot-7")[0] == 404)
    service.quit()
    status, events, answers = replayed(journal)
    served = [answer for event, answer in zip(events, answers) if event["event"] == "serve"]
    tell("the journal has each list that was another one, and replays", status == 0 and len(served) >= 6 and all(one.startswith("Served") for one in served), len(served))
    service = Service(folder, journal, config)
    service.is_up()
    tell("the epoch is the journal's", int(list_of(service.port, "b")[1]["x-allocator-epoch"]) == epoch)
    config["scrape_configs"].append({"job_name": "one more"})
    with open(service.config, "w") as it:
        json.dump(config, it)
    ask(service.port, "POST", "/-/reload")
    comes(lambda: ask(service.port, "GET", "/jobs")[2].count("one more") > 0, 5)
    renewed = int(list_of(service.port, "b")[1]["x-allocator-epoch"])
    tell("and another one once the allocator is renewed", renewed > epoch)
    service.quit()
    service = Service(folder, journal, config)
    service.is_up()
    tell("which is the journal's, too, behind the next start", int(list_of(service.port, "b")[1]["x-allocator-epoch"]) == renewed)
    service.quit()


def replayed(journal):
    """Each event of a journal beside its answer, by `allocd replay`."""
    with open(journal, "rb") as it:
        text = it.read()
    lines = text[: text.rfind(b"\n") + 1]
    done = subprocess.run([PROGRAM, "replay"], input=lines, capture_output=True)
    answers = done.stdout.decode().split("\n")[:-1]
    return done.returncode, events_in(lines), answers


def journals(folder):
    journal = f"{folder}/journal"
    service = Service(folder, journal)
    service.is_up()
    waits_for(service.port, "allocd_allocation 1")
    joined = ask(service.port, "POST", "/collectors", {"name": "b", "reach": []})[2]
    second = Service(folder, journal)
    tell("a second service on the same journal", second.ended() == 2)
    tell("ends", service.quit() == (200, 0))
    status, events, answers = replayed(journal)
    tell("its journal replays", status == 0 and len(events) + 1 == len(answers), f"{len(events)} events")
    with open(journal, "ab") as it:
        it.write(b'{"event":"ro')
    service = Service(folder, journal)
    tell("it starts over a torn line", service.is_up())
    _, _, again = ask(service.port, "POST", "/collectors", {"name": "b", "reach": []})
    tell("it knows what was", joined == '{"answer":"Joined 2"}' and again == '{"refused":"AlreadyJoined 2"}', again)
    service.quit()
    with open(journal, "rb") as it:
        text = it.read()
    with open(journal, "wb") as it:
        it.write(text.replace(b'"event":"join"', b'"event":"jion"', 1))
    service = Service(folder, journal)
    tell("a damaged line", service.ended() == 2)


def load(port, seen, stop, seed):
    """Posts events until the service is gone, and notes what each was answered."""
    dice = random.Random(seed)
    names = 0
    while not stop.is_set():
        try:
            kind = dice.randrange(3)
            if kind == 0:
                names += 1
                body = {"name": f"c{seed}-{names}", "reach": []}
                said = ask(port, "POST", "/collectors", body)
                seen.append((("join", body["name"]), said[2]))
            elif kind == 1:
                id = dice.randrange(2, 40)
                said = ask(port, "DELETE", f"/collectors/{id}")
                seen.append((("leave", id), said[2]))
            else:
                body = {"collector": 1, "number": 1, "target": dice.randrange(20), "round": dice.randrange(1, 5), "up": True, "samples": 3}
                said = ask(port, "POST", "/reports", body)
                seen.append((("report", body["target"], body["round"]), said[2]))
        except (OSError, http.client.HTTPException):
            return


def key(event):
    kind = event["event"]
    if kind == "join":
        return ("join", event["name"])
    if kind == "leave":
        return ("leave", event["collector"])
    if kind == "report":
        return ("report", event["target"], event["round"])
    return None


def kills(folder):
    journal = f"{folder}/killed"
    seen, lost = [], 0
    for turn in range(KILLS):
        service = Service(folder, journal)
        if not service.is_up():
            tell(f"it starts after kill {turn}", False)
            return
        ask(service.port, "GET", "/jobs/node/targets?collector_id=a")
        stop = threading.Event()
        threads = [threading.Thread(target=load, args=(service.port, seen, stop, 8 * turn + i)) for i in range(8)]
        for it in threads:
            it.start()
        time.sleep(random.uniform(0.2, 1.2))
        service.it.send_signal(signal.SIGKILL)
        service.ended()
        stop.set()
        for it in threads:
            it.join()
        lost += lost_of(seen, [journal])
    _, events, _ = replayed(journal)
    tell(f"{KILLS} kills under load lose no answer", lost == 0, f"{len(seen)} answers, {len(events)} events in the journal")


def lost_of(seen, journals):
    """How many answers that clients saw are those of no event in the journals. What was refused has no line there."""
    told = collections.Counter()
    for journal in journals:
        _, events, answers = replayed(journal)
        told.update((key(event), answer) for event, answer in zip(events, answers))
    lost = 0
    for what, body in seen:
        line = json.loads(body).get("answer")
        if line is None:
            continue
        if told[(what, line)] == 0:
            lost += 1
            print("lost:", what, line)
        told[(what, line)] -= 1
    return lost


def old_journals(journal):
    """The journals before the last one, in their order."""
    folder, name = os.path.split(journal)
    numbers = sorted(int(it[len(name) + 1 :]) for it in os.listdir(folder) if it.startswith(f"{name}.") and it[len(name) + 1 :].isdigit())
    return [f"{journal}.{it}" for it in numbers]


def reload_often(service, configs, stop, seed):
    """Has the service read one configuration after the other until it is gone."""
    dice = random.Random(seed)
    while not stop.is_set():
        try:
            rewrite(service, dice.choice(configs))
        except (OSError, http.client.HTTPException):
            return
        time.sleep(dice.uniform(0, 0.1))


def kills_while_reloading(folder):
    journal = f"{folder}/reloading"
    more_jobs = json.loads(json.dumps(CONFIG))
    more_jobs["scrape_configs"].append({"job_name": "more", "static_configs": [{"targets": ["127.0.0.1:9300"]}]})
    other_rules = json.loads(json.dumps(CONFIG))
    other_rules["scrape_configs"][0]["relabel_configs"] = [{"target_label": "x", "replacement": "y"}]
    configs = [CONFIG, more_jobs, other_rules]
    seen, starts = [], 0
    for turn in range(KILLS + 1):
        service = Service(folder, journal, random.choice(configs))
        if not service.is_up():
            tell(f"it starts after kill {turn}", False)
            return
        starts += 1
        if turn == KILLS:
            service.quit()
            break
        stop = threading.Event()
        threads = [threading.Thread(target=load, args=(service.port, seen, stop, 8 * turn + i)) for i in range(4)]
        threads.append(threading.Thread(target=reload_often, args=(service, [*configs, "{"], stop, turn)))
        for it in threads:
            it.start()
        time.sleep(random.uniform(0.3, 1.5))
        service.it.send_signal(signal.SIGKILL)
        service.ended()
        stop.set()
        for it in threads:
            it.join()
    journals = [*old_journals(journal), journal]
    lost = lost_of(seen, journals)
    tell(f"{KILLS} kills in the midst of reloads lose no answer, and it starts each time", lost == 0 and starts == KILLS + 1, f"{len(seen)} answers, {len(journals)} journals")
    status, out, _ = run("audit", *journals)
    tell("all journals are audited", status == 0, out.strip().split("\n")[-1])


def with_jobs(*jobs, **first):
    """The configuration with members of its first job, with these jobs behind its own, and with a second collector."""
    config = json.loads(json.dumps(CONFIG))
    config["scrape_configs"][0].update(first)
    config["scrape_configs"] += jobs
    config["allocator"]["collectors"].append({"name": "b", "reach": [{"allow": True, "test": "any"}]})
    return config


def holders(port, *jobs):
    """Who holds each target of some jobs."""
    lists = [json.loads(ask(port, "GET", f"/jobs/{job}/targets")[2]) for job in jobs]
    return {target: name for it in lists for name, held in it.items() for group in held["targets"] for target in group["targets"]}


def bytes_of(folder):
    """The bytes of each journal in a folder."""
    found = {}
    for name in os.listdir(folder):
        if name.startswith("journal"):
            with open(f"{folder}/{name}", "rb") as it:
                found[name] = it.read()
    return found


def text_of(file):
    with open(file) as it:
        return it.read()


MORE = {"job_name": "more", "static_configs": [{"targets": [f"127.0.0.1:{9300 + i}" for i in range(6)]}]}
FOUND = [{"url": "http://127.0.0.1:1/", "refresh_interval": "1s"}]
OTHER_JOBS = "other jobs or report_rounds than the journal"


def restarts(folder):
    journal = f"{folder}/journal"
    rows = [
        ("at first", with_jobs(target_limit=10), ("node",), 20),
        ("a job is added", with_jobs(MORE, target_limit=10), ("node", "more"), 26),
        ("a limit is changed", with_jobs(MORE, target_limit=8), ("node", "more"), 22),
        ("a source is added", with_jobs(MORE, target_limit=8, http_sd_configs=FOUND), ("node", "more"), 22),
        ("a limit and a source are gone", with_jobs(MORE), ("node", "more"), 26),
        ("a job is removed", with_jobs(), ("node",), 20),
    ]
    before, files = {}, 0
    for name, config, jobs, covered in rows:
        for again in (False, True):
            service = Service(folder, journal, config)
            if not service.is_up():
                tell(name, False)
                return
            full = comes(lambda: len(holders(service.port, *jobs)) == covered)
            after = holders(service.port, *jobs)
            moved = [it for it in after if before.get(it, after[it]) != after[it]]
            ends = service.quit() == (200, 0)
            files += before != {} and not again
            kept = len(old_journals(journal)) == files
            tell(f"{name}{', and again' if again else ''}", full and not moved and ends and kept, f"{len(after)} held, {files} old journals")
            before = after
    tell("each renewal is told", text_of(f"{folder}/log").count(OTHER_JOBS) == files)
    status, out, _ = run("audit", *old_journals(journal), journal)
    tell("they are audited", status == 0, out.strip().split("\n")[-1])
    refused_restart(folder, journal)


def refused_restart(folder, journal):
    """A start under so many jobs that no allocator has them changes nothing."""
    service = Service(folder, journal, with_jobs())
    service.is_up()
    for i in range(15):
        ask(service.port, "POST", "/collectors", {"name": f"c{i}", "reach": []})
    service.quit()
    with open(journal, "ab") as it:
        it.write(b'{"event":"ro')
    before = bytes_of(folder)
    many = with_jobs(*({"job_name": f"j{i}"} for i in range(1000)))
    service = Service(folder, journal, many)
    status = service.ended(120)
    why = text_of(f"{folder}/log").strip().split("\n")[-1].replace(f"{folder}/", "", 1)
    tell("a start under too many jobs is refused", status == 2 and why.startswith("journal: ") and "jobs times live collectors" in why, why)
    tell("and the files are what they were, a torn line too", bytes_of(folder) == before)
    service = Service(folder, journal, with_jobs())
    tell("the former configuration starts", service.is_up() and service.quit() == (200, 0))


def kills_of_restarts(folder):
    """Starts under one configuration after the other, killed in the midst."""
    journal = f"{folder}/journal"
    dice = random.Random(1)
    configs = [with_jobs(), with_jobs(MORE), with_jobs(target_limit=8), with_jobs(MORE, http_sd_configs=FOUND)]
    service = Service(folder, journal, configs[0])
    service.is_up()
    waits_for(service.port, "allocd_allocation 1")
    began = time.monotonic()
    service.quit()
    service = Service(folder, journal, configs[1])
    service.is_up()
    service.it.kill()
    service.ended()
    span = 2 * (time.monotonic() - began)
    for turn in range(20 * KILLS):
        service = Service(folder, journal, dice.choice(configs))
        time.sleep(dice.uniform(0, span))
        service.it.send_signal(signal.SIGKILL)
        service.ended()
    service = Service(folder, journal, configs[1])
    up = service.is_up() and comes(lambda: len(holders(service.port, "node", "more")) == 26)
    tell(f"{20 * KILLS} kills in the midst of starts under other jobs, and it starts", up and service.quit() == (200, 0), f"{len(old_journals(journal))} old journals")
    status, out, _ = run("audit", *old_journals(journal), journal)
    tell("all journals are audited", status == 0, out.strip().split("\n")[-1])


def starts_at_once(folder):
    """Three services that start at one moment under other jobs than the journal's."""
    journal = f"{folder}/journal"
    own = [f"{folder}/{i}" for i in range(3)]
    for it in own:
        os.mkdir(it)
    wrong = []
    for turn in range(20 * KILLS):
        config = with_jobs(MORE) if turn % 2 else with_jobs()
        services = []
        for it in own:
            services.append(Service(it, journal, config))
            time.sleep(random.choice((0, 0, 0.005, 0.02)))
        comes(lambda: sum(it.it.poll() is None for it in services) == 1)
        ends = [it.quit()[1] if it.it.poll() is None and it.is_up() else it.ended() for it in services]
        wrong += [ends] if sorted(ends) != [0, 2, 2] else []
    tell(f"of three starts at once one serves, {20 * KILLS} times", not wrong, wrong[:3] or "")
    status, out, _ = run("audit", *old_journals(journal), journal)
    tell("all journals are audited", status == 0, out.strip().split("\n")[-1])


class Changing(http.server.BaseHTTPRequestHandler):
    """A discovery source whose list is a new one at each request."""

    asked = 0

    def do_GET(self):
        Changing.asked += 1
        targets = [f"h{Changing.asked}x{i}:80" for i in range(15000)]
        body = json.dumps([{"targets": targets}]).encode()
        self.send_response(200)
        self.send_header("content-type", "application/json")
        self.send_header("content-length", str(len(body)))
        self.end_headers()
        self.wfile.write(body)

    def log_message(self, *_):
        pass


def renewals(folder):
    source = http.server.ThreadingHTTPServer(("127.0.0.1", 0), Changing)
    threading.Thread(target=source.serve_forever, daemon=True).start()
    config = {
        "global": {"scrape_interval": "1s"},
        "scrape_configs": [
            {"job_name": "web", "http_sd_configs": [{"url": f"http://127.0.0.1:{source.server_port}/", "refresh_interval": "300ms"}]}
        ],
        "allocator": {"settle": "50ms", "lifecycle": True, "collectors": [{"name": "a", "reach": [{"allow": True, "test": "any"}]}]},
    }
    journal = f"{folder}/journal"
    service = Service(folder, journal, config)
    service.is_up()
    began = time.monotonic()
    while not os.path.exists(f"{journal}.2") and time.monotonic() < began + 120:
        time.sleep(0.1)
    tell("the allocator is renewed, and its journal begins anew", os.path.exists(f"{journal}.2"))
    tell("ends", service.quit() == (200, 0))
    starts = 0
    for turn in range(KILLS):
        service = Service(folder, journal, config)
        starts += service.is_up()
        time.sleep(random.uniform(0.5, 4))
        service.it.send_signal(signal.SIGKILL)
        service.ended()
    tell(f"{KILLS} kills in the midst of renewals, and it starts each time", starts == KILLS)
    old = sorted((name for name in os.listdir(folder) if name[8:].isdigit()), key=lambda name: int(name[8:]))
    with open(journal, "rb") as it:
        text = it.read()
    with open(f"{folder}/whole", "wb") as it:
        it.write(text[: text.rfind(b"\n") + 1])
    status, out, _ = run("audit", *(f"{folder}/{name}" for name in old), f"{folder}/whole")
    tell("all journals are audited", status == 0, out.strip().split("\n")[-1])
    config["allocator"]["keep"] = 1
    service = Service(folder, journal, config)
    service.is_up()
    old = max(int(name.rsplit(".", 1)[1]) for name in os.listdir(folder) if name.startswith("journal.") and name[8:].isdigit())
    began = time.monotonic()
    while not os.path.exists(f"{journal}.{old + 2}") and time.monotonic() < began + 120:
        time.sleep(0.1)
    service.quit()
    source.shutdown()
    files = sorted((name for name in os.listdir(folder) if name[8:].isdigit()), key=lambda name: int(name[8:]))
    tell("no more old journals are kept than the configuration says", len(files) == 1, files)
    for name in [*files, "journal"]:
        status, events, answers = replayed(f"{folder}/{name}")
        tell(f"{name} replays", status == 0 and len(events) + 1 == len(answers), f"{len(events)} events, {answers[-1]}")


MANY = 300


def strangers(folder):
    journal = f"{folder}/journal"
    service = Service(folder, journal)
    service.is_up()
    port = service.port
    waits_for(port, "allocd_allocation 1")
    said = []
    threads = [threading.Thread(target=lambda: said.append(ask(port, "GET", "/jobs/node/targets?collector_id=a")[0])) for _ in range(MANY)]
    for it in threads:
        it.start()
    for it in threads:
        it.join()
    tell(f"{MANY} clients at once are answered", said == [200] * MANY)
    held = [socket.create_connection(("127.0.0.1", port), timeout=120) for _ in range(9)]
    tell("idle connections are told of", waits_for(port, "allocd_http_connections 10\n"))
    for it in held:
        it.close()
    silent = []
    for i in range(MANY):
        it = socket.create_connection(("127.0.0.1", port), timeout=120)
        it.sendall((b"", b"GET /jobs HTT", b"POST /reports HTTP/1.1\r\nhost: localhost\r\ncontent-type: application/json\r\ncontent-length: 9\r\n\r\n{")[i % 3])
        silent.append(it)
    began = time.monotonic()
    end = began + 150
    status = None
    while status is None and time.monotonic() < end:
        try:
            status = ask(port, "GET", "/-/healthy")[0]
        except OSError:
            pass
    tell(f"behind {MANY} that fall silent the next one is answered", status == 200, f"after {time.monotonic() - began:.0f} seconds")
    for it in silent:
        it.setsockopt(socket.SOL_SOCKET, socket.SO_LINGER, b"\1\0\0\0\0\0\0\0")
        it.close()
    tell("resets end their own connections alone", ask(port, "GET", "/-/healthy")[0] == 200)
    tell("ends", service.quit() == (200, 0))
    status, events, answers = replayed(journal)
    takes = sum(event["event"] in ("take", "serve") for event in events)
    tell("the journal has the list that was given, and nothing of the others", status == 0 and 0 < takes <= MANY, f"{takes} takes, {len(events)} events")


def most_connections(port):
    """How many connections a service serves at once."""
    lines = ask(port, "GET", "/metrics")[2].split("\n")
    return next(int(line.split()[1]) for line in lines if line.startswith("allocd_http_connections_max "))


def timed(call, *args):
    """What a call gives, and how many seconds it took."""
    began = time.monotonic()
    return call(*args), time.monotonic() - began


def idle_connections(port, count):
    """So many connections that had an answer and are idle behind it."""
    held = []
    for _ in range(count):
        it = http.client.HTTPConnection("127.0.0.1", port, timeout=30)
        it.request("GET", "/-/healthy")
        it.getresponse().read()
        held.append(it)
    return held


def are_closed(held):
    """Whether the other side has closed each of these connections, and said nothing more."""
    return all(it.sock is None or it.sock.recv(1) == b"" for it in held)


def few_descriptors():
    """So that a service serves no more than 192 connections at once."""
    resource.setrlimit(resource.RLIMIT_NOFILE, (352, 352))


def idle_clients(folder):
    service = Service(folder, prepare=few_descriptors)
    service.is_up()
    port = service.port
    most = most_connections(port)
    tell("as many connections as there are descriptors beside 160", most == 192, most)
    held = idle_connections(port, most - most // 8 - 8)
    (status, _, _), waited = timed(ask, port, "GET", "/-/healthy")
    tell(f"beside {len(held)} idle connections a request is answered at once", status == 200 and waited < 1, f"after {waited:.1f} seconds")
    held[0].request("GET", "/-/healthy")
    tell("each of them is kept", held[0].getresponse().read() == b"allocd is healthy.\n")
    silent = [socket.create_connection(("127.0.0.1", port), timeout=30) for _ in range(most - len(held) + 8)]
    (status, _, _), waited = timed(ask, port, "GET", "/-/healthy")
    tell("where all places are held, those who came last and are silent give theirs", status == 200 and waited < 6, f"after {waited:.1f} seconds")
    ends, waited = timed(service.quit)
    tell("it ends beside idle connections at once", ends == (200, 0) and waited < 4 and are_closed(held), f"after {waited:.1f} seconds")
    for it in silent:
        it.close()


class Newcomers:
    """Clients that join collectors, each join on a connection of its own, until the service is gone."""

    def __init__(self, port, seed):
        self.port, self.seed = port, seed
        self.seen, self.cut, self.wrong, self.longest = [], 0, [], 0
        self.threads = [threading.Thread(target=self.come, args=(i,)) for i in range(16)]
        for it in self.threads:
            it.start()

    def come(self, thread):
        for count in itertools.count():
            name = f"n{self.seed}-{thread}-{count}"
            began = time.monotonic()
            try:
                status, _, text = ask(self.port, "POST", "/collectors", {"name": name, "reach": []})
                if status in (200, 409):
                    self.seen.append((("join", name), text))
                else:
                    self.wrong.append((status, text))
            except ConnectionRefusedError:
                return
            except TimeoutError:
                self.wrong.append("neither an answer nor an end")
            except (OSError, http.client.HTTPException):
                self.cut += 1
            self.longest = max(self.longest, time.monotonic() - began)

    def end(self):
        for it in self.threads:
            it.join()


def newcomers_at_the_end(folder):
    """Ends, and renewals, while connections come all the time."""
    journal = f"{folder}/journal"
    configs = [with_jobs(), with_jobs(MORE)]
    seen, cut, wrong, longest, statuses = [], 0, [], 0, set()
    for turn in range(2 * KILLS):
        service = Service(folder, journal, configs[0])
        service.is_up()
        clients = Newcomers(service.port, turn)
        time.sleep(random.uniform(0.05, 0.5))
        if turn % 2:
            for config in (configs[1], configs[0], configs[1], configs[0]):
                with contextlib.suppress(OSError, http.client.HTTPException):
                    rewrite(service, config)
                time.sleep(random.uniform(0, 0.1))
        while service.it.poll() is None:
            try:
                statuses.add(service.quit())
            except (OSError, http.client.HTTPException):
                time.sleep(0.01)
        clients.end()
        seen, cut, wrong, longest = seen + clients.seen, cut + clients.cut, wrong + clients.wrong, max(longest, clients.longest)
    tell(f"it ends {2 * KILLS} times while connections come", statuses == {(200, 0)}, statuses)
    tell("each of them is answered, or ends without an answer", not wrong, wrong[:3] or f"{len(seen)} answers, {cut} cut, {longest:.2f} seconds at most")
    tell("no answer is lost", lost_of(seen, [*old_journals(journal), journal]) == 0)


class Trickling(http.server.BaseHTTPRequestHandler):
    """A discovery source that sends a byte at a time, and never all."""

    def do_GET(self):
        self.send_response(200)
        self.send_header("content-type", "application/json")
        self.send_header("content-length", "1000")
        self.end_headers()
        try:
            for _ in range(1000):
                self.wfile.write(b"[")
                self.wfile.flush()
                time.sleep(0.1)
        except OSError:
            pass

    def log_message(self, *_):
        pass


def slow_source(folder):
    source = http.server.ThreadingHTTPServer(("127.0.0.1", 0), Trickling)
    threading.Thread(target=source.serve_forever, daemon=True).start()
    config = json.loads(json.dumps(CONFIG))
    config["allocator"]["fetch_timeout"] = "1s"
    url = f"http://127.0.0.1:{source.server_port}/"
    config["scrape_configs"].append({"job_name": "slow", "http_sd_configs": [{"url": url, "refresh_interval": "2s"}]})
    service = Service(folder, config=config)
    service.is_up()
    tell("a source that trickles fails after fetch_timeout", waits_for(service.port, 'allocd_refresh_failures_total{source="slow/1"} 1'))
    tell("others go on", waits_for(service.port, "allocd_allocation 1") and comes(lambda: ask(service.port, "GET", "/-/ready")[0] == 200))
    tell("ends", service.quit() == (200, 0))
    source.shutdown()


class Silent(http.server.BaseHTTPRequestHandler):
    """A discovery source that takes a request and says nothing."""

    asked = threading.Event()

    def do_GET(self):
        Silent.asked.set()
        time.sleep(60)

    def log_message(self, *_):
        pass


def silent_source(folder):
    source = http.server.ThreadingHTTPServer(("127.0.0.1", 0), Silent)
    source.daemon_threads = True
    threading.Thread(target=source.serve_forever, daemon=True).start()
    config = json.loads(json.dumps(CONFIG))
    config["allocator"]["fetch_timeout"] = "5s"
    config["scrape_configs"].append({"job_name": "dumb", "http_sd_configs": [{"url": f"http://127.0.0.1:{source.server_port}/"}]})
    service = Service(folder, config=config)
    service.is_up()
    Silent.asked.wait(20)
    began = time.monotonic()
    status, _, text = rewrite(service, config)
    longest = 0
    while time.monotonic() < began + 8:
        before = time.monotonic()
        while True:
            try:
                ask(service.port, "GET", "/jobs/node/targets?collector_id=a")
                break
            except OSError:
                time.sleep(0.01)
        longest = max(longest, time.monotonic() - before)
    tell("while a source is silent, a reload holds up no request", status == 200 and longest < 2, f"{longest:.2f} seconds at most")
    service.it.kill()
    service.ended()
    source.shutdown()


@contextlib.contextmanager
def small_disk(folder):
    """A file system of 64 KiB, or None where nothing can be mounted."""
    disk = f"{folder}/disk"
    os.mkdir(disk)
    mounted = subprocess.run(["mount", "-t", "tmpfs", "-o", "size=64k", "tmpfs", disk], capture_output=True)
    if mounted.returncode:
        print("skipped: a small disk (nothing can be mounted here)")
        yield None
        return
    try:
        yield disk
    finally:
        subprocess.run(["umount", "-l", disk])


def limits_until_refused(port):
    """What other limits were answered until some are 503, and that."""
    said = []
    for i in range(9000):
        status, _, text = ask(port, "PUT", "/collectors/1/limits", {"limits": {"node": i % 7, CONFIG["scrape_configs"][1]["job_name"]: 1}})
        if status == 503:
            return said, text
        answer = json.loads(text)
        said.append(answer.get("answer") or answer.get("refused"))
    return said, None


def limits_in(journal):
    """What the limits of a journal are answered by its replay."""
    status, events, answers = replayed(journal)
    return status, [answer for event, answer in zip(events, answers) if event["event"] == "limits"]


def full_disk(folder):
    with small_disk(folder) as disk:
        if disk is None:
            return
        service = Service(folder, f"{disk}/journal")
        service.is_up()
        said, text = limits_until_refused(service.port)
        tell("on a full disk what is posted is not done", text is not None, text)
        tell("reads go on", ask(service.port, "GET", "/jobs/node/targets")[0] == 200)
        tell("it says that it is not ready", ask(service.port, "GET", "/-/ready")[0] == 503)
        tell("it ends when it is told to", service.quit() == (200, 0))
        subprocess.run(["cp", f"{disk}/journal", f"{folder}/journal"], check=True)
    status, limits = limits_in(f"{folder}/journal")
    tell("the journal has each answer that was given", status == 0 and limits[: len(said)] == said, f"{len(said)} given, {len(limits)} in the journal")
    service = Service(folder, f"{folder}/journal")
    tell("with room it goes on from it", service.is_up() and ask(service.port, "POST", "/collectors", {"name": "new", "reach": []})[0] == 200)
    tell("ends", service.quit() == (200, 0))


def full_renewal(folder):
    with small_disk(folder) as disk:
        if disk is None:
            return
        service = Service(folder, f"{disk}/journal")
        service.is_up()
        waits_for(service.port, "allocd_allocation 1")
        with contextlib.suppress(OSError), open(f"{disk}/filler", "wb", buffering=0) as it:
            while True:
                it.write(b"x" * 1024)
        config = json.loads(json.dumps(CONFIG))
        config["scrape_configs"].append({"job_name": "more"})
        rewrite(service, config)
        tell("where a journal cannot begin, it says that it is not ready", comes(lambda: ask(service.port, "GET", "/-/ready")[0] == 503))
        status, _, text = ask(service.port, "POST", "/collectors", {"name": "b", "reach": []})
        tell("what is posted is not done", status == 503, text)
        tell("reads go on", ask(service.port, "GET", "/jobs/node/targets")[0] == 200)
        tell("it ends when it is told to", service.quit() == (200, 0))
        os.remove(f"{disk}/filler")
        service = Service(folder, f"{disk}/journal", config)
        tell("with room a start takes the configuration", service.is_up() and '"more"' in ask(service.port, "GET", "/jobs")[2])
        tell("ends", service.quit() == (200, 0))
        status, out, _ = run("audit", f"{disk}/journal.1", f"{disk}/journal")
        tell("the journals are audited", status == 0, out.strip().split("\n")[-1])


MOST_GROWN = 48 << 20


def append_lines(journal, line, most):
    """Appends the line, each time with its digest, as long as the file has no more bytes than this."""
    with open(journal) as it:
        digest = it.read().rstrip("\n")[-17:-1]
    with open(journal, "a") as it:
        while it.tell() + len(line) + 20 < most:
            digest = hashlib.sha256((digest + line).encode()).hexdigest()[:16]
            it.write(f'{line} "{digest}"\n')


def long_journals(folder):
    journal = f"{folder}/journal"
    service = Service(folder, journal)
    service.is_up()
    waits_for(service.port, "allocd_allocation 1")
    service.quit()
    targets = [{"targets": [f"h{i}:1"]} for i in range(1500)]
    line = json.dumps({"event": "discover", "job": "none", "source": 0, "targets": targets}, separators=(",", ":"))
    append_lines(journal, line, MOST_GROWN)
    before = os.path.getsize(journal)
    service = Service(folder, journal)
    tell(f"it starts over a journal of {before:,} bytes", service.is_up() or service.is_up())
    posted = 0
    while not os.path.exists(f"{journal}.1") and posted < 5000:
        with contextlib.suppress(OSError, http.client.HTTPException):
            ask(service.port, "PUT", "/collectors/1/limits", {"limits": {"node": posted % 7, CONFIG["scrape_configs"][1]["job_name"]: 1}})
        posted += 1
    tell("at 48 MiB another journal begins", os.path.exists(f"{journal}.1"), f"after {posted} requests")
    comes(lambda: ask(service.port, "GET", "/-/ready")[0] == 200)
    tell("ends", service.quit() == (200, 0))
    for name in ("journal.1", "journal"):
        status, events, answers = replayed(f"{folder}/{name}")
        tell(f"{name} replays", status == 0 and len(events) + 1 == len(answers), f"{os.path.getsize(f'{folder}/{name}'):,} bytes")
    status, out, _ = run("audit", f"{journal}.1", journal)
    tell("they are audited", status == 0, out.strip().split("\n")[-1])


PARTS = (
    words_and_configurations, faults, members_of_prometheus, failures, routes, reloads, signals, absences, returns, hand_overs, journals, kills, kills_while_reloading, restarts,
    kills_of_restarts, starts_at_once, renewals, long_journals, strangers, idle_clients, newcomers_at_the_end, slow_source, silent_source,
    full_disk, full_renewal,
)
run_parts(PARTS, WORDS)
