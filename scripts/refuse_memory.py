#!/usr/bin/env python3
"""Runs the built program with its N-th allocation refused, for N = 1, 2, .. until a run meets none: refuse_memory.py [MOST [PART ..]]

Each command and each request either does as it does with memory, or says that there is none; what it does not do it does once there is memory. In a
row of more than MOST allocations (2000 where left out) only so many are tried, evenly spread. It needs Linux and a C compiler; parts are `commands`,
`sessions`, `requests`, `behind` and `starts`. The table is Markdown. It ends with 0 where all rows hold."""

import collections
import http.client
import http.server
import json
import mmap
import os
import re
import struct
import subprocess
import sys
import tempfile
import threading
import time

from allocd_service import CLOSED, ROOT, Service, comes, line_of, lines_of, replayed, run

MOST = int(sys.argv[1]) if len(sys.argv) > 1 else 2000
ALL = (1 << 64) - 1
# How many seconds something may take on a busy machine that takes a moment on an idle one.
GENEROUS = 20
wrong = []


class Refusals:
    """The file that the program shares with this script while `refuse_memory.c` is loaded into it."""

    def __init__(self, folder):
        self.library = f"{folder}/refuse_memory.so"
        words = [os.environ.get("CC", "cc"), "-O2", "-shared", "-fPIC", "-o", self.library, f"{ROOT}/scripts/refuse_memory.c"]
        subprocess.run(words, check=True)
        self.name = f"{folder}/refusals"
        with open(self.name, "wb") as it:
            it.write(bytes(40))
        self.file = open(self.name, "r+b")
        self.map = mmap.mmap(self.file.fileno(), 40)
        self.environment = {"LD_PRELOAD": self.library, "REFUSE_FILE": self.name}

    def start(self, first=0, last=0):
        """From now on allocations are counted, and those from the first to the last are refused."""
        self.map[:] = struct.pack("5Q", 0, 0, first, last, 0)
        self.map[:8] = struct.pack("Q", 1)

    def has_refused(self):
        return struct.unpack("5Q", self.map[:])[4] > 0

    def give(self):
        """Nothing is refused any more."""
        self.map[:8] = bytes(8)

    def stop(self):
        """How many were counted, and how many refused."""
        self.give()
        _, met, _, _, refused = struct.unpack("5Q", self.map[:])
        return met, refused


class Row:
    """What came of a call, one count a verdict."""

    heads = ("Call", "Allocations met", "Tried", "As without", "Out of memory", "Closed or ended", "Other")

    def __init__(self, name):
        self.name, self.met, self.tried = name, 0, 0
        self.verdicts = collections.Counter()

    def add(self, verdict, number, more=""):
        self.tried += 1
        self.verdicts[verdict] += 1
        if verdict == "other":
            wrong.append(f"{self.name}, allocation {number}: {more}")

    def tell(self, verdicts=("same", "memory", "closed", "other")):
        counts = (self.verdicts[it] for it in verdicts)
        print(f"| {self.name} | {self.met:,} | {self.tried:,} | {' | '.join(f'{it:,}' for it in counts)} |", flush=True)


def tell_heads():
    print(f"| {' | '.join(Row.heads)} |")
    print(f"|{'---|' * len(Row.heads)}")


def spread(count):
    """The numbers up to a count and one more, or so many of them."""
    if count <= MOST:
        return range(1, count + 2)
    return [1 + i * count // MOST for i in range(MOST)] + [count + 1]


# Commands


def instance(items, bins):
    reach = [sorted({(7 * item) % bins, (item + item // 3) % bins}) for item in range(items)]
    before = [[item, reach[item][0]] for item in range(0, items, 2)]
    return {"version": 2, "bins": [items // bins] * bins, "draining": [1], "reach": reach, "before": before}


def journals(folder):
    """Two journals, one a renewal behind the other, of a service with some traffic."""
    config = fleet(60, "50ms")
    name = f"{folder}/journal"
    service = Service(folder, config, name)
    service.is_up()
    comes(lambda: service.figure("allocd_allocation") == 1)
    busy(service)
    config["scrape_configs"][0]["target_limit"] = 20
    service.write(config)
    service.ask("POST", "/-/reload")
    comes(lambda: os.path.exists(f"{name}.1"))
    busy(service)
    service.quit()
    return [f"{name}.1", name]


def busy(service):
    for i in range(4):
        service.ask("POST", "/collectors", {"name": f"c{i}", "reach": [{"allow": True, "test": "any"}]})
        time.sleep(0.3)
        service.ask("GET", "/jobs/node/targets?collector_id=a")
        number = service.figure("allocd_allocation")
        for target in range(20):
            body = {"collector": 1, "number": number, "target": target, "round": 1, "up": True, "samples": target}
            service.ask("POST", "/reports", body)


def inputs(folder):
    def example(name):
        with open(f"{ROOT}/examples/{name}", "rb") as it:
            return it.read()

    for command, name in [
        ("check", "one-of-two.json"),
        ("plan", "fleet.json"),
        ("plan", "draining.json"),
        ("relabel", "relabel.json"),
        ("replay", "two-collectors.replay"),
        ("replay", "two-rounds.replay"),
        ("replay", "draining.replay"),
        ("replay", "renewed.replay"),
    ]:
        yield f"`{command}`, `examples/{name}`", [command], example(name)
    yield "`audit`, `examples/two-rounds.replay`", ["audit", f"{ROOT}/examples/two-rounds.replay"], b""
    large = json.dumps(instance(2000, 20)).encode()
    yield "`plan`, 2,000 items and 20 bins", ["plan"], large
    yield "`check` of that plan", ["check"], run(["plan"], large)[1]
    rules = json.loads(example("relabel.json"))
    rules["relabel_configs"] *= 8
    yield "`relabel`, 8 times the example's rules", ["relabel"], json.dumps(rules).encode()
    files = journals(folder)
    for name, file in zip(("a journal", "its renewal's"), files):
        with open(file, "rb") as it:
            yield f"`replay`, {name}", ["replay"], it.read()
    yield "`audit` of both", ["audit", *files], b""


def command_verdict(found, wanted):
    if found == wanted:
        return "same"
    status, out = found
    if status == 3 and out.endswith(b"memory\n") and wanted[1].startswith(out[: -len(b"memory\n")]):
        return "memory"
    return "other"


def commands(folder, refusals):
    tell_heads()
    for name, words, text in inputs(folder):
        for way, last in (("one", None), ("all from there", ALL)):
            row = Row(f"{name}, {way}")
            refusals.start()
            wanted = run(words, text, env=refusals.environment)
            row.met, _ = refusals.stop()
            for number in spread(row.met):
                refusals.start(number, last or number)
                found = run(words, text, env=refusals.environment)
                refusals.stop()
                row.add(command_verdict(found, wanted), number, found)
            row.tell()


# Sessions


def crowded_session():
    """Two collectors over targets of a group and of a source, of which one is never there."""
    paths = [f"/t{i}" for i in range(6)]
    groups = [{"targets": ["@here"], "labels": {"__metrics_path__": path}} for path in paths]
    pages = [{"path": path, "status": 200, "media": "text/plain", "body": "a 1\nb{x=\"y\"} 2\n" * (i + 1)} for i, path in enumerate(paths[:5])]
    config = {
        "scrape_configs": [
            {"job_name": "node", "static_configs": groups[:4], "http_sd_configs": [{"url": "http://@here/sd"}], "target_limit": 4},
        ]
    }
    return {
        "config": config,
        "collectors": [{"name": name, "reach": [{"allow": True, "test": "any"}]} for name in ("a", "b")],
        "rounds": 2,
        "serve": [*pages, {"path": "/sd", "status": 200, "media": "application/json", "body": json.dumps(groups[4:])}],
        "ask": ["/jobs", "/jobs/node/targets?collector_id=a"],
    }


def lines_of_session(out):
    """The rounds' booked reports and samples, the total, and the other lines."""
    rounds, total, rest = [], None, []
    for line in out.decode().splitlines():
        words = line.split()
        if words[:1] == ["round"] and words[2::2] == ["booked", "refused", "samples"]:
            rounds.append((int(words[3]), int(words[7])))
        elif words[:1] == ["total"]:
            total = int(words[1])
        else:
            rest.append(line)
    return rounds, total, rest


def session_verdict(found, wanted):
    """A session gives what it gives with memory; or books less, and its total is what its rounds booked; or says that there is no memory."""
    (status, out), (_, right) = found, wanted
    if status == 3 and out.endswith(b"memory\n"):
        return "memory"
    if status != 0:
        return "other"
    rounds, total, rest = lines_of_session(out)
    most, _, all_rest = lines_of_session(right)
    if (rounds, rest) == (most, all_rest):
        return "same"
    is_sound = total == sum(samples for _, samples in rounds)
    is_less = len(rounds) == len(most) and all(few <= many for few, many in zip(rounds, most))
    return "less" if is_sound and is_less else "other"


def session(text, environment):
    """A session's status and output, without the ports."""
    status, out = run(["session"], text, env=environment, timeout=GENEROUS * 6)
    return status, re.sub(rb"127\.0\.0\.1:\d+", b"HERE", out)


def sessions(folder, refusals):
    """Turns, rounds and refreshes on threads, as a session runs them."""
    print("| Session | Allocations met | Tried | As without | Less booked, and so much in all | Out of memory | Other |")
    print("|---|---|---|---|---|---|---|")
    with open(f"{ROOT}/examples/session.json", "rb") as it:
        example = it.read()
    for name, text in (("`examples/session.json`", example), ("two collectors, six targets", json.dumps(crowded_session()).encode())):
        for way, last in (("one", None), ("all from there", ALL)):
            row = Row(f"{name}, {way}")
            refusals.start()
            wanted = session(text, refusals.environment)
            row.met, _ = refusals.stop()
            for number in spread(row.met):
                refusals.start(number, last or number)
                found = session(text, refusals.environment)
                refusals.stop()
                row.add(session_verdict(found, wanted), number, found)
            row.tell(("same", "less", "memory", "other"))


# Requests


def fleet(targets, settle):
    return {
        "global": {"scrape_interval": "1h"},
        "scrape_configs": [
            {"job_name": "node", "static_configs": [{"targets": [f"127.0.0.1:{9100 + i}" for i in range(targets)]}]},
            {"job_name": "web", "target_limit": 1, "static_configs": [{"targets": ["h:1"]}]},
        ],
        "allocator": {
            "settle": settle,
            "lifecycle": True,
            "collectors": [{"name": "a", "reach": [{"allow": True, "test": "any"}]}],
        },
    }


def joined(service, name):
    """The number of a collector that has just joined."""
    status, text = service.ask("POST", "/collectors", {"name": name, "reach": []})
    line = line_of(text)
    return int(line.split()[1]) if line.split()[0] in ("Joined", "AlreadyJoined") else line


class Asked:
    """A request that is made again and again: its words at each turn, and which lines the same request may have once more behind each."""

    def __init__(self, name, words, again=None, before=None, after=None):
        self.name, self.words, self.again, self.before, self.after = name, words, again, before, after


def reader(path):
    return Asked(f"`GET {path}`", lambda _: ("GET", path, None))


def report(round):
    return {"collector": 1, "number": 1, "target": 0, "round": round, "up": True, "samples": 3}


def of_new(service, turn):
    turn["id"] = joined(service, f"n{turn['at']}")


def gone(service, turn):
    service.ask("DELETE", f"/collectors/{turn['id']}")


def name_gone(service, turn):
    turn["id"] = joined(service, f"j{turn['at']}")
    gone(service, turn)


def asked():
    yield from map(reader, ("/-/healthy", "/-/ready", "/jobs", "/scrape_configs", "/allocations", "/certificate", "/jobs/node/targets", "/jobs/node/uncovered"))
    yield Asked("`GET /jobs/node/targets?collector_id=a`", lambda _: ("GET", "/jobs/node/targets?collector_id=a", None), again="list")
    yield reader("/jobs/node/targets?collector_id=z")
    yield reader("/jobs/%FF/targets")
    yield reader("/nothing")
    yield Asked("`POST /jobs`", lambda _: ("POST", "/jobs", {}))
    yield Asked("`GET /metrics`", lambda _: ("GET", "/metrics", None), again="figures")
    yield Asked("`GET /`", lambda _: ("GET", "/", None), again="figures")
    yield Asked(
        "`POST /collectors`",
        lambda turn: ("POST", "/collectors", {"name": f"j{turn['at']}", "reach": [{"allow": True, "test": "any"}], "limits": {"node": 3}}),
        again=("Joined", "AlreadyJoined"),
        after=name_gone,
    )
    yield Asked("`POST /collectors`, no JSON", lambda _: ("POST", "/collectors", "{"))
    yield Asked("`DELETE /collectors/ID`", lambda turn: ("DELETE", f"/collectors/{turn['id']}", None), ("Left", "UnknownCollector"), of_new)
    yield Asked("`POST /collectors/ID/drain`", lambda turn: ("POST", f"/collectors/{turn['id']}/drain", {}), ("Draining", "AlreadyDraining"), of_new, gone)
    yield Asked(
        "`PUT /collectors/ID/limits`",
        lambda turn: ("PUT", f"/collectors/{turn['id']}/limits", {"limits": {"node": turn["at"]}}),
        ("LimitsSet", "LimitsSet"),
        of_new,
        gone,
    )
    yield Asked("`POST /reports`, of a round to come", lambda turn: ("POST", "/reports", {**report(4), "samples": turn["at"]}), ("RoundNotOpen",))
    yield Asked("`POST /reports`", lambda turn: ("POST", "/reports", {**report(1), "target": turn["at"] % 20}), ("Booked", "AlreadyBooked"))


def is_right(it, wanted, answer):
    """Whether an answer is that of a run with memory."""
    status, text = answer
    if it.again == "list":
        return status == 200 and text == wanted[1]
    if it.again == "figures":
        return status == 200
    if it.again:
        return status in (200, 404, 409) and line_of(text).split()[0] in it.again
    return answer == wanted


def request_verdict(it, wanted, answer):
    status, text = answer
    if answer == CLOSED:
        return "closed"
    if is_right(it, wanted, answer):
        return "same"
    if status == 503 and text == '{"refused":"Memory"}':
        return "memory"
    return "other"


class Tried:
    """A service over a journal with an allocation, of which requests are made, and each request with its answer."""

    def __init__(self, folder, refusals):
        self.folder, self.refusals, self.seen = folder, refusals, []
        self.journal = f"{folder}/journal"
        first = Service(folder, fleet(20, "50ms"), self.journal)
        first.is_up()
        comes(lambda: first.figure("allocd_allocation") == 1)
        first.quit()
        self.start()

    def start(self):
        self.service = Service(self.folder, fleet(20, "1h"), self.journal, self.refusals.environment)
        self.service.is_up()
        comes(lambda: answers_together(self.service) == 64, GENEROUS)
        self.ask("GET", "/jobs/node/targets?collector_id=a", None)

    def ask(self, *words):
        answer = self.service.ask(*words)
        self.seen.append((words, answer))
        return answer

    def asked_without(self, words, number, last):
        """The answer to a request while memory is refused, for a second at most."""
        self.refusals.start(number, last)
        ending = threading.Timer(1, self.refusals.give)
        ending.start()
        answer = self.ask(*words)
        ending.cancel()
        return *self.refusals.stop(), answer

    def one(self, it, wanted, row, number, last):
        """Whether a refused allocation was met."""
        turn = {"at": number + 10_000 * (last == ALL)}
        if it.before:
            it.before(self.service, turn)
        words = it.words(turn)
        met, refused, answer = self.asked_without(words, number, last)
        row.met = max(row.met, refused and number or met)
        row.add(request_verdict(it, wanted, answer), number, answer)
        again = self.ask(*words)
        if not is_right(it, wanted, again):
            wrong.append(f"{row.name}, behind allocation {number}: {again}")
        if "NotKept" in (again[1] or ""):
            self.service.quit()
            self.start()
        elif it.after:
            it.after(self.service, turn)
        return refused > 0


def requests(folder, refusals):
    tried = Tried(folder, refusals)
    tell_heads()
    for it in asked():
        wanted = CLOSED if it.again and it.again != "list" else tried.ask(*it.words({"at": 0}))
        for way, last in (("one", None), ("all from there, for a second at most", ALL)):
            row = Row(f"{it.name}, {way}")
            number = 1
            while tried.one(it, wanted, row, number, last or number):
                number += 1
            row.tell()
    check_connections(tried.service)
    if tried.service.quit() != (200, 0):
        wrong.append("the service does not end")
    check_journal(tried.journal, tried.seen)


def answers_together(service):
    """How many of 64 connections are answered while all are held."""
    gate = threading.Barrier(64)
    answered = []

    def hold():
        it = http.client.HTTPConnection("127.0.0.1", service.port, timeout=30)
        try:
            it.request("GET", "/-/healthy")
            text = it.getresponse().read()
            gate.wait(GENEROUS)
            answered.append(text)
        except (OSError, threading.BrokenBarrierError, http.client.HTTPException):
            pass
        finally:
            it.close()

    threads = [threading.Thread(target=hold) for _ in range(64)]
    for it in threads:
        it.start()
    for it in threads:
        it.join()
    return answered.count(b"allocd is healthy.\n")


def check_connections(service):
    count = answers_together(service)
    print(f"\nOf 64 connections that are held at once so many are answered: {count}")
    if count != 64:
        wrong.append("connections are not served")


def event_key(words):
    method, path, body = words
    parts = path.split("/")
    if (method, path) == ("POST", "/collectors") and isinstance(body, dict):
        return ("join", body["name"])
    if (method, path) == ("POST", "/reports"):
        return ("report", body["target"], body["round"], body["samples"])
    if parts[1] == "collectors" and len(parts) > 2 and parts[2].isdigit():
        kind = {"DELETE": "leave", "POST": "drain", "PUT": "limits"}[method]
        return (kind, int(parts[2]))
    if path.endswith("collector_id=a"):
        return ("take", 1)
    return None


def journal_key(event):
    kind = event["event"]
    if kind == "join":
        return ("join", event["name"])
    if kind == "report":
        return ("report", event["target"], event["round"], event.get("samples", 0))
    return (kind, event.get("collector"))


def check_journal(journal, seen):
    """Each answer that was given is that of the journal's replay to such an event. What was refused has no line there."""
    status, pairs, total = replayed(journal)
    told = collections.Counter((journal_key(event), answer) for event, answer in pairs)
    lost = 0
    for words, (code, text) in seen:
        key = event_key(words)
        if key is None or code != 200:
            continue
        if key[0] == "take":
            continue
        what = (key, line_of(text))
        lost += told[what] == 0
        told[what] -= 1
    print(f"The journal replays with status {status}: {len(pairs):,} events, `{total}`; answers that it lacks: {lost}")
    if status or lost:
        wrong.append(f"the journal lacks {lost} answers")


# What the service does by itself


class Source(http.server.BaseHTTPRequestHandler):
    """A discovery source with as many targets as it was last told."""

    count = 1

    def do_GET(self):
        body = json.dumps([{"targets": [f"s:{i}" for i in range(Source.count)]}]).encode()
        self.send_response(200)
        self.send_header("content-type", "application/json")
        self.send_header("content-length", str(len(body)))
        self.end_headers()
        self.wfile.write(body)

    def log_message(self, *_):
        pass


class Deed:
    """What the service does by itself: how it is set off, and whether it is done."""

    def __init__(self, name, config, begin, is_done, again=None):
        self.name, self.config, self.begin, self.is_done, self.again = name, config, begin, is_done, again


def limit_is(service, turn):
    service.ask("PUT", "/collectors/1/limits", {"limits": {"node": 10 + turn % 50}})


def is_covered(service, turn):
    return service.figure('allocd_targets_covered{job="node"}') == 10 + turn % 50


def one_more_target(service, turn):
    Source.count = 1 + turn % 50


def is_listed(service, turn):
    return service.figure('allocd_targets{job="found"}') == 1 + turn % 50


def is_round(service, turn):
    before = service.figure("allocd_round")
    return comes(lambda: (service.figure("allocd_round") or 0) > (before or 0), GENEROUS)


def reload_with(change):
    def begin(service, turn):
        config = fleet(100, "50ms")
        change(config, turn)
        service.write(config)
        service.ask("POST", "/-/reload")

    return begin


def more_targets(config, turn):
    config["scrape_configs"][0]["static_configs"][0]["targets"] = [f"t:{i}" for i in range(10 + turn % 50)]


def other_limit(config, turn):
    config["scrape_configs"][0]["target_limit"] = 10 + turn % 50


def has_targets(service, turn):
    return service.figure('allocd_targets{job="node"}') == 10 + turn % 50


def deeds(source):
    rounds = fleet(100, "50ms")
    rounds["global"]["scrape_interval"] = "200ms"
    sources = fleet(100, "1h")
    url = f"http://127.0.0.1:{source.server_port}/"
    sources["scrape_configs"].append({"job_name": "found", "http_sd_configs": [{"url": url, "refresh_interval": "200ms"}]})
    yield Deed("A reallocation", fleet(100, "50ms"), limit_is, is_covered, again=True)
    yield Deed("A round opens", rounds, lambda *_: None, is_round)
    yield Deed("A source is asked", sources, one_more_target, is_listed)
    yield Deed("Another configuration", fleet(100, "50ms"), reload_with(more_targets), has_targets, again=True)
    yield Deed("A renewal under other limits", fleet(100, "50ms"), reload_with(other_limit), is_covered, again=True)


class Doing:
    """A service that does a deed again and again, each time with another allocation refused."""

    def __init__(self, folder, refusals, deed):
        self.folder, self.refusals, self.deed = folder, refusals, deed
        self.journal = f"{folder}/journal"
        self.start(deed.config)

    def start(self, config):
        self.service = Service(self.folder, config, self.journal, self.refusals.environment)
        self.service.is_up()
        comes(lambda: answers_together(self.service) == 64, GENEROUS)

    def one(self, row, number):
        """Whether a refused allocation was met."""
        self.refusals.start(number, number)
        self.deed.begin(self.service, number)
        comes(lambda: self.refusals.has_refused() or self.service.it.poll() is not None, 1.5)
        met, refused = self.refusals.stop()
        row.met = max(row.met, met)
        row.add(self.verdict(number), number, "it is not done")
        return refused > 0

    def verdict(self, number):
        if comes(lambda: self.service.it.poll() is not None or self.deed.is_done(self.service, number), GENEROUS / 3):
            if self.service.it.poll() is None:
                return "same"
            return self.verdict_of_end(number)
        if self.service.it.poll() is None and self.deed.again:
            self.deed.begin(self.service, number)
            if comes(lambda: self.deed.is_done(self.service, number), GENEROUS):
                return "memory"
        self.service.quit()
        self.start_again()
        return "other"

    def verdict_of_end(self, number):
        """A service that ended for want of memory goes on over its journal."""
        status = self.service.it.returncode
        self.start_again()
        self.deed.begin(self.service, number)
        done = comes(lambda: self.deed.is_done(self.service, number), GENEROUS)
        return "closed" if status == 3 and done else "other"

    def start_again(self):
        """It begins with the configuration that was read last, whatever jobs its journal has."""
        with open(self.service.config) as it:
            self.start(json.load(it))


def behind(folder, refusals):
    """Each thing that the service does unasked is done in the end, whichever allocation was refused while it tried."""
    source = http.server.ThreadingHTTPServer(("127.0.0.1", 0), Source)
    threading.Thread(target=source.serve_forever, daemon=True).start()
    tell_heads()
    for place, deed in enumerate(deeds(source)):
        top = f"{folder}/{place}"
        os.mkdir(top)
        doing = Doing(top, refusals, deed)
        row = Row(f"{deed.name}, one")
        refusals.start()
        deed.begin(doing.service, 0)
        comes(lambda: deed.is_done(doing.service, 0), 5)
        count, _ = refusals.stop()
        for number in spread(count):
            doing.one(row, number)
        row.tell()
        doing.service.quit()
        names = [it for it in os.listdir(top) if it.startswith("journal") and not it.endswith((".next", ".lock"))]
        bad = [name for name in names if replayed(f"{top}/{name}")[0]]
        if bad:
            wrong.append(f"{deed.name}: {bad} do not replay")
    source.shutdown()


def starts(folder, refusals):
    """A start either fails as for want of memory, or leads to a service that has what it has with memory."""
    tell_heads()
    for way, last in (("one", None), ("all from there, for a second at most", ALL)):
        for name, first in (("A start that begins a journal", None), ("A start over a journal", fleet(100, "50ms")), ("A start under other jobs", of_other_jobs())):
            row = Row(f"{name}, {way}")
            top = f"{folder}/{name}, {way[:3]}"
            os.mkdir(top)
            journal = f"{top}/journal"
            lines = journal_of(top, first, journal)
            refusals.start()
            one_start(top, refusals, journal)
            row.met, _ = refusals.stop()
            for number in spread(row.met):
                put_journal(lines, journal)
                refusals.start(number, last or number)
                row.add(one_start(top, refusals, journal), number, "not all is there, or not all threads")
            row.tell()


def of_other_jobs():
    """A configuration with another limit and one job more."""
    config = fleet(100, "50ms")
    config["scrape_configs"][0]["target_limit"] = 50
    config["scrape_configs"].append({"job_name": "gone", "static_configs": [{"targets": ["h:2"]}]})
    return config


def journal_of(top, config, journal):
    """The lines of the journal of a service under a configuration, if there is one."""
    if not config:
        return None
    service = Service(top, config, journal)
    service.is_up()
    comes(lambda: service.figure("allocd_allocation") == 1, GENEROUS)
    service.quit()
    return lines_of(journal)


def put_journal(lines, journal):
    """Has a start find these lines, and no other journal."""
    folder, name = os.path.split(journal)
    for it in os.listdir(folder):
        if it.startswith(name):
            os.remove(f"{folder}/{it}")
    if lines:
        with open(journal, "wb") as it:
            it.write(lines)


def one_start(top, refusals, journal):
    service = Service(top, fleet(100, "50ms"), journal, refusals.environment)
    ending = threading.Timer(1, refusals.give)
    ending.start()
    up = service.is_up()
    whole = up and comes(lambda: service.figure('allocd_targets_covered{job="node"}') == 100, GENEROUS)
    ending.cancel()
    refusals.give()
    if not up:
        return "closed" if service.ended() == 3 else "other"
    crowd = answers_together(service) == 64
    ended = service.quit()
    return "same" if whole and crowd and ended == (200, 0) else "other"


PARTS = (commands, sessions, requests, behind, starts)


def main():
    with tempfile.TemporaryDirectory() as top:
        refusals = Refusals(top)
        for part in PARTS:
            if sys.argv[2:] and part.__name__ not in sys.argv[2:]:
                continue
            folder = f"{top}/{part.__name__}"
            os.mkdir(folder)
            began = time.monotonic()
            print(f"\n{part.__name__}\n")
            part(folder, refusals)
            print(f"\n{time.monotonic() - began:.0f} seconds")
    for it in wrong[:40]:
        print("NOT:", it)
    sys.exit(1 if wrong else 0)


main()
