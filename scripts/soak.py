#!/usr/bin/env python3
"""Lets strangers have a running service for a time, ends it, and says whether its books hold: soak.py [SECONDS [SEED]]

Collectors join, leave, drain, get limits, take their lists, report what they hold, what they do not, what is stale, and twice; others send what is no
request, half of one, or reset their connections; discovery sources change their lists, fail, trickle and close half-way; the configuration is read
again, right and wrong. Each thread's dice are thrown by the seed, so a run can be made once more, though threads and time are not the same. It needs
Linux and the program (ALLOCD_PROGRAM, or dist/allocd), and ends with 0 where all holds."""

import collections
import http.client
import http.server
import json
import os
import random
import socket
import struct
import sys
import tempfile
import threading
import time

from allocd_service import Service, line_of, replayed, run

SECONDS = float(sys.argv[1]) if len(sys.argv) > 1 else 30
SEED = sys.argv[2] if len(sys.argv) > 2 else "1"
COLLECTORS = 10
JOBS = ("node", "web", "shop")
# The service is run with one arena of the C library, since what 70 arenas keep for themselves says nothing of the program. Then it may have so much
# beside its journal: a page for each thread, lists of targets, the longest body of a source; and of its journal so many times its bytes, in memory.
CONSTANT_KB = 16 * 1024
PER_JOURNAL = 8
failed = 0


def tell(name, holds, more=""):
    global failed
    failed += not holds
    print(f"{'ok' if holds else 'NOT'}: {name}{': ' + str(more) if more != '' else ''}", flush=True)


# Sources


class Sources(http.server.BaseHTTPRequestHandler):
    """Sources by path. What a source does when it is asked for the N-th time is decided by the seed."""

    lock = threading.Lock()
    asked = collections.Counter()
    deeds = collections.Counter()

    def do_GET(self):
        with Sources.lock:
            Sources.asked[self.path] += 1
            turn = Sources.asked[self.path]
        dice = random.Random(f"{SEED} {self.path} {turn}")
        deed = dice.choices(("list", "fails", "no list", "half", "trickles", "resets", "endless"), (60, 5, 5, 3, 1, 3, 1))[0]
        with Sources.lock:
            Sources.deeds[deed] += 1
        try:
            self.answer(deed, turn)
        except OSError:
            pass

    def answer(self, deed, turn):
        whole = json.dumps([{"targets": self.targets(turn), "labels": {"zone": "east" if turn % 3 else "west"}}]).encode()
        if deed == "list":
            self.say(200, whole, len(whole))
        elif deed == "fails":
            self.say(500, b"", 0)
        elif deed == "no list":
            self.say(200, b'{"targets":[', 12)
        elif deed == "half":
            self.say(200, whole[: len(whole) // 2], len(whole))
        elif deed == "trickles":
            self.say(200, b"", 1000)
            for _ in range(30):
                self.wfile.write(b"[")
                self.wfile.flush()
                time.sleep(0.1)
        elif deed == "resets":
            self.connection.setsockopt(socket.SOL_SOCKET, socket.SO_LINGER, struct.pack("ii", 1, 0))
        else:
            self.say(200, b"", 1 << 32)
            while True:
                self.wfile.write(b" " * 65536)
        self.close_connection = True

    def targets(self, turn):
        """A list that stays for three turns, with a few targets that were never there before."""
        dice = random.Random(f"{SEED} {self.path} list {turn // 3}")
        name = self.path[1:].replace("/", "-")
        return [f"{name}-{dice.randrange(60)}:80" for _ in range(dice.randrange(40))] + [f"{name}-new-{turn // 9}-{i}:80" for i in range(3)]

    def say(self, status, body, length):
        self.send_response(status)
        self.send_header("content-type", "application/json")
        self.send_header("content-length", str(length))
        self.end_headers()
        self.wfile.write(body)

    def log_message(self, *_):
        pass


def configuration(port, dice):
    def sources(job, count):
        return [{"url": f"http://127.0.0.1:{port}/{job}/{i}", "refresh_interval": "500ms"} for i in range(count)]

    return {
        "global": {"scrape_interval": "1s"},
        "scrape_configs": [
            {"job_name": "node", "static_configs": [{"targets": [f"n:{i}" for i in range(dice.randrange(5, 20))]}]},
            {"job_name": "web", "http_sd_configs": sources("web", 2)},
            {"job_name": "shop", "target_limit": dice.choice((0, 4, 4, 9)), "http_sd_configs": sources("shop", 2)},
        ],
        "allocator": {
            "settle": "100ms",
            "lifecycle": True,
            "fetch_timeout": "1s",
            "collector_timeout": "20s",
            "collectors": [{"name": "a", "reach": [{"allow": True, "test": "any"}]}],
        },
    }


# Strangers


class Book:
    """What strangers saw, each under its thread's name."""

    def __init__(self):
        self.lock = threading.Lock()
        self.answers, self.unanswered, self.kinds = [], [], collections.Counter()
        self.takes, self.doubled, self.pages = [], 0, 0

    def note(self, key, status, text):
        with self.lock:
            self.kinds[(key[0], status)] += 1
            if status is None:
                self.unanswered.append(key)
            elif status == 200:  # what was refused has no line in a journal
                self.answers.append((key, line_of(text)))


class Stranger(threading.Thread):
    def __init__(self, name, service, book, stop):
        super().__init__(daemon=True)
        self.dice = random.Random(f"{SEED} {name}")
        self.service, self.book, self.stop = service, book, stop
        self.ids, self.held, self.broken = {"a": 1}, None, None

    def run(self):
        deeds = ((self.enter, 8), (self.take, 20), (self.report, 30), (self.leave, 3), (self.drain, 2), (self.limits, 4), (self.look, 8))
        deeds += ((self.garbage, 2), (self.half_open, 2), (self.reset, 2), (self.too_long, 1))
        while not self.stop.is_set():
            deed = self.dice.choices([it for it, _ in deeds], [weight for _, weight in deeds])[0]
            try:
                deed()
            except OSError:
                pass
            except Exception as fault:
                self.broken = fault
                return
            time.sleep(self.dice.uniform(0, 0.1))

    def event(self, key, method, path, body=None):
        status, text = self.service.ask(method, path, body)
        self.book.note(key, status, text)
        return (status, None) if status not in (200, 404, 409) else (status, line_of(text))

    def enter(self, name=None):
        name = name or f"c{self.dice.randrange(COLLECTORS)}"
        reach = self.dice.choice(
            (
                [{"allow": True, "test": "any"}],
                [{"allow": True, "test": "equals", "label": "zone", "value": "east"}],
                [{"allow": False, "test": "equals", "label": "zone", "value": "west"}, {"allow": True, "test": "any"}],
                [],
            )
        )
        body = {"name": name, "reach": reach}
        if self.dice.random() < 0.3:
            body["limits"] = {self.dice.choice(JOBS): self.dice.randrange(10)}
        _, line = self.event(("join", name), "POST", "/collectors", body)
        if line and line.split()[-1].isdigit():
            self.ids[name] = int(line.split()[-1])

    def id(self):
        return self.dice.choice(list(self.ids.values())) if self.dice.random() < 0.9 else self.dice.randrange(100)

    def leave(self):
        it = self.id()
        self.event(("leave", it), "DELETE", f"/collectors/{it}")

    def drain(self):
        it = self.id()
        self.event(("drain", it), "POST", f"/collectors/{it}/drain", {})

    def limits(self):
        it = self.id()
        limits = {self.dice.choice((*JOBS, "none")): self.dice.randrange(20)}
        self.event(("limits", it, json.dumps(limits)), "PUT", f"/collectors/{it}/limits", {"limits": limits})

    def take(self):
        name = self.dice.choice(list(self.ids))
        path = f"/jobs/{self.dice.choice(JOBS)}/targets?collector_id={name}"
        it = http.client.HTTPConnection("127.0.0.1", self.service.port, timeout=60)
        try:
            it.request("GET", path)
            said = it.getresponse()
            text = said.read().decode()
        except (http.client.HTTPException, ConnectionError):
            return
        finally:
            it.close()
        # who had a name that nobody has is told nothing but an empty list
        if said.status == 200 and "x-allocation-number" in said.headers:
            targets = [int(group["labels"]["__meta_allocator_target"]) for group in json.loads(text)]
            self.held = (name, int(said.headers["x-allocation-number"]), int(said.headers["x-scrape-round"]), targets)
            with self.book.lock:
                self.book.takes.append(self.held)

    def report(self):
        if not self.held:
            return
        name, number, round, targets = self.held
        for target in self.dice.sample(targets, min(3, len(targets))) or [self.dice.randrange(50)]:
            kind = self.dice.choices(("right", "stale", "other", "twice", "round"), (70, 8, 8, 10, 4))[0]
            number_said = number - 1 if kind == "stale" else number
            target_said = self.dice.randrange(200) if kind == "other" else target
            round_said = round + self.dice.choice((-1, 1, 5)) if kind == "round" else round
            for _ in range(2 if kind == "twice" else 1):
                collector = self.id() if self.dice.random() < 0.1 else self.ids[name]
                self.one_report(collector, max(number_said, 0), target_said, max(round_said, 0))

    def one_report(self, collector, number, target, round):
        """Reports, and asks for the collector's number of now where there is none of this one."""
        up = self.dice.random() < 0.9
        body = {"collector": collector, "number": number, "target": target, "round": round, "up": up}
        if up:
            body["samples"] = self.dice.randrange(1000)
        key = ("report", collector, number, target, round, body.get("samples", 0))
        _, line = self.event(key, "POST", "/reports", body)
        if line == "UnknownCollector":
            self.enter(self.held[0])

    def look(self):
        path = self.dice.choice(("/metrics", "/", "/allocations", "/certificate", "/jobs", "/scrape_configs", "/jobs/web/uncovered", *[f"/jobs/{job}/targets" for job in JOBS]))
        status, text = self.service.ask("GET", path)
        if status == 200 and path.endswith("/targets"):
            held = [group["labels"]["__meta_allocator_target"] for one in json.loads(text).values() for group in one["targets"]]
            with self.book.lock:
                self.book.pages += 1
                self.book.doubled += len(held) != len(set(held))

    def sent(self, text):
        it = socket.create_connection(("127.0.0.1", self.service.port), timeout=60)
        it.sendall(text)
        return it

    def garbage(self):
        with self.sent(self.dice.randbytes(self.dice.randrange(1, 300))) as it:
            it.settimeout(1)
            try:
                it.recv(1000)
            except TimeoutError:
                pass

    def half_open(self):
        it = self.sent(self.dice.choice((b"", b"GET /jobs HTT", b"POST /reports HTTP/1.1\r\nhost: localhost\r\ncontent-type: application/json\r\ncontent-length: 90\r\n\r\n{")))
        threading.Timer(self.dice.uniform(0.5, 8), it.close).start()

    def reset(self):
        it = self.sent(b"POST /reports HTTP/1.1\r\nhost: localhost\r\ncontent-type: application/json\r\ncontent-length: 900000\r\n\r\n" + b"x" * self.dice.randrange(200000))
        it.setsockopt(socket.SOL_SOCKET, socket.SO_LINGER, struct.pack("ii", 1, 0))
        it.close()

    def too_long(self):
        self.service.ask("POST", "/reports", "x" * 1_048_577)


def reloads(service, port, stop):
    """Reads the configuration again from time to time, and counts good and bad ones."""
    dice = random.Random(f"{SEED} reloads")
    counts = collections.Counter()
    while not stop.wait(dice.uniform(5, 15)):
        good = dice.random() < 0.7
        text = configuration(port, dice) if good else dice.choice(("{", '{"allocator":{"setle":"1s"}}', ""))
        service.write(text)
        try:
            status, text = service.ask("POST", "/-/reload")
            counts[(good, status)] += 1
            if good and status != 200:
                print("a good configuration:", status, (text or "").strip(), flush=True)
        except OSError:
            counts[(good, "no connection")] += 1
    return counts


# What is left


def in_order(folder):
    old = sorted((name for name in os.listdir(folder) if name[8:].isdigit()), key=lambda name: int(name[8:]))
    return [f"{folder}/{name}" for name in (*old, "journal")]


def key_of(event):
    kind = event["event"]
    if kind == "join":
        return ("join", event["name"])
    if kind == "limits":
        return ("limits", event["collector"], json.dumps(event["limits"]))
    if kind == "report":
        return (kind, *(event[it] for it in ("collector", "number", "target", "round")), event.get("samples", 0))
    return (kind, event.get("collector"))


class Books:
    """What the journals' replays say."""

    def __init__(self, files):
        self.told, self.takes, self.booked = collections.Counter(), collections.Counter(), 0
        self.events, self.held_twice, self.bad = 0, 0, []
        self.bytes = sum(os.path.getsize(file) for file in files)
        for file in files:
            self.add(file)

    def add(self, file):
        status, pairs, total = replayed(file)
        if status:
            self.bad.append(file)
        self.events += len(pairs)
        holders = {}
        for event, answer in pairs:
            self.told[(key_of(event), answer)] += 1
            if answer == "Booked":
                self.booked += event.get("samples", 0)
            if answer.startswith("Taken"):
                self.add_take(event["collector"], answer, holders)

    def add_take(self, collector, answer, holders):
        _, number, round, held = answer.split()
        targets = [] if held == "-" else [int(it) for it in held.split(",")]
        self.takes[(int(number), int(round), frozenset(targets))] += 1
        for target in targets:
            self.held_twice += holders.setdefault((number, target), collector) != collector


def compare(book, books):
    lost = []
    for what in book.answers:
        if books.told[what] == 0:
            lost.append(what)
        books.told[what] -= 1
    tell("each answer that was seen is that of the journals' replay", not lost, f"{len(book.answers):,} answers" if not lost else lost[:3])
    by_moment = collections.defaultdict(list)
    for number, round, targets in books.takes:
        by_moment[(number, round)].append(targets)
    other = [it for it in book.takes if not any(targets.issuperset(it[3]) for targets in by_moment[(it[1], it[2])])]
    tell("each list that was taken is part of one that the replay gives out", not other, f"{len(book.takes):,} lists" if not other else other[:2])
    tell("no page has a target at two collectors", book.doubled == 0, f"{book.pages:,} pages")
    tell("no allocation has a target at two collectors", books.held_twice == 0)


def totals(book, books, files):
    seen = sum(key[5] for key, line in book.answers if key[0] == "report" and line == "Booked")
    unknown = sum(key[5] for key in book.unanswered if key[0] == "report")
    holds = seen <= books.booked <= seen + unknown
    tell("the total is the sum of what was told to be booked", holds, f"{books.booked:,} booked, {seen:,} seen, {unknown:,} without an answer")
    status, out = run(["audit", *files])
    last = out.decode().strip().split("\n")[-1]
    tell("the journals are consistent, with that total", status == 0 and last.endswith(f" total={books.booked}"), last)


def main():
    with tempfile.TemporaryDirectory() as folder:
        source = http.server.ThreadingHTTPServer(("127.0.0.1", 0), Sources)
        source.daemon_threads = True
        threading.Thread(target=source.serve_forever, daemon=True).start()
        first = configuration(source.server_port, random.Random(SEED))
        service = Service(folder, first, f"{folder}/journal", {"MALLOC_ARENA_MAX": "1"})
        service.is_up()
        begun, memory, kept = time.monotonic(), [service.memory()], [0]
        book, stop = Book(), threading.Event()
        strangers = [Stranger(f"stranger {i}", service, book, stop) for i in range(COLLECTORS)]
        for it in strangers:
            it.start()
        counts = {}
        reloading = threading.Thread(target=lambda: counts.update(reloads(service, source.server_port, stop)))
        reloading.start()
        while time.monotonic() < begun + SECONDS and service.it.poll() is None:
            time.sleep(min(5, SECONDS / 4))
            memory.append(service.memory())
            kept.append(os.path.getsize(f"{folder}/journal") // 1024)
        alive = service.it.poll() is None
        stop.set()
        for it in (*strangers, reloading):
            it.join(90)
        tell("the service is there at the end", alive)
        tell("each stranger is, too", all(it.broken is None for it in strangers), [it.broken for it in strangers if it.broken] or "")
        tell("it ends with status 0", service.quit() == (200, 0))
        source.shutdown()
        files = in_order(folder)
        books = Books(files)
        tell("each journal replays", not books.bad, f"{len(files)} files, {books.events:,} events, {books.bytes:,} bytes")
        compare(book, books)
        totals(book, books, files)
        growth = max(memory) - memory[0]
        room = CONSTANT_KB + PER_JOURNAL * max(kept)
        more = f"{memory[0]:,} KB at first, {max(memory):,} at most, {memory[-1]:,} at last; the longest journal {max(kept):,} KB"
        tell("memory grows by no more than the journal that is written explains", growth <= room, more)
        print("memory in KB, and of the journal that is written, each tenth of the time:")
        tenth = max(1, len(memory) // 10)
        print("   ", ", ".join(f"{one:,} {other:,}" for one, other in list(zip(memory, kept))[::tenth]))
        print("sources:", dict(Sources.deeds))
        print("reloads:", {f"{'good' if good else 'bad'} {status}": count for (good, status), count in counts.items()})
        print("requests:", {f"{kind} {status}": count for (kind, status), count in sorted(book.kinds.items(), key=str)})
        with open(f"{folder}/log") as log:
            words = collections.Counter(line.split("msg=")[1].split('"')[1] for line in log if "msg=" in line)
        print("log:", dict(words))
    sys.exit(1 if failed else 0)


main()
