#!/usr/bin/env python3
"""What comes of answers over HTTP, of targets and of sources: whole, cut, reset, in chunks, encoded, too long, none at all.

usage: scripts/try_fetches.py [PART ..]     all parts where none is named; --parts prints their names

The servers send bytes of this script's own. What is expected follows from RFC 9112 and docs/understand/FORMATS.md: a target that gives no whole answer is down,
and a source that gives none keeps its list.
"""

import http.server
import json
import os
import re
import socket
import struct
import subprocess
import sys
import threading
import time
from concurrent.futures import ThreadPoolExecutor

sys.dont_write_bytecode = True
sys.path.insert(0, os.path.dirname(os.path.abspath(__file__)))

from allocd_service import PROGRAM, ask, comes, free_port, replayed, run
from parts import run_parts, tell

LONGEST = 4_194_304
HEAD = b"HTTP/1.1 200 OK\r\n"
# What a server sends, what it does then, how many samples are booked (None: the target is down), and what is said of such a source. A server that
# fails is followed by one that answers, and each answer has another number of samples.
ROWS = {
    "a whole body, after which the server closes": (HEAD + b"content-type: text/plain\r\ncontent-length: 4\r\n\r\na 1\n", "closes", 1, "Media"),
    "half of a body": (HEAD + b"content-type: text/plain\r\ncontent-length: 8\r\n\r\na 1\n", "closes", None, "Device"),
    "a whole body of a connection that stays open": (HEAD + b"content-length: 8\r\n\r\na 1\nb 2\n", "waits", 2, "Media"),
    "a reset in the midst of a body": (HEAD + b"content-length: 8\r\n\r\na 1\n", "resets", None, "Device"),
    "chunks": (HEAD + b"transfer-encoding: chunked\r\n\r\n6\r\na 1\nb \r\n7\r\n2\n\nc 3\n\r\n0\r\n\r\n", "closes", 3, "Media"),
    "chunks without the last one": (HEAD + b"transfer-encoding: chunked\r\n\r\n4\r\na 1\n\r\n", "closes", None, "Device"),
    "no answer at all": (b"", "waits", None, "Device"),
    "a body that ends with the connection": (b"HTTP/1.0 200 OK\r\n\r\na 1\nb 2\nc 3\nd 4", "closes", 4, "Media"),
    "the end of the connection in the head": (HEAD + b"content-le", "closes", None, "Device"),
    "a body that is encoded": (HEAD + b"content-encoding: gzip\r\ncontent-length: 4\r\n\r\na 1\n", "closes", None, "Device"),
    "another status with a body": (b"HTTP/1.1 404 Not Found\r\ncontent-length: 4\r\n\r\na 1\n", "closes", None, "Status"),
    "no HTTP": (b"a 1\r\n\r\n", "closes", None, "Device"),
    "no body": (HEAD + b"content-length: 0\r\n\r\n", "closes", 0, "Media"),
}
LONG_ROWS = {
    "the longest body": (HEAD + b"content-length: 4194304\r\n\r\na 1\n" + b"x" * (LONGEST - 4), "closes", 2, "Media"),
    "a longer body": (HEAD + b"content-length: 4194305\r\n\r\na 1\n" + b"x" * (LONGEST - 3), "waits", None, "TooLong"),
    "a longer body whose length is not told": (b"HTTP/1.0 200 OK\r\n\r\na 1\n" + b"x" * (LONGEST - 3), "waits", None, "TooLong"),
    "the longest body whose length is not told": (b"HTTP/1.0 200 OK\r\n\r\na 1\n" + b"x" * (LONGEST - 4), "closes", 2, "Media"),
}
# Nobody listens at port 1 of this machine, and what is no address is no place.
NOWHERE = ["127.0.0.1:1", "localhost:1", "h:1", "127.0.0.1:65536", "127.0.0.1:+1"]
JSON_TYPE = "application/json"
JSON = b"content-type: application/json\r\n"
# What a source sends one after the other, and what becomes of it: a new list, or why the list stays.
ANSWERS = [
    (HEAD + JSON + b'content-length: 21\r\n\r\n[{"targets":["h:1"]}]', "Discovered 1 0"),
    (HEAD + JSON + b'content-length: 21\r\n\r\n[{"targets"', "the connection failed"),
    (b"HTTP/1.1 500 Internal Server Error\r\n" + JSON + b"content-length: 2\r\n\r\n[]", "status 500"),
    (HEAD + b"content-length: 2\r\n\r\n[]", "no JSON media type"),
    (HEAD + b"content-type: application/json; charset=utf-8\r\ntransfer-encoding: chunked\r\n\r\n8\r\n[{\"targe\r\nd\r\nts\":[\"h:2\"]}]\r\n0\r\n\r\n", "Discovered 1 1"),
    (HEAD + JSON + b"content-length: 2\r\n\r\n[]", "Discovered 0 1"),
]


class Plays:
    """A server that plays answers, one a connection, and the last again and again."""

    def __init__(self, *answers):
        self.answers, self.turn, self.held = list(answers), 0, []
        self.socket = socket.create_server(("127.0.0.1", 0), backlog=64)
        self.port = self.socket.getsockname()[1]
        threading.Thread(target=self.serve, daemon=True).start()

    def serve(self):
        while True:
            try:
                connection, _ = self.socket.accept()
            except OSError:
                return
            sends, then = self.answers[min(self.turn, len(self.answers) - 1)]
            self.turn += 1
            threading.Thread(target=self.play, args=(connection, sends, then), daemon=True).start()

    def play(self, connection, sends, then):
        try:
            # what is not read resets the connection when it is closed
            connection.recv(1, socket.MSG_PEEK) if then == "resets" else heard(connection)
            connection.sendall(sends)
        except OSError:
            pass
        if then == "waits":
            self.held.append(connection)
            return
        if then == "resets":
            connection.setsockopt(socket.SOL_SOCKET, socket.SO_LINGER, struct.pack("ii", 1, 0))
        connection.close()

    def end(self):
        for it in [self.socket, *self.held]:
            it.close()


def heard(connection):
    """Reads to the end of a request without a body."""
    head = b""
    while not head.endswith(b"\r\n\r\n"):
        head += connection.recv(65_536) or b"\r\n\r\n"


ANY = [{"allow": True, "test": "any"}]


def zone(name):
    return [{"allow": True, "label": "zone", "test": "equals", "value": name}]


def session(jobs, rounds=1, **reaches):
    """The status and the lines of a session over these jobs, by collectors with these names and reaches, or by one that reaches all."""
    document = {
        "config": {"scrape_configs": jobs},
        "collectors": [{"name": name, "reach": reach} for name, reach in (reaches or {"a": ANY}).items()],
        "rounds": rounds,
        "serve": [],
        "ask": [],
    }
    status, out = run(["session"], json.dumps(document).encode())
    return status, out.decode().split("\n")[:-1]


def group(*targets):
    return [{"targets": list(targets)}]


def round_line(booked, samples):
    return [f"round 1 booked {booked} refused 0 samples {samples}", f"total {samples}"]


def alone(name, sends, then, samples, source):
    """A target that answers so, and a source."""
    server = Plays((sends, then))
    here = f"127.0.0.1:{server.port}"
    told = session([{"job_name": "j", "static_configs": group(here)}])
    asked = session([{"job_name": "j", "http_sd_configs": [{"url": f"http://{here}/"}]}])
    server.end()
    tell(f"a target: {name}", told == (0, round_line(1, samples or 0)), told[1])
    tell(f"a source: {name}", asked == (0, [f"source j 1 {source}", *round_line(0, 0)]), asked[1])


def each_alone(rows):
    with ThreadPoolExecutor(8) as pool:
        for done in [pool.submit(alone, name, *row) for name, row in rows.items()]:
            done.result()


def answers(_folder):
    each_alone(ROWS)


def longest(_folder):
    each_alone(LONG_ROWS)


def turns(_folder):
    """One collector holds all, one behind the other: it goes on behind those that fail."""
    servers = [Plays((sends, then)) for sends, then, _, _ in ROWS.values()]
    told = session([{"job_name": "j", "static_configs": group(*(f"127.0.0.1:{it.port}" for it in servers))}])
    for it in servers:
        it.end()
    samples = sum(samples or 0 for _, _, samples, _ in ROWS.values())
    tell("a turn goes on behind targets that fail", told == (0, round_line(len(ROWS), samples)), told[1])


def nowhere(_folder):
    told = session([{"job_name": "j", "static_configs": group(*NOWHERE)}])
    tell("what cannot be connected to is down", told == (0, round_line(len(NOWHERE), 0)), told[1])


class Pair:
    """A server that answers two requests once both have come."""

    def __init__(self):
        self.socket = socket.create_server(("127.0.0.1", 0))
        self.port = self.socket.getsockname()[1]
        threading.Thread(target=self.serve, daemon=True).start()

    def serve(self):
        both = [self.socket.accept()[0] for _ in range(2)]
        for it in both:
            heard(it)
        for it in both:
            it.sendall(HEAD + b"content-length: 4\r\n\r\na 1\n")
            it.close()


def at_once(_folder):
    """Two collectors of one round: no fetch is answered before the other begins."""
    server = Pair()
    targets = [{"targets": [f"127.0.0.1:{server.port}"], "labels": {"number": number}} for number in "12"]
    told = session([{"job_name": "j", "target_limit": 1, "static_configs": targets}], a=ANY, b=ANY)
    server.socket.close()
    tell("the fetches of two collectors overlap", told == (0, round_line(2, 2)), told[1])


class Held(http.server.BaseHTTPRequestHandler):
    """A source, and targets of which one is held back until the others were asked and the source has listed one more."""

    lock, asked, lists, gone_on = threading.Lock(), set(), 0, threading.Event()

    def do_GET(self):
        with Held.lock:
            Held.asked.add(self.path)
            Held.lists += self.path == "/list"
            count = 3 + (Held.lists > 1)
        if self.path == "/list":
            self.say(JSON_TYPE, json.dumps([self.group(number) for number in range(count)]).encode())
            return
        if self.path == "/0":
            gone_on = comes(lambda: {"/1", "/2"} <= Held.asked and Held.lists > 1, 8)
            # a plan for three targets and one more is searched and published in a few milliseconds
            time.sleep(1)
            if gone_on:
                Held.gone_on.set()
        self.say("text/plain", b"a 1\n")

    def group(self, number):
        labels = {"zone": "b" if number else "a", "__metrics_path__": f"/{number}"}
        return {"targets": [f"127.0.0.1:{self.server.server_port}"], "labels": labels}

    def say(self, media, body):
        self.send_response(200)
        self.send_header("content-type", media)
        self.send_header("content-length", str(len(body)))
        self.end_headers()
        self.wfile.write(body)

    def log_message(self, *_):
        pass


def held(_folder):
    """What is scraped while another allocation is published is booked as the allocation says by which it was taken."""
    server = http.server.ThreadingHTTPServer(("127.0.0.1", 0), Held)
    threading.Thread(target=server.serve_forever, daemon=True).start()
    told = session([{"job_name": "j", "http_sd_configs": [{"url": f"http://127.0.0.1:{server.server_port}/list"}]}], 2, a=zone("a"), b=zone("b"))
    server.shutdown()
    tell("a scrape is held until the others are done and a target came", Held.gone_on.is_set())
    wanted = ["round 1 booked 3 refused 0 samples 3", "round 2 booked 4 refused 0 samples 4", "total 7"]
    tell("what was held is booked, and the next round has what came", told == (0, wanted), told[1])


def lists(folder):
    """A source that fails keeps its list, until it lists anew."""
    server = Plays(*((sends, "closes") for sends, _ in ANSWERS))
    port, journal = free_port(), f"{folder}/journal"
    config = {
        "scrape_configs": [{"job_name": "j", "http_sd_configs": [{"url": f"http://127.0.0.1:{server.port}/", "refresh_interval": "300ms"}]}],
        "allocator": {"listen": f"127.0.0.1:{port}", "journal": journal, "lifecycle": True},
    }
    with open(f"{folder}/config", "w") as it:
        json.dump(config, it)
    with open(f"{folder}/log", "w") as log:
        service = subprocess.Popen([PROGRAM, "serve", "--config", f"{folder}/config"], stderr=log)
    comes(lambda: server.turn > len(ANSWERS), 20)
    ask(port, "POST", "/-/quit")
    service.wait(20)
    server.end()
    status, pairs, _ = replayed(journal)
    wanted = [said for _, said in ANSWERS if said.startswith("Discovered")]
    found = [answer for event, answer in pairs if event["event"] == "discover"]
    tell("a list stays where its source fails, and changes where it lists anew", (status, found) == (0, wanted), found)
    with open(f"{folder}/log") as it:
        faults = [re.search(r' why="([^"]*)"$', line)[1] for line in it if 'msg="refresh failed"' in line]
    tell("the log says why each failed", faults == [said for _, said in ANSWERS if not said.startswith("Discovered")], faults)


PARTS = (answers, longest, turns, nowhere, at_once, held, lists)


run_parts(PARTS, sys.argv[1:])
