#!/usr/bin/env python3
"""Tries what many open connections do to a service, and tells of each thing whether it holds: try_connections.py [PART ..]

Idle strangers, heads and bodies that come a byte at a time, lists that nobody reads, reloads under load, more connections than there are places, a journal
whose device is slow. A good client asks beside each, and its times are told: half of its answers come within the first, all but a hundredth within
the second, the last within the third. A busy machine is given a second. Lines that begin with `open` say what ought to be and is not yet: they fail nothing.
It needs Linux and the program (ALLOCD_PROGRAM, or dist/allocd)."""

import collections
import contextlib
import json
import os
import resource
import socket
import subprocess
import sys
import threading
import time

from allocd_service import PROGRAM, ROOT, Service, comes, compiler, lines_of, replayed
from parts import run_parts, tell

ANY = [{"allow": True, "test": "any"}]
LIST, LARGE = "/jobs/node/targets?collector_id=a", "/jobs/large/targets?collector_id=a"
# The fronts of requests that do not end.
HALF_HEAD = b"GET /jobs HTTP/1.1\r\nhost: localhost\r\nx-slow: "
HALF_BODY = b"POST /collectors HTTP/1.1\r\nhost: localhost\r\ncontent-type: application/json\r\ncontent-length: 1000\r\n\r\n{"
# What a good client may wait for an answer, in seconds.
GOOD = 1.0
# The limit of an exchange, and with what the trials wait for it.
EXCHANGE, LATE = 25, 6


def config(large=0, **settings):
    """Jobs with 20 targets and with so many, each with a long label."""
    jobs = [{"job_name": "node", "static_configs": [{"targets": [f"127.0.0.1:{9100 + i}" for i in range(20)]}]}]
    if large:
        targets = [f"10.0.{i // 250}.{i % 250}:9100" for i in range(large)]
        jobs.append({"job_name": "large", "static_configs": [{"targets": targets, "labels": {"long": "x" * 8000}}]})
    allocator = {"settle": "50ms", "lifecycle": True, "collectors": [{"name": "a", "reach": ANY}], **settings}
    return {"global": {"scrape_interval": "1h"}, "scrape_configs": jobs, "allocator": allocator}


@contextlib.contextmanager
def served(folder, document, journal=True, descriptors=None, **more):
    """A service with an allocation, and with a journal in the folder if that is wanted. It ends behind the trial as it is told to."""
    most = resource.getrlimit(resource.RLIMIT_NOFILE)
    if descriptors:
        resource.setrlimit(resource.RLIMIT_NOFILE, (descriptors, most[1]))
    service = Service(folder, document, f"{folder}/journal" if journal else None, **more)
    resource.setrlimit(resource.RLIMIT_NOFILE, most)
    try:
        if not service.is_up() or not comes(lambda: service.figure("allocd_allocation") == 1, 20):
            with open(f"{folder}/log") as it:
                sys.exit(f"the service gives no allocation: {it.read()[-400:]}")
        yield service
        began = time.monotonic()
        ends = service.quit()
        tell("it ends as it is told to", ends == (200, 0), f"{ends}, after {time.monotonic() - began:.1f} seconds")
        if journal:
            tell("its journal replays", replayed(f"{folder}/journal")[0] == 0)
    finally:
        service.it.kill()
        service.it.wait()


class Client:
    """A connection, and what is asked on it."""

    def __init__(self, port, seconds=30, buffer=None):
        self.it = socket.socket()
        if buffer:
            self.it.setsockopt(socket.SOL_SOCKET, socket.SO_RCVBUF, buffer)
        self.it.settimeout(seconds)
        self.it.connect(("127.0.0.1", port))
        self.rest, self.is_last = b"", False

    def send(self, method, path, body=None):
        head = f"{method} {path} HTTP/1.1\r\nhost: localhost\r\n"
        if body is not None:
            head += f"content-type: application/json\r\ncontent-length: {len(body)}\r\n"
        self.it.sendall(f"{head}\r\n{body or ''}".encode())

    def more(self):
        """Whether more came."""
        piece = self.it.recv(1 << 20)
        self.rest += piece
        return piece != b""

    def answer(self):
        """The status and the body of an answer, None where the connection ends before its first byte, 'half' where it ends behind that."""
        try:
            while b"\r\n\r\n" not in self.rest:
                if not self.more():
                    return "half" if self.rest else None
            head, _, self.rest = self.rest.partition(b"\r\n\r\n")
            first, *fields = head.lower().split(b"\r\n")
            fields = dict(field.split(b": ", 1) for field in fields)
            pieces, left = [self.rest], int(fields[b"content-length"]) - len(self.rest)
            while left > 0:
                piece = self.it.recv(min(left, 1 << 20))
                if not piece:
                    return "half"
                pieces.append(piece)
                left -= len(piece)
        except ConnectionError:
            return "half" if self.rest else None
        body, self.rest = b"".join(pieces), b""
        self.is_last = fields.get(b"connection") == b"close"
        return int(first.split(b" ")[1]), body

    def ask(self, method, path, body=None):
        try:
            self.send(method, path, body)
        except ConnectionError:
            return None
        return self.answer()

    def is_closed(self):
        """Whether the other side has closed it, and says nothing more."""
        self.it.settimeout(0)
        try:
            return self.it.recv(1) == b""
        except BlockingIOError:
            return False
        except OSError:
            return True

    def close(self):
        self.it.close()


class Times:
    """How long answers took, and which were none."""

    def __init__(self):
        self.seconds, self.wrong = [], []

    def ask(self, port, path, on=None):
        """Asks on this connection or on one of its own."""
        began, client = time.monotonic(), on
        try:
            client = client or Client(port)
            said = client.ask("GET", path)
            if said is None or said == "half" or said[0] != 200:
                self.wrong.append(said if said is None or said == "half" else said[0])
        except OSError as fault:
            self.wrong.append(type(fault).__name__)
        self.seconds.append(time.monotonic() - began)
        if on is None and client is not None:
            client.close()

    def at(self, part):
        return sorted(self.seconds)[min(len(self.seconds) - 1, int(part * len(self.seconds)))]

    def __str__(self):
        figures = ", ".join(f"{1000 * self.at(part):.1f}" for part in (0.5, 0.99, 1))
        return f"{figures} ms of {len(self.seconds)}{f', without {self.wrong[:4]}' if self.wrong else ''}"

    def tell(self, name):
        tell(name, not self.wrong and self.at(0.99) < GOOD, self)


def good_client(port, count=60, path=LIST):
    """What a client meets that has a connection for each of its requests, and one that keeps it."""
    times, kept = Times(), Client(port)
    for _ in range(count):
        times.ask(port, path)
        times.ask(port, path, kept)
        time.sleep(0.005)
    kept.close()
    return times


def tell_open(name, holds, more=""):
    """A line on what ought to be and is not yet."""
    print(f"{'now passes' if holds else 'open'}: {name}{': ' + str(more) if more != '' else ''}", flush=True)


def more_descriptors(count):
    """Whether this process, and a service that it starts, may have so many."""
    most = resource.getrlimit(resource.RLIMIT_NOFILE)[1]
    many = most if most != resource.RLIM_INFINITY else 1 << 20
    resource.setrlimit(resource.RLIMIT_NOFILE, (min(many, 20_000), most))
    if many < count:
        print(f"skipped: {count} connections (no more than {many} descriptors are allowed here)")
    return many >= count


def processor_seconds(service):
    with open(f"/proc/{service.it.pid}/stat") as it:
        fields = it.read().rpartition(")")[2].split()
    return (int(fields[11]) + int(fields[12])) / os.sysconf("SC_CLK_TCK")


def idle(folder):
    """Connections on which nothing was ever said, and such as had an answer."""
    with served(folder, config()) as service:
        good_client(service.port).tell("a good client beside nobody")
        before, silent, kept = service.memory(), [], []
        for count in (64, 256, 2000):
            if not more_descriptors(count + 200):
                break
            while len(silent) + len(kept) < count:
                silent.append(Client(service.port))
                kept.append(Client(service.port))
                if kept[-1].ask("GET", "/-/healthy") != (200, b"allocd is healthy.\n"):
                    tell(f"each of {count} that come is answered", False)
                    return
            good_client(service.port).tell(f"a good client beside {count} idle strangers")
        count = len(silent) + len(kept)
        began = processor_seconds(service)
        time.sleep(1)
        took = processor_seconds(service) - began
        tell("idle ones take no processor", took < 0.2, f"{took:.2f} seconds in a second")
        held = service.memory() - before
        tell("they take little memory", held < 64 * count, f"{held / count:.0f} KB each")
        open_now = service.figure("allocd_http_connections")
        tell("they are counted", count <= open_now <= count + 2, open_now)
        answers = {client.ask("GET", "/-/healthy") for client in kept}
        tell("each that had an answer is kept, and is answered again", answers == {(200, b"allocd is healthy.\n")}, answers)
        for client in silent + kept[::2]:
            client.close()
        gone = comes(lambda: service.figure("allocd_http_connections") <= count // 4 + 2, 10)
        tell("who closes gives a place back", gone)


class Slowly:
    """Sends a byte to each of some connections each second, and knows when each was cut."""

    def __init__(self, clients, byte):
        self.clients, self.byte, self.began, self.cut = clients, byte, time.monotonic(), []
        self.thread = threading.Thread(target=self.send)
        self.thread.start()

    def send(self):
        left = list(self.clients)
        while left and time.monotonic() - self.began < EXCHANGE + LATE:
            time.sleep(1)
            for client in list(left):
                try:
                    client.it.settimeout(0)
                    client.it.send(self.byte)
                    has_ended = client.it.recv(1 << 16) == b""
                except BlockingIOError:
                    has_ended = False
                except OSError:
                    has_ended = True
                if has_ended:
                    self.cut.append(time.monotonic() - self.began)
                    left.remove(client)

    def tell(self, name):
        self.thread.join()
        cut = self.cut or [0]
        in_time = len(cut) == len(self.clients) and min(cut) > EXCHANGE - 2
        tell(f"{name} are cut after {EXCHANGE} seconds", in_time, f"{len(self.cut)}, after {min(cut):.1f} to {max(cut):.1f}")


def slow(folder):
    """Heads and bodies that come a byte a second, and lists that nobody reads."""
    more_descriptors(1024)
    count, readers = 256, 64
    with served(folder, config(large=600), journal=False) as service:
        good_client(service.port).tell("a good client beside nobody")
        heads = [Client(service.port) for _ in range(count)]
        for client in heads:
            client.it.sendall(HALF_HEAD)
        by_heads = Slowly(heads, b"x")
        good_client(service.port).tell(f"a good client beside {count} heads that come a byte a second")
        bodies = [Client(service.port) for _ in range(count)]
        for client in bodies:
            client.it.sendall(HALF_BODY)
        by_bodies = Slowly(bodies, b" ")
        good_client(service.port).tell(f"a good client beside {count} bodies, too")
        size = len(Client(service.port).ask("GET", LARGE)[1])
        before, began = service.memory(), time.monotonic()
        unread = [Client(service.port, buffer=4096) for _ in range(readers)]
        for client in unread:
            client.send("GET", LARGE)
        good_client(service.port).tell(f"a good client beside {readers} that ask for {size:,} bytes and never read, too")
        held = service.memory() - before
        tell("who does not read takes no copy of the list", held * 1024 < readers * size / 4, f"{held / readers:.0f} KB each")
        by_heads.tell("slow heads")
        by_bodies.tell("slow bodies")
        is_open = lambda: service.figure("allocd_http_connections") > 2
        comes(lambda: not is_open(), EXCHANGE + LATE)
        took = time.monotonic() - began
        tell(f"who does not read is cut after {EXCHANGE} seconds", not is_open() and took > EXCHANGE - 2, f"{took:.1f}")
        for client in heads + bodies + unread:
            client.close()
        good_client(service.port).tell("a good client after all that")


class Load:
    """A client that asks all the time on a connection that it keeps, and what became of what it asked."""

    def __init__(self, port, method, path, body=None, pause=0):
        self.port, self.words, self.pause = port, (method, path, body), pause
        self.stop = threading.Event()
        # Answers; connections that an answer ended with `connection: close`; requests on a kept connection that ended without an answer; other faults.
        self.answered = self.said_close = self.cut = 0
        self.wrong, self.longest = [], 0
        self.thread = threading.Thread(target=self.run)
        self.thread.start()

    def run(self):
        client, used = None, False
        while not self.stop.is_set():
            began = time.monotonic()
            try:
                if client is None:
                    client, used = Client(self.port), False
                said = client.ask(*self.words)
            except OSError as fault:
                said = type(fault).__name__
            if said is None and used:
                self.cut += 1
            elif said is None or isinstance(said, str):
                self.wrong.append(said or "a new connection was closed")
            elif said[0] not in (200, 409):
                self.wrong.append(said)
            else:
                self.answered += 1
                self.said_close += client.is_last
            used = True
            self.longest = max(self.longest, time.monotonic() - began)
            if client and (said is None or isinstance(said, str) or client.is_last):
                client.close()
                client = None
            time.sleep(self.pause)
        if client:
            client.close()

    def end(self):
        self.stop.set()
        self.thread.join()


def asked_alone(port, path=LIST, count=10, seconds=10):
    """What clients are told that come one after the other, each on a connection of its own: statuses with their numbers, and the longest time."""
    said, longest = collections.Counter(), 0
    for _ in range(count):
        began = time.monotonic()
        try:
            client = Client(port, seconds)
            answer = client.ask("GET", path)
            client.close()
            said[answer[0] if isinstance(answer, tuple) else str(answer)] += 1
        except OSError as fault:
            said[type(fault).__name__] += 1
        longest = max(longest, time.monotonic() - began)
    return dict(said), longest


def reloads(folder):
    """The configuration is read again, with the same jobs and with others, while clients ask on connections that they keep."""
    with served(folder, config()) as service:
        report = json.dumps({"collector": 1, "number": 1, "target": 0, "round": 1, "up": True, "samples": 1})
        busy = [Load(service.port, "GET", LIST) for _ in range(3)] + [Load(service.port, "GET", "/jobs")]
        paced = [Load(service.port, "GET", LIST, pause=0.01) for _ in range(3)] + [Load(service.port, "POST", "/reports", report, 0.01)]
        resting = [Client(service.port) for _ in range(20)]
        for client in resting:
            client.ask("GET", "/-/healthy")
        time.sleep(0.5)
        others = config()
        others["scrape_configs"].append({"job_name": "more", "static_configs": [{"targets": ["127.0.0.1:9300"]}]})
        said, count = [], 10
        for turn in range(count):
            service.write((config(), others)[turn // 2 % 2])
            said.append(service.ask("POST", "/-/reload")[0])
            time.sleep(0.3)
        for it in busy + paced:
            it.end()
        told = lambda group: f"{sum(it.answered for it in group)} answers, {sum(it.said_close for it in group)} that said close, {sum(it.cut for it in group)} kept connections closed"
        wrong = [fault for it in busy + paced for fault in it.wrong]
        longest = max(it.longest for it in busy + paced)
        tell(f"{count} reloads under load are answered", said == [200] * count, said)
        tell("no answer is cut, and no new connection is refused or closed", not wrong, wrong[:4] or f"busy: {told(busy)}; with pauses: {told(paced)}")
        tell("who asks on a new connection is answered", longest < 4, f"{longest:.2f} seconds at most")
        tell_open("no request on a kept connection is cut", not any(it.cut for it in busy + paced), sum(it.cut for it in busy + paced))
        tell_open("no connection is closed", not any(it.said_close for it in busy + paced) and not any(it.is_closed() for it in resting))
        for client in resting:
            client.close()
    status, events, _ = replayed(f"{folder}/journal")
    tell("what was asked is in the journals", status == 0 and os.path.exists(f"{folder}/journal.1"), f"{len(events)} events")


def reload_beside_slow_ones(folder):
    """The configuration is read again while a stranger's request comes slowly, or another reads nothing."""
    for name, begin, large in (
        ("a head that does not end", lambda client: client.it.sendall(HALF_HEAD), 0),
        ("a body that does not end", lambda client: client.it.sendall(HALF_BODY), 0),
        ("an answer that is not read", lambda client: client.send("GET", LARGE), 600),
    ):
        os.mkdir(f"{folder}/{name}")
        with served(f"{folder}/{name}", config(large=large), journal=False) as service:
            stranger = Client(service.port, buffer=4096)
            begin(stranger)
            time.sleep(0.5)
            tell(f"a reload beside {name}", service.ask("POST", "/-/reload")[0] == 200)
            time.sleep(0.3)
            alone, longest = asked_alone(service.port, "/jobs", 1, 5)
            tell_open("who asks then is not held up", alone == {200: 1} and longest < 0.5, f"{alone}, {longest:.1f} seconds")
            stranger.close()
            good_client(service.port, 10).tell("a good client once the stranger is gone")


def places(folder):
    """As many connections as there are places, of strangers that keep them."""
    with served(folder, config(), descriptors=352) as service:
        port = service.port
        most = service.figure("allocd_http_connections_max")
        tell("there are as many places as descriptors beside 160", most == 192, most)
        held, said = [], []
        for _ in range(2 * most):
            held.append(Client(port, 5))
            said.append(held[-1].ask("GET", "/-/healthy"))
        last = sum(client.is_last for client in held)
        tell(f"each of {len(held)} strangers that keep their connections is answered", all(it == (200, b"allocd is healthy.\n") for it in said), f"{last} of them for the last time")
        alone, longest = asked_alone(port)
        tell("a good client beside them", alone == {200: 10} and longest < GOOD, f"{alone}, {1000 * longest:.0f} ms at most")
        for name, first in (("say nothing", b""), ("begin a head", b"GET /jobs HTT")):
            silent = [Client(port) for _ in range(most + 50)]
            for client in silent:
                with contextlib.suppress(OSError):
                    client.it.sendall(first)
            alone, longest = asked_alone(port)
            tell(f"{len(silent)} more that {name} shut nobody out", alone == {200: 10} and longest < 4, f"{alone}, {1000 * longest:.0f} ms at most")
            tell_open("and hold nobody up", longest < 0.3, f"{1000 * longest:.0f} ms")
            held += silent
        for client in held:
            client.close()
        comes(lambda: (service.figure("allocd_http_connections") or most) <= 2, 10)
        bodies = [Client(port) for _ in range(most + 20)]
        for client in bodies:
            with contextlib.suppress(OSError):
                client.it.sendall(HALF_BODY)
        comes(lambda: asked_alone(port, count=1)[0] == {503: 1}, 10)
        alone, longest = asked_alone(port, count=4)
        tell(f"beside {most} requests whose bodies do not end a client is told so soon", alone == {503: 4} and longest < 1 + GOOD, f"{alone}, {1000 * longest:.0f} ms at most")
        bodies += [Client(port) for _ in range(20)]
        for client in bodies[-20:]:
            client.it.sendall(HALF_BODY)
        alone, longest = asked_alone(port, count=1, seconds=30)
        tell_open("behind 20 more of them, too", alone == {503: 1} and longest < 1 + GOOD, f"{alone}, {longest:.1f} seconds")
        for client in bodies:
            client.close()
        comes(lambda: (service.figure("allocd_http_connections") or most) <= 2, 10)
        good_client(port, 10).tell("a good client after all that")
        away = service.figure("allocd_http_connections_turned_away_total")
        tell("who is turned away is counted", away >= 5, away)
        tell("it told of no connection that could not be taken", service.figure("allocd_http_accept_failures_total") == 0)


def device(folder):
    """Each line of the journal takes half a second until it is on the device."""
    by, library = compiler(), f"{folder}/slow_device.so"
    if by is None:
        print("skipped: a slow device (there is no C compiler)")
        return
    subprocess.run([by, "-O2", "-shared", "-fPIC", "-nostdlib", "-o", library, f"{ROOT}/scripts/slow_device.c"], check=True)
    environment = {"LD_PRELOAD": library, "SLOW_FILE": f"{folder}/is_slow"}
    with served(folder, config(), environment=environment) as service:
        with open(f"{folder}/is_slow", "w"):
            pass
        waiting = [Client(service.port) for _ in range(64)]
        for client in waiting:
            client.send("GET", LIST)
        good_client(service.port, 40, "/jobs").tell(f"a page beside {len(waiting)} lists that wait for a slow device")
        answers = [client.answer() for client in waiting]
        tell("each of the lists is answered once its entry is kept", all(it and it != "half" and it[0] == 200 for it in answers), f"{len(answers)}")
        took, client = [], Client(service.port)
        # (a list that was taken before is no event)
        for name in ("b", "c"):
            began = time.monotonic()
            client.ask("POST", "/collectors", json.dumps({"name": name, "reach": ANY}))
            took.append(time.monotonic() - began)
        tell("and who joins not before", min(took) > 0.4, f"{min(took):.2f} seconds")
        os.remove(f"{folder}/is_slow")
        for client in [*waiting, client]:
            client.close()


if __name__ == "__main__":
    more_descriptors(1024)
    run_parts((idle, slow, reloads, reload_beside_slow_ones, places, device), sys.argv[1:])
