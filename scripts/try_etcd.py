#!/usr/bin/env python3
"""Tries a journal in etcd over three real members on loopback: try_etcd.py [--program PROGRAM] [WORD ..]

Instances of crates/etcd_lines keep lines. They, etcd's leader and members are killed, stopped and go on; a torn end and what a renewal left stand there; there is
no quorum; a snapshot is restored under a leader. Each line that was told to be kept has to be in the exported journal, in its order and once, and no line of who was
deposed. With words, only rows whose names have one of them. It needs Linux and Debian's etcd-server and etcd-client, and leaves nothing behind; without etcd it says
so and ends with 0. PROGRAM is what `rt run` leaves in crates/etcd_lines/out, or the like."""

import base64
import contextlib
import json
import os
import random
import shutil
import signal
import socket
import subprocess
import sys
import tempfile
import threading
import time
import urllib.request

ROOT = os.path.dirname(os.path.dirname(os.path.realpath(__file__)))
PROGRAM = f"{ROOT}/crates/etcd_lines/out/etcd_lines"
LEASE = 5
MOST_BYTES = 524288
ROWS = []


def free_ports(count):
    with contextlib.ExitStack() as stack:
        sockets = [stack.enter_context(socket.socket()) for _ in range(count)]
        for it in sockets:
            it.bind(("127.0.0.1", 0))
        return [it.getsockname()[1] for it in sockets]


def comes(holds, seconds, pause=0.05):
    """Whether it holds within a time; what it gives then"""
    end = time.monotonic() + seconds
    while True:
        found = holds()
        if found or time.monotonic() > end:
            return found
        time.sleep(pause)


def send(process, which):
    """Sends a signal. Whoever is stopped stands still when this is over"""
    process.send_signal(which)
    if which == signal.SIGSTOP:
        comes(lambda: state_of(process.pid) in "TZ", 5, 0.005)


def state_of(pid):
    with contextlib.suppress(OSError), open(f"/proc/{pid}/stat") as it:
        return it.read().rpartition(")")[2].split()[0]
    return "Z"


class Cluster:
    """Three members of etcd with their data in a folder."""

    def __init__(self, folder):
        self.folder = folder
        self.clients, self.peers = free_ports(3), free_ports(3)
        self.members = [None, None, None]
        self.made = 0
        self.start_all()

    def peer_urls(self):
        return ",".join(f"m{i}=http://127.0.0.1:{port}" for i, port in enumerate(self.peers))

    def data(self, i):
        return f"{self.folder}/m{i}-{self.made}"

    def start(self, i):
        words = ["etcd", "--name", f"m{i}", "--data-dir", self.data(i), "--initial-cluster", self.peer_urls(), "--initial-cluster-token", f"t{self.made}"]
        words += ["--listen-client-urls", f"http://127.0.0.1:{self.clients[i]}", "--advertise-client-urls", f"http://127.0.0.1:{self.clients[i]}"]
        words += ["--listen-peer-urls", f"http://127.0.0.1:{self.peers[i]}", "--initial-advertise-peer-urls", f"http://127.0.0.1:{self.peers[i]}"]
        with open(f"{self.folder}/m{i}.log", "ab") as log:
            self.members[i] = subprocess.Popen(words, stdin=subprocess.DEVNULL, stdout=log, stderr=log)

    def start_all(self):
        for i in range(3):
            self.start(i)
        if not comes(lambda: self.leader() is not None, 20):
            raise RuntimeError("no etcd")

    def end(self, i, how=signal.SIGKILL):
        member, self.members[i] = self.members[i], None
        if member:
            with contextlib.suppress(OSError):
                member.send_signal(signal.SIGCONT)
            member.send_signal(how)
            member.wait()

    def signal(self, i, which):
        send(self.members[i], which)

    def end_all(self):
        for i in range(3):
            self.end(i)

    def post(self, path, body, ports=None, seconds=3):
        for port in ports or self.clients:
            request = urllib.request.Request(f"http://127.0.0.1:{port}{path}", json.dumps(body).encode(), {"Content-Type": "application/json"})
            with contextlib.suppress(OSError, ValueError):
                with urllib.request.urlopen(request, timeout=seconds) as answer:
                    return json.load(answer)
        return None

    def leader(self):
        """The number of the member that leads, where all agree on it"""
        ids, leaders = {}, set()
        for i, port in enumerate(self.clients):
            told = self.post("/v3/maintenance/status", {}, [port], 1) if self.members[i] else None
            if told:
                ids[told["header"]["member_id"]] = i
                leaders.add(told.get("leader"))
        found = {ids.get(leader) for leader in leaders}
        return found.pop() if len(found) == 1 else None

    def endpoints(self):
        return ",".join(f"127.0.0.1:{port}" for port in self.clients)

    def put(self, key, value):
        return self.post("/v3/kv/put", {"key": b64(key), "value": b64(value)})

    def get(self, key):
        told = self.post("/v3/kv/range", {"key": b64(key)})
        return base64.b64decode(told["kvs"][0].get("value", "")) if told and told.get("kvs") else None

    def blocks(self, prefix, epoch):
        """The blocks of an epoch, which have to be numbered without a gap"""
        first, blocks = f"/{prefix}/j/{epoch:010}/", []
        while True:
            told = self.post("/v3/kv/range", {"key": b64(f"{first}{len(blocks):010}"), "range_end": b64(f"/{prefix}/j/{epoch:010}0"), "limit": "4"}, seconds=10)
            if told is None:
                raise RuntimeError("etcd does not answer")
            found = told.get("kvs", [])
            if not found:
                return blocks
            for pair in found:
                key = base64.b64decode(pair["key"]).decode()
                if key != f"{first}{len(blocks):010}":
                    raise RuntimeError(f"a gap before {key}")
                blocks.append(base64.b64decode(pair.get("value", "")))

    def journal(self, prefix):
        """The text of the epoch that goes on"""
        epoch = int(comes(lambda: self.get(f"/{prefix}/epoch"), 10) or 0)
        blocks = self.blocks(prefix, epoch)
        if any(not 0 < len(block) <= MOST_BYTES for block in blocks):
            raise RuntimeError(f"blocks of {[len(block) for block in blocks]} bytes")
        return b"".join(blocks).decode()


def b64(text):
    return base64.b64encode(text if isinstance(text, bytes) else text.encode()).decode()


class Instance:
    """A process that keeps lines."""

    def __init__(self, cluster, prefix, name, endpoints=None, lease=LEASE):
        words = [PROGRAM, endpoints or cluster.endpoints(), prefix, str(lease), f"http://{name}"]
        self.name, self.said, self.asked = name, [], 0
        self.process = subprocess.Popen(words, stdin=subprocess.PIPE, stdout=subprocess.PIPE, stderr=subprocess.PIPE, text=True, bufsize=1)
        self.hears = threading.Thread(target=self.hear, daemon=True)
        self.hears.start()

    def hear(self):
        for line in self.process.stdout:
            self.said.append(line.rstrip("\n"))

    def leads(self):
        return any(line.startswith("leads") for line in self.said)

    def stands_by(self):
        return any(line.startswith("stands by") for line in self.said)

    def say(self, line):
        with contextlib.suppress(BrokenPipeError):
            self.process.stdin.write(line + "\n")
            self.process.stdin.flush()

    def kept(self):
        return [line[5:] for line in list(self.said) if line.startswith("kept ") and not line.startswith("kept !")]

    def does(self, line, seconds=10):
        """Says a line, and tells whether it is kept in time"""
        self.say(line)
        return comes(lambda: f"kept {line}" in self.said or self.process.poll() is not None, seconds) and f"kept {line}" in self.said

    def signal(self, which):
        send(self.process, which)

    def end(self, seconds=10):
        """No more lines; the status with which it ends"""
        with contextlib.suppress(OSError):
            self.process.stdin.close()
        return self.wait(seconds)

    def wait(self, seconds=10):
        with contextlib.suppress(subprocess.TimeoutExpired):
            return self.process.wait(seconds)
        return None

    def kill(self):
        with contextlib.suppress(OSError):
            self.process.send_signal(signal.SIGCONT)
        self.process.kill()
        self.process.wait()
        self.hears.join()


class Try:
    """A row's cluster, its instances, and what it found."""

    def __init__(self, cluster, prefix):
        self.cluster, self.prefix, self.instances, self.faults = cluster, prefix, [], []

    def instance(self, name, **more):
        it = Instance(self.cluster, self.prefix, name, **more)
        self.instances.append(it)
        return it

    def holds(self, what, holds):
        if not holds:
            self.faults.append(what)
        return holds

    def leading(self, name, seconds=20, **more):
        it = self.instance(name, **more)
        self.holds(f"{name} leads: {it.said}", comes(it.leads, seconds))
        return it

    def lines(self):
        return self.cluster.journal(self.prefix).split("\n")[:-1]

    def all_kept(self, without=()):
        """Each line that was told to be kept stands in the journal, once and in its instance's order; none of these does"""
        lines = self.lines()
        for it in self.instances:
            at = -1
            for line in it.kept():
                self.holds(f"{line} stands {lines.count(line)} times", lines.count(line) == 1)
                new = lines.index(line) if line in lines else -1
                self.holds(f"{line} stands out of order", new > at)
                at = new
        for line in without:
            self.holds(f"{line} stands there", line not in lines)
        return lines

    def close(self):
        for it in self.instances:
            it.kill()


def row(name):
    def made(test):
        ROWS.append((name, test))
        return test
    return made


@row("lines are kept, as they are")
def appends(t):
    a = t.leading("a")
    for i in range(50):
        t.holds(f"line {i}", a.does(f"line {i}"))
    t.holds("a status of 0 at the end", a.end() == 0)
    t.holds("another journal", t.all_kept() == ["first"] + [f"line {i}" for i in range(50)])


@row("a line longer than a block is in several")
def long_line(t):
    a = t.leading("a")
    t.holds("a short one", a.does("before"))
    t.holds("a long one", a.does("!long 1300000", 20))
    t.holds("a short one behind it", a.does("behind"))
    t.holds("another journal", t.lines() == ["first", "before", "x" * 1300000, "behind"])
    t.holds("other blocks", [len(block) for block in t.cluster.blocks(t.prefix, 1)] == [6, 7, 524288, 524288, 251425, 7])


@row("a lease that is given up is taken over at once")
def quits(t):
    a = t.leading("a")
    b = t.instance("b")
    t.holds("b stands by", comes(b.stands_by, 10))
    t.holds("a line", a.does("of a"))
    t.holds("a status of 0", a.end() == 0)
    began = time.monotonic()
    t.holds("b leads", comes(b.leads, LEASE))
    t.holds(f"after {time.monotonic() - began:.1f} s", time.monotonic() - began < 2)
    t.holds("b has read all", "leads epoch 1 of 2 blocks, 11 bytes" in b.said)
    t.holds("a line of b", b.does("of b"))
    t.holds("another journal", t.all_kept() == ["first", "of a", "of b"])


@row("an instance that is killed is taken over when its lease ends")
def killed(t):
    a = t.leading("a")
    b = t.instance("b")
    for i in range(10):
        t.holds("a line", a.does(f"a {i}"))
    a.say("lost or not")
    a.kill()
    t.holds("b leads", comes(b.leads, 2 * LEASE + 4))
    for i in range(10):
        t.holds("a line", b.does(f"b {i}"))
    t.all_kept()


@row("etcd's leader is killed")
def etcd_leader(t):
    a = t.leading("a")
    for i in range(20):
        a.say(f"before {i}")
    at = t.cluster.leader()
    t.cluster.end(at)
    for i in range(20):
        a.say(f"behind {i}")
    t.holds(f"all lines: {len(a.kept())}", comes(lambda: len(a.kept()) == 40, 15))
    t.cluster.start(at)
    t.holds("a line", a.does("again"))
    t.holds("three members", comes(lambda: t.cluster.leader() is not None, 15))
    t.all_kept()


@row("each member is stopped for a while")
def member_stopped(t):
    a = t.leading("a")
    for i in range(3):
        t.cluster.signal(i, signal.SIGSTOP)
        for j in range(5):
            t.holds(f"line {j} without member {i}", a.does(f"{i} {j}", 15))
        t.cluster.signal(i, signal.SIGCONT)
        comes(lambda: t.cluster.leader() is not None, 15)
    t.all_kept()


@row("without quorum nothing is kept, and then all")
def no_quorum(t):
    a = t.leading("a", lease=20)
    t.holds("a line", a.does("before"))
    at = t.cluster.leader()
    others = [i for i in range(3) if i != at]
    for i in others:
        t.cluster.signal(i, signal.SIGSTOP)
    a.say("meanwhile")
    time.sleep(3)
    t.holds("nothing is kept", "kept meanwhile" not in a.said)
    for i in others:
        t.cluster.signal(i, signal.SIGCONT)
    t.holds("the line is kept", comes(lambda: "kept meanwhile" in a.said, 25))
    t.holds("a line", a.does("behind"))
    t.holds("another journal", t.all_kept() == ["first", "before", "meanwhile", "behind"])


@row("who is stopped past its lease is deposed")
def deposed(t):
    a = t.leading("a")
    b = t.instance("b")
    t.holds("a line", a.does("of a"))
    a.signal(signal.SIGSTOP)
    a.say("of the deposed")
    t.holds("b leads", comes(b.leads, 2 * LEASE + 4))
    t.holds("a line of b", b.does("of b"))
    a.signal(signal.SIGCONT)
    t.holds(f"a is told: {a.said}", comes(lambda: "lost of the deposed" in a.said, 10))
    t.holds("a status of 4", a.wait() == 4)
    t.holds("a line of b", b.does("more of b"))
    t.holds("another journal", t.all_kept(["of the deposed"]) == ["first", "of a", "of b", "more of b"])


@row("who is stopped past its lease does not lead when asked")
def asked(t):
    a = t.leading("a")
    b = t.instance("b")
    t.holds("it leads", a.does("!ours"))
    a.signal(signal.SIGSTOP)
    t.holds("b leads", comes(b.leads, 2 * LEASE + 4))
    a.say("!ours")
    a.signal(signal.SIGCONT)
    t.holds(f"it does not: {a.said}", comes(lambda: "lost !ours" in a.said, 10))


@row("a torn end is cut")
def torn(t):
    a = t.leading("a")
    t.holds("a line", a.does("of a"))
    t.holds("a status of 0", a.end() == 0)
    for i in range(3):
        t.cluster.put(f"/{t.prefix}/j/0000000001/{2 + i:010}", f"torn {i} ")
    b = t.leading("b")
    t.holds("b has read the whole lines", "leads epoch 1 of 2 blocks, 11 bytes" in b.said)
    t.holds("a line of b", b.does("of b"))
    t.holds("another journal", t.all_kept() == ["first", "of a", "of b"])


@row("another epoch begins, and what a renewal left goes")
def epochs(t):
    a = t.leading("a")
    t.holds("a line", a.does("of the first"))
    for i in range(3):
        t.cluster.put(f"/{t.prefix}/j/0000000002/{i:010}", f"left {i}\n")
    t.holds(f"another begins: {a.said}", a.does("!begin second"))
    t.holds("a line", a.does("of the second"))
    t.holds("another journal", t.lines() == ["second", "of the second"])
    t.holds("the first is kept", b"".join(t.cluster.blocks(t.prefix, 1)) == b"first\nof the first\n")
    t.holds("a third", a.does("!begin third"))
    t.holds("the first is gone", t.cluster.blocks(t.prefix, 1) == [])
    b = t.instance("b")
    t.holds("b stands by", comes(b.stands_by, 10))
    t.holds("a status of 0", a.end() == 0)
    t.holds("b leads", comes(b.leads, 10))
    t.holds(f"b has read the third: {b.said}", "leads epoch 3 of 1 blocks, 6 bytes" in b.said)


@row("a snapshot is restored under a leader that was stopped")
def restored(t):
    c = t.cluster
    a = t.leading("a")
    t.holds("a line", a.does("in the snapshot"))
    snapshot = f"{c.folder}/snapshot"
    words = ["etcdctl", "--endpoints", f"http://127.0.0.1:{c.clients[0]}", "snapshot", "save", snapshot]
    subprocess.run(words, env={**os.environ, "ETCDCTL_API": "3"}, check=True, stdout=subprocess.DEVNULL, stderr=subprocess.DEVNULL)
    t.holds("a line", a.does("behind the snapshot"))
    a.signal(signal.SIGSTOP)
    c.end_all()
    c.made += 1
    for i in range(3):
        words = ["etcdctl", "snapshot", "restore", snapshot, "--name", f"m{i}", "--data-dir", c.data(i), "--initial-cluster", c.peer_urls()]
        words += ["--initial-cluster-token", f"t{c.made}", "--initial-advertise-peer-urls", f"http://127.0.0.1:{c.peers[i]}"]
        subprocess.run(words, env={**os.environ, "ETCDCTL_API": "3"}, check=True, stdout=subprocess.DEVNULL, stderr=subprocess.DEVNULL)
    c.start_all()
    b = t.instance("b")
    t.holds(f"b leads: {b.said}", comes(b.leads, 4 * LEASE + 4))
    t.holds("a line of b", b.does("of b"))
    a.say("of the deposed")
    a.signal(signal.SIGCONT)
    t.holds(f"a is told: {a.said}", comes(lambda: "lost of the deposed" in a.said, 10))
    t.holds("a line of b", b.does("more of b"))
    t.holds("another journal", t.lines() == ["first", "in the snapshot", "of b", "more of b"])


def leaders_of(t):
    return [it for it in t.instances if it.process.poll() is None and it.leads()]


def schedule(t, seed, seconds):
    """Instances, members and lines at random: what is told to be kept stands there, once and in order"""
    chance = random.Random(seed)
    names, lines, down, calm = iter(range(1000)), iter(range(100000)), None, 0
    for _ in range(2):
        t.instance(f"i{next(names)}")
    end = time.monotonic() + seconds
    stopped = []
    while time.monotonic() < end:
        live = [it for it in t.instances if it.process.poll() is None]
        for it in live:
            if it.leads() and it not in stopped:
                for _ in range(chance.randint(1, 5)):
                    it.say(f"{it.name} {next(lines)}")
        what = chance.random()
        if what < 0.06 and live:
            chance.choice(live).kill()
        elif what < 0.12 and live:
            it = chance.choice(live)
            it.signal(signal.SIGSTOP)
            stopped.append(it)
        elif what < 0.30 and stopped:
            it = stopped.pop(0)
            with contextlib.suppress(OSError):
                it.signal(signal.SIGCONT)
        elif what < 0.36 and down is None and time.monotonic() > calm:
            down = chance.randrange(3)
            t.cluster.end(down)
        elif what < 0.50 and down is not None:
            t.cluster.start(down)
            down, calm = None, time.monotonic() + 4
        if len(live) < 3:
            t.instance(f"i{next(names)}")
        time.sleep(chance.random() * 0.3)
    for it in stopped:
        with contextlib.suppress(OSError):
            it.signal(signal.SIGCONT)
    if down is not None:
        t.cluster.start(down)
    t.holds("three members", comes(lambda: t.cluster.leader() is not None, 20))
    t.instance("last")
    t.holds("somebody keeps lines again", comes(lambda: any(it.does(f"{it.name} {next(lines)}", 2) for it in leaders_of(t)), 4 * LEASE + 20))
    t.close()
    t.all_kept()


for number in range(4):
    ROWS.append((f"schedule {number}", lambda t, seed=number: schedule(t, seed, 25)))


def try_row(name, test):
    with tempfile.TemporaryDirectory() as folder:
        cluster = Cluster(folder)
        t = Try(cluster, "try/shard")
        began = time.monotonic()
        try:
            test(t)
        except Exception as fault:
            t.faults.append(f"{type(fault).__name__}: {fault}")
        finally:
            t.close()
            cluster.end_all()
        lines = sum(len(it.kept()) for it in t.instances)
        print(f"{'NOT' if t.faults else 'ok'}: {name} ({time.monotonic() - began:.0f} s, {lines} lines kept){': ' + '; '.join(t.faults)[:600] if t.faults else ''}", flush=True)
        return not t.faults


def main(words):
    global PROGRAM
    if words[:1] == ["--program"]:
        PROGRAM, words = os.path.realpath(words[1]), words[2:]
    if not shutil.which("etcd") or not shutil.which("etcdctl"):
        print("skipped: there is no etcd")
        return 0
    told = [try_row(name, test) for name, test in ROWS if not words or any(word in name for word in words)]
    print(f"{sum(told)} passed, {len(told) - sum(told)} failed")
    return 0 if all(told) else 1


if __name__ == "__main__":
    sys.exit(main(sys.argv[1:]))
