#!/usr/bin/env python3
"""Tries `allocd serve` over a journal in etcd, with three real members on loopback: try_leaders.py [--program PROGRAM] [WORD ..]

Instances of the service stand by and lead. They, etcd's members and its leader are killed, stopped and go on; there is no quorum, no space, a password, other jobs, a
snapshot that is restored. Each request that was answered has to be in the exported journal, once and in its order, and the journal has to be replayed and audited without
a fault. With words, only rows whose names have one of them. It needs Linux and Debian's etcd-server and etcd-client; without etcd it says so and ends with 0."""

import http.client
import json
import os
import random
import shutil
import signal
import subprocess
import sys
import tempfile
import time

import try_etcd
from try_etcd import Cluster, comes, free_ports, send

PROGRAM = os.environ.get("ALLOCD_PROGRAM", f"{try_etcd.ROOT}/dist/allocd")
LEASE = 5
# a listed address, its port closed
TARGETS = [f"127.0.0.1:{port}" for port in range(9, 13)]
ROWS = []


def ask(port, method, path, body=None, seconds=30, headers=None):
    """Status, text and headers of an answer; no status where there is none"""
    it = http.client.HTTPConnection("127.0.0.1", port, timeout=seconds)
    try:
        it.request(method, path, body=None if body is None else json.dumps(body), headers={**({"content-type": "application/json"} if body is not None else {}), **(headers or {})})
        said = it.getresponse()
        return said.status, said.read().decode(), dict((name.lower(), value) for name, value in said.getheaders())
    except (http.client.HTTPException, OSError):
        return None, "", {}
    finally:
        it.close()


def config_of(jobs=("node",), **allocator):
    return {
        "global": {"scrape_interval": "1m"},
        "scrape_configs": [{"job_name": job, "static_configs": [{"targets": TARGETS}]} for job in jobs],
        "allocator": {"lifecycle": True, "settle": "0", "lease": f"{LEASE}s", **allocator},
    }


class Instance:
    """A running `allocd serve`."""

    def __init__(self, t, name, config=None, **more):
        self.t, self.name = t, name
        self.port, = free_ports(1)
        self.config, self.log = f"{t.folder}/{name}.json", f"{t.folder}/{name}.log"
        self.answered = []
        self.write(config or config_of())
        self.start(**more)

    def write(self, config):
        with open(self.config, "w") as it:
            json.dump(config, it)

    def start(self, journal=None):
        words = [PROGRAM, "serve", "--config", self.config, "--listen", f"127.0.0.1:{self.port}", "--journal", journal or self.t.journal()]
        with open(self.log, "ab") as log:
            self.process = subprocess.Popen(words, stdin=subprocess.DEVNULL, stdout=log, stderr=log)

    def ask(self, method, path, body=None, **more):
        return ask(self.port, method, path, body, **more)

    def leads(self):
        return self.ask("GET", "/jobs", seconds=2)[0] == 200

    def stands_by(self):
        return self.ask("GET", "/-/leading", seconds=2)[0] == 503 and self.ask("GET", "/-/ready", seconds=2)[0] == 200

    def join(self, name, seconds=30):
        """A collector joins; the status. What is answered has to be found again"""
        status, _, _ = self.ask("POST", "/collectors", {"name": name, "reach": [{"allow": True, "test": "any"}]}, seconds=seconds)
        if status == 200:
            self.answered.append(name)
        return status

    def signal(self, which):
        send(self.process, which)

    def wait(self, seconds=20):
        try:
            return self.process.wait(seconds)
        except subprocess.TimeoutExpired:
            return None

    def quit(self, seconds=30):
        self.ask("POST", "/-/quit")
        return self.wait(seconds)

    def kill(self):
        if self.process.poll() is None:
            self.process.send_signal(signal.SIGCONT)
            self.process.kill()
        self.process.wait()

    def said(self):
        with open(self.log) as it:
            return it.read()


class Try:
    """A row's cluster, its instances, and what it found."""

    def __init__(self, cluster, folder):
        self.cluster, self.folder, self.instances, self.faults, self.prefix = cluster, folder, [], [], "try/shard"

    def journal(self, endpoints=None):
        return f"etcd://{endpoints or self.cluster.endpoints()}/{self.prefix}"

    def instance(self, name, **more):
        it = Instance(self, name, **more)
        self.instances.append(it)
        return it

    def holds(self, what, holds):
        if not holds:
            self.faults.append(what)
        return holds

    def leading(self, name, seconds=20, **more):
        it = self.instance(name, **more)
        self.holds(f"{name} leads: {it.said()[-300:]}", comes(it.leads, seconds))
        return it

    def standing_by(self, name, seconds=20, **more):
        it = self.instance(name, **more)
        self.holds(f"{name} stands by: {it.said()[-300:]}", comes(it.stands_by, seconds))
        return it

    def epochs(self):
        """The files of all epochs that are there, as they are exported, the oldest first"""
        going = int(comes(lambda: self.cluster.get(f"/{self.prefix}/epoch"), 10) or 0)
        found = []
        for epoch in range(1, going + 1):
            blocks = self.cluster.blocks(self.prefix, epoch)
            if blocks:
                path = f"{self.folder}/epoch{epoch}"
                with open(path, "wb") as it:
                    it.write(b"".join(blocks))
                found.append(path)
        return found

    def joined(self, path):
        """The collectors that joined by a journal, in its order"""
        with open(path, "rb") as it:
            lines = it.read().split(b"\n")[1:-1]
        events = [json.JSONDecoder().raw_decode(line.decode())[0] for line in lines]
        return [event["name"] for event in events if event.get("event") == "join"]

    def all_kept(self, without=()):
        """The exported journals are replayed and audited, and have each join that was answered, once and in its instance's order"""
        paths = self.epochs()
        self.holds("a journal", paths)
        done = subprocess.run([PROGRAM, "audit", *paths], capture_output=True, text=True)
        self.holds(f"an audit: {done.stdout[-300:]}{done.stderr[-300:]}", done.returncode == 0)
        for path in paths:
            with open(path, "rb") as it:
                done = subprocess.run([PROGRAM, "replay"], stdin=it, capture_output=True, text=True)
            self.holds(f"a replay of {path}: {done.stdout[-200:]}", done.returncode == 0)
        names = [name for path in paths for name in self.joined(path)]
        for it in self.instances:
            at = -1
            for name in it.answered:
                self.holds(f"{name} joined {names.count(name)} times", names.count(name) == 1)
                new = names.index(name) if name in names else -1
                self.holds(f"{name} joined out of order", new > at)
                at = new
        for name in without:
            self.holds(f"{name} joined", name not in names)
        return names

    def close(self):
        for it in self.instances:
            it.kill()


def row(name):
    def made(test):
        ROWS.append((name, test))
        return test
    return made


@row("one instance: what is answered is in the journal")
def one(t):
    a = t.leading("a")
    for i in range(20):
        t.holds(f"join {i}", a.join(f"c{i}") == 200)
    t.holds("a list", a.ask("GET", "/jobs/node/targets?collector_id=c0")[0] == 200)
    t.holds("metrics", "\nallocd_leading 1\n" in a.ask("GET", "/metrics")[1])
    t.holds(f"it says that it leads: {a.ask('GET', '/-/leading')}", a.ask("GET", "/-/leading")[:2] == (200, "allocd leads.\n"))
    t.holds(f"a status of 0: {a.said()[-300:]}", a.quit() == 0)
    t.holds("20 joins", len(t.all_kept()) == 20)


@row("what a standby answers")
def standby(t):
    a = t.leading("a")
    t.holds("a join", a.join("c") == 200)
    b = t.standing_by("b")
    status, text, _ = b.ask("GET", "/-/leading")
    t.holds(f"who leads: {status} {text}", status == 503 and f"http://127.0.0.1:{a.port} leads" in text)
    for method, path in ("GET", "/jobs/node/targets?collector_id=c"), ("GET", "/jobs"), ("POST", "/collectors"), ("POST", "/reports"), ("GET", "/collectors/c"), ("DELETE", "/collectors/c"):
        status, _, headers = b.ask(method, path, {} if method == "POST" else None)
        t.holds(f"{method} {path}: {status} {headers}", status == 307 and headers.get("location") == f"http://127.0.0.1:{a.port}{path}")
    for path, wanted in ("/-/ready", 200), ("/-/healthy", 200), ("/", 200), ("/nowhere", 404):
        t.holds(f"{path}: {b.ask('GET', path)}", b.ask("GET", path)[0] == wanted)
    t.holds("another method", b.ask("DELETE", "/jobs")[0] == 405)
    t.holds("another host", b.ask("GET", "/jobs", headers={"host": "example.org"})[0] == 403)
    t.holds("another site", b.ask("POST", "/collectors", {}, headers={"origin": "http://example.org"})[0] == 403)
    text = b.ask("GET", "/metrics")[1]
    t.holds(f"metrics: {text}", "allocd_leading 0" in text and "allocd_standby_behind_blocks 0" in text and "allocd_standby_has_read_all 1" in text)
    t.holds("a reload", b.ask("POST", "/-/reload")[0] == 200)
    t.holds("a status of 0", b.quit(10) == 0)
    t.holds("a leads still", a.leads())
    t.all_kept()


@row("a leader that quits is taken over at once")
def quits(t):
    a = t.leading("a")
    b = t.standing_by("b")
    t.holds("a join", a.join("a0") == 200)
    t.holds("a status of 0", a.quit() == 0)
    began = time.monotonic()
    t.holds(f"b leads: {b.said()[-300:]}", comes(b.leads, LEASE))
    t.holds(f"after {time.monotonic() - began:.1f} s", time.monotonic() - began < 4)
    t.holds("the collector is there", b.ask("GET", "/collectors/a0")[0] == 200)
    t.holds("a join", b.join("b0") == 200)
    t.holds("both", t.all_kept() == ["a0", "b0"])


@row("a leader that is killed is taken over when its lease ends")
def killed(t):
    a = t.leading("a")
    b = t.standing_by("b")
    for i in range(10):
        t.holds("a join", a.join(f"a{i}") == 200)
    a.kill()
    t.holds(f"b leads: {b.said()[-300:]}", comes(b.leads, 2 * LEASE + 6))
    for i in range(10):
        t.holds("a join", b.join(f"b{i}") == 200)
    a.start()
    t.holds("a stands by", comes(a.stands_by, 20))
    t.all_kept()


@row("who is stopped past its lease ends with status 4, and starts again as a standby")
def paused(t):
    a = t.leading("a")
    b = t.standing_by("b")
    t.holds("a join", a.join("a0") == 200)
    a.signal(signal.SIGSTOP)
    t.holds(f"b leads: {b.said()[-300:]}", comes(b.leads, 2 * LEASE + 6))
    t.holds("a join", b.join("b0") == 200)
    a.signal(signal.SIGCONT)
    status = a.join("lost", 20)
    t.holds(f"what is submitted to it is not answered: {status}", status != 200)
    t.holds(f"a status of 4: {a.said()[-400:]}", a.wait(90) == 4)
    t.holds("its log says so", "another instance leads" in a.said())
    a.start()
    t.holds("a stands by", comes(a.stands_by, 20))
    t.holds("a join", b.join("b1") == 200)
    t.holds("no other", t.all_kept(["lost"]) == ["a0", "b0", "b1"])


@row("etcd's leader is killed, and each member is stopped for a while")
def members(t):
    a = t.leading("a")
    at = t.cluster.leader()
    t.cluster.end(at)
    for i in range(5):
        t.holds(f"join {i}", a.join(f"a{i}") == 200)
    t.cluster.start(at)
    comes(lambda: t.cluster.leader() is not None, 15)
    for i in range(3):
        t.cluster.signal(i, signal.SIGSTOP)
        t.holds(f"a join without member {i}", a.join(f"m{i}") == 200)
        t.cluster.signal(i, signal.SIGCONT)
        comes(lambda: t.cluster.leader() is not None, 15)
    t.all_kept()


@row("without quorum nothing is answered, and then all goes on")
def no_quorum(t):
    a = t.leading("a", config=config_of(lease="20s"))
    t.holds("a join", a.join("before") == 200)
    others = [i for i in range(3) if i != t.cluster.leader()]
    for i in others:
        t.cluster.signal(i, signal.SIGSTOP)
    status, text, _ = a.ask("POST", "/collectors", {"name": "meanwhile", "reach": [{"allow": True, "test": "any"}]}, seconds=40)
    t.holds(f"it is not kept: {status} {text}", status == 503 and "NotKept" in text)
    for i in others:
        t.cluster.signal(i, signal.SIGCONT)
    t.holds("it is ready again", comes(lambda: a.process.poll() is not None or a.ask("GET", "/-/ready")[0] == 200, 40) and a.process.poll() is None)
    t.holds("a join", a.join("behind") == 200)
    names = t.all_kept()
    t.holds(f"in order: {names}", names == ["before", "meanwhile", "behind"])


@row("without space nothing is answered and nobody takes over, until it is freed")
def no_space(t):
    a = t.leading("a")
    b = t.standing_by("b")
    t.holds("a join", a.join("before") == 200)
    member = t.cluster.post("/v3/maintenance/status", {})["header"]["member_id"]
    alarm = {"memberID": member, "alarm": "NOSPACE"}
    t.cluster.post("/v3/maintenance/alarm", {**alarm, "action": "ACTIVATE"})
    status, text, _ = a.ask("POST", "/collectors", {"name": "lost", "reach": [{"allow": True, "test": "any"}]}, seconds=40)
    t.holds(f"it is not kept: {status} {text}", status == 503 and "NotKept" in text)
    t.holds("a leads still", a.leads())
    a.kill()
    t.holds("nobody leads", not comes(b.leads, 2 * LEASE + 4))
    t.holds(f"its log says why: {b.said()[-300:]}", b.said().count("etcd grants no lease") == 1)
    t.cluster.post("/v3/maintenance/alarm", {**alarm, "action": "DEACTIVATE"})
    t.holds(f"b leads: {b.said()[-300:]}", comes(b.leads, LEASE + 6))
    t.holds("a join", b.join("behind") == 200)
    t.holds("no other", t.all_kept(["lost"]) == ["before", "behind"])


@row("who is stopped while nothing is submitted ends by itself, and shows nothing more")
def idle(t):
    a = t.leading("a", config=config_of(settle="0"))
    b = t.standing_by("b")
    t.holds("a join", a.join("a0") == 200)
    a.signal(signal.SIGSTOP)
    t.holds(f"b leads: {b.said()[-300:]}", comes(b.leads, 2 * LEASE + 6))
    a.signal(signal.SIGCONT)
    t.holds(f"a status of 4: {a.said()[-400:]}", a.wait(8) == 4)
    t.holds("nobody else", t.all_kept() == ["a0"])


@row("other jobs are another epoch, at a reload and at a take-over")
def renewed(t):
    a = t.leading("a")
    t.holds("a join", a.join("a0") == 200)
    a.write(config_of(jobs=("node", "web")))
    t.holds("a reload", a.ask("POST", "/-/reload")[0] == 200)
    t.holds("the second epoch", comes(lambda: t.cluster.get(f"/{t.prefix}/epoch") == b"2", 20))
    t.holds("a join", comes(lambda: a.join("a1") == 200, 10))
    b = t.standing_by("b", config=config_of(jobs=("node",)))
    b.write(config_of(jobs=("node", "db")))
    t.holds("a status of 0", a.quit() == 0)
    t.holds(f"b leads: {b.said()[-300:]}", comes(b.leads, 20))
    t.holds("it follows the file as it is now", b.ask("GET", "/jobs/db")[0] == 200)
    t.holds("a join", b.join("b0") == 200)
    t.holds("the third epoch", t.cluster.get(f"/{t.prefix}/epoch") == b"3")
    t.holds("three epochs", len(t.epochs()) == 3)
    t.all_kept()


@row("where fewer epochs are kept than before, those that are too many go as another begins")
def fewer(t):
    a = t.leading("a", config=config_of(keep=9))
    for epoch in range(2, 6):
        a.write(config_of(jobs=("node", f"web{epoch}"), keep=9))
        t.holds("a reload", a.ask("POST", "/-/reload")[0] == 200)
        t.holds(f"epoch {epoch}", comes(lambda: t.cluster.get(f"/{t.prefix}/epoch") == str(epoch).encode(), 20))
    t.holds("a join", comes(lambda: a.join("a0") == 200, 10))
    t.holds("five epochs", len(t.epochs()) == 5)
    t.holds("a status of 0", a.quit() == 0)
    t.leading("b", config=config_of(jobs=("node", "last"), keep=1))
    t.holds(f"two epochs: {t.epochs()}", len(t.epochs()) == 2)
    t.holds("the join", t.all_kept() == ["a0"])


@row("a snapshot is restored under a leader that was stopped")
def restored(t):
    c = t.cluster
    a = t.leading("a")
    t.holds("a join", a.join("in") == 200)
    snapshot = f"{c.folder}/snapshot"
    words = ["etcdctl", "--endpoints", f"http://127.0.0.1:{c.clients[0]}", "snapshot", "save", snapshot]
    subprocess.run(words, env={**os.environ, "ETCDCTL_API": "3"}, check=True, stdout=subprocess.DEVNULL, stderr=subprocess.DEVNULL)
    t.holds("a join", a.join("behind") == 200)
    a.answered.clear()
    a.signal(signal.SIGSTOP)
    c.end_all()
    c.made += 1
    for i in range(3):
        words = ["etcdctl", "snapshot", "restore", snapshot, "--name", f"m{i}", "--data-dir", c.data(i), "--initial-cluster", c.peer_urls()]
        words += ["--initial-cluster-token", f"t{c.made}", "--initial-advertise-peer-urls", f"http://127.0.0.1:{c.peers[i]}"]
        subprocess.run(words, env={**os.environ, "ETCDCTL_API": "3"}, check=True, stdout=subprocess.DEVNULL, stderr=subprocess.DEVNULL)
    c.start_all()
    b = t.instance("b")
    t.holds(f"b leads: {b.said()[-300:]}", comes(b.leads, 4 * LEASE + 6))
    t.holds("a join", b.join("b0") == 200)
    a.signal(signal.SIGCONT)
    t.holds(f"a status of 4: {a.said()[-300:]}", a.wait(90) == 4)
    t.holds("a join", b.join("b1") == 200)
    t.holds("no other", t.all_kept(["behind"]) == ["in", "b0", "b1"])


@row("an etcd with authentication")
def authentication(t):
    c = t.cluster
    ctl = ["etcdctl", "--endpoints", f"http://127.0.0.1:{c.clients[0]}"]
    for words in ["role add allocd", f"role grant-permission allocd --prefix=true readwrite /{t.prefix}/", "user add root:secret", "user grant-role root root", "user add allocd:its-password", "user grant-role allocd allocd", "auth enable"]:
        subprocess.run([*ctl, *words.split()], env={**os.environ, "ETCDCTL_API": "3"}, check=True, stdout=subprocess.DEVNULL, stderr=subprocess.DEVNULL)
    path = f"{t.folder}/password"
    with open(path, "w") as it:
        it.write("its-password\n")
    os.chmod(path, 0o600)
    a = t.leading("a", config=config_of(etcd_user="allocd", etcd_password_file=path))
    b = t.standing_by("b", config=config_of(etcd_user="allocd", etcd_password_file=path))
    t.holds("a join", a.join("a0") == 200)
    # the tokens of a member end with it
    for i in range(3):
        c.end(i)
        c.start(i)
        time.sleep(2)
        t.holds(f"a join behind member {i}", a.join(f"m{i}") == 200)
    t.holds("a status of 0", a.quit() == 0)
    t.holds(f"b leads: {b.said()[-300:]}", comes(b.leads, 10))
    t.holds("a join", b.join("b0") == 200)
    subprocess.run(["etcdctl", "--user", "root:secret", "--endpoints", f"http://127.0.0.1:{c.clients[0]}", *f"role revoke-permission allocd --prefix=true /{t.prefix}/".split()], env={**os.environ, "ETCDCTL_API": "3"}, check=True, stdout=subprocess.DEVNULL, stderr=subprocess.DEVNULL)
    subprocess.run(["etcdctl", "--user", "root:secret", "--endpoints", f"http://127.0.0.1:{c.clients[0]}", *f"role grant-permission allocd --prefix=true read /{t.prefix}/".split()], env={**os.environ, "ETCDCTL_API": "3"}, check=True, stdout=subprocess.DEVNULL, stderr=subprocess.DEVNULL)
    t.holds("who may only read keeps nothing", b.join("lost") != 200)
    t.holds(f"and leads no more: {b.said()[-300:]}", b.wait(40) == 4)
    b.start()
    t.holds(f"nor again: {b.said()[-300:]}", comes(lambda: "forbids what is asked" in b.said(), 30) and not b.leads())
    x = t.instance("x")
    t.holds("without a password it does not lead", not comes(x.leads, 4))
    t.holds("and says so", "etcd does not answer, or refuses" in x.said())


def refused(t, name, given, **allocator):
    path = f"{t.folder}/{name}.json"
    with open(path, "w") as it:
        json.dump(config_of(**allocator), it)
    done = subprocess.run([PROGRAM, "serve", "--check-config", "--config", path, *given], capture_output=True, text=True)
    return done.returncode, done.stdout + done.stderr


@row("settings are refused by name")
def settings(t):
    etcd = "etcd://127.0.0.1:1/a/b"
    rows = [
        (["--journal", "etcd://"], {}, "--journal: no hosts with ports"),
        (["--journal", "etcd://127.0.0.1/a"], {}, "--journal: no hosts with ports"),
        (["--journal", "etcd://127.0.0.1:1"], {}, "--journal: no names behind the hosts"),
        (["--journal", "etcd://127.0.0.1:1/a/"], {}, "--journal: no names behind the hosts"),
        ([], {"journal": "etcd://a:1,/x"}, "allocator.journal: no hosts with ports"),
        ([], {"journal": etcd, "lease": "1s"}, "allocator.lease: no duration from 2s to 1m"),
        ([], {"journal": etcd, "lease": "61s"}, "allocator.lease: no duration from 2s to 1m"),
        ([], {"journal": etcd, "advertise": "10.0.0.1:80"}, "allocator.advertise: no URL"),
        ([], {"journal": etcd, "advertise": "http://a/"}, "allocator.advertise: no URL"),
        ([], {"journal": etcd, "etcd_user": "a"}, "allocator.etcd_user: no allocator.etcd_password_file beside it"),
        ([], {"journal": etcd, "etcd_password_file": "a"}, "allocator.etcd_password_file: no allocator.etcd_user beside it"),
        (["--journal", "file"], {}, "allocator.lease: the journal is not in etcd"),
        ([], {"journal": etcd, "leese": "2s"}, "allocator.leese"),
    ]
    for i, (given, allocator, wanted) in enumerate(rows):
        status, text = refused(t, f"refused{i}", given, **allocator)
        t.holds(f"{given} {allocator}: {status} {text}", status == 2 and wanted in text)
    given = {"journal": etcd, "advertise": "https://a.example:443", "etcd_user": "a", "etcd_password_file": f"{t.folder}/password"}
    status, text = refused(t, "missing", [], **given)
    t.holds(f"a password that is not there: {status} {text}", status == 2 and "allocator.etcd_password_file" in text)
    with open(f"{t.folder}/password", "w") as it:
        it.write("secret\n")
    os.chmod(f"{t.folder}/password", 0o600)
    status, text = refused(t, "taken", [], **given)
    t.holds(f"taken: {status} {text}", status == 0)
    status, text = refused(t, "everywhere", ["--listen", "0.0.0.0:1"], journal=etcd, open_to_all=True)
    t.holds(f"nobody can be sent to 0.0.0.0: {status} {text}", status == 2 and "allocator.advertise" in text)


def schedule(t, seed, seconds):
    """Instances and members at random: what was answered stands there, once and in order"""
    chance, numbers, joins, down, stopped = random.Random(seed), iter(range(1000)), iter(range(100000)), None, []
    for _ in range(3):
        t.instance(f"i{next(numbers)}")
    end = time.monotonic() + seconds
    while time.monotonic() < end:
        for it in t.instances:
            if it.process.poll() is None and it not in stopped:
                it.join(f"n{next(joins)}", 1)
        what = chance.random()
        live = [it for it in t.instances if it.process.poll() is None]
        if what < 0.1 and live:
            chance.choice(live).kill()
        elif what < 0.2 and live:
            it = chance.choice(live)
            it.signal(signal.SIGSTOP)
            stopped.append(it)
        elif what < 0.4 and stopped:
            it = stopped.pop(0)
            if it.process.poll() is None:
                it.signal(signal.SIGCONT)
        elif what < 0.45 and down is None:
            down = chance.randrange(3)
            t.cluster.end(down)
        elif what < 0.6 and down is not None:
            t.cluster.start(down)
            down = None
        for it in t.instances:
            if it.process.poll() is not None:
                it.start()
        time.sleep(chance.random() * 0.5)
    for it in stopped:
        if it.process.poll() is None:
            it.signal(signal.SIGCONT)
    if down is not None:
        t.cluster.start(down)
    t.holds("somebody leads again", comes(lambda: any(it.process.poll() is None and it.join(f"n{next(joins)}", 3) == 200 for it in t.instances), 6 * LEASE + 20))
    t.close()
    t.all_kept()


for number in range(3):
    ROWS.append((f"schedule {number}", lambda t, seed=number: schedule(t, seed, 40)))


def try_row(name, test):
    with tempfile.TemporaryDirectory() as folder:
        cluster = Cluster(folder)
        t = Try(cluster, folder)
        began = time.monotonic()
        try:
            test(t)
        except Exception as fault:
            t.faults.append(f"{type(fault).__name__}: {fault}")
        finally:
            t.close()
            cluster.end_all()
        answered = sum(len(it.answered) for it in t.instances)
        print(f"{'NOT' if t.faults else 'ok'}: {name} ({time.monotonic() - began:.0f} s, {answered} answered){': ' + '; '.join(t.faults)[:900] if t.faults else ''}", flush=True)
        return not t.faults


def main(words):
    global PROGRAM
    if words[:1] == ["--program"]:
        PROGRAM, words = os.path.realpath(words[1]), words[2:]
    if not shutil.which("etcd") or not shutil.which("etcdctl"):
        print("skipped: there is no etcd")
        return 0
    told = [try_row(name, test) for name, test in ROWS if not words or any(word in name for word in words)]
    print(f"{sum(told)} passed, {len(told) - sum(told)} failed")
    return 0 if all(told) else 1


if __name__ == "__main__":
    sys.exit(main(sys.argv[1:]))
