#!/usr/bin/env python3
"""Whether `allocd serve` answers only what its device keeps, whatever the machine loses when it stops: try_device.py [PART ..]

The service runs with scripts/watch_device.c, which writes down each write, keep, cut, rename and removal of its journals. From that the worst disk is
made that the machine may leave: of each file what was kept, under the names that were kept. Whatever was answered as done is to be there, and a service
that starts there goes on from it. A device that keeps nothing for a while holds each answer, and one that fails ends them. It needs Linux, a C compiler
and the program (ALLOCD_PROGRAM, or dist/allocd)."""

import json
import os
import shutil
import subprocess
import sys
import threading
import time

from allocd_service import ROOT, Service, comes, compiler, events_in, run
from parts import run_parts, tell

ANY = [{"allow": True, "test": "any"}]


class Kept:
    """A file: how many bytes were written to it, and how many of them the device keeps."""

    def __init__(self, written=0):
        self.written = self.kept = written


class Disk:
    """What the log says of a folder: the files by their names as they are, and by the names that the device keeps."""

    def __init__(self, folder, log):
        self.folder, self.log, self.read, self.cuts = folder, log, 0, 0
        self.now = {name: Kept(os.path.getsize(f"{folder}/{name}")) for name in os.listdir(folder)}
        self.names = dict(self.now)

    def look(self):
        """Reads what the log has since the last look."""
        if not os.path.exists(self.log):
            return self
        with open(self.log) as it:
            it.seek(self.read)
            text = it.read()
        self.read += len(text.encode())
        for line in text.splitlines():
            self.follow(*line.split(" "))
        return self

    def follow(self, what, *words):
        name = os.path.relpath(words[-1], self.folder)
        if what == "rename":
            self.now[name] = self.now.pop(os.path.relpath(words[0], self.folder))
        elif what == "remove":
            self.now.pop(name, None)
        elif what == "keep" and name == ".":
            self.names = dict(self.now)
        else:
            file = self.now.setdefault(name, Kept())
            if what == "write":
                file.written += int(words[0])
            elif what == "cut":
                file.written = int(words[0])
                file.kept = min(file.kept, file.written)
                self.cuts += 1
            elif what == "keep":
                file.kept = file.written

    def worst(self):
        """What is left of each file where the machine stops now, by the name that it has then."""
        self.look()
        paths = {id(file): f"{self.folder}/{name}" for name, file in self.now.items()}
        found = {}
        for name, file in self.names.items():
            text = b""
            if os.path.exists(paths.get(id(file), "")):
                with open(paths[id(file)], "rb") as it:
                    text = it.read(file.kept)
            found[name] = text
        return found


def journals_in(found):
    """The journals of a disk, the oldest first."""
    return [found[name] for name in sorted((it for it in found if it[8:].isdigit()), key=lambda it: int(it[8:]))] + [found[name] for name in ("journal",) if name in found]


def whole(text):
    return text[: text.rfind(b"\n") + 1]


def events_on(found):
    """The events of the journals of a disk, the oldest first."""
    return [event for text in journals_in(found) for event in events_in(whole(text))]


def static(name, count, first):
    return {"job_name": name, "static_configs": [{"targets": [f"127.0.0.1:{first + i}" for i in range(count)]}]}


def config(jobs=("n",), interval="1h", **more):
    found = [static(name, 4, 9000 + 100 * place) for place, name in enumerate(jobs)]
    return {"global": {"scrape_interval": interval}, "scrape_configs": found, "allocator": {"settle": "50ms", "lifecycle": True, "collectors": [{"name": "a", "reach": ANY}], **more}}


def library_in(folder):
    """The library that watches the device, or None where there is no compiler."""
    by, library = compiler(), f"{folder}/watch_device.so"
    if by is None:
        print("skipped: there is no C compiler")
        return None
    subprocess.run([by, "-O2", "-shared", "-fPIC", "-nostdlib", "-o", library, f"{ROOT}/scripts/watch_device.c"], check=True)
    return library


class Watched(Service):
    """A service whose device is watched, and what it keeps."""

    def __init__(self, folder, library, document=None, disk="disk"):
        self.places = {name: f"{folder}/{name}" for name in ("holds", "fails")}
        log, data = f"{folder}/watched.{time.monotonic_ns()}", f"{folder}/{disk}"
        os.makedirs(data, exist_ok=True)
        self.disk = Disk(data, log)
        environment = {"LD_PRELOAD": library, "WATCHES": data, "WATCHED": log, "HOLDS": self.places["holds"], "FAILS": self.places["fails"]}
        super().__init__(folder, document or config(), f"{data}/journal", environment)
        self.is_up()

    def begins(self, what):
        with open(self.places[what], "w"):
            pass

    def ends(self, what):
        os.remove(self.places[what])

    def published(self, number=1):
        comes(lambda: self.figure("allocd_allocation") == number and self.ask("GET", "/-/ready")[0] == 200, 20)

    def has_kept(self, is_it):
        """Whether an event stands on the worst disk."""
        return any(map(is_it, events_on(self.disk.worst())))


def is_join(name):
    return lambda event: event["event"] == "join" and event["name"] == name


def of_collector(kind, collector):
    return lambda event: event["event"] == kind and event.get("collector") == collector


REPORT = {"collector": 1, "number": 1, "target": 0, "round": 1, "up": True, "samples": 3}
# What is asked one after the other, of a service whose collector 1 is `a`, and which event is to be kept before the answer.
ROWS = [
    ("POST", "/collectors", {"name": "b", "reach": []}, is_join("b")),
    ("GET", "/jobs/n/targets?collector_id=a", None, lambda event: event["event"] in ("take", "serve")),
    ("GET", "/jobs/n/targets?collector_id=a", None, lambda event: event["event"] in ("take", "serve")),
    ("POST", "/reports", REPORT, of_collector("report", 1)),
    ("POST", "/reports", {**REPORT, "reports": [{"target": 1, "up": False}]}, lambda event: event["event"] == "report" and event["target"] == 1),
    ("PUT", "/collectors/2/limits", {"limits": {"n": 1}}, lambda event: event["event"] == "limits"),
    ("POST", "/collectors/2/drain", {}, of_collector("drain", 2)),
    ("DELETE", "/collectors/2", None, of_collector("leave", 2)),
    ("POST", "/collectors/2/release", {}, None),
    ("POST", "/collectors", {"name": "a", "reach": []}, None),
]


def body_of(path, body):
    """A list of reports names what they share once."""
    if body and "reports" in body:
        return {name: value for name, value in body.items() if name not in ("target", "up", "samples")}
    return body


def answers(folder):
    """What is answered as done is kept by then."""
    library = library_in(folder)
    if library is None:
        return
    service = Watched(folder, library)
    service.published()
    for method, path, body, is_it in ROWS:
        status, text = service.ask(method, path, body_of(path, body))
        kept = is_it is None or service.has_kept(is_it)
        tell(f"{method} {path}: what its answer rests on is kept", status in (200, 409) and kept, f"{status} {text[:60]}")
    tell("no file is cut", service.disk.look().cuts == 0, service.disk.cuts)
    tell("it ends", service.quit() == (200, 0))
    with open(f"{folder}/disk/journal", "rb") as it:
        tell("and all of the journal is kept then", it.read() == service.disk.worst().get("journal"))


def waits(folder):
    """While the device keeps nothing, no answer comes that rests on something new, and pages do not wait."""
    library = library_in(folder)
    if library is None:
        return
    service = Watched(folder, library)
    service.published()
    time.sleep(0.3)
    for method, path, body, is_it in ROWS:
        if is_it is None or path == ROWS[2][1] and service.has_kept(is_it):
            continue
        told = []
        asks = threading.Thread(target=lambda: told.append(service.ask(method, path, body_of(path, body))))
        service.begins("holds")
        asks.start()
        time.sleep(0.4)
        early = list(told)
        pages = [service.ask("GET", page)[0] for page in ("/jobs", "/metrics", "/-/healthy")]
        service.ends("holds")
        asks.join(30)
        tell(f"{method} {path} waits for the device, and is answered then", (early, [status for status, _ in told]) == ([], [200]), (early, told))
        tell("pages do not", pages == [200] * 3, pages)
    tell("it ends", service.quit() == (200, 0))


def names(folder):
    """At each answer there is a disk to start from, also where another journal was begun before."""
    library = library_in(folder)
    if library is None:
        return
    service = Watched(folder, library)
    service.published()
    told, lost = [], []

    def joins(name):
        if service.ask("POST", "/collectors", {"name": name, "reach": []})[0] == 200:
            told.append(name)
        found = [event["name"] for event in events_on(service.disk.worst()) if event["event"] == "join"]
        lost.extend(set(told) - set(found))

    joins("b")
    for turn, jobs in enumerate((("n", "m"), ("m",), ("m", "n"))):
        service.write(config(jobs))
        service.ask("POST", "/-/reload")
        comes(lambda: os.path.exists(f"{folder}/disk/journal.{turn + 1}") and service.ask("GET", "/-/ready")[0] == 200, 20)
        joins(f"c{turn}")
    found = service.disk.worst()
    tell("what was answered stands in a journal under a name that is kept", not lost and len(told) == 4, (lost, told))
    tell("so do the old ones", {f"journal.{number}" for number in (1, 2, 3)} | {"journal"} <= set(found), sorted(found))
    service.it.kill()
    service.ended()
    os.makedirs(f"{folder}/worst")
    for name, text in found.items():
        with open(f"{folder}/worst/{name}", "wb") as it:
            it.write(text)
    status, out = run(["audit", *(f"{folder}/worst/journal.{number}" for number in (1, 2, 3)), f"{folder}/worst/journal"])
    tell("what is left where the machine stops is one history", status == 0, out.decode().strip().rpartition("\n")[2])
    service = Watched(folder, library, config(("m", "n")), "worst")
    joined = {it["name"] for it in json.loads(service.ask("GET", "/collectors")[1])}
    tell("a service that starts there has all that was answered", {"a", *told} <= joined, joined)
    tell("it ends", service.quit() == (200, 0))


def half_renewals(folder):
    """A start over what a service leaves that stopped as another journal was begun."""
    library = library_in(folder)
    if library is None:
        return
    service = Watched(folder, library)
    service.published()
    service.ask("POST", "/collectors", {"name": "b", "reach": []})
    service.quit()
    os.rename(f"{folder}/disk/journal", f"{folder}/disk/journal.next")
    service = Watched(folder, library)
    service.ask("POST", "/collectors", {"name": "c", "reach": []})
    found = service.disk.worst()
    tell("where only the next one is there, it takes the place, under a name that is kept", "journal" in found and "journal.next" not in found and service.has_kept(is_join("c")), sorted(found))
    service.quit()
    with open(f"{folder}/disk/journal", "rb") as it:
        text = it.read()
    with open(f"{folder}/disk/journal.next", "wb") as it:
        it.write(text[: text.index(b"\n") + 1])
    service = Watched(folder, library)
    joined = {it["name"] for it in json.loads(service.ask("GET", "/collectors")[1])}
    tell("where both are, the next one goes", {"a", "b", "c"} <= joined and not os.path.exists(f"{folder}/disk/journal.next"), (joined, os.listdir(f"{folder}/disk")))
    status = service.ask("POST", "/collectors", {"name": "d", "reach": []})[0]
    tell("and the service goes on in the file that has all", status == 200 and all(service.has_kept(is_join(name)) for name in "bcd"), (status, events_on(service.disk.worst())))
    tell("it ends", service.quit() == (200, 0))


def fails(folder):
    """Once the device fails to keep something, nothing is answered as done, and nothing goes on."""
    library = library_in(folder)
    if library is None:
        return
    service = Watched(folder, library, config(interval="1s", give_up="1h"))
    service.published()
    join = lambda name: service.ask("POST", "/collectors", {"name": name, "reach": ANY})
    tell("before, a join is answered", join("b")[0] == 200)
    service.begins("fails")
    told = join("c")
    tell("a device that fails to keep: it is not kept", told == (503, '{"refused":"NotKept"}'), told)
    found = service.disk.worst()
    service.ends("fails")
    told = [join("d")[0], service.ask("GET", "/jobs/n/targets?collector_id=b")[0], service.ask("DELETE", "/collectors/1")[0], service.ask("GET", "/-/ready")[0]]
    tell("and so it stays where the device is well again", told == [503] * 4, told)
    figures = lambda: [service.figure(name) for name in ("allocd_allocation", "allocd_round", "allocd_journal_entries", "allocd_journal_written_bytes_total", "allocd_journal_broken")]
    before = figures()
    service.write(config(("n", "m"), interval="1s"))
    reload = service.ask("POST", "/-/reload")[0]
    time.sleep(2.5)
    tell("no round is opened and nothing is allocated of which no journal will tell", figures() == before and before[-1] == 1, (before, figures()))
    tell("no configuration is followed and no other journal begun", reload == 500 and not os.path.exists(f"{folder}/disk/journal.1"), (reload, os.listdir(f"{folder}/disk")))
    service.it.kill()
    service.ended()
    shutil.rmtree(f"{folder}/disk")
    os.makedirs(f"{folder}/disk")
    for name, text in found.items():
        with open(f"{folder}/disk/{name}", "wb") as it:
            it.write(text)
    service = Watched(folder, library)
    joined = {it["name"] for it in json.loads(service.ask("GET", "/collectors")[1])}
    tell("a start over what was kept has what was answered", {"a", "b"} <= joined, joined)
    tell("it ends", service.quit() == (200, 0))


def fails_at_the_end(folder):
    """Where the device fails just as another configuration is to be followed, no other journal is begun behind what it lacks."""
    library = library_in(folder)
    if library is None:
        return
    service = Watched(folder, library, config(give_up="1h"))
    service.published()
    told = []
    asks = threading.Thread(target=lambda: told.append(service.ask("POST", "/collectors", {"name": "b", "reach": []})))
    service.begins("holds")
    asks.start()
    time.sleep(0.3)
    service.write(config(("n", "m"), give_up="1h"))
    reload = service.ask("POST", "/-/reload")[0]
    service.begins("fails")
    service.ends("holds")
    asks.join(30)
    status = [it[0] for it in told]
    tell("a reload is taken, and who waited is not told that it is kept", reload == 200 and status in ([503], [None]), (reload, told))
    broken = comes(lambda: service.figure("allocd_journal_broken") == 1, 20)
    service.ends("fails")
    time.sleep(1)
    told = [service.ask(*words)[0] for words in (("POST", "/collectors", {"name": "c", "reach": []}), ("GET", "/-/ready"))]
    tell("nothing goes on then", (broken, told) == (True, [503] * 2), (broken, told))
    tell("and there is no other journal", sorted(it for it in os.listdir(f"{folder}/disk") if it != "journal.lock") == ["journal"], os.listdir(f"{folder}/disk"))
    tell("it ends", service.quit() == (200, 0))


def hangs(folder):
    """Where the device does not come back, who asks is told so at once, until it does."""
    library = library_in(folder)
    if library is None:
        return
    service = Watched(folder, library)
    service.published()
    first = []
    asks = threading.Thread(target=lambda: first.append(service.ask("POST", "/collectors", {"name": "b", "reach": []})))
    service.begins("holds")
    asks.start()
    hung = comes(lambda: service.ask("GET", "/-/ready")[0] == 503, 10)
    asks.join(5)
    tell("it is not ready then, and who waited is told that nothing is kept", (hung, first) == (True, [(503, '{"refused":"NotKept"}')]), first)
    began = time.monotonic()
    told = [service.ask("POST", "/collectors", {"name": "c", "reach": []}), service.ask("GET", "/jobs/n/targets?collector_id=a")]
    took = time.monotonic() - began
    tell("who asks meanwhile is told at once", [status for status, _ in told] == [503, 503] and took < 2, f"{told} after {took:.2f} seconds")
    service.ends("holds")
    tell("once it comes back it is ready", comes(lambda: service.ask("GET", "/-/ready")[0] == 200, 10))
    tell("and goes on", service.ask("POST", "/collectors", {"name": "d", "reach": []})[0] == 200 and service.has_kept(is_join("d")))
    tell("it ends", service.quit() == (200, 0))


run_parts((answers, waits, names, half_renewals, fails, fails_at_the_end, hangs), sys.argv[1:])
