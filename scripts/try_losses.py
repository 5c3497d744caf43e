#!/usr/bin/env python3
"""Tries what could lose data or a fleet, and tells of each row whether it holds: try_losses.py [WORD ..]

Journals that are none, that are the configuration, that break, vanish, or are another's; a service that is ready too early; strangers, secrets, closed
and full streams, few descriptors; reloads that leave nothing. `later` marks rows that are open. With words, only rows whose names have one of them.
It needs Linux. Loopback and free ports alone."""

import contextlib
import fcntl
import functools
import http.client
import http.server
import json
import os
import re
import resource
import signal
import socket
import subprocess
import sys
import threading
import time

import told_rows
from allocd_service import PROGRAM, ROOT, Service, ask, comes, compiler, free_port, lines_of, run
from try_wrong_uses import ANY, GOOD, exchange, settings, write

ROWS = []
# A journal's first lines as the program wrote them before they had a mark.
OLDER = (
    b'{"scrape_configs":[{"job_name":"node","static_configs":[{"targets":["127.0.0.1:9101","127.0.0.1:9102"]}]}]}\n'
    b'{"event":"join","name":"older","reach":[{"allow":true,"test":"any"}]}\n'
)


def row(name, later=False, **more):
    """Makes a row of a function of a folder."""
    def made(test):
        ROWS.append(told_rows.Row(name, functools.partial(test, **more), later))
        return test
    return made


def words_of(folder, journal, port):
    return ["serve", "--config", f"{folder}/c.json", "--listen", f"127.0.0.1:{port}", "--journal", journal]


def ends_with(folder, words, status, says, seconds=3, before=None, **more):
    """A start that is refused: its status, its words, and nothing that was there is touched or made."""
    before = before or told_rows.files_of(folder)
    it = subprocess.Popen([PROGRAM, *words], cwd=folder, stdout=subprocess.PIPE, stderr=subprocess.STDOUT, text=True, **more)
    try:
        said = it.communicate(timeout=seconds)[0]
    except subprocess.TimeoutExpired:
        it.kill()
        said = f"it serves: {it.communicate()[0]}"
    lost = told_rows.changes(before, told_rows.files_of(folder))
    return it.returncode == status and re.search(says, said) and not lost, f"status {it.returncode}, {lost}, {said}"


@contextlib.contextmanager
def served(folder, document=GOOD, journal="journal", up=True, **more):
    """A service that has begun."""
    it = Started(folder, document, journal, **more)
    try:
        if up and not it.is_up(10):
            raise ValueError(f"it does not begin: {it.said()}")
        yield it
    finally:
        it.it.kill()
        it.it.wait()


class Started(Service):
    """A service whose standard streams and limits may be others."""

    def __init__(self, folder, document, journal, stderr=None, prepare=None, environment=None):
        self.folder, self.port, self.config = folder, free_port(), f"{folder}/c.json"
        self.journal = f"{folder}/{journal}"
        self.write(document)
        with open(f"{folder}/log", "ab") as log:
            self.it = subprocess.Popen(
                [PROGRAM, *words_of(folder, self.journal, self.port)], stderr=stderr or log, stdout=subprocess.DEVNULL, preexec_fn=prepare,
                env={**os.environ, **(environment or {})})

    def ask(self, method, path, body=None):
        try:
            return ask(self.port, method, path, body, 10)
        except OSError:
            return None, "no answer in 10 seconds"

    def said(self):
        with open(f"{self.folder}/log") as it:
            return it.read()

    def published(self, number=1):
        return comes(lambda: self.figure("allocd_allocation") == number, 10)

    def send(self, method, path, body=None, **headers):
        headers = {name.replace("_", "-"): value for name, value in headers.items()}
        if body is not None:
            headers.setdefault("content-type", "application/json")
        return exchange(self.port, method, path, headers, None if body is None else json.dumps(body).encode())

    def jobs(self):
        """The jobs that are followed: a connection may end at a renewal."""
        found = []
        comes(lambda: found.append(self.ask("GET", "/jobs")[1]) or found[-1], 5)
        return sorted(json.loads(found[-1]))

    def collectors(self):
        """Each live collector with whether it drains."""
        text = self.ask("GET", "/metrics")[1] or ""
        return {name: drains == "1" for name, drains in re.findall(r'allocd_collector_draining\{collector="([^"]*)"\} (\d)', text)}


class Source(http.server.ThreadingHTTPServer):
    """A source of these targets, whose answers can be held back."""
    daemon_threads = True

    def __init__(self, status=200, targets=5):
        self.goes_on, self.asked = threading.Event(), threading.Event()
        self.goes_on.set()
        body = json.dumps([{"targets": [f"127.0.0.1:{9200 + one}" for one in range(targets)]}]).encode()
        source = self

        class Handler(http.server.BaseHTTPRequestHandler):
            def do_GET(self):
                source.asked.set()
                source.goes_on.wait(20)
                with contextlib.suppress(OSError):
                    self.send_response(status)
                    self.send_header("content-type", "application/json")
                    self.send_header("content-length", str(len(body)))
                    self.end_headers()
                    self.wfile.write(body)

            def log_message(self, *_):
                pass

        super().__init__(("127.0.0.1", 0), Handler)
        threading.Thread(target=self.serve_forever, daemon=True).start()

    def config(self, **members):
        job = {"job_name": "web", "http_sd_configs": [{"url": f"http://127.0.0.1:{self.server_port}/", "refresh_interval": "500ms"}]}
        return {"scrape_configs": [job], "allocator": {**GOOD["allocator"], "fetch_timeout": "15s", **members}}


# A journal that is none.

ONE_LINE = json.dumps({"scrape_configs": [{"job_name": "precious"}], "allocator": {"collectors": []}}).encode()
for name, text in (
    ("a configuration of one line without its line feed", ONE_LINE),
    ("a configuration of one line", ONE_LINE + b"\n"),
    ("the jobs of the configuration itself, in one line", json.dumps({"scrape_configs": GOOD["scrape_configs"]}).encode() + b"\n"),
    ("a note without a line feed", b"the journal is on the other volume"),
    ("a note", b"the journal is on the other volume\nask Ann\n"),
):
    @row(f"--journal on {name}: refused by name, and nothing is touched", text=text)
    def on_another(folder, text):
        write(f"{folder}/c.json", GOOD)
        write(f"{folder}/precious", text)
        return ends_with(folder, words_of(folder, "precious", free_port()), 2, "precious")


def same_file(folder, make, inside=False):
    write(f"{folder}/c.json", settings(journal="same") if inside else GOOD)
    make(f"{folder}/c.json", f"{folder}/same")
    words = ["serve", "--config", "c.json", "--listen", f"127.0.0.1:{free_port()}", *([] if inside else ["--journal", "same"])]
    return ends_with(folder, words, 2, "same[\\s\\S]*configuration|configuration[\\s\\S]*same")


row("configuration and journal one file, by a symbolic link: refused by name", make=lambda at, link: os.symlink("c.json", link))(same_file)
row("configuration and journal one file, by a hard link: refused by name", make=os.link)(same_file)
row("configuration and journal one file, by the settings and a link: refused by name", make=os.link, inside=True)(same_file)


@row("configuration and journal one file, by one name: refused by name")
def one_name(folder):
    write(f"{folder}/c.json", GOOD)
    return ends_with(folder, words_of(folder, "./c.json", free_port()), 2, "c\\.json")


@row("an empty file is a journal that begins")
def empty(folder):
    write(f"{folder}/journal", b"")
    with served(folder) as it:
        return it.quit() == (200, 0) and run(["replay"], lines_of(it.journal))[0] == 0, it.said()


@row("a beginning of the first line that it would write is cut, at each of 16 places")
def torn_first(folder):
    with served(folder) as it:
        it.quit()
        first = lines_of(it.journal).split(b"\n")[0]
    found = []
    for place in [1, 2, 10, *range(20, len(first), max(1, len(first) // 12)), len(first)][:16]:
        write(f"{folder}/journal", first[:place])
        with served(folder) as it:
            if it.quit() != (200, 0) or run(["replay"], lines_of(it.journal))[0] != 0:
                found.append(place)
    return not found, f"not at {found} of {len(first)}"


@row("a torn last line is cut, and what stands before it stays")
def torn_last(folder):
    with served(folder) as it:
        it.published()
        it.quit()
        kept = lines_of(it.journal)
    write(f"{folder}/journal", kept + b'{"event":"ro')
    with served(folder) as it:
        return lines_of(it.journal).startswith(kept) and it.quit() == (200, 0) and run(["replay"], lines_of(it.journal))[0] == 0, it.said()


@row("a journal of an older form, without a mark, is read")
def older(folder):
    write(f"{folder}/journal", OLDER)
    with served(folder, settings(report_rounds=1)) as it:
        return "older" in it.collectors() and lines_of(it.journal).startswith(OLDER), it.collectors()


@row("one that books reports of another number of rounds is renewed, and who was in it stays")
def other_rounds(folder):
    write(f"{folder}/journal", OLDER)
    with served(folder) as it:
        first = lines_of(it.journal).split(b"\n")[0]
        return "older" in it.collectors() and b'"report_rounds":3' in first, (it.collectors(), first[:300])


@row("a line that is damaged: refused with its number, and nothing is touched")
def damaged(folder):
    with served(folder) as it:
        it.published()
        it.quit()
        lines = lines_of(it.journal).split(b"\n")
    lines[2] = lines[2][:-3] + b"x}"
    write(f"{folder}/journal", b"\n".join(lines))
    return ends_with(folder, words_of(folder, "journal", it.port), 2, "line 3 is damaged")


@row("a second service over one journal: refused by name, and the first goes on")
def second(folder):
    with served(folder) as it:
        comes(lambda: b'"event":"install"' in lines_of(it.journal), 10)
        holds, found = ends_with(folder, words_of(folder, it.journal, free_port()), 2, "journal: another service")
        return holds and it.is_up(2), found


@row("a number of a report that was changed in the file: refused with its line")
def changed_number(folder):
    with served(folder) as it:
        it.published()
        it.ask("GET", "/jobs/node/targets?collector_id=a")
        booked = it.send("POST", "/reports", {"collector": 1, "number": 1, "target": 0, "round": 1, "up": True, "samples": 1072})
        it.quit()
        text = lines_of(it.journal)
    if booked[0] != 200 or b"1072" not in text:
        return False, f"nothing to change: {booked}"
    write(f"{folder}/journal", text.replace(b"1072", b"9072"))
    return ends_with(folder, words_of(folder, "journal", it.port), 2, "line \\d+ is damaged")


@row("a line that was left out of the file: refused with its line")
def left_out(folder):
    with served(folder) as it:
        it.published()
        it.ask("GET", "/jobs/node/targets?collector_id=a")
        for target in (0, 1):
            it.send("POST", "/reports", {"collector": 1, "number": 1, "target": target, "round": 1, "up": True, "samples": 1072 + target})
        it.quit()
        lines = lines_of(it.journal).split(b"\n")
    write(f"{folder}/journal", b"\n".join(line for line in lines if b"1072" not in line))
    return ends_with(folder, words_of(folder, "journal", it.port), 2, "line \\d+ is damaged")


# A journal that breaks.


def no_room(it, more):
    """The service's files may grow by so many bytes, or as they like."""
    size = resource.RLIM_INFINITY if more is None else os.path.getsize(it.journal) + more
    resource.prlimit(it.it.pid, resource.RLIMIT_FSIZE, (size, resource.RLIM_INFINITY))


def mind_no_size():
    signal.signal(signal.SIGXFSZ, signal.SIG_IGN)


def audited(folder):
    """What an audit says of all journals in order."""
    old = sorted((one for one in os.listdir(folder) if re.fullmatch(r"journal\.\d+", one)), key=lambda one: int(one.split(".")[1]))
    return run(["audit", *(f"{folder}/{one}" for one in [*old, "journal"])])


@row("a write fails while a reload waits for a source: nothing is begun behind it, and the files are audited well after a start")
def broken_reload(folder):
    source = Source()
    document = source.config()
    with served(folder, document, prepare=mind_no_size) as it:
        if not it.published():
            return False, "nothing is published"
        source.goes_on.clear()
        source.asked.clear()
        source.asked.wait(10)
        document["scrape_configs"].append({"job_name": "more", "static_configs": [{"targets": ["127.0.0.1:9900"]}]})
        it.write(document)
        reload = it.ask("POST", "/-/reload")
        no_room(it, 20)
        lost = it.send("POST", "/collectors", {"name": "lost", "reach": ANY})
        no_room(it, None)
        source.goes_on.set()
        comes(lambda: os.path.exists(f"{it.journal}.1"), 2)
        comes(lambda: it.ask("GET", "/-/ready")[0] is not None, 2) if it.it.poll() is None else None
        ready = it.ask("GET", "/-/ready")[0] if it.it.poll() is None else None
        after = it.send("POST", "/collectors", {"name": "after", "reach": ANY})
        begun = os.path.exists(f"{it.journal}.1")
    if reload[0] != 200 or lost[0] != 503:
        return False, f"not tried: {reload}, {lost}"
    with served(folder, document) as it:
        comes(lambda: it.jobs() == ["more", "web"], 5)
        it.quit()
    status, audit = audited(folder)
    found = f"ready {ready}, a join then {after}, {'another journal was begun, ' if begun else ''}audit {audit.decode().strip()!r}"
    return ready != 200 and after[0] != 200 and not begun and status == 0, found


@row("a write fails: what is answered as done is in the file after a start, and what is answered 503 may be")
def broken(folder):
    with served(folder, prepare=mind_no_size) as it:
        it.published()
        kept = it.send("POST", "/collectors", {"name": "kept", "reach": ANY})
        no_room(it, 10)
        lost = it.send("POST", "/collectors", {"name": "lost", "reach": ANY})
        no_room(it, None)
        after = it.send("POST", "/collectors", {"name": "after", "reach": ANY})
        ready = it.ask("GET", "/-/ready")[0]
    with served(folder) as it:
        there = it.collectors()
        it.quit()
    status, audit = audited(folder)
    holds = (kept[0], lost[0], after[0], ready, status) == (200, 503, 503, 503, 0) and "kept" in there and "after" not in there
    return holds, f"{kept}, {lost}, {after}, ready {ready}, {there}, {audit}"


@row("a journal that broke: /livez says 503, and the service ends with status 3 after give_up")
def gives_up(folder):
    with served(folder, settings(give_up="1s"), prepare=mind_no_size) as it:
        it.published()
        no_room(it, 10)
        it.send("POST", "/collectors", {"name": "lost", "reach": ANY})
        lives = it.ask("GET", "/livez")[0]
        status = it.ended(5)
        return (lives, status) == (503, 3), f"/livez {lives}, status {status}"


@row("a journal that is deleted while it runs: nothing is answered as done")
def deleted(folder):
    with served(folder) as it:
        it.published()
        os.remove(it.journal)
        time.sleep(1.2)
        said = it.send("POST", "/collectors", {"name": "b", "reach": ANY}) if it.it.poll() is None else (None, "")
        return said[0] != 200, said


@row("a journal behind a symbolic link: a renewal's files are beside its goal, and the link stays")
def linked(folder):
    os.mkdir(f"{folder}/volume")
    os.symlink("volume/journal", f"{folder}/journal")
    with served(folder) as it:
        it.published()
        it.write({**GOOD, "scrape_configs": [*GOOD["scrape_configs"], {"job_name": "more"}]})
        it.ask("POST", "/-/reload")
        comes(lambda: it.jobs() == ["more", "node"], 5)
        found = sorted(os.listdir(f"{folder}/volume"))
        return os.path.islink(f"{folder}/journal") and {"journal", "journal.1"} <= set(found), f"link {os.path.islink(it.journal)}, on the volume {found}"


@row("a FIFO as the journal: refused by name")
def fifo(folder):
    write(f"{folder}/c.json", GOOD)
    os.mkfifo(f"{folder}/pipe")
    return ends_with(folder, words_of(folder, "pipe", free_port()), 2, "pipe")


@row("a folder as the journal: refused by name, and nothing is made")
def a_folder(folder):
    write(f"{folder}/c.json", GOOD)
    os.mkdir(f"{folder}/volume")
    return ends_with(folder, words_of(folder, "volume", free_port()), 2, "volume")


@row("journal and lock may be read by their owner alone")
def modes(folder):
    with served(folder, prepare=lambda: os.umask(0o022)) as it:
        found = {one: oct(os.stat(f"{folder}/{one}").st_mode & 0o777) for one in ("journal", "journal.lock")}
        return set(found.values()) == {"0o600"}, found


@row("a refused join adds nothing to the file")
def refused(folder):
    with served(folder) as it:
        it.published()
        # A round that opens meanwhile has a line of its own.
        joins = lines_of(it.journal).count(b'"event":"join"')
        said = it.send("POST", "/collectors", {"name": "a", "reach": [{"allow": True, "test": "equals", "label": "x", "value": "y" * 900000}]})
        time.sleep(0.3)
        text = lines_of(it.journal)
        return said[0] in (400, 409) and text.count(b'"event":"join"') == joins and b"yyyy" not in text, f"{said}, {len(text)} bytes"


@row("a second start enters no static group again that is what the history has")
def again(folder):
    found = []
    for _ in range(2):
        with served(folder) as it:
            comes(lambda: it.figure("allocd_allocation") == 1, 10)
            it.quit()
            found.append(lines_of(it.journal).count(b'"event":"discover"'))
    return found == [1, 1], found


@row("of old journals 16 are kept where keep says nothing")
def kept(folder):
    with served(folder) as it:
        for turn in range(18):
            more = [] if turn % 2 else [{"job_name": "more"}]
            it.write({**GOOD, "scrape_configs": [*GOOD["scrape_configs"], *more]})
            it.ask("POST", "/-/reload")
            comes(lambda: it.jobs() == sorted(["node", *(one["job_name"] for one in more)]), 5)
        found = sorted(int(one.split(".")[1]) for one in os.listdir(folder) if re.fullmatch(r"journal\.\d+", one))
        return len(found) == 16 and found[-1] == 18, found


HANGS = """#include <unistd.h>
#include <stdlib.h>
int fdatasync(int file) {
    while (access(getenv("HANGS"), F_OK) == 0) usleep(20000);
    return 0;
}
"""


@row("a device that hangs: a line and 503 of /-/ready after 3 seconds, and /-/healthy does not wait")
def hanging(folder):
    with open(f"{folder}/hangs.c", "w") as it:
        it.write(HANGS)
    if subprocess.run(["cc", "-shared", "-fPIC", "-o", f"{folder}/hangs.so", f"{folder}/hangs.c"], capture_output=True).returncode != 0:
        return False, "there is no C compiler"
    with served(folder, environment={"LD_PRELOAD": f"{folder}/hangs.so", "HANGS": f"{folder}/hanging"}) as it:
        it.published()
        write(f"{folder}/hanging", b"")
        logged = len(it.said())
        for _ in range(80):
            threading.Thread(target=exchange, args=(it.port, "GET", "/jobs/node/targets?collector_id=a", {}, None, 6), daemon=True).start()
        time.sleep(3.8)
        began = time.monotonic()
        lives = exchange(it.port, "GET", "/-/healthy", {}, None)[0]
        took = time.monotonic() - began
        ready = exchange(it.port, "GET", "/-/ready", {}, None)[0]
        os.remove(f"{folder}/hanging")
        return (lives, ready) == (200, 503) and took < 1 and len(it.said()) > logged, f"/-/healthy {lives} after {took:.1f} s, /-/ready {ready}, {it.said()[logged:]!r}"


# Ready.


@row("it is not ready while the first source has not answered")
def ready_early(folder):
    source = Source()
    source.goes_on.clear()
    with served(folder, source.config()) as it:
        source.asked.wait(5)
        found = []
        for _ in range(10):
            found.append(it.ask("GET", "/-/ready")[0])
            time.sleep(0.05)
        source.goes_on.set()
        return set(found) == {503} and comes(lambda: it.ask("GET", "/-/ready")[0] == 200, 5), found


@row("the first list of one that waited for it to be ready is not empty")
def ready_empty(folder):
    source = Source()
    with served(folder, source.config(settle="500ms"), up=False) as it:
        def is_ready():
            with contextlib.suppress(OSError):
                return it.ask("GET", "/-/ready")[0] == 200
        if not comes(is_ready, 10):
            return False, "it is never ready"
        status, text = it.ask("GET", "/jobs/web/targets?collector_id=a")
        return status == 200 and len(json.loads(text)) == 5, (status, text)


@row("a source that fails counts as tried")
def ready_failed(folder):
    source = Source(status=500)
    with served(folder, source.config()) as it:
        return comes(lambda: it.ask("GET", "/-/ready")[0] == 200, 5), "it is not ready"


@row("with nothing to publish it is ready")
def ready_nothing(folder):
    with served(folder, {"scrape_configs": [{"job_name": "none"}], "allocator": {"settle": "0"}}) as it:
        return comes(lambda: it.ask("GET", "/-/ready")[0] == 200, 5), "it is not ready"


# Reloads.


def reloaded(folder, document, then, first=GOOD):
    with served(folder, first) as it:
        it.published()
        it.write(document)
        said = it.ask("POST", "/-/reload")
        time.sleep(0.5)
        return then(it, said)


@row("a reload of a document without jobs: refused, and the jobs stay")
def no_jobs(folder):
    return reloaded(folder, {"allocator": {"lifecycle": True}}, lambda it, said: (
        said[0] == 500 and "scrape_configs" in said[1] and it.jobs() == ["node"] and it.figure("allocd_config_last_reload_successful") == 0, f"{said}, {it.jobs()}"))


@row("no jobs are taken where allow_no_jobs says so")
def allowed_no_jobs(folder):
    return reloaded(folder, {"allocator": {"lifecycle": True, "allow_no_jobs": True}}, lambda it, said: (said[0] == 200 and it.jobs() == [], f"{said}, {it.jobs()}"))


@row("a good reload says what it changes")
def changed(folder):
    document = {**settings(collectors=[*GOOD["allocator"]["collectors"], {"name": "b", "reach": ANY}]), "scrape_configs": [*GOOD["scrape_configs"], {"job_name": "web"}]}
    return reloaded(folder, document, lambda it, said: (said[0] == 200 and re.search("jobs 1 -> 2, added web; collectors \\+1", said[1]), said))


@row("a reload with other limits of a collector sets them")
def other_limits(folder):
    document = settings(collectors=[{"name": "a", "reach": ANY, "limits": {"node": 1}}])
    name = 'allocd_collector_targets{collector="a"}'
    return reloaded(folder, document, lambda it, said: (comes(lambda: it.figure(name) == 1, 2), f"it holds {it.figure(name)}"))


@row("a reload with another reach of a collector: it leaves and joins under its name, and holds what it reaches now", now=False)
@row("and where reach_changes is now, at once", now=True)
def other_reach(folder, now):
    reach = [{"allow": True, "test": "equals", "label": "instance", "value": "127.0.0.1:9102"}]
    document = settings(collectors=[{"name": "a", "reach": reach}], **({"reach_changes": "now"} if now else {}))
    name = 'allocd_collector_targets{collector="a"}'
    return reloaded(folder, document, lambda it, said: (said[0] == 200 and comes(lambda: it.figure(name) == 1, 3), f"{said}, it holds {it.figure(name)}"))


@row("a reload without a collector of the list: it is drained and leaves, and one that joined over HTTP stays")
def taken_out(folder):
    with served(folder, settings(collectors=[*GOOD["allocator"]["collectors"], {"name": "b", "reach": ANY}])) as it:
        it.published()
        it.send("POST", "/collectors", {"name": "guest", "reach": ANY})
        it.write(GOOD)
        it.ask("POST", "/-/reload")
        return comes(lambda: sorted(it.collectors()) == ["a", "guest"], 3), it.collectors()


# Strangers.


def strange(folder, method, path, body, status, headers):
    with served(folder) as it:
        it.published()
        before = it.collectors()
        said = it.send(method, path, body, **headers)
        return said[0] in status and it.collectors() == before, f"{said}, {it.collectors()}"


GHOST = {"name": "ghost", "reach": ANY}
row("a join of a page of another site (origin): 403", method="POST", path="/collectors", body=GHOST, status=(403,), headers={"origin": "http://evil.example"})(strange)
row("a drain of a page of another site (sec-fetch-site): 403", method="POST", path="/collectors/1/drain", body=None, status=(403,),
    headers={"sec_fetch_site": "cross-site"})(strange)
LIST = "/jobs/node/targets?collector_id=a"
row("a list that a page of another site would take (sec-fetch-site): 403", method="GET", path=LIST, body=None, status=(403,), headers={"sec_fetch_site": "cross-site"})(strange)
row("and (origin): 403", method="GET", path=LIST, body=None, status=(403,), headers={"origin": "http://evil.example"})(strange)
row("a list that it tells to be followed: 403", method="GET", path="/acknowledged?collector=1&epoch=1&job=node&list=1", body=None, status=(403,), headers={"sec_fetch_site": "cross-site"})(strange)
row("a path without a route, of a page of another site: 403", method="GET", path="/nothing", body=None, status=(403,), headers={"sec_fetch_site": "cross-site"})(strange)
row("a list that it only looks at: shown", method="GET", path=LIST + "&take=false", body=None, status=(200,), headers={"sec_fetch_site": "cross-site"})(strange)
row("a page that it links to: shown", method="GET", path="/jobs/node", body=None, status=(200,), headers={"sec_fetch_site": "cross-site", "origin": "http://evil.example"})(strange)
row("and by the method HEAD: shown", method="HEAD", path=LIST, body=None, status=(200,), headers={"sec_fetch_site": "cross-site"})(strange)
row("a join under a name that was rebound (host): refused", method="POST", path="/collectors", body=GHOST, status=(400, 403, 421), headers={"host": "evil.example"})(strange)
row("a list under a name that was rebound (host): refused", method="GET", path="/jobs", body=None, status=(400, 403, 421), headers={"host": "evil.example"})(strange)


@row("a join, limits, a drain and a leave over HTTP are a log line each, with the peer's address")
def event_lines(folder):
    with served(folder) as it:
        it.send("POST", "/collectors", GHOST)
        it.send("PUT", "/collectors/2/limits", {"limits": {"node": 1}})
        it.send("POST", "/collectors/2/drain")
        it.send("DELETE", "/collectors/2")
        return comes(lambda: len([line for line in it.said().split("\n") if re.search("127\\.0\\.0\\.1(?!:%d)" % it.port, line)]) >= 4, 1), it.said()


def tokens_at(folder, mode=0o600):
    """Settings with two files of tokens, of this mode."""
    for name in ("admin", "collectors"):
        write(f"{folder}/{name}", f"of-{name}\n".encode())
        os.chmod(f"{folder}/{name}", mode)
    return settings(tokens={"admin": f"{folder}/admin", "collectors": f"{folder}/collectors"})


@row("with tokens: who shows none, or another's, is 401 with www-authenticate, and who shows his own is answered")
def with_tokens(folder):
    def asked(it, method, path, body, token):
        one = http.client.HTTPConnection("127.0.0.1", it.port, timeout=3)
        headers = {"content-type": "application/json", **({"authorization": f"Bearer {token}"} if token else {})}
        one.request(method, path, body and json.dumps(body), headers)
        said = one.getresponse()
        return said.status, "www-authenticate" in dict((name.lower(), value) for name, value in said.getheaders())
    with served(folder, tokens_at(folder)) as it:
        listed = "/jobs/node/targets?collector_id=a"
        found = [asked(it, *what) for what in (
            ("POST", "/collectors", GHOST, None), ("POST", "/collectors", GHOST, "of-collectors"), ("POST", "/collectors", GHOST, "of-admin"),
            ("GET", listed, None, None), ("GET", listed, None, "of-collectors"))]
        return [one[0] for one in found] in ([401, 401, 200, 401, 200], [401, 403, 200, 401, 200]) and found[0][1], found


@row("a file of tokens that others may read: refused by name")
def open_tokens(folder):
    write(f"{folder}/c.json", tokens_at(folder, 0o644))
    return ends_with(folder, words_of(folder, "journal", free_port()), 2, "/admin")


SECRET = {**GOOD, "scrape_configs": [{**GOOD["scrape_configs"][0], "basic_auth": {"username": "u", "password": "hunter2"}}]}


@row("passwords of a scrape config are <secret> in /scrape_configs")
def secrets(folder):
    with served(folder, SECRET) as it:
        text = it.ask("GET", "/scrape_configs")[1]
        return "hunter2" not in text and "<secret>" in text, text


@row("passwords of a scrape config are not in the journal")
def secrets_kept(folder):
    with served(folder, SECRET) as it:
        it.published()
        text = lines_of(it.journal)
        return b"hunter2" not in text, text


@row("all kinds of secrets are masked, and parameters, labels and limits that have their names are not")
def kinds_of_secrets(folder):
    tls = {"key": "hunter2", "ca_file": "ca"}
    one = {"job_name": "password", "params": {"password": ["shown"]}, "authorization": {"credentials": "hunter2"}, "oauth2": {"client_secret": "hunter2", "tls_config": tls},
           "proxy_connect_header": {"a": ["hunter2"]}, "tls_config": tls, "static_configs": [{"targets": ["127.0.0.1:9101"], "labels": {"key": "shown"}}],
           "http_sd_configs": [{"url": "http://127.0.0.1:9/", "basic_auth": {"password": "hunter2"}}]}
    document = {"scrape_configs": [one], "allocator": {"settle": "0", "collectors": [{"name": "a", "reach": ANY, "limits": {"password": 7}}]}}
    with served(folder, document) as it:
        it.published()
        text, read = (it.ask("GET", f"/scrape_configs{query}")[1] for query in ("", "?rules=true"))
        first = lines_of(it.journal).split(b"\n")[0].decode()
    found = [(shown.count("hunter2"), shown.count("<secret>"), shown.count("shown")) for shown in (text, read, first)]
    # Collectors are not given how the targets are found.
    return found == [(0, 5, 1), (0, 6, 2), (0, 6, 2)] and '"password":7' in first, f"{found}, {text}"


row("transfer-encoding other than chunked: 501", method="POST", path="/collectors", body=GHOST, status=(501,), headers={"transfer_encoding": "gzip, chunked"})(strange)
row("expect other than 100-continue: 417", method="POST", path="/collectors", body=GHOST, status=(417,), headers={"expect": "200-maybe"})(strange)
row("a content-length beyond the limit: 413 at once", method="POST", path="/collectors", body=GHOST, status=(413,), headers={"content_length": str(2**64 - 1)})(strange)


@row("the page says that it is no other type, and what it may load")
def page_headers(folder):
    with served(folder) as it:
        one = http.client.HTTPConnection("127.0.0.1", it.port, timeout=5)
        one.request("GET", "/")
        headers = dict(one.getresponse().getheaders())
        one.close()
        return headers.get("x-content-type-options") == "nosniff" and "content-security-policy" in headers, headers


@row("a body that is not read: the connection goes on, or its end is told")
def unread(folder):
    with served(folder) as it, socket.create_connection(("127.0.0.1", it.port), timeout=5) as one:
        one.sendall(b"POST /nowhere HTTP/1.1\r\nhost: localhost\r\ncontent-type: application/json\r\ncontent-length: 2\r\n\r\n")
        time.sleep(0.2)
        one.sendall(b"{}")
        first = one.recv(65536).decode()
        try:
            one.sendall(b"GET /-/healthy HTTP/1.1\r\nhost: localhost\r\n\r\n")
            then = one.recv(65536).decode()
        except OSError as fault:
            then = str(fault)
        return "connection: close" in first.lower() or "200 OK" in then, f"{first!r}, then {then!r}"


# The machine.


@row("started with closed standard streams, it writes no log into the journal")
def closed_streams(folder):
    def close():
        for one in (0, 1, 2):
            os.close(one)
    with served(folder, up=False, prepare=close) as it:
        if not it.is_up(3):
            return it.it.poll() == 2, "it does not begin"
        for one in range(5):
            it.send("POST", "/collectors", {"name": f"b{one}", "reach": ANY})
            it.ask("POST", "/-/reload")
        # A reload may cut the connection of who asks right behind it.
        comes(lambda: it.ask("POST", "/-/quit")[0] == 200, 5)
        ended = it.ended(3)
        status, out = run(["replay"], lines_of(it.journal))
        return (ended, status) == (0, 0), f"status {ended}, replay {out.decode()[-60:]}"


@row("standard error that nobody reads holds up no end")
def unread_stderr(folder):
    read, written = os.pipe()
    fcntl.fcntl(written, 1031, 4096)    # F_SETPIPE_SZ
    try:
        with served(folder, stderr=written) as it:
            it.published()
            it.write(settings(setle="1s"))
            for _ in range(60):
                if exchange(it.port, "POST", "/-/reload", {}, None, 1)[0] is None:
                    break
            exchange(it.port, "POST", "/-/quit", {}, None, 1)
            status = it.ended(3)
            return status == 0, f"status {status}"
    finally:
        os.close(read)
        os.close(written)


@row("log lines that nobody reads are counted, and told once somebody reads again")
def lost_lines(folder):
    read, written = os.pipe()
    fcntl.fcntl(written, 1031, 4096)    # F_SETPIPE_SZ
    try:
        with served(folder, stderr=written) as it:
            it.published()
            one = http.client.HTTPConnection("127.0.0.1", it.port, timeout=5)
            for _ in range(8):
                for _ in range(256):
                    one.request("DELETE", "/collectors/9999")
                    one.getresponse().read()
                time.sleep(0.3)
            one.close()
            lost = it.figure("allocd_log_lines_lost_total")
            told = threading.Event()

            def read_all():
                found = b""
                while b"log lines are lost" not in found:
                    found += os.read(read, 65536)
                told.set()
            threading.Thread(target=read_all, daemon=True).start()
            is_told = told.wait(5)
            it.ask("POST", "/-/quit")
            ended = it.ended(3)
            return lost > 0 and is_told and ended == 0, f"{lost} lost, told {is_told}, status {ended}"
    finally:
        os.close(written)
        os.close(read)


@row("connections that cannot be taken are counted and told")
def failed_accepts(folder):
    with served(folder) as it:
        it.published()
        taken = {int(one) for one in os.listdir(f"/proc/{it.it.pid}/fd")}
        free = min(set(range(len(taken) + 1)) - taken)
        most = resource.prlimit(it.it.pid, resource.RLIMIT_NOFILE)
        resource.prlimit(it.it.pid, resource.RLIMIT_NOFILE, (free, most[1]))
        with socket.create_connection(("127.0.0.1", it.port), timeout=5):
            told = comes(lambda: "connections could not be taken" in it.said(), 5)
            resource.prlimit(it.it.pid, resource.RLIMIT_NOFILE, most)
        counted = comes(lambda: it.figure("allocd_http_accept_failures_total") > 0, 5)
        return told and counted, f"told {told}, counted {counted}: {it.said()[-200:]}"


@row("the first line of a large fleet is written in pieces, and not as one text")
def first_line_in_pieces(folder):
    by, library, sizes = compiler(), f"{folder}/write_sizes.so", f"{folder}/sizes"
    if not by:
        return True, "no C compiler: left out"
    subprocess.run([by, "-O2", "-shared", "-fPIC", "-nostdlib", "-o", library, f"{ROOT}/scripts/write_sizes.c"], check=True)
    document = settings(lifecycle=True)
    targets = [f"10.0.{one // 250}.{one % 250}:9100" for one in range(8_000)]
    document["scrape_configs"][0]["static_configs"] = [{"targets": targets, "labels": {"long": "x" * 100}}]
    with served(folder, document, environment={"LD_PRELOAD": library, "WRITE_SIZES": sizes}) as it:
        it.published()
        comes(lambda: b'"event":"install"' in contents(it.journal), 10)
        document["scrape_configs"].append({"job_name": "another", "static_configs": [{"targets": ["127.0.0.1:9999"]}]})
        it.write(document)
        os.rename(sizes, f"{sizes}.before")
        status = it.ask("POST", "/-/reload")[0]
        comes(lambda: os.path.exists(f"{it.journal}.1"), 10)
        length = contents(it.journal).index(b"\n")
        # the lines of events are shorter
        most = max(map(int, contents(sizes).split()))
    return status == 200 and length > 1_000_000 and most < length // 8, f"status {status}, {length} bytes, {most} at once at the most"


def contents(path):
    with open(path, "rb") as it:
        return it.read()


@row("too few descriptors: said at the start, or refused")
def few_descriptors(folder):
    def few():
        resource.setrlimit(resource.RLIMIT_NOFILE, (100, 100))
    with served(folder, up=False, prepare=few) as it:
        return comes(lambda: re.search("descriptor|RLIMIT_NOFILE|ulimit -n|open files", it.said()), 2), it.said()


@row("where collector_timeout is never it says that nobody notices a dead collector")
def no_timeout(folder):
    with served(folder, settings(collector_timeout="never")) as it:
        return re.search("level=warn.*collector_timeout is never", it.said()), it.said()


@row("where nothing is said it does not: who asks for nothing is missed")
def usual_timeout(folder):
    with served(folder) as it:
        return "collector_timeout" not in it.said(), it.said()


if __name__ == "__main__":
    sys.exit(told_rows.main(ROWS))
