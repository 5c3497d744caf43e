#!/usr/bin/env python3
"""Sends `scripts/allocd-supervise` each signal, and tells of each case whether it holds: try_supervise.py

Under sh, dash, bash and busybox's sh, as PID 1 of a PID namespace (where `unshare` may make one) and not: a reload of a good and of a faulty
configuration, the end by TERM and INT, a quit that hangs, a second TERM, signals before the program listens, a program that is killed, a
configuration without `lifecycle`; then each tool that it may ask with, the addresses that it reads, and its wrong uses. Loopback and free ports alone."""

import concurrent.futures
import json
import os
import re
import shutil
import signal
import subprocess
import sys
import tempfile
import time

from allocd_service import PROGRAM, ROOT, ask, comes, free_port, hears_signals, supervisor_can_ask

SCRIPT = f"{ROOT}/scripts/allocd-supervise"
SHELLS = {"sh": ["sh"], "dash": ["dash"], "bash": ["bash"], "busybox sh": ["busybox", "sh"]}
PID_1 = ["unshare", "-pf", "--mount-proc", "--kill-child=KILL"]
ANY = [{"allow": True, "test": "any"}]


def config(*jobs, **settings):
    made = [{"job_name": name, "static_configs": [{"targets": ["127.0.0.1:9"]}]} for name in jobs]
    return {"scrape_configs": made, "allocator": {"lifecycle": True, "collectors": [{"name": "a", "reach": ANY}], **settings}}


def children(pid):
    try:
        with open(f"/proc/{pid}/task/{pid}/children") as it:
            return [int(one) for one in it.read().split()]
    except OSError:
        return []


def name_of(pid):
    try:
        return os.readlink(f"/proc/{pid}/exe")
    except OSError:
        return ""


def words_of(pid):
    """Its command line; empty where it has ended."""
    try:
        with open(f"/proc/{pid}/cmdline", "rb") as it:
            return it.read()
    except OSError:
        return b""


def stat(pid):
    """The state of a process, and the ticks of processor that it had."""
    with open(f"/proc/{pid}/stat") as it:
        fields = it.read().rsplit(")", 1)[1].split()
    return fields[0], int(fields[11]) + int(fields[12])


class Supervised:
    """The supervisor with a program under it."""

    def __init__(self, folder, shell, first, document, program=PROGRAM, words=None, environment=None):
        self.port = free_port()
        self.config = f"{folder}/config.json"
        self.log = f"{folder}/log"
        self.write(document)
        words = words or ["--config", self.config, "--listen", f"127.0.0.1:{self.port}"]
        with open(self.log, "wb") as log:
            self.it = subprocess.Popen(
                [*(PID_1 if first else []), *shell, SCRIPT, program, "serve", *words],
                stderr=log, stdout=log, env={**os.environ, **(environment or {})}, preexec_fn=hears_signals,
            )
        self.first = first

    def write(self, document):
        with open(self.config, "w") as it:
            it.write(document if isinstance(document, str) else json.dumps(document))

    def pid(self):
        """The supervisor's own, as it is seen from here."""
        if not self.first:
            return self.it.pid
        comes(lambda: children(self.it.pid) and not name_of(children(self.it.pid)[0]).endswith("/unshare"), 5)
        return children(self.it.pid)[0]

    def program(self):
        """The process of the program."""
        found = []
        comes(lambda: found.extend(one for one in children(self.pid()) if name_of(one) == os.path.realpath(PROGRAM)) or found, 5)
        return found[0]

    def stop(self):
        """Stops the program, each of its threads."""
        pid = self.program()
        os.kill(pid, signal.SIGSTOP)
        comes(lambda: all(stat(f"{pid}/task/{one}")[0] == "T" for one in os.listdir(f"/proc/{pid}/task")), 10)

    def send(self, number):
        os.kill(self.pid(), number)

    def said(self, text="", seconds=15):
        """Whether it says this soon, a regular expression."""
        def now():
            with open(self.log, errors="replace") as it:
                return re.search(text, it.read())
        return bool(comes(now, seconds))

    def is_up(self):
        def now():
            try:
                return ask(self.port, "GET", "/-/healthy", seconds=2)[0] == 200
            except OSError:
                return False
        return comes(now, 10)

    def jobs(self):
        """The jobs that are followed: a connection may end at a renewal."""
        found = []
        comes(lambda: found.append(ask(self.port, "GET", "/jobs", seconds=5)[1]) or found[-1], 5)
        return sorted(json.loads(found[-1]))

    def ended(self, seconds=20):
        """Its status, or None where it has not ended in time."""
        try:
            return self.it.wait(seconds)
        except subprocess.TimeoutExpired:
            return None

    def clear(self):
        """Ends what is left of it, and says whether the program was."""
        self.it.poll()
        found = end_all(self.config)
        self.it.wait()
        return found


def slow_program(folder, seconds):
    """A program that begins late."""
    path = f"{folder}/slow"
    with open(path, "w") as it:
        it.write(f"#!{sys.executable}\nimport os, sys, time\ntime.sleep({seconds})\nos.execv({PROGRAM!r}, [{PROGRAM!r}, *sys.argv[1:]])\n")
    os.chmod(path, 0o755)
    return path


# Each case is a generator of (what, whether it holds).


def reloads(folder, shell, first):
    it = Supervised(folder, shell, first, config("one"))
    yield "it begins", it.is_up() and it.said("HUP asks for a reload and TERM for the end, by .* at 127.0.0.1:")
    it.write(config("one", "two"))
    it.send(signal.SIGHUP)
    yield "HUP: the configuration is read again", it.said("HUP: POST /-/reload: The configuration is read again.")
    yield "HUP: the other jobs are followed", comes(lambda: it.jobs() == ["one", "two"], 5)
    it.write(config("one", setle="1s"))
    it.send(signal.SIGHUP)
    yield "HUP with a faulty configuration: why", it.said("HUP: POST /-/reload: 500, the configuration that was followed still is: .*allocator.setle")
    yield "and the old one is followed", it.jobs() == ["one", "two"]
    os.kill(it.program(), signal.SIGHUP)
    time.sleep(0.2)
    yield "a stray HUP to the program ends nothing", it.it.poll() is None and it.jobs() == ["one", "two"]
    before = stat(it.pid())[1]
    time.sleep(0.5)
    yield "it takes no processor while it waits", stat(it.pid())[1] - before <= 1
    yield "and leaves no zombie", comes(lambda: not any(stat(one)[0] == "Z" for one in children(it.pid())), 2)
    it.send(signal.SIGTERM)
    yield "TERM: it ends with status 0", it.ended() == 0
    yield "TERM: its requests answered, and said so", it.said("TERM: POST /-/quit: allocd ends. Goodbye!") and it.said('msg="ended"')
    yield "nothing is left", not it.clear()


def interrupts(folder, shell, first):
    it = Supervised(folder, shell, first, config("one"))
    it.is_up()
    it.send(signal.SIGINT)
    yield "INT: it ends with status 0", it.ended() == 0 and it.said("INT: POST /-/quit: allocd ends. Goodbye!")
    yield "nothing is left", not it.clear()


def hangs(folder, shell, first):
    it = Supervised(folder, shell, first, config("one"), environment={"ALLOCD_ANSWER_SECONDS": "1"})
    it.is_up()
    it.stop()
    began = time.monotonic()
    it.send(signal.SIGTERM)
    yield "a quit that hangs: ended by SIGTERM, status 143", it.ended() == 143
    yield "after the time that is stated", 0.9 <= time.monotonic() - began <= 15
    yield "and said so", it.said("TERM: POST /-/quit at .* has no answer, so the program is ended by SIGTERM")
    yield "nothing is left", not it.clear()


def twice(folder, shell, first):
    it = Supervised(folder, shell, first, config("one"))
    it.is_up()
    it.stop()
    it.send(signal.SIGTERM)
    time.sleep(0.3)
    yield "TERM while it hangs: it waits", it.it.poll() is None
    it.send(signal.SIGHUP)
    yield "HUP meanwhile: nothing is read", it.said("HUP: the program is ending, nothing is read again")
    began = time.monotonic()
    it.send(signal.SIGTERM)
    yield "TERM again: it ends at once, status 143", it.ended() == 143 and time.monotonic() - began < 4
    yield "and said so", it.said("TERM again: the program is ended at once")
    yield "nothing is left", not it.clear()


def early(folder, shell, first):
    it = Supervised(folder, shell, first, config("one"), program=slow_program(folder, 8))
    it.said("HUP asks for")
    began = time.monotonic()
    it.send(signal.SIGTERM)
    yield "TERM before it listens: ended, status 143", it.ended() == 143 and time.monotonic() - began < 6
    yield "nothing is left", not it.clear()
    it = Supervised(folder, shell, first, config("one"), program=slow_program(folder, 1.2))
    it.said("HUP asks for")
    time.sleep(0.1)
    it.send(signal.SIGHUP)
    yield "HUP before it listens: asked until it is answered", it.said("HUP: POST /-/reload: The configuration is read again.")
    it.send(signal.SIGTERM)
    yield "TERM then: status 0", it.ended() == 0
    it.clear()
    ends = []
    for wait in (0, 0.002, 0.005, 0.01, 0.02, 0.04):
        it = Supervised(folder, shell, first, config("one"))
        it.said("HUP asks for")
        time.sleep(wait)
        it.send(signal.SIGTERM)
        ends.append((it.ended(), it.clear()))
    yield "TERM as it begins: ended each time, and nothing left", all(end in ((0, False), (143, False)) for end in ends), ends


def statuses(folder, shell, first):
    it = Supervised(folder, shell, first, config("one"))
    it.is_up()
    os.kill(it.program(), signal.SIGKILL)
    yield "the program is killed: status 137", it.ended() == 137
    it = Supervised(folder, shell, first, config("one", settle=3))
    yield "a faulty configuration: status 2", it.ended() == 2 and it.said("allocator.settle")
    it = Supervised(folder, shell, first, config("one"), program=f"{folder}/none")
    yield "no such program: status 127, by name", it.ended() == 127 and it.said(f"{folder}/none")
    port = free_port()
    one = Supervised(folder, shell, first, config("one"), words=["--config", f"{folder}/config.json", f"--listen=127.0.0.1:{port}"])
    one.port = port
    one.is_up()
    os.rename(one.log, f"{folder}/first")
    one.log = f"{folder}/first"
    two = Supervised(folder, shell, first, config("one"), words=["--config", f"{folder}/config.json", f"--listen=127.0.0.1:{port}"])
    yield "an address that another has: status 3", two.ended() == 3
    yield "and the other lives", one.is_up()
    one.send(signal.SIGTERM)
    yield "TERM: status 0, with --listen=", one.ended() == 0


def without_lifecycle(folder, shell, first):
    it = Supervised(folder, shell, first, config("one", lifecycle=False))
    it.is_up()
    yield "without lifecycle: it says so at the start", it.said("allocator.lifecycle is not true in .*config.json: a HUP will be answered 403")
    it.send(signal.SIGHUP)
    yield "HUP: 403 by name", it.said("HUP: POST /-/reload: 403, allocator.lifecycle does not let it")
    yield "and it goes on", it.is_up()
    it.send(signal.SIGTERM)
    yield "TERM: ended by SIGTERM, status 143", it.ended() == 143
    yield "and said so", it.said("TERM: POST /-/quit: 403, allocator.lifecycle does not let it, so the program is ended by SIGTERM")
    yield "nothing is left", not it.clear()


def with_reload_alone(folder, shell, first):
    it = Supervised(folder, shell, first, config("one", lifecycle={"reload": True}))
    it.is_up()
    yield "reload alone: it says so at the start", it.said("allocator.lifecycle.quit is not true in .*config.json: TERM ends the program at once")
    it.send(signal.SIGHUP)
    yield "HUP: answered", it.said("HUP: POST /-/reload: The configuration is read again")
    it.send(signal.SIGTERM)
    yield "TERM: ended by SIGTERM, status 143", it.ended() == 143
    yield "nothing is left", not it.clear()


CASES = [reloads, interrupts, hangs, twice, early, statuses, without_lifecycle, with_reload_alone]
NEEDED = ["awk", "sleep", "grep", "cat"]
TOOLS = {
    "curl": {"curl": "curl"},
    "wget": {"wget": "wget"},
    "busybox's wget": {"wget": "busybox"},
    "busybox": {"busybox": "busybox"},
    "bash": {"bash": "bash"},
    "python3": {"python3": sys.executable},
}


def path_of(folder, links):
    """A PATH with these alone."""
    os.makedirs(f"{folder}/bin")
    for name, goal in links.items():
        os.symlink(shutil.which(goal), f"{folder}/bin/{name}")
    return f"{folder}/bin"


def tokens(folder):
    """A file of tokens."""
    path = f"{folder}/tokens"
    with open(os.open(path, os.O_WRONLY | os.O_CREAT, 0o600), "w") as it:
        it.write("# of whoever is in charge\n\nadmins-secret\nanother-secret\n")
    return path


def asks_with(folder, tool):
    """A reload, a faulty one and an end by one tool alone, and with a token."""
    links = {**{one: one for one in NEEDED}, **TOOLS[tool]}
    there = {"PATH": path_of(folder, links), "http_proxy": "http://127.0.0.1:1", "ALL_PROXY": "http://127.0.0.1:1"}
    it = Supervised(folder, [shutil.which("dash") or "/bin/sh"], False, config("one"), environment=there)
    it.is_up()
    yield "named at the start", it.said(f"by {'busybox wget' if 'busybox' in tool else tool} at 127.0.0.1:")
    it.write(config("one", "two"))
    it.send(signal.SIGHUP)
    yield "HUP", it.said("HUP: POST /-/reload: The configuration is read again.") and comes(lambda: it.jobs() == ["one", "two"], 5)
    it.write(config("one", setle="1s"))
    it.send(signal.SIGHUP)
    why = "500" if "busybox" in tool else "allocator.setle: unknown member"
    yield "HUP with a faulty configuration", it.said(f"HUP: POST /-/reload: 500, .*{why}")
    os.kill(it.program(), signal.SIGTERM)
    yield "the program ended by another: its status", it.ended() == 143
    it = Supervised(folder, [shutil.which("dash") or "/bin/sh"], False, config("one", tokens={"admin": tokens(folder)}), environment=there)
    it.is_up()
    it.send(signal.SIGHUP)
    yield "HUP with a token", it.said("HUP: POST /-/reload: The configuration is read again")
    comes(lambda: it.jobs() == ["one"], 5)
    it.send(signal.SIGTERM)
    yield "TERM with a token", it.ended() == 0 and it.said("TERM: POST /-/quit: allocd ends. Goodbye!")
    it.clear()
    it = Supervised(folder, [shutil.which("dash") or "/bin/sh"], False, config("one"), environment={**there, "ALLOCD_ANSWER_SECONDS": "1"})
    it.is_up()
    it.stop()
    it.send(signal.SIGTERM)
    yield "a quit that hangs", it.ended() == 143 and it.said("TERM: POST /-/quit at .* has no answer")
    it.clear()


ADDRESSES = [
    ("--listen", {}, ["--listen", "127.0.0.1:9001"], "127.0.0.1:9001"),
    ("--listen=", {}, ["--listen=127.0.0.1:9002"], "127.0.0.1:9002"),
    ("the last --listen counts", {}, ["--listen=127.0.0.1:9002", "--listen", "127.0.0.1:9003"], "127.0.0.1:9003"),
    ("a value that looks like one", {}, ["--journal", "--listen=x", "--listen", "127.0.0.1:9004"], "127.0.0.1:9004"),
    ("0.0.0.0", {}, ["--listen", "0.0.0.0:9005"], "127.0.0.1:9005"),
    ("localhost", {}, ["--listen", "localhost:9006"], "127.0.0.1:9006"),
    ("none", {}, [], "127.0.0.1:8080"),
    ("the configuration's", {"allocator": {"listen": "127.0.0.1:9007"}}, [], "127.0.0.1:9007"),
    ("--listen before the configuration's", {"allocator": {"listen": "127.0.0.1:9007"}}, ["--listen", "127.0.0.1:9008"], "127.0.0.1:9008"),
    ("listen elsewhere", {"listen": "1.1.1.1:1", "a": {"allocator": {"listen": "2.2.2.2:2"}}, "b": [{"listen": "3.3.3.3:3"}]}, [], "127.0.0.1:8080"),
    ("after texts with quotes and brackets", {"a": "}]\\\"{", "b\"[": "\\", "c": ["", "\""], "allocator": {"collectors": [{"listen": "x"}], "listen": "127.0.0.1:9009"}}, [],
     "127.0.0.1:9009"),
    ("a value of another name", {"a": "listen", "allocator": {"journal": "listen", "settle": "127.0.0.1:1"}}, [], "127.0.0.1:8080"),
    ("another address", {"allocator": {"listen": "127.0.0.9:9010"}}, [], "127.0.0.9:9010"),
]


def addresses(folder, awk):
    """The address of words and a configuration, read with one awk, compact and indented."""
    links = {"awk": awk, "sleep": "sleep", "grep": "grep", "curl": "curl", "cat": "cat"}
    where = path_of(folder, {name: goal for name, goal in links.items() if goal != "busybox"})
    if awk == "busybox":
        os.symlink(shutil.which("busybox"), f"{where}/awk")
    with open(f"{folder}/seven", "w") as it:
        it.write("#!/bin/sh\nexit 7\n")
    os.chmod(f"{folder}/seven", 0o755)
    for name, document, words, address in ADDRESSES:
        for indent in (None, 2):
            with open(f"{folder}/c.json", "w") as it:
                json.dump({**document, "allocator": {**document.get("allocator", {}), "lifecycle": True}}, it, indent=indent)
            done = subprocess.run(
                [shutil.which("dash") or "/bin/sh", SCRIPT, f"{folder}/seven", "serve", "--config", f"{folder}/c.json", *words],
                env={"PATH": where}, capture_output=True, text=True,
            )
            said = done.stderr.strip().split("\n")
            holds = done.returncode == 7 and len(said) == 1 and said[0].endswith(f"by curl at {address}")
            yield f"{name}{', indented' if indent else ''}", holds, said


def wrong_uses(folder):
    def run(*words, **environment):
        done = subprocess.run([shutil.which("sh"), SCRIPT, *words], env={**os.environ, **environment}, capture_output=True, text=True)
        return done.returncode, done.stdout, done.stderr
    usage = (2, "", "usage: allocd-supervise PROGRAM serve WORD..\n")
    yield "no word: usage, status 2", run() == usage
    yield "an option first: usage, status 2", run("--config", "x") == usage
    with open(f"{folder}/c.json", "w") as it:
        json.dump(config("one", setle="1s"), it)
    plain = subprocess.run([PROGRAM, "serve", "--config", f"{folder}/c.json", "--check-config"], capture_output=True, text=True)
    yield "--check-config is the program's own", run(PROGRAM, "serve", "--config", f"{folder}/c.json", "--check-config") == (
        plain.returncode, plain.stdout, plain.stderr)
    yield "--help too", run(PROGRAM, "serve", "--help")[0] == 0
    yield "another command too", run(PROGRAM, "--version")[:2] == (0, "allocd 0.1.0\n")
    os.makedirs(f"{folder}/1")
    nothing = path_of(f"{folder}/1", {"awk": "awk", "grep": "grep", "sleep": "sleep"})
    status, _, said = run(PROGRAM, "serve", "--config", f"{folder}/c.json", PATH=nothing)
    yield "nothing to ask with: refused by name, status 2", status == 2 and "nothing here can ask over HTTP: one of curl, wget" in said
    os.makedirs(f"{folder}/2")
    nothing = path_of(f"{folder}/2", {"curl": "curl", "grep": "grep", "sleep": "sleep"})
    status, _, said = run(PROGRAM, "serve", "--config", f"{folder}/c.json", PATH=nothing)
    yield "no awk: refused by name, status 2", status == 2 and "awk is needed" in said


def examples(folder):
    """The unit and the container file of examples/, as far as they can be tried without systemd and without a container."""
    with open(f"{ROOT}/examples/Containerfile") as it:
        lines = it.read().split("\n")
    health = json.loads(next(line.split("CMD ")[1] for line in lines if line.startswith("HEALTHCHECK")))
    entry, command = (json.loads(next(line.split(" ", 1)[1] for line in lines if line.startswith(f"{word} "))) for word in ("ENTRYPOINT", "CMD"))
    yield "the container file starts the supervisor", entry == ["allocd-supervise", "/usr/local/bin/allocd", "serve"] and command[0] == "--config"
    it = Supervised(folder, ["bash"], False, config("one"))
    it.is_up()
    def is_healthy():
        return subprocess.run([word.replace("/8080", f"/{it.port}") for word in health], capture_output=True).returncode == 0
    yield "its health check holds while the service lives", is_healthy()
    it.send(signal.SIGTERM)
    it.ended()
    yield "and not when it has ended", not is_healthy()
    if shutil.which("systemd-analyze"):
        with open(f"{ROOT}/examples/allocd.service") as it:
            unit = it.read()
        with open(f"{folder}/allocd.service", "w") as it:
            it.write(unit.replace("/usr/local/bin/allocd-supervise", SCRIPT).replace("/usr/local/bin/allocd ", f"{PROGRAM} "))
        done = subprocess.run(["systemd-analyze", "verify", f"{folder}/allocd.service"], capture_output=True, text=True)
        yield "systemd-analyze verify has no word to say of the unit", (done.returncode, done.stdout + done.stderr) == (0, ""), done.stderr
        done = subprocess.run(
            ["systemd-analyze", "security", "--offline=true", "--threshold=20", f"{folder}/allocd.service"], capture_output=True, text=True)
        yield "systemd-analyze security: an exposure of 2.0 at most", done.returncode == 0, done.stdout[-200:]
    else:
        print("skipped: the unit, since systemd-analyze is not here")


def rows():
    """Each run with its name."""
    shells = {name: words for name, words in SHELLS.items() if shutil.which(words[0])}
    for name in SHELLS:
        if name not in shells:
            print(f"skipped: {name} is not here (apt-get install busybox-static)")
    firsts = [False]
    if shutil.which("unshare") and subprocess.run([*PID_1, "true"], capture_output=True).returncode == 0:
        firsts.append(True)
    else:
        print("skipped: no PID namespace can be made here, so nothing is tried as PID 1")
    for name, words in shells.items():
        for first in firsts:
            for case in CASES:
                yield f"{name}{', as PID 1' if first else ''}: ", lambda folder, case=case, words=words, first=first: case(folder, words, first)
    for tool, links in TOOLS.items():
        if all(shutil.which(one) for one in links.values()):
            yield f"by {tool} alone: ", lambda folder, tool=tool: asks_with(folder, tool)
        else:
            print(f"skipped: by {tool} alone, which is not here")
    for awk in ("gawk", "mawk", "busybox"):
        if shutil.which(awk):
            yield f"address ({awk}): ", lambda folder, awk=awk: addresses(folder, awk)
        else:
            print(f"skipped: addresses by {awk}, which is not here")
    yield "", wrong_uses
    yield "examples: ", examples


def run(row):
    name, case = row
    with tempfile.TemporaryDirectory() as folder:
        found = []
        try:
            for what, holds, *more in case(folder):
                found.append((f"{name}{what}", bool(holds), "" if holds else f": {more} {log_of(folder)}"))
        except Exception as fault:
            found.append((f"{name}{type(fault).__name__}", False, f": {fault} {log_of(folder)}"))
        end_all(folder)
        return found


def log_of(folder):
    """What was said there last."""
    try:
        with open(f"{folder}/log", errors="replace") as it:
            return repr(it.read()[-1500:])
    except OSError:
        return ""


def end_all(text):
    """Ends each process that has this text among its words, and says whether the program was one."""
    left = [one for one in map(int, filter(str.isdigit, os.listdir("/proc"))) if text.encode() in words_of(one)]
    found = any(name_of(one) == os.path.realpath(PROGRAM) for one in left)
    for one in left:
        try:
            os.kill(one, signal.SIGKILL)
        except ProcessLookupError:
            pass
    return found


def main():
    passed = failed = 0
    if not supervisor_can_ask():
        return 0
    with concurrent.futures.ThreadPoolExecutor(12) as pool:
        for found in pool.map(run, list(rows())):
            for what, holds, more in found:
                print(f"{'ok' if holds else 'NOT'}: {what}{more}", flush=True)
                passed += holds
                failed += not holds
    print(f"{passed} passed, {failed} failed")
    return 1 if failed else 0


if __name__ == "__main__":
    sys.exit(main())
