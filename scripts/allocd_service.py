"""What the scripts that try the program share: where it is, runs of its commands, a service on a port of its own, requests, journals."""

import http.client
import json
import os
import random
import shutil
import signal
import socket
import subprocess
import threading
import time

ROOT = os.path.dirname(os.path.dirname(os.path.abspath(__file__)))
PROGRAM = os.environ.get("ALLOCD_PROGRAM", f"{ROOT}/dist/allocd")
# A request's answer where the connection ended without one.
CLOSED = (None, None)
# The ports that were given to this process.
PORTS, PORTS_LOCK = set(), threading.Lock()


def run(words, text=b"", **more):
    """The status and the output of a command."""
    done = subprocess.run([PROGRAM, *words], input=text, capture_output=True, **more)
    return done.returncode, done.stdout


def first_of_the_kernel():
    """The first of the ports that the kernel gives to who connects."""
    try:
        with open("/proc/sys/net/ipv4/ip_local_port_range") as it:
            return int(it.read().split()[0])
    except OSError:
        return 32768


def free_port():
    """A port that is free and was not given before, and that no connection of another is given before a service has it."""
    while True:
        port = random.randrange(10000, max(20000, first_of_the_kernel()))
        with PORTS_LOCK, socket.socket() as it:
            try:
                it.bind(("127.0.0.1", port))
            except OSError:
                continue
            if port not in PORTS:
                PORTS.add(port)
                return port


def ask(port, method, path, body=None, seconds=60):
    """The status and the text of an answer, or CLOSED."""
    it = http.client.HTTPConnection("127.0.0.1", port, timeout=seconds)
    try:
        headers = {} if body is None else {"content-type": "application/json"}
        it.request(method, path, body=json.dumps(body) if isinstance(body, (dict, list)) else body, headers=headers)
        said = it.getresponse()
        return said.status, said.read().decode()
    except (http.client.HTTPException, ConnectionError):
        return CLOSED
    finally:
        it.close()


def hears_signals():
    """Of a child that is to start: no signal is left out, whatever whoever started these trials does not mind (`nohup`, a shell's `&`)."""
    for number in (signal.SIGHUP, signal.SIGINT, signal.SIGTERM):
        signal.signal(number, signal.SIG_DFL)


def supervisor_can_ask():
    """Whether what scripts/allocd-supervise asks by is here; says so where it is not."""
    found = any(map(shutil.which, ("curl", "wget")))
    if not found:
        print("skipped: signals (the supervisor asks by curl or wget, and neither is here)")
    return found


def compiler():
    """A C compiler: that of CC, the system's or the kit's, or None."""
    kit = shutil.which("rt") and os.path.dirname(subprocess.run(["rt", "doc"], capture_output=True, text=True).stdout.strip())
    return next(filter(None, map(shutil.which, (os.environ.get("CC", "cc"), "gcc", "clang", f"{kit}/toolchain/bin/clang"))), None)


def line_of(text):
    """The answer or the refusal of a reply's body."""
    said = json.loads(text)
    return said.get("answer") or said.get("refused")


def comes(test, seconds=60):
    """Whether a test holds soon."""
    end = time.monotonic() + seconds
    while True:
        if test():
            return True
        if time.monotonic() > end:
            return False
        time.sleep(0.02)


def lines_of(journal):
    """The whole lines of a journal."""
    with open(journal, "rb") as it:
        text = it.read()
    return text[: text.rfind(b"\n") + 1]


def events_in(lines):
    """The events of a journal's lines, behind which digests may stand."""
    return [json.JSONDecoder().raw_decode(line.decode())[0] for line in lines.split(b"\n")[1:] if line]


def replayed(journal):
    """The status of a replay of a journal, and each event beside its answer."""
    lines = lines_of(journal)
    status, out = run(["replay"], lines)
    answers = out.decode().split("\n")[:-1]
    return status, list(zip(events_in(lines), answers)), answers[-1] if answers else ""


class Service:
    """A running `allocd serve`."""

    def __init__(self, folder, config, journal=None, environment=None):
        """The configuration may be a function of the port, and then says itself where to listen."""
        self.folder = folder
        self.port = free_port()
        self.config = f"{folder}/config.json"
        self.write(config(self.port) if callable(config) else config)
        words = [PROGRAM, "serve", "--config", self.config]
        words += [] if callable(config) else ["--listen", f"127.0.0.1:{self.port}"]
        words += ["--journal", journal] if journal else []
        with open(f"{folder}/log", "ab") as log:
            self.it = subprocess.Popen(words, stderr=log, stdout=subprocess.DEVNULL, env={**os.environ, **(environment or {})})

    def write(self, config):
        with open(self.config, "w") as it:
            it.write(config if isinstance(config, str) else json.dumps(config, indent=1))

    def ask(self, method, path, body=None):
        return ask(self.port, method, path, body)

    def is_up(self, seconds=60):
        """Whether it answers, as against having ended."""
        end = time.monotonic() + seconds
        while self.it.poll() is None and time.monotonic() < end:
            if self.ask("GET", "/-/healthy")[0] == 200:
                return True
            time.sleep(0.01)
        return False

    def figure(self, name):
        """A figure of its metrics, by name and labels as they stand there."""
        text = self.ask("GET", "/metrics")[1] or ""
        found = [line.rsplit(" ", 1)[1] for line in text.split("\n") if line.startswith(f"{name} ")]
        return int(float(found[0])) if found else None

    def memory(self):
        """The kilobytes of memory that it has."""
        with open(f"/proc/{self.it.pid}/status") as it:
            return next(int(line.split()[1]) for line in it if line.startswith("VmRSS"))

    def ended(self, seconds=60):
        try:
            return self.it.wait(seconds)
        except subprocess.TimeoutExpired:
            self.it.kill()
            self.it.wait()
            return None

    def quit(self):
        status = self.ask("POST", "/-/quit")[0]
        return status, self.ended()
