#!/usr/bin/env python3
"""Runs every command of README, docs/operate and RENEWAL that stands behind `$`, and compares what is shown below it: try_documents.py [DOCUMENT ..]

The exchanges of docs/operate/HTTP.md are left to try_http.py. The histories of docs/operate/EXAMPLES.md are replayed, and their answers compared with those
that stand beside each event. The commands of a document run in order, in one shell and a folder of its own with a copy of README, docs, examples and scripts. `./allocd` and
`allocd` are the program there (ALLOCD_PROGRAM, or dist/allocd). In what is shown `..` stands for any text. Commands behind `#` are for root on a
machine of its own: they are counted, and scripts/try_package.sh, try_unit.sh and try_proxy.py try what they do.

Ports are those of the documents, in a network of the script's own where `unshare` makes one; else they are to be free. It needs curl 7.82, jq, PyYAML
and prometheus (for promtool), and leaves nothing behind."""

import fcntl
import glob
import json
import os
import re
import shutil
import signal
import socket
import struct
import subprocess
import sys
import tempfile
import time

from allocd_service import PROGRAM, ROOT
from told_rows import Teller

NEEDED = {"bash": "bash", "curl": "curl", "jq": "jq", "promtool": "prometheus", "dpkg-deb": "dpkg", "sha256sum": "coreutils"}
INSIDE = "ALLOCD_IN_A_NETWORK"
LONGEST = 120
# Sections of docs/operate/HTTP.md that scripts/try_http.py tries.
OF_TRY_HTTP = ("Each with an answer", "A list that is acknowledged")
tell = Teller()

# Four collectors join, and the line of the third is changed.
DAMAGED = [
    "cp examples/default.json allocd.json",
    "(sleep 4; curl -s -X POST localhost:8080/-/quit) & ./allocd serve --config allocd.json --journal allocator.journal & sleep 1",
    """for name in a b c d; do curl -s --json "{\\"name\\":\\"$name\\",\\"reach\\":[]}" localhost:8080/collectors; done; sleep 5""",
    "sed -i '5s/join/Join/' allocator.journal",
]

ENDED = "curl -s -X POST localhost:8080/-/quit; sleep 2"


def written(path, value):
    """The command that writes a value into a file, as JSON."""
    return f"cat > {path} << 'END'\n{json.dumps(value)}\nEND"


def config_of(jobs, collectors):
    """A configuration of jobs without targets, and of collectors by name, each with what it joins with."""
    return {
        "scrape_configs": [{"job_name": name, **members} for name, members in jobs.items()],
        "allocator": {"lifecycle": True, "settle": "1s", "collectors": [{"name": name, "reach": ANY, **members} for name, members in collectors.items()]},
    }


ANY = [{"allow": True, "test": "any"}]
# A reload from the first to the second changes jobs and collectors in each way.
BEFORE = config_of({name: {} for name in ("node", "redis", "cache", "web", "db", "mail", "queue", "proxy")}, {name: {} for name in "abd"})
AFTER = config_of(
    {"node": {"target_limit": 5}, **{name: {} for name in ("web", "db", "mail", "queue", "proxy", "api")}},
    {"a": {"limits": {"node": 5}}, "b": {"reach": []}, "c": {}})
FAULTY = {"scrape_configs": [
    {"job_name": "node", "target_limit": "5"}, {"job_name": "api"}, {"job_name": "web", "relabel_configs": [{"action": "kep"}]},
    {"job_name": "mail", "target_limt": 5}, {"job_name": "db", "params": []},
]}
UNFOLLOWED = {"scrape_configs": [{"job_name": "node", "sample_limit": 500}]}


def commands(document):
    """Each command of a document with its section and the lines that are shown below it, and how many are for root."""
    found, roots, section = [], 0, ""
    with open(f"{ROOT}/{document}") as it:
        lines = it.read().split("\n")
    shown = None
    for line in lines:
        if line.startswith("#"):
            section = line.strip("# ")
        if line.startswith("    $ "):
            shown = []
            found.append((section, line[6:], shown))
        elif line.startswith("    # "):
            shown, roots = None, roots + 1
        elif line.startswith("    ") and shown is not None:
            shown.append(line[4:])
        else:
            shown = None
    return found, roots


def readme(count):
    """The first commands of README: its example is started by two, asked and reported to by two more."""
    return [command for _, command, _ in commands("README.md")[0][:count]]


def prepared():
    """What a section stands on that is not shown in it: README's example is running, or a journal is damaged."""
    return {
        ("docs/operate/MONITOR.md", "Ask it"): readme(2),
        ("docs/operate/RUNBOOK.md", "What it says, and what to do"): readme(2),
        ("docs/operate/RUNBOOK.md", "A damaged journal"): ["curl -s -X POST localhost:8080/-/quit; sleep 1; rm -f allocator.journal*", *DAMAGED],
        ("docs/understand/RENEWAL.md", "An audit"): readme(4),
        ("docs/operate/SERVE.md", "The service"): readme(1),
        ("docs/operate/SERVE.md", "The journal on disk"): [*readme(4)[2:], "cp allocator.journal shown.journal", ENDED, "cp shown.journal allocator.journal",
                                                           "cp examples/default.json allocd.json", "echo 'no journal' > notes.txt"],
        ("docs/operate/SERVE.md", "Another configuration"): [written("allocd.json", BEFORE), "allocd serve --config allocd.json & sleep 3", written("allocd.json", AFTER)],
        ("docs/operate/SERVE.md", "Ending it"): [ENDED, written("allocd.json", config_of({"node": {}}, {"a": {}}))],
        ("docs/operate/SERVE.md", "A configuration that is checked"): [written("faulty.json", FAULTY), written("allocd.json", UNFOLLOWED)],
    }


def is_shown(lines, text):
    """Whether a text is what these lines show: `..` is any text of a line, a line of it alone any lines, and a time is any time."""
    pattern = ""
    for line in lines:
        if line == "..":
            pattern += r"(?:.*\n)*?"
            continue
        line = re.sub(r"^ts=\S+", "ts=..", line)
        pattern += ".*".join(map(re.escape, line.split(".."))) + r" *\n"
    return bool(re.match(pattern + r"\Z", text.rstrip("\n") + "\n"))


class Shell:
    """A shell in a folder, which runs one command after the other."""

    def __init__(self, folder, books):
        path = f"{books}/bin:{os.environ['PATH']}"
        self.books, self.number = books, 0
        self.it = subprocess.Popen(
            ["bash"], cwd=folder, stdin=subprocess.PIPE, stdout=subprocess.DEVNULL, stderr=subprocess.DEVNULL, start_new_session=True,
            env={"PATH": path, "HOME": folder, "LC_ALL": "C.UTF-8", "PYTHONDONTWRITEBYTECODE": "1"})

    def run(self, command):
        """What a command writes on standard output and on standard error, and its status; None where it does not end."""
        self.number += 1
        here = f"{self.books}/{self.number}"
        with open(f"{here}.sh", "w") as it:
            it.write(command + "\n")
        self.it.stdin.write(f". {here}.sh > {here}.out 2> {here}.err < /dev/null; echo $? > {here}.status; mv {here}.status {here}.done\n".encode())
        self.it.stdin.flush()
        end = time.monotonic() + LONGEST
        while not os.path.exists(f"{here}.done"):
            if time.monotonic() > end:
                return None
            time.sleep(0.02)
        time.sleep(0.05)
        return [read(f"{here}.{what}") for what in ("out", "err", "done")]

    def end(self):
        """Ends the shell with all that it started."""
        try:
            os.killpg(self.it.pid, signal.SIGTERM)
            time.sleep(0.3)
            os.killpg(self.it.pid, signal.SIGKILL)
        except ProcessLookupError:
            pass
        self.it.wait()


def read(path):
    with open(path, errors="replace") as it:
        return it.read()


def furnish(folder, books):
    """The folder of a document."""
    for name in ("docs", "examples", "scripts"):
        shutil.copytree(f"{ROOT}/{name}", f"{folder}/{name}", ignore=shutil.ignore_patterns("__pycache__"))
    shutil.copy(f"{ROOT}/README.md", folder)
    os.makedirs(f"{folder}/dist")
    os.makedirs(f"{books}/bin")
    shutil.copy(PROGRAM, f"{folder}/dist/allocd")
    for path in (f"{folder}/allocd", f"{books}/bin/allocd"):
        os.symlink(f"{folder}/dist/allocd", path)
    os.symlink(f"{folder}/scripts/allocd-supervise", f"{books}/bin/allocd-supervise")


def tried(document):
    found, roots = commands(document)
    with tempfile.TemporaryDirectory() as top:
        folder, books = f"{top}/work", f"{top}/books"
        os.makedirs(folder)
        furnish(folder, books)
        shell = Shell(folder, books)
        begun = set()
        try:
            for section, command, shown in found:
                if document == "docs/operate/HTTP.md" and section in OF_TRY_HTTP:
                    continue
                if section not in begun:
                    begun.add(section)
                    for hidden in prepared().get((document, section), []):
                        shell.run(hidden)
                said = shell.run(command)
                if said is None:
                    tell(f"{document}: {command}", False, f"it has not ended in {LONGEST} seconds")
                    break
                out, err, status = said
                holds = any(is_shown(shown, text) for text in (out, err, out + err)) if shown else status == "0\n"
                tell(f"{document}: {command}{'' if shown else ' (shows nothing)'}", holds, said)
        finally:
            shell.end()
    if roots:
        print(f"not run: {roots} commands of {document}, which are for root")


def histories():
    """Each history of docs/operate/EXAMPLES.md, with the answers that stand behind its events."""
    lines = read(f"{ROOT}/docs/operate/EXAMPLES.md").split("\n")
    name, answers = None, []
    for line in lines:
        begun = re.search(r"`\./allocd replay < (\S+)`", line)
        name = begun.group(1) if begun else name
        if name and line.startswith("    "):
            answers += [answer for column in re.split(r"  +", line[4:])[1:2] for answer in column.split(", ")]
        elif name and answers:
            yield name, answers
            name, answers = None, []


def tried_histories():
    for name, answers in histories():
        with open(f"{ROOT}/{name}", "rb") as it:
            found = subprocess.run([PROGRAM, "replay"], stdin=it, capture_output=True, text=True).stdout.split("\n")[:-1]
        tell(f"docs/operate/EXAMPLES.md: {name}", found == answers, f"{found}, and not {answers}")


def own_network():
    """Begins anew in a network of its own, where one can be made; there the loopback device is set up."""
    if INSIDE not in os.environ:
        words = ["unshare", "--map-root-user", "--net"]
        if shutil.which("unshare") and subprocess.run([*words, "true"], capture_output=True).returncode == 0:
            os.execvpe(words[0], [*words, sys.executable, *sys.argv], {**os.environ, INSIDE: "1"})
        return
    with socket.socket(socket.AF_INET, socket.SOCK_DGRAM) as it:
        name = struct.pack("16sh14x", b"lo", 0)
        flags = struct.unpack("16sh14x", fcntl.ioctl(it, 0x8913, name))[1]
        fcntl.ioctl(it, 0x8914, struct.pack("16sh14x", b"lo", flags | 1))


def ports_are_free():
    for port in (8080, *range(9100, 9108)):
        with socket.socket() as it:
            if it.connect_ex(("127.0.0.1", port)) == 0:
                return False
    return True


def standing():
    """What git sees of the repository, ignored files too."""
    return subprocess.run(["git", "status", "--porcelain", "--ignored"], cwd=ROOT, capture_output=True).stdout


def main():
    for name, package in NEEDED.items():
        if not shutil.which(name):
            print(f"try_documents: {name} is not here: apt-get install {package}", file=sys.stderr)
            return 2
    if subprocess.run(["python3", "-c", "import yaml"], stderr=subprocess.DEVNULL).returncode:
        print("try_documents: PyYAML is not here: apt-get install python3-yaml", file=sys.stderr)
        return 2
    own_network()
    if not ports_are_free():
        print("try_documents: the ports 8080 and 9100 to 9107 are not free, and no network of its own can be made", file=sys.stderr)
        return 2
    before = standing()
    pages = sorted(os.path.relpath(path, ROOT) for path in glob.glob(f"{ROOT}/docs/operate/*.md"))
    for document in sys.argv[1:] or ["README.md", *pages, "docs/understand/RENEWAL.md"]:
        tried(document)
        if document == "docs/operate/EXAMPLES.md":
            tried_histories()
    tell("nothing is left behind in the repository", standing() == before)
    return tell.end()


if __name__ == "__main__":
    sys.dont_write_bytecode = True
    sys.exit(main())
