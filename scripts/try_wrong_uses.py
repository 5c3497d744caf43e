#!/usr/bin/env python3
"""Uses the program wrongly in each of 65 ways, and tells whether it says what is wrong, where, and what to do, and loses nothing: try_wrong_uses.py [WORD ..]

A row has what is done, the text that is to be told (a regular expression), the status, and `later` where that is open. Whatever is in the folder of a
row stays as it was, byte for byte; over HTTP the fleet stays. With words, only rows whose names have one of them. Free ports alone, on loopback but for the row of 0.0.0.0."""

import http.client
import json
import os
import re
import socket
import subprocess
import sys

import told_rows
from allocd_service import PROGRAM, Service, ask, comes, free_port

ANY = [{"allow": True, "test": "any"}]
GOOD = {
    "scrape_configs": [{"job_name": "node", "static_configs": [{"targets": ["127.0.0.1:9101", "127.0.0.1:9102"]}]}],
    "allocator": {"settle": "0", "lifecycle": True, "collectors": [{"name": "a", "reach": ANY}]},
}


def job(**members):
    """The good configuration with these members in its job."""
    return {**GOOD, "scrape_configs": [{**GOOD["scrape_configs"][0], **members}]}


def settings(**members):
    return {**GOOD, "allocator": {**GOOD["allocator"], **members}}


def collector(**members):
    return settings(collectors=[{"name": "a", "reach": ANY, **members}])


def source(**members):
    return job(http_sd_configs=[{"url": "http://127.0.0.1:9/sd", **members}])


def write(path, document):
    with open(path, "wb") as it:
        it.write(document if isinstance(document, bytes) else json.dumps(document).encode())


def used(folder, words, says, status, text=b"", on="err", seconds=10):
    """A run of the program in a folder: its status, its text on the stream, nothing on the other, and all files as they were."""
    before = told_rows.files_of(folder)
    it = subprocess.Popen([PROGRAM, *words], cwd=folder, stdin=subprocess.PIPE, stdout=subprocess.PIPE, stderr=subprocess.PIPE)
    try:
        out, err = it.communicate(text, seconds)
    except subprocess.TimeoutExpired:
        it.kill()
        out, err = it.communicate()
        return False, f"it goes on: {(out + err).decode(errors='replace')}"
    told, other = ((err, out) if on == "err" else (out, err))
    told = told.decode(errors="replace")
    lost = told_rows.changes(before, told_rows.files_of(folder))
    holds = it.returncode == status and re.search(says, told) and not other and not lost
    return holds, f"status {it.returncode}, {told!r}{f', elsewhere {other!r}' if other else ''}{f', {lost}' if lost else ''}"


def command(name, words, says, status=2, text=b"", on="err", later=False, seconds=10):
    """A wrong use of the words, beside a good configuration."""
    def run(folder):
        write(f"{folder}/c.json", GOOD)
        return used(folder, words, says, status, text, on, seconds)
    return told_rows.Row(name, run, later)


def config(name, document, says, status=2, on="err", later=False):
    """A faulty configuration: what --check-config says of it, and a start says the same where it is refused."""
    def run(folder):
        write(f"{folder}/c.json", document)
        holds, found = used(folder, ["serve", "--config", "c.json", "--check-config"], says, status, on=on)
        if holds and status == 2:
            holds, found = used(folder, ["serve", "--config", "c.json", "--listen", f"127.0.0.1:{free_port()}"], says, status, on=on, seconds=3)
        return holds, found
    return told_rows.Row(name, run, later)


def warned(name, document, says, later=False):
    """A configuration that is taken, with a word of warning at the check and at the start."""
    def run(folder):
        write(f"{folder}/c.json", document)
        done = subprocess.run([PROGRAM, "serve", "--config", "c.json", "--check-config"], cwd=folder, capture_output=True, text=True)
        holds = done.returncode == 0 and re.search(says, done.stdout + done.stderr)
        return holds, f"status {done.returncode}, {done.stdout + done.stderr!r}"
    return told_rows.Row(name, run, later)


def said_at_start(name, document, says, words=(), later=False):
    """What a start says that serves."""
    def run(folder):
        it = Service(folder, document, **dict(words))
        up = it.is_up(5)
        it.quit()
        with open(f"{folder}/log") as log:
            said = log.read()
        return up and re.search(says, said), repr(said)
    return told_rows.Row(name, run, later)


def exchange(port, method, path, headers, body, seconds=3):
    """The status and the text of an answer to a request of just these headers."""
    it = http.client.HTTPConnection("127.0.0.1", port, timeout=seconds)
    try:
        it.putrequest(method, path, skip_host="host" in headers, skip_accept_encoding=True)
        if body is not None and "content-length" not in headers and "transfer-encoding" not in headers:
            it.putheader("content-length", len(body))
        for one in headers.items():
            it.putheader(*one)
        it.endheaders(body)
        said = it.getresponse()
        return said.status, said.read().decode(errors="replace")
    except (OSError, http.client.HTTPException) as fault:
        return None, f"no answer: {fault}"
    finally:
        it.close()


def request(name, method, path, body, status, says, headers=None, document=GOOD, faulty=None, later=False):
    """A wrong request to a service that has published: its answer, and the fleet and the journal stay."""
    headers = headers if headers is not None else ({"content-type": "application/json"} if body is not None else {})
    def run(folder):
        it = Service(folder, document, f"{folder}/journal")
        try:
            if not it.is_up(10) or not comes(lambda: it.figure("allocd_allocation") == 1, 10):
                return False, "the service does not begin"
            if faulty is not None:
                it.write(faulty)
            def fleet():
                return [it.ask("GET", one) for one in ("/jobs", "/jobs/node/targets", "/scrape_configs")]
            before = fleet()
            with open(f"{folder}/journal", "rb") as journal:
                kept = journal.read()
            sent = body if body is None or isinstance(body, bytes) else json.dumps(body).encode()
            found = exchange(it.port, method, path, headers, sent)
            after = fleet() if it.it.poll() is None else None
            with open(f"{folder}/journal", "rb") as journal:
                lost = not journal.read().startswith(kept)
            return found[0] == status and re.search(says, found[1]) and after == before and not lost, f"{found}{'' if after == before else ', the fleet is another'}"
        finally:
            it.it.kill()
            it.it.wait()
    return told_rows.Row(name, run, later)


def taken_port(name, says, status):
    def run(folder):
        write(f"{folder}/c.json", GOOD)
        with socket.socket() as other:
            other.bind(("127.0.0.1", 0))
            other.listen()
            port = other.getsockname()[1]
            return used(folder, ["serve", "--config", "c.json", "--listen", f"127.0.0.1:{port}"], says.replace("PORT", str(port)), status)
    return told_rows.Row(name, run)


SERVE = ["serve", "--config", "c.json"]
CHECK = [*SERVE, "--check-config"]
USAGE = "[Uu]sage: allocd"

ROWS = [
    # Commands and options.
    command("no command", [], USAGE),
    command("a command that is misspelt", ["chek"], "'?chek'?[\\s\\S]*'check'|chek.*is check meant"),
    command("a file where standard input is read", ["check", "c.json"], "c\\.json[\\s\\S]*([Uu]sage|standard input)", text=b"{}"),
    command("--help of a command", ["check", "--help"], "[Ss]tatus", status=0, on="out"),
    command("-h", ["-h"], USAGE, status=0, on="out"),
    command("serve without --config", ["serve"], "--config"),
    command("serve with a file and no --config", ["serve", "c.json"], "c\\.json[\\s\\S]*--config"),
    command("--config without its file", ["serve", "--config"], "(no value for|value is required for) '?--config"),
    command("--config with an empty name", ["serve", "--config="], "--config"),
    command("an option that is misspelt", ["serve", "--confg", "c.json"], "--confg[\\s\\S]*--config"),
    command("a second option that is misspelt", [*SERVE, "--jounal", "j"], "--jounal[\\s\\S]*--journal"),
    command("a value for an option that has none", [*SERVE, "--check-config=yes"], "--check-config"),
    command("--listen with a port alone", [*SERVE, "--listen", "8080"], "8080.*(is no address|ADDRESS:PORT)"),
    command("--listen with a port out of range", [*SERVE, "--listen", "127.0.0.1:99999"], "127\\.0\\.0\\.1:99999.*(is no address|ADDRESS:PORT)"),
    command("--listen with a name", [*SERVE, "--listen", "allocd.example:8080"], "allocd\\.example:8080.*(is no address|ADDRESS:PORT)"),
    command("--listen for all, without tokens", [*SERVE, "--listen", f"0.0.0.0:{free_port()}"], "(tokens|open_to_all)", seconds=2),
    taken_port("a port that another has", "address=127\\.0\\.0\\.1:PORT", 3),
    command("a configuration that is not there", ["serve", "--config", "none.json"], "none\\.json: No such file or directory"),
    command("a folder as the configuration", ["serve", "--config", "."], "\\.: Is a directory"),
    command("audit without files", ["audit"], "[Uu]sage: allocd[\\s\\S]*audit"),
    command("audit of a file that is not there", ["audit", "none.journal"], "none\\.journal: No such file or directory", status=3),
    command("audit of a folder", ["audit", "."], "\\.: Is a directory", status=3),
    # Documents that are no JSON, or another one.
    config("YAML", b"scrape_configs:\n  - job_name: node\n", "YAML is not read: convert it, see docs/operate/CONFIG\\.md"),
    config("a comma too many", b'{"scrape_configs": [\n  {"job_name": "a",}\n]}\n', "c\\.json.*line 2.* column 20"),
    config("an empty file", b"", "c\\.json.*(empty|nothing stands|line 1)"),
    config("a second document behind the first", json.dumps(GOOD).encode() + b"\n{}\n", "c\\.json.*line 2.* column 1"),
    config("a list", [], "document: no object"),
    config("no job at all", {}, "scrape_configs.*allow_no_jobs"),
    # Members that nobody reads.
    config("a misspelt member of a job", job(target_limt=3), "scrape_configs\\[0\\]\\.target_limt: unknown member; is target_limit meant\\?"),
    config("a misspelt member of the document", {**GOOD, "scrape_config": []}, "scrape_config: unknown member; is scrape_configs meant\\?"),
    config("a misspelt setting", settings(setle="1s"), "allocator\\.setle: unknown member"),
    config("a misspelt member of a group", job(static_configs=[{"targets": [], "lables": {}}]),
           "scrape_configs\\[0\\]\\.static_configs\\[0\\]\\.lables: unknown member; is labels meant\\?"),
    config("a misspelt member of a source", source(refresh_intervall="5s"),
           "scrape_configs\\[0\\]\\.http_sd_configs\\[0\\]\\.refresh_intervall: unknown member; is refresh_interval meant\\?"),
    config("a misspelt member of a rule", job(relabel_configs=[{"sorce_labels": ["a"], "target_label": "b"}]),
           "scrape_configs\\[0\\]\\.relabel_configs\\[0\\]\\.sorce_labels: unknown member; is source_labels meant\\?"),
    warned("a member of Prometheus's that is not followed", job(sample_limit=5), "scrape_configs\\[0\\]\\.sample_limit.*not followed"),
    config("a discovery of another kind", job(kubernetes_sd_configs=[{"role": "pod"}]), "scrape_configs\\[0\\].*kubernetes_sd_configs is not supported"),
    # Values of another type, or that mean nothing.
    config("a job's interval that is none", job(scrape_interval="abc"), "scrape_configs\\[0\\].*scrape_interval: .*duration"),
    config("a text where a number belongs", job(target_limit="3"), "scrape_configs\\[0\\].*target_limit: .*number"),
    config("a number where a text belongs", job(metrics_path=5), "scrape_configs\\[0\\].*metrics_path: .*text"),
    config("a target that is no text", job(static_configs=[{"targets": ["h:1"]}, {"targets": ["h:2", 5]}]), "static_configs\\[1\\]\\.targets\\[1\\]"),
    config("a URL with https", source(url="https://127.0.0.1/sd"), "http_sd_configs\\[0\\]\\.url: .*http"),
    config("a URL whose port is out of range", source(url="http://127.0.0.1:99999/sd"), "http_sd_configs\\[0\\]\\.url: .*port"),
    config("a URL with a name that no host has", source(url="http://sd_1.example/sd"), "http_sd_configs\\[0\\]\\.url: .*sd_1\\.example.*no host"),
    config("files by a pattern that is not followed", job(file_sd_configs=[{"files": ["targets/[ab].json"]}]),
           "scrape_configs\\[0\\].*file_sd_configs\\[0\\]\\.files\\[0\\]: .*no sign of a pattern but \\* is followed"),
    config("files of YAML", job(file_sd_configs=[{"files": ["targets/*.yml"]}]), "file_sd_configs\\[0\\]\\.files\\[0\\]: .*YAML files are not read"),
    config("a source's interval that is none", source(refresh_interval="5"), "http_sd_configs\\[0\\]\\.refresh_interval: no duration above 0"),
    config("a pattern that is none", job(relabel_configs=[{"regex": "(a", "target_label": "b"}]), "relabel_configs.*(rule 1|\\[0\\])[\\s\\S]*unclosed group"),
    config("an action that is none", job(relabel_configs=[{"action": "kep"}]), "relabel_configs.*(rule 1|\\[0\\]).*unknown action"),
    config("a job of an earlier one's name", {**GOOD, "scrape_configs": GOOD["scrape_configs"] * 2}, "scrape_configs\\[1\\]\\.job_name: the name of an earlier job"),
    config("a reach rule without its label", collector(reach=[{"allow": True, "test": "present"}]), "allocator\\.collectors\\[0\\]\\.reach\\[0\\]\\.label"),
    config("a limit of a job that is not there", collector(limits={"web": 1}), "allocator\\.collectors\\[0\\]\\.limits.*web"),
    config("a collector of an earlier one's name", settings(collectors=[{"name": "a", "reach": ANY}] * 2),
           "allocator\\.collectors\\[1\\]\\.name: the name of an earlier collector"),
    config("a text where true or false belongs", settings(lifecycle="true"), "allocator\\.lifecycle: neither true nor false nor an object"),
    config("a misspelt part of the lifecycle", settings(lifecycle={"relaod": True}), "allocator\\.lifecycle\\.relaod: unknown member"),
    said_at_start("no journal", GOOD, "level=warn.*journal"),
    # The journal's path; what is lost there is in try_losses.py.
    command("a journal in a folder that is not there", [*SERVE, "--listen", f"127.0.0.1:{free_port()}", "--journal", "none/journal"], 'journal="none/journal"', status=3),
    command("a journal with an empty name", [*SERVE, "--listen", f"127.0.0.1:{free_port()}", "--journal", ""], "(--journal|journal.*empty)"),
    # Requests.
    request("a body that is no JSON", "POST", "/collectors", b"name=b", 400, '"refused":"Shape"'),
    request("a body of another type", "POST", "/collectors", {"name": "b", "reach": ANY}, 415, "refused", headers={"content-type": "text/plain"}),
    request("a rule of another shape", "POST", "/collectors", {"name": "b", "reach": [*ANY, {"allow": True, "test": "al"}]}, 400,
            '"member":"reach\\[1\\]\\.test".*"refused":"Shape"|"refused":"Shape".*"member":"reach\\[1\\]\\.test"'),
    request("a misspelt member of a body", "POST", "/collectors", {"name": "b", "reach": ANY, "limts": {}}, 400, '"limts"'),
    request("a collector that is not there", "POST", "/collectors/9/drain", None, 404, '"refused":"UnknownCollector"'),
    request("a path that is none", "GET", "/job/node/targets", None, 404, '"refused":"NoRoute"'),
    request("a report of what was not taken", "POST", "/reports", {"collector": 1, "number": 1, "target": 0, "round": 1, "up": True, "samples": 5}, 409,
            '"refused":"NotTaken 0"'),
    request("a reload of a faulty configuration", "POST", "/-/reload", None, 500, "allocator\\.setle: unknown member", faulty=settings(setle="1s")),
    request("a quit without lifecycle", "POST", "/-/quit", None, 403, "The lifecycle API is not enabled", document=settings(lifecycle=False)),
]


if __name__ == "__main__":
    sys.exit(told_rows.main(ROWS))
