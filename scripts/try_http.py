#!/usr/bin/env python3
"""Asks services what docs/operate/HTTP.md shows in its parts with answers, and compares what they say with what stands there: try_http.py [PART ..]

A line for each request, and what was said in place of what stands there. It needs the program (ALLOCD_PROGRAM, or dist/allocd), and no curl."""

import http.client
import re
import shlex
import sys
import tempfile
import time

from allocd_service import ROOT, Service, comes
from parts import run_parts, tell

CONFIG = {
    "scrape_configs": [{"job_name": "node", "static_configs": [{"targets": ["h:1"]}]}, {"job_name": "serviceMonitor/default/app/0"}],
    "allocator": {"settle": "100ms", "lifecycle": True},
}
# The same with lists that are acknowledged.
ACKNOWLEDGED = {
    "scrape_configs": CONFIG["scrape_configs"][:1],
    "allocator": {**CONFIG["allocator"], "acknowledge": "localhost:8080", "collectors": [{"name": "a", "reach": [{"allow": True, "test": "any"}]}]},
}
PROMPT = "    $ curl "


def exchanges(title):
    """The words of each `curl` of a part of the document, and the lines below it."""
    with open(f"{ROOT}/docs/operate/HTTP.md") as it:
        part = it.read().split(f"### {title}\n")[1].split("\n## ")[0].split("\n### ")[0]
    for block in part.split(PROMPT)[1:]:
        line, *answer = block.rstrip().split("\n")
        yield line, [it[4:] for it in answer]


def said(port, words):
    """What curl would print of a request, in lines."""
    method, body, url, headers = "HEAD" if "-sI" in words else "GET", None, words[-1], {}
    for option, value in zip(words, words[1:]):
        if option == "-X":
            method = value
        elif option == "-H":
            headers = dict([value.split(": ", 1)])
        elif option == "--json":
            method, body, headers = "POST" if method == "GET" else method, value, {"content-type": "application/json"}
    it = http.client.HTTPConnection("127.0.0.1", port, timeout=30)
    it.request(method, url[url.index("/") :], body=body, headers=headers)
    answer = it.getresponse()
    head = [f"HTTP/1.1 {answer.status} {answer.reason}", *(f"{name}: {value}" for name, value in answer.getheaders()), ""] if {"-si", "-sI"} & set(words) else []
    text = answer.read().decode()
    it.close()
    return "\n".join([*head, text]).rstrip("\n").split("\n")


def without_times(lines):
    # What is another one at each time.
    times = re.compile(r"^(date: \w{3}, \d\d \w{3} \d{4} \d\d:\d\d:\d\d GMT|x-allocator-epoch: \d+|x-scrape-round-age: \d+)$")
    lines = [line.partition(":")[0] if times.match(line) else line for line in lines]
    return [re.sub(r'("__param_epoch":"|"last_take":|"milliseconds":|"published":")[\d:TZ-]+', r"\1", line) for line in lines]


def transcript(folder, config=CONFIG, title="Each with an answer"):
    service = Service(folder, config)
    comes(lambda: service.ask("GET", "/-/ready")[0] == 200)
    for line, wanted in exchanges(title):
        # what was posted before may lead to another allocation
        time.sleep(0.5)
        found = said(service.port, shlex.split(line))
        right = without_times(found) == without_times(wanted)
        tell(f"curl {line}", right, "" if right else f"{found}, and not {wanted}")
    tell("it ends with status 0", service.ended() == 0)


def acknowledged(folder):
    transcript(folder, ACKNOWLEDGED, "A list that is acknowledged")


run_parts([transcript, acknowledged], sys.argv[1:])
