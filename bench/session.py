#!/usr/bin/env python3
"""Rounds of `allocd session` over loopback beside curl, and refreshes of a long document beside reading its JSON: session.py

16 collectors scrape 4,096 targets, all of which one nginx answers with a file of 64 KB or of 2 MB. Beside them sixteen curls, which keep no
books, ask for the same 4,096 in turn, with a connection each. A source lists 16,384 targets of ten labels, with ten rules or none, and
Python's json reads the same document alone. It needs Debian's packages nginx and curl, and the program (ALLOCD_PROGRAM, or dist/allocd)."""

import json
import os
import re
import resource
import socket
import subprocess
import sys
import tempfile
import time

ROOT = os.path.dirname(os.path.dirname(os.path.abspath(__file__)))
PROGRAM = os.environ.get("ALLOCD_PROGRAM", f"{ROOT}/dist/allocd")
TARGETS, COLLECTORS, LISTED = 4_096, 16, 16_384


def free_port():
    with socket.socket() as it:
        it.bind(("127.0.0.1", 0))
        return it.getsockname()[1]


def nginx(folder):
    port = free_port()
    with open(f"{folder}/nginx.conf", "w") as it:
        it.write(f"""
worker_processes 2; pid {folder}/nginx.pid; error_log {folder}/nginx.log; daemon off;
events {{ worker_connections 1024; }}
http {{ access_log off; default_type text/plain; sendfile on;
  types {{ application/json json; }}
  server {{ listen {port}; root {folder}; }} }}
""")
    it = subprocess.Popen(["nginx", "-c", f"{folder}/nginx.conf"], stderr=subprocess.DEVNULL)
    time.sleep(1)
    return port, it


def body(size):
    text = subprocess.run([sys.executable, f"{ROOT}/bench/bodies.py", "metrics"], capture_output=True).stdout[:size]
    return text[: text.rfind(b"\n") + 1]


def address(i, port):
    return f"127.1.{i // 250}.{i % 250 + 1}:{port}"


def timed(words, text=b""):
    """The seconds that a command took, its output, and the most memory that it had in MB."""
    began = time.monotonic()
    it = subprocess.Popen(words, stdin=subprocess.PIPE, stdout=subprocess.PIPE)
    it.stdin.write(text)
    it.stdin.close()
    out = it.stdout.read()
    _, status, used = os.wait4(it.pid, 0)
    if status:
        sys.exit(f"{words[:2]}: status {status}, {out[-200:]}")
    return time.monotonic() - began, out, used.ru_maxrss // 1024


def session(job, collectors, rounds):
    document = {"config": {"scrape_configs": [job]}, "collectors": collectors, "rounds": rounds, "serve": [], "ask": []}
    return timed([PROGRAM, "session"], json.dumps(document).encode())


def rounds_of(port, path, size, few, many):
    """The seconds of a round and the most memory."""
    groups = [{"targets": [address(i, port) for i in range(TARGETS)], "labels": {"__metrics_path__": path}}]
    job = {"job_name": "node", "target_limit": TARGETS // COLLECTORS, "static_configs": groups}
    collectors = [{"name": f"c{i}", "reach": [{"allow": True, "test": "any"}]} for i in range(COLLECTORS)]
    short, _, _ = session(job, collectors, few)
    long, out, most = session(job, collectors, many)
    booked = re.findall(rb"^round \d+ booked (\d+) refused 0 samples (\d+)$", out, re.M)
    if len(booked) != many or any(int(count) != TARGETS or int(samples) == 0 for count, samples in booked):
        sys.exit(f"not all is booked: {out[-300:]}")
    return (long - short) / (many - few), most


def curls(folder, port, path):
    """The seconds in which as many curls as collectors ask for all targets, and the most memory of all of them."""
    for k in range(COLLECTORS):
        with open(f"{folder}/urls-{k}", "w") as it:
            for i in range(k, TARGETS, COLLECTORS):
                it.write(f'url = "http://{address(i, port)}{path}"\noutput = "/dev/null"\n')
    began = time.monotonic()
    running = [subprocess.Popen(["curl", "-sf", "-H", "connection: close", "-K", f"{folder}/urls-{k}"]) for k in range(COLLECTORS)]
    most = 0
    for it in running:
        _, status, used = os.wait4(it.pid, 0)
        most += used.ru_maxrss
        if status:
            sys.exit(f"curl: status {status}")
    return time.monotonic() - began, most // 1024


def scrapes(folder, port):
    print("| body | what | scrapes a second | MB a second | MB at the most | beside curl |")
    print("|---|---|---|---|---|---|")
    for name, size, few, many in (("64 KB", 64 << 10, 1, 9), ("2 MB", 2 << 20, 1, 3)):
        text = body(size)
        with open(f"{folder}/m{size}", "wb") as it:
            it.write(text)
        path = f"/m{size}"
        curls(folder, port, path)
        beside, their_most = min(curls(folder, port, path) for _ in range(2))
        seconds, most = rounds_of(port, path, size, few, many)
        for what, took, memory in (("`allocd session`", seconds, most), ("sixteen curls", beside, their_most)):
            megabytes = len(text) * TARGETS / took / 1e6
            print(f"| {name} | {what} | {TARGETS / took:,.0f} | {megabytes:,.0f} | {memory} | {beside / took:.2f} |", flush=True)


def rules():
    yield {"action": "keep", "source_labels": ["l0"], "regex": "value.*"}
    yield {"action": "drop", "source_labels": ["l1"], "regex": "nothing"}
    yield {"source_labels": ["__address__"], "regex": "([^:]+):.*", "replacement": "${1}:9100", "target_label": "host"}
    for k in range(2, 8):
        yield {"source_labels": [f"l{k}"], "regex": "value-(.*)", "replacement": "$1", "target_label": f"m{k}"}
    yield {"action": "labeldrop", "regex": "l9"}


def refreshes(folder, port):
    groups = [{"targets": [f"10.0.{i // 250}.{i % 250}:9100"], "labels": {f"l{k}": f"value-{i * k}" for k in range(10)}} for i in range(LISTED)]
    document = json.dumps(groups).encode()
    with open(f"{folder}/sd.json", "wb") as it:
        it.write(document)
    seconds = []
    for _ in range(5):
        began = time.monotonic()
        json.loads(document)
        seconds.append(time.monotonic() - began)
    alone = min(seconds)
    print(f"\n| a refresh of {LISTED:,} targets, {len(document) / 1e6:.1f} MB | milliseconds | MB at the most | times reading its JSON |")
    print("|---|---|---|---|")
    print(f"| Python's json, the document alone | {alone * 1000:,.0f} | | 1.0 |")
    for name, some in (("no rules", []), ("ten rules", list(rules()))):
        source = {"url": f"http://127.0.0.1:{port}/sd.json"}
        job = {"job_name": "node", "http_sd_configs": [source], "relabel_configs": some}
        short, _, _ = session(job, [], 1)
        long, out, most = session(job, [], 21)
        if b"source" in out:
            sys.exit(f"a refresh failed: {out[-200:]}")
        took = (long - short) / 20
        print(f"| `allocd session`, {name} | {took * 1000:,.0f} | {most} | {took / alone:.1f} |", flush=True)


with tempfile.TemporaryDirectory() as top:
    os.chmod(top, 0o755)
    server_port, server = nginx(top)
    try:
        scrapes(top, server_port)
        refreshes(top, server_port)
    finally:
        server.terminate()
        server.wait()
