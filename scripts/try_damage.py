#!/usr/bin/env python3
"""Gives the built program damaged and extreme input, and tells of each kind whether it is answered as it should be: try_damage.py [PART ..]

Cut documents, nesting, the widest sums, limits and one past them, devices that fail, each read and write that fails, bodies at their limits, and faults
at the service's edge. It needs Linux, a C compiler and the program (ALLOCD_PROGRAM, or dist/allocd), and ends with 0 where all holds."""

import http.server
import json
import os
import re
import socket
import struct
import subprocess
import sys
import tempfile
import threading

from allocd_service import PROGRAM, ROOT, Service, compiler, comes, replayed, run
from parts import run_parts, tell


def example(name):
    with open(f"{ROOT}/examples/{name}", "rb") as it:
        return it.read()


def compact(value):
    return json.dumps(value, separators=(",", ":")).encode()


# Cut documents

DOCUMENTS = (("check", "one-of-two.json"), ("plan", "fleet.json"), ("plan", "draining.json"), ("relabel", "relabel.json"))
REPLAYS = ("two-collectors.replay", "two-rounds.replay", "draining.replay", "renewed.replay")


def cuts(folder):
    for command, name in DOCUMENTS:
        text = example(name).rstrip()
        wrong = [at for at in range(len(text)) if run([command], text[:at]) != (2, b"unreadable NotJson\n")]
        tell(f"{command}, {name} cut at each of {len(text)} bytes: NotJson", not wrong, wrong[:3] or "")
    for name in REPLAYS:
        text = example(name)
        whole = run(["replay"], text)[1]
        wrong = [at for at in range(len(text)) if not is_cut_replay(text, at, whole)]
        tell(f"replay, {name} cut at each of {len(text)} bytes", not wrong, wrong[:3] or "")
    file = f"{folder}/cut"
    text = example("two-rounds.replay")
    wrong = [at for at in range(len(text)) if not is_cut_audit(file, text, at)]
    tell(f"audit, two-rounds.replay cut at each of {len(text)} bytes", not wrong, wrong[:3] or "")
    # the first line of a journal has a mark, by which also a front of it is told from a file that is none
    journal, text = f"{folder}/journal", text.replace(b"{", b'{"":"allocd journal",', 1)
    wrong = [at for at in range(0, len(text), 7) if not starts_over(folder, journal, text, at)]
    tell(f"serve over a journal cut at each seventh of {len(text)} bytes goes on behind its whole lines", not wrong, wrong[:3] or "")


def is_cut_replay(text, at, whole):
    """The answers of the whole lines, and then a total, or that the last line says nothing."""
    status, out = run(["replay"], text[:at])
    lines = text[:at].split(b"\n")
    front, _, last = out[:-1].rpartition(b"\n")
    if status == 0:
        return last.startswith(b"total ") and whole.startswith(front)
    # a first line that ends with a quotation mark is to have a digest
    why = b" WrongDigest" if lines[0].endswith(b'"') else b""
    return status == 2 and last == b"unreadable %d%s" % (len(lines), why) and whole.startswith(front)


def is_cut_audit(file, text, at):
    with open(file, "wb") as it:
        it.write(text[:at])
    status, out = run(["audit", file])
    last = out[:-1].rpartition(b"\n")[2]
    if status == 0:
        return last.startswith(b"consistent ")
    return status == 1 and last.startswith(b"inconsistent file=1 line=%d " % (text[:at].count(b"\n") + 1))


def starts_over(folder, journal, text, at):
    """A service over the front of a journal has the events of its whole lines, and enters more behind them."""
    text = text[:at]
    config = json.loads(example("two-rounds.replay").split(b"\n")[0])
    config["allocator"] = {"lifecycle": True, "settle": "1h", "report_rounds": 1}
    with open(journal, "wb") as it:
        it.write(text)
    service = Service(folder, config, journal)
    up = service.is_up()
    service.ask("POST", "/collectors", {"name": "later", "reach": []})
    ended = service.quit()
    status, pairs, _ = replayed(journal)
    kept = max(0, text.count(b"\n") - 1)
    return up and ended == (200, 0) and status == 0 and len(pairs) >= kept + 1 and pairs[-1][0].get("name") == "later"


# Nesting and sums


def nested(depth, inner=b""):
    return b"[" * depth + inner + b"]" * depth


def nesting(_):
    for command in ("check", "plan", "relabel"):
        tell(f"{command}, a list nested 127 deep", run([command], nested(127)) == (2, b"unreadable Shape\n"))
        tell(f"{command}, 128 deep", run([command], nested(128)) == (2, b"unreadable NotJson\n"))
        tell(f"{command}, a million deep", run([command], nested(1_000_000)) == (2, b"unreadable NotJson\n"))
    config = b'{"scrape_configs":[{"job_name":"j"}]}\n'
    for depth, wanted in ((126, (0, b"RoundOpen 2\ntotal 0\n")), (127, (2, b"unreadable 2\n")), (1_000_000, (2, b"unreadable 2\n"))):
        text = config + b'{"event":"round","ignored":%s}\n' % nested(depth)
        tell(f"replay, an ignored member nested {depth:,} deep in its line", run(["replay"], text) == wanted)


def sums(_):
    top = (1 << 32) - 1
    small = {"version": 1, "bins": [0], "reach": [[0], [0]], "before": [[0, 0]], "pairs": [[0, 0]]}
    small.update(item_prices=[top, top], bin_prices=[top])
    tell("check, the greatest prices", run(["check"], compact(small)) == (1, b"refused SumsDiffer %d 4\n" % (top * 4)))
    items, bins = 16_384, 16_384
    wide = {
        "version": 2,
        "bins": [top] * bins,
        "draining": [],
        "reach": [[item] for item in range(items)],
        "before": [],
        "pairs": [],
        "item_prices": [top] * items,
        "bin_prices": [top] * bins,
    }
    status, out = run(["check"], compact(wide))
    # No share counts for more than all items.
    value = top * (items + items * bins)
    tell("check, the widest sum of all, exactly", status == 1 and out == b"refused SumsDiffer %d 0\n" % value, out.decode().strip())
    wide["item_prices"][0] += 1
    tell("a price of more than 32 bits", run(["check"], compact(wide)) == (2, b"unreadable Shape\n"))


# Limits


def joined(config, lines):
    return b"\n".join([compact(config), *map(compact, lines)]) + b"\n"


def listing(names, job="j", source=0):
    return {"event": "discover", "job": job, "source": source, "targets": [{"targets": [name]} for name in names]}


def listed(numbers, source=0):
    return listing([f"h:{i}" for i in numbers], source=source)


def joins(count):
    return [{"event": "join", "name": f"c{i}", "reach": []} for i in range(count)]


def joined_but_last(count):
    return ",".join([*(f"Joined {i}" for i in range(1, count)), "TooManyCollectors"])


def limits(_):
    one = {"scrape_configs": [{"job_name": "j"}]}
    # a job with a second source, which a URL is
    two = {"scrape_configs": [{"job_name": "j", "http_sd_configs": [{"url": "http://127.0.0.1:9/sd"}]}]}
    lists = [[f"{which}{i}:1" for i in range(16_384)] for which in "abc"]
    many = {"scrape_configs": [{"job_name": f"j{i}"} for i in range(1_024)]}
    leave = {"event": "leave", "collector": 1}
    rows = [
        ("16,385 targets at once", one, [listing([f"h{i}:1" for i in range(16_385)])], "TooManyLive"),
        (
            "16,384 live targets, one more, and those again that are live",
            two,
            [listed(range(16_384)), listed([16_384], 1), listed([0], 1), listed(range(1, 16_384))],
            "Discovered 16384 0,TooManyLive,Discovered 0 0,Discovered 0 0",
        ),
        (
            "65,535 known targets, one more, and one that is known",
            two,
            [*(listed(range(at, min(at + 16_384, 65_535))) for at in range(0, 65_535, 16_384)), listed([65_535], 1), listed([0], 1)],
            "Discovered 16384 0,Discovered 16384 16384,Discovered 16384 16384,Discovered 16383 16384,TooManyKnown,Discovered 1 0",
        ),
        (
            "three lists of 16,384 and what follows",
            one,
            [*map(listing, lists), listing([f"d{i}:1" for i in range(16_383)]), listing(["e:1"]), listing(["a0:1"])],
            "Discovered 16384 0,Discovered 16384 16384,Discovered 16384 16384,Discovered 16383 16384,TooManyKnown,Discovered 1 16383",
        ),
        ("257 collectors", one, joins(257), joined_but_last(257)),
        ("256 collectors and one more once one has left", one, [*joins(257), leave, joins(257)[-1]], f"{joined_but_last(257)},Left,Joined 257"),
        ("17 collectors of 1,024 jobs", many, joins(17), joined_but_last(17)),
        ("6,000 answers", one, [{"event": "leave", "collector": 7}] * 6_000, ",".join(["UnknownCollector"] * 6_000)),
    ]
    for name, config, lines, wanted in rows:
        status, out = run(["replay"], joined(config, lines))
        tell(name, status == 0 and out.decode() == wanted.replace(",", "\n") + "\ntotal 0\n", wanted if len(wanted) < 100 else "")
    rule = {"allow": True, "test": "any"}
    for count, wanted in ((32, (0, b"Joined 1\ntotal 0\n")), (33, (2, b"unreadable 2\n"))):
        tell(f"a reach of {count} rules", run(["replay"], joined(one, [{"event": "join", "name": "a", "reach": [rule] * count}])) == wanted)
    for count, wanted in ((1_024, (0, b"total 0\n")), (1_025, (2, b"unreadable 1\n"))):
        jobs = {"scrape_configs": [{"job_name": f"j{i}"} for i in range(count)]}
        tell(f"{count:,} jobs", run(["replay"], joined(jobs, [])) == wanted)
    for count, wanted in ((16_384, 0), (16_385, 2)):
        tell(f"plan of {count:,} items", run(["plan"], compact({"version": 1, "bins": [], "reach": [[]] * count, "before": []}))[0] == wanted)
    space = b" " * 67_108_864
    tell("67,108,864 bytes of input", run(["check"], space) == (2, b"unreadable NotJson\n"))
    for command in ("check", "plan", "relabel", "replay"):
        tell(f"{command}, one byte more", run([command], space + b" ") == (2, b"unreadable TooLong\n"))


# Devices


def to_device(words, text, limit):
    """The status, and what a device of so many bytes took, of a command that writes to it."""
    with tempfile.NamedTemporaryFile() as it:
        script = f"ulimit -f {limit}; trap '' XFSZ; exec \"$@\""
        done = subprocess.run(["bash", "-c", script, "bash", PROGRAM, *words], input=text, stdout=it, stderr=subprocess.PIPE)
        return done.returncode, open(it.name, "rb").read()


def devices(folder):
    large = compact({"version": 1, "bins": [20] * 20, "reach": [[item % 20] for item in range(400)], "before": []})
    lines = joined({"scrape_configs": [{"job_name": "j"}]}, [{"event": "round"}] * 20_000)
    journal = f"{folder}/journal"
    with open(journal, "wb") as it:
        it.write(lines)
    calls = [(["check"], example("one-of-two.json")), (["plan"], large), (["relabel"], example("relabel.json"))]
    calls += [(["replay"], lines), (["audit", journal], b""), (["--help"], b"")]
    for words, text in calls:
        name = words[0]
        whole = run(words, text)[1]
        with open("/dev/full", "wb") as full:
            done = subprocess.run([PROGRAM, *words], input=text, stdout=full, stderr=subprocess.PIPE)
        tell(f"{name}: a full device", done.returncode == 3 and done.stderr == b"", f"status {done.returncode}")
        done = subprocess.run(["bash", "-c", 'exec "$@" >&-', "bash", PROGRAM, *words], input=text, stderr=subprocess.PIPE)
        tell(f"{name}: a closed output", done.returncode == 3 and done.stderr == b"", f"status {done.returncode}")
        tell(f"{name}: a pipe whose reader goes", is_cut_off(words, text, whole))
        if len(whole) > 1024:
            status, out = to_device(words, text, 1)
            tell(f"{name}: a device that takes 1,024 of {len(whole):,} bytes", status == 3 and out == whole[:1024], f"status {status}, {len(out):,} bytes")
        if name not in ("audit", "--help"):
            done = subprocess.run([PROGRAM, *words], stdin=os.open(ROOT, os.O_RDONLY), capture_output=True)
            tell(f"{name}: a read that fails", (done.returncode, done.stdout) == (3, b"device\n"))
    for missing in (f"{folder}/none", folder):
        status, out = run(["audit", missing])
        tell("audit: a file that is not there, or is none", status in (2, 3), f"status {status} {out.decode().strip()}")


def is_cut_off(words, text, whole):
    """The reader of the output takes 10 bytes and goes."""
    with tempfile.TemporaryFile() as it:
        it.write(text)
        it.seek(0)
        process = subprocess.Popen([PROGRAM, *words], stdin=it, stdout=subprocess.PIPE, stderr=subprocess.PIPE)
        front = os.read(process.stdout.fileno(), 10)
        process.stdout.close()
        status = process.wait(60)
    # A text that fits the pipe was written before its reader went.
    return whole.startswith(front) and status in ((3,) if len(whole) > 65_536 else (0, 1, 2, 3))


def streams(folder):
    """The N-th read or write of one byte each fails, for each N. What was taken before is a front of the answer, and nothing is written behind it."""
    library, by = f"{folder}/fail_streams.so", compiler()
    if by is None:
        print("skipped: reads and writes that fail (there is no C compiler)")
        return
    subprocess.run([by, "-O2", "-shared", "-fPIC", "-nostdlib", "-o", library, f"{ROOT}/scripts/fail_streams.c"], check=True)
    for command, name in (*DOCUMENTS, ("replay", "two-rounds.replay"), ("replay", "renewed.replay")):
        text = example(name)
        whole = run([command], text)
        wrong = [at for at in range(1, len(text) + 2) if failing(library, command, text, FAIL_READ=at) != (3, b"device\n")]
        tell(f"{command}, {name}: each of {len(text) + 1} reads fails", not wrong, wrong[:3] or "")
        count = len(whole[1])
        wrong = [at for at in range(1, count + 1) if failing(library, command, text, FAIL_WRITE=at) != (3, whole[1][: at - 1])]
        tell(f"{command}, {name}: each of {count} writes fails", not wrong, wrong[:3] or "")
        tell(f"{command}, {name}: byte by byte, and none fails", failing(library, command, text) == whole)
        tell(f"{command}, {name}: each other read and write is interrupted", failing(library, command, text, INTERRUPT=1) == whole)
    text = example("one-of-two.json") + b" " * 10_000
    tell("check, ten thousand bytes more, each other read interrupted", failing(library, "check", text, INTERRUPT=1) == (0, b"best covered=1 moved=0\n"))


def failing(library, command, text, **numbers):
    words = {name: str(number) for name, number in numbers.items()}
    return run([command], text, env={"LD_PRELOAD": library, **words})


# The service


def fleet(more=(), **settings):
    return {
        "scrape_configs": [{"job_name": "node", "static_configs": [{"targets": ["h:1", "h:2"]}]}, *more],
        "allocator": {"settle": "50ms", "lifecycle": True, "collectors": [{"name": "a", "reach": [{"allow": True, "test": "any"}]}], **settings},
    }


def posted(service, text):
    return service.ask("POST", "/reports", text)


def bodies(folder):
    journal = f"{folder}/journal"
    service = Service(folder, fleet(), journal)
    service.is_up()
    comes(lambda: service.figure("allocd_allocation") == 1)
    tell("a posted body of 1,048,576 bytes that is no JSON", posted(service, "x" * 1_048_576) == (400, '{"refused":"Shape"}'))
    tell("one of 1,048,577", posted(service, "x" * 1_048_577) == (413, '{"refused":"TooLong"}'))
    report = json.dumps({"collector": 1, "number": 1, "target": 0, "round": 1, "up": True, "samples": 1})
    spaced = report + " " * (1_048_576 - len(report))
    tell("a report that is as long", posted(service, spaced)[1] == '{"refused":"NotTaken 0"}', posted(service, spaced)[1])
    tell("a body nested 128 deep", service.ask("POST", "/collectors", nested(128).decode()) == (400, '{"refused":"Shape"}'))
    for at in range(len(report)):
        answer = posted(service, report[:at])
        if answer != (400, '{"refused":"Shape"}'):
            tell(f"a report cut at {at}", False, answer)
            break
    else:
        tell(f"a report cut at each of {len(report)} bytes is 400", True)
    tell("a target of nearly 64 KiB", service.ask("GET", "/jobs/" + "x" * 65_000 + "/targets")[0] in (404, 414))
    tell("a head that is longer", service.ask("GET", "/jobs/" + "x" * 70_000 + "/targets")[0] in (414, 431))
    ends(service, journal, "of all that none is in the journal, nor the reports, which were refused", lambda pairs: "report" not in [it[0]["event"] for it in pairs])


def ends(service, journal, name, holds):
    ended = service.quit()
    status, pairs, _ = replayed(journal)
    tell(name, ended == (200, 0) and status == 0 and holds(pairs), f"{len(pairs)} events")


class Serving(http.server.BaseHTTPRequestHandler):
    """Sources by path: lists of a size, or of a number of targets, and one that never ends, which may say so."""

    def do_GET(self):
        kind, _, size = self.path[1:].partition("/")
        if kind == "bytes":
            text = b'[{"targets":["b:1"]}]'
            self.say(text + b" " * (int(size) - len(text)))
        elif kind == "targets":
            self.say(compact([{"targets": [f"t{i}:1" for i in range(int(size))]}]))
        else:
            self.endless(kind == "long")

    def say(self, body):
        self.send_response(200)
        self.send_header("content-type", "application/json")
        self.send_header("content-length", str(len(body)))
        self.end_headers()
        self.wfile.write(body)

    def endless(self, is_said):
        """4 GB, of which nobody reads all."""
        self.send_response(200)
        self.send_header("content-type", "application/json")
        if is_said:
            self.send_header("content-length", str(1 << 32))
        self.end_headers()
        try:
            for _ in range(65_536):
                self.wfile.write(b" " * 65_536)
        except OSError:
            pass

    def log_message(self, *_):
        pass


def sources(folder):
    source = http.server.ThreadingHTTPServer(("127.0.0.1", 0), Serving)
    source.daemon_threads = True
    threading.Thread(target=source.serve_forever, daemon=True).start()
    paths = {"longest": "bytes/4194304", "longer": "bytes/4194305", "most": "targets/16381", "more": "targets/16385", "long": "long", "endless": "endless"}
    here = f"http://127.0.0.1:{source.server_port}"
    jobs = [{"job_name": name, "http_sd_configs": [{"url": f"{here}/{path}", "refresh_interval": "5m"}]} for name, path in paths.items()]
    journal = f"{folder}/journal"
    service = Service(folder, fleet(jobs, fetch_timeout="20s"), journal)
    service.is_up()
    ready = comes(lambda: service.ask("GET", "/-/ready")[0] == 200, 100)
    tell("each source was asked, and four failed", ready and comes(lambda: sum(service.figure(f'allocd_refresh_failures_total{{source="{name}/1"}}') or 0 for name in paths) == 4))
    found = {name: service.figure(f'allocd_targets{{job="{name}"}}') for name in paths}
    tell("a list of 4,194,304 bytes is taken, and no longer one", (found["longest"], found["longer"]) == (1, 0))
    tell("as many targets as may be are taken, and no list of more", (found["most"], found["more"]) == (16_381, 0))
    with open(f"{folder}/log") as it:
        faults = dict(re.search(r'msg="refresh failed" job="([^"]*)" .* why="([^"]*)"$', line).groups() for line in it if "refresh failed" in line)
    too_long = {name: "the answer is too long" for name in ("endless", "long", "longer")}
    tell("the others say why", faults == {**too_long, "more": "too many targets"}, faults)
    memory = service.memory()
    tell("4 GB are not kept", memory < 512 * 1024, f"{memory:,} KB")
    wanted = ["Discovered 2 0", "Discovered 1 0", "Discovered 16381 0"]
    ends(service, journal, "the journal has three lists and no other", lambda pairs: [it[1] for it in pairs if it[0]["event"] == "discover"] == wanted)
    source.shutdown()


def cut_off(service, text, how):
    it = socket.create_connection(("127.0.0.1", service.port), timeout=60)
    it.sendall(text)
    if how == "reset":
        it.setsockopt(socket.SOL_SOCKET, socket.SO_LINGER, struct.pack("ii", 1, 0))
    it.close()


def clients(folder):
    journal = f"{folder}/journal"
    service = Service(folder, fleet(), journal)
    service.is_up()
    comes(lambda: service.figure("allocd_allocation") == 1)
    body = json.dumps({"name": "never", "reach": []}).encode()
    head = b"POST /collectors HTTP/1.1\r\nhost: localhost\r\ncontent-type: application/json\r\ncontent-length: %d\r\n\r\n" % len(body)
    whole = head + body
    for how in ("reset", "close"):
        for at in range(1, len(whole)):
            cut_off(service, whole[:at], how)
        tell(f"a client that ends by a {how} behind each of {len(whole)} bytes: the next is answered", service.ask("GET", "/-/healthy")[0] == 200)
    held = b"POST /reports HTTP/1.1\r\nhost: localhost\r\ncontent-type: application/json\r\ncontent-length: 1000000\r\n\r\n" + b"x" * 500_000
    for _ in range(100):
        cut_off(service, held, "reset")
    tell("100 resets in the midst of a long body", service.ask("GET", "/-/healthy")[0] == 200)
    tell("what was cut off is not done", service.ask("GET", "/jobs/node/targets?collector_id=never")[0] == 404)
    ends(service, journal, "and not in the journal", lambda pairs: all(it[0].get("name") != "never" for it in pairs))


PARTS = (cuts, nesting, sums, limits, devices, streams, bodies, sources, clients)


run_parts(PARTS, sys.argv[1:])
