#!/usr/bin/env python3
"""Runs `allocd serve` over settings, sources and figures that scripts/try_serve.py does not look at, and tells of each thing whether it holds: try_edge.py [PART ..]

Where it listens and keeps its journal, each job's own rules, reloads with more sources, other orders and too many jobs, who is uncovered,
names as text, the pages, their links and their form, since when targets are held, what is counted, how long it took, what strangers send and don't send, answers to the byte, rounds over renewals and
starts, lists that change all the time, sources that fall silent beside others, YAML, lists of reports, entity tags, lists that are acknowledged, loads that are made even, sources by name, files of targets. It needs
Linux and the program (ALLOCD_PROGRAM, or dist/allocd)."""

import collections
import html.parser
import http.client
import http.server
import json
import os
import re
import socket
import subprocess
import sys
import threading
import time
import urllib.parse

from allocd_service import ROOT, Service, comes, compiler, events_in, lines_of, replayed, run
from parts import run_parts, tell

ANY = [{"allow": True, "test": "any"}]


class Source(http.server.BaseHTTPRequestHandler):
    """Lists of targets by path, and when each was asked for."""

    lists, asked, hosts = {}, {}, {}

    def do_GET(self):
        self.asked.setdefault(self.path, []).append(time.monotonic())
        self.hosts[self.path] = self.headers["host"]
        body = json.dumps([{"targets": self.lists.get(self.path, [])}]).encode()
        self.send_response(200)
        self.send_header("content-type", "application/json")
        self.send_header("content-length", str(len(body)))
        self.end_headers()
        self.wfile.write(body)

    def log_message(self, *_):
        pass


def url(path, every="500ms", port=None):
    """A URL of such a list, or of a source at another port, which is asked for so often."""
    return {"url": f"http://127.0.0.1:{port or SOURCE.server_port}{path}", "refresh_interval": every}


def static(name, count, first=9000, **more):
    return {"job_name": name, "static_configs": [{"targets": [f"127.0.0.1:{first + i}" for i in range(count)]}], **more}


def config(jobs, interval="1h", **settings):
    allocator = {"settle": "50ms", "lifecycle": True, "collectors": [{"name": "a", "reach": ANY}], **settings}
    return {"global": {"scrape_interval": interval}, "scrape_configs": jobs, "allocator": allocator}


def started(folder, jobs, **more):
    service = Service(folder, config(jobs, **more), f"{folder}/journal")
    service.is_up()
    return service


def has(service, figure, value):
    return comes(lambda: service.figure(figure) == value, 20)


def reload_told(service):
    """How a reload is answered, once the service has begun: until then it is told to ask again."""
    for _ in range(100):
        status, told = service.ask("POST", "/-/reload")
        if "ask again" not in told:
            break
        time.sleep(0.1)
    return status


def reloaded(service, new):
    service.write(new)
    return reload_told(service)


def held(service, job, name="a"):
    """The addresses that a collector holds of a job."""
    return sorted(group["targets"][0] for group in json.loads(service.ask("GET", f"/jobs/{job}/targets?collector_id={name}")[1]))


def ends(service):
    tell("it ends", service.quit() == (200, 0))


def settings(folder):
    service = Service(folder, lambda port: config([static("n", 2)], listen=f"127.0.0.1:{port}", journal=f"{folder}/own"))
    tell("it listens where its settings say", service.is_up())
    with socket.socket() as it:
        tell("and nowhere else", it.connect_ex(("127.0.0.2", service.port)) != 0)
    has(service, "allocd_allocation", 1)
    tell("its journal is where its settings say", len(lines_of(f"{folder}/own")) > 100)
    ends(service)


def relabels(folder):
    Source.lists["/rules"] = ["127.0.0.1:7001", "127.0.0.1:7002"]
    by = lambda value: [{"target_label": "by", "replacement": value}]
    drops = [{"action": "drop", "source_labels": ["__address__"], "regex": ".*:7001"}]
    found = {"http_sd_configs": [url("/rules")]}
    jobs = [static("one", 2, relabel_configs=by("first")), {"job_name": "two", **found, "relabel_configs": by("second")}]
    service = started(folder, [*jobs, {"job_name": "three", **found, "relabel_configs": drops}])
    has(service, 'allocd_targets_covered{job="two"}', 2)
    has(service, 'allocd_targets_covered{job="three"}', 1)
    labels = lambda job: {group["labels"].get("by") for group in json.loads(service.ask("GET", f"/jobs/{job}/targets?collector_id=a")[1])}
    tell("static targets and discovered ones have the labels of their own job's rules", (labels("one"), labels("two")) == ({"first"}, {"second"}))
    tell("what a rule drops is not there", held(service, "three") == ["127.0.0.1:7002"])
    of = lambda job: tuple(service.figure(f'allocd_source_targets{what}{{job="{job}",source="{job}/1"}}') for what in ("", "_dropped", "_without_address"))
    tell("the figures say how many a source lists, and how many rules leave out", (of("two"), of("three")) == ((2, 0, 0), (1, 1, 0)), (of("two"), of("three")))
    Source.lists["/rules"] = ["127.0.0.1:7001", "127.0.0.1:7003"]
    bare = {"target_label": "__address__", "source_labels": ["__address__"], "regex": ".*:7003", "replacement": ""}
    reloaded(service, config([*jobs, {"job_name": "three", **found, "relabel_configs": [*drops, bare]}, {"job_name": "four", "http_sd_configs": [url("/none", port=1)]}]))
    tell("and how many have no address then", comes(lambda: of("three") == (0, 1, 1), 20), of("three"))
    tell("nothing where a source gave no list", of("four") == (0, 0, 0), of("four"))
    sources = [it for job in ("three", "four") for it in json.loads(service.ask("GET", f"/jobs/{job}")[1])["sources"]]
    told = [[it[name] for name in ("targets", "dropped", "without_address")] for it in sources]
    tell("each job tells it of its sources, and that a source gave no list", told == [[0, 1, 1], [None] * 3], told)
    rows = {row[0]: row[3:6] for path in ("/", "/jobs/three", "/jobs/four") for row in seen(service, path)[0].tables["Discovery sources"]}
    counted, none = [rows[it] for it in ("three/1", url("/rules")["url"])], [rows[it] for it in ("four/1", url("/none", port=1)["url"])]
    tell("so do the pages", (counted, none) == ([["0", "1", "1"]] * 2, [[""] * 3] * 2), rows)
    ends(service)


def reloads(folder):
    Source.lists.update({f"/{i}": [f"127.0.0.1:710{i}"] for i in (1, 2, 3)})
    one = static("a", 3)
    service = started(folder, [one, {"job_name": "b", "http_sd_configs": [url("/1")]}])
    has(service, 'allocd_targets_covered{job="b"}', 1)
    more, other = {"job_name": "b", "http_sd_configs": [url("/1"), url("/2")]}, {"job_name": "e", "http_sd_configs": [url("/3")]}
    tell("a reload with more sources", reloaded(service, config([one, more, other])) == 200)
    tell("each of them is followed", has(service, 'allocd_targets_covered{job="b"}', 2) and has(service, 'allocd_targets_covered{job="e"}', 1))
    before = {job: held(service, job) for job in "abe"}
    tell("one with the jobs in another order", reloaded(service, config([other, more, one])) == 200)
    comes(lambda: os.path.exists(f"{folder}/journal.2") and service.ask("GET", "/-/ready")[0] == 200, 20)
    tell("each job has the targets that it had", {job: held(service, job) for job in "abe"} == before)
    for i in range(40):
        service.ask("POST", "/collectors", {"name": f"n{i}", "reach": []})
    reloaded(service, config([*({"job_name": f"x{i}"} for i in range(900)), one, more, other]))
    tell("one with too many jobs for so many collectors is not followed", has(service, "allocd_config_last_reload_successful", 0))
    tell("the jobs are those before", sorted(json.loads(service.ask("GET", "/jobs")[1])) == ["a", "b", "e"])
    Source.lists["/1"] = ["127.0.0.1:7101", "127.0.0.1:7104"]
    tell("and their sources go on", has(service, 'allocd_targets{job="b"}', 3))
    ends(service)
    status, out = run(["audit", f"{folder}/journal.1", f"{folder}/journal.2", f"{folder}/journal"])
    tell("the journals are audited", status == 0, out.decode().strip().rpartition("\n")[2])


def uncovered(folder):
    reach = [{"allow": True, "test": "equals", "label": "job", "value": "n"}]
    jobs, only = [static("n", 4, target_limit=3), static("lone", 2, 9500)], [{"name": "a", "reach": reach}]
    service = started(folder, jobs, collectors=only)
    has(service, 'allocd_targets_covered{job="n"}', 3)
    of = lambda job: tuple(len(json.loads(service.ask("GET", f"/jobs/{job}/uncovered")[1])[why]) for why in ("full", "unreached"))
    tell("who is uncovered, and why", (of("n"), of("lone")) == ((1, 0), (0, 2)))
    tell("the figures say how many", (service.figure('allocd_targets_uncovered{job="n"}'), service.figure('allocd_targets_uncovered{job="lone"}')) == (1, 2))
    reloaded(service, config(jobs, collectors=only, settle="1h"))
    # what is configured joins again where it left before the configuration was read
    time.sleep(1)
    service.ask("DELETE", "/collectors/1")
    tell("before a reallocation nobody holds what was held by one that left", comes(lambda: of("n") == (0, 4), 5), of("n"))
    told = [service.figure(f'allocd_targets{what}{{job="n"}}') for what in ("_covered", "_uncovered", "_taken")]
    tell("so do the figures say", told == [0, 4, 0], told)
    ends(service)


FORGED = 'two\nlevel=error msg="forged"'
LINE = re.compile(r'ts=\S+ level=(info|warn|error) msg="[^"]*"( [a-z_]+=("([^"\\]|\\.)*"|[^\s"]+))*$')


def texts(folder):
    """Whatever names say, a page has no further markup, and the log a line for each thing that is told."""
    forged = {"name": FORGED, "reach": []}
    jobs = [static("n", 1), {"job_name": f"job {FORGED}", "http_sd_configs": [url(f"/{'%0A'}level=error", port=1)]}]
    service = started(folder, jobs, collectors=[{"name": "a", "reach": ANY}, forged])
    service.ask("POST", "/collectors", {"name": "<script>x</script>\"&'", "reach": []})
    service.ask("POST", "/collectors", {"name": f"posted {FORGED}", "reach": []})
    for way in (f"/collectors/{urllib.parse.quote('posted ' + FORGED, safe='')}", f"/collectors/{urllib.parse.quote('no ' + FORGED, safe='')}"):
        service.ask("POST", f"{way}/drain", {})
    page = service.ask("GET", "/")[1]
    tell("a collector's name is no markup", "<script>x" not in page and "&lt;script&gt;x" in page)
    comes(lambda: service.figure(f'allocd_refresh_failures_total{{source="job {json.dumps(FORGED)[1:-1]}/1"}}'), 10)
    tell("a reload that takes the job away is told", reloaded(service, config([static(f"other {FORGED}", 2)], collectors=[{"name": f"c {FORGED}", "reach": ANY}])) == 200)
    time.sleep(0.5)
    ends(service)
    with open(f"{folder}/log") as it:
        lines = it.read().splitlines()
    told = [line for line in lines if not LINE.match(line)]
    tell("no name makes two lines of the log", len(lines) > 8 and not told, told)


class Page(html.parser.HTMLParser):
    """The title, the links, the forms, what needs attention and the tables of a page: rows by a table's caption."""

    def __init__(self, text):
        super().__init__()
        self.title, self.links, self.needs, self.tables, self.tags, self.inside, self.forms, self.inputs = "", [], [], {}, set(), [], [], []
        self.feed(text)

    def handle_starttag(self, tag, attributes):
        attributes = dict(attributes)
        self.tags.add(tag)
        if tag not in ("meta", "br", "input"):
            self.inside.append(tag)
        if tag == "a":
            self.links.append(attributes["href"])
        if tag == "form":
            self.forms.append(attributes)
        if tag == "input":
            self.inputs.append(attributes)
        if tag == "li":
            self.needs.append([attributes.get("class"), ""])
        if tag == "caption":
            self.caption = ""
        if tag == "tr" and "tbody" in self.inside:
            self.tables[self.caption].append([])
        if tag in ("td", "th") and "tbody" in self.inside:
            self.tables[self.caption][-1].append("")

    def handle_endtag(self, tag):
        assert self.inside.pop() == tag, (tag, self.inside)
        if tag == "caption":
            self.tables[self.caption] = []

    def handle_data(self, text):
        if "title" in self.inside:
            self.title += text
        elif "li" in self.inside:
            self.needs[-1][1] += text
        elif "caption" in self.inside:
            self.caption += text
        elif "tbody" in self.inside and ("td" in self.inside or "th" in self.inside):
            self.tables[self.caption][-1][-1] += text

    def bad(self):
        return [text for kind, text in self.needs if kind == "bad"]


def page(folder):
    Source.lists["/found"] = ["127.0.0.1:7001"]
    odd = "a/b <i>&amp;?#%"
    found = {"job_name": "found", "http_sd_configs": [url("/found"), url("/", port=1)]}
    jobs = [static(odd, 3), static("n", 2, 9100), found]
    service = started(folder, jobs)
    has(service, 'allocd_targets_covered{job="found"}', 1)
    comes(lambda: service.ask("GET", "/-/ready")[0] == 200, 20)
    look = lambda: Page(service.ask("GET", "/")[1])
    first = look()
    tell("what needs attention stands on top, and its title counts it", first.title == "allocd: 2 things need attention" and [re.sub(r"\d+$", "N", text) for text in first.bad()] == [
        "1 of 2 sources fail: the last lists stay", "1 of 1 collector has not taken allocation N"], (first.title, first.bad()))
    tell("it has no script, and each table a caption", "script" not in first.tags and list(first.tables) == ["Jobs", "Collectors", "Discovery sources", "Last allocations"], list(first.tables))
    tell("a job's name is text", [row[0] for row in first.tables["Jobs"]] == [odd, "n", "found"], first.tables["Jobs"])
    ways = sorted({link for link in first.links if link.startswith("/")})
    answers = {way: service.ask("GET", way)[0] for way in ways}
    tell("each of its links is answered 200", set(answers.values()) == {200}, {way: status for way, status in answers.items() if status != 200})
    of_jobs = [link for link in ways if link.startswith("/jobs/")]
    tell("those of a job have its name in one segment", "/jobs/a%2Fb%20%3Ci%3E%26amp%3B%3F%23%25" in of_jobs, of_jobs)
    tell("each job and each collector has a page", {"/jobs/n", "/jobs/found", "/collectors/1"} <= set(ways), ways)
    tell("a link to a list takes nothing", service.figure('allocd_collector_taken_allocation{collector="a"}') == 0)
    sources = [row[0] for row in first.tables["Discovery sources"]]
    tell("sources that fail stand first", sources == ["found/2", "found/1"], sources)
    for job in (urllib.parse.quote(odd, safe=""), "n", "found"):
        service.ask("GET", f"/jobs/{job}/targets?collector_id=a")
    tell("who asked for all lists is behind no more", comes(lambda: look().title == "allocd: 1 thing needs attention", 5), look().bad())
    service.ask("PUT", "/collectors/1/limits", {"limits": {odd: 1}})
    tell("targets without a collector are told by job", comes(lambda: f"2 of 6 targets have no collector: {odd} 2" in look().bad(), 10), look().bad())
    tell("with a link to why", f"/jobs/{urllib.parse.quote(odd, safe='')}/uncovered" in look().links, look().links)
    service.write("{")
    service.ask("POST", "/-/reload")
    tell("a configuration that is not followed, too", any("is faulty" in text for text in look().bad()), look().bad())
    reloaded(service, config(jobs))
    tell("until it is mended", not any("is faulty" in text for text in look().bad()), look().bad())
    service.ask("POST", "/collectors/1/drain", {})
    row = look().tables["Collectors"][0]
    tell("the collectors have their state", row[:3] == ["a", "1", "draining"], row)
    ends(service)
    service = Service(folder, config([{"job_name": "none"}]))
    service.is_up()
    tell("where nothing is live that needs attention", comes(lambda: "No target is live: no source lists one" in look().bad(), 10), look().bad())
    text = service.ask("GET", "/")[1]
    tell("version and journal stand at the foot", "<footer><p>allocd 0.1.0, up for " in text and "; no journal is written" in text, text.rpartition("<footer>")[2])
    ends(service)


BROWSER = "text/html,application/xhtml+xml,application/xml;q=0.9,*/*;q=0.8"


def seen(service, path):
    """What a browser is shown, and its text."""
    status, headers, text = answer_of(service, path, {"accept": BROWSER})
    assert status == 200 and headers["content-type"] == "text/html; charset=utf-8", (path, status, headers.items())
    return Page(text), text


def goes_on(service, page, path):
    """The links of a page that lead nowhere."""
    ways = sorted({link for link in page.links if link.startswith("/")})
    return len(ways) < 5 or [(way, path) for way in ways if service.ask("GET", way)[0] != 200]


def job_pages(folder):
    Source.lists["/found"] = ["127.0.0.1:7001"]
    odd = "a/b <i>&amp;?#%"
    reach = [{"allow": True, "test": "equals", "label": "job", "value": job} for job in ("n", odd)]
    labels = {"team": "<b>x</b>", "__hidden": "no"}
    sources = [url("/found"), url("/", port=1)]
    jobs = [static("n", 3, target_limit=3, http_sd_configs=sources), {"job_name": odd, "static_configs": [{"targets": ["127.0.0.1:9300"], "labels": labels}]}, static("lone", 2, 9500)]
    service = started(folder, jobs, collectors=[{"name": "a", "reach": reach}])
    has(service, 'allocd_targets_covered{job="n"}', 3)
    comes(lambda: service.ask("GET", "/-/ready")[0] == 200, 20)
    of = lambda job: json.loads(service.ask("GET", f"/jobs/{urllib.parse.quote(job, safe='')}")[1])
    counts = lambda job: {name: of(job)[name] for name in ("job_name", "live", "covered", "uncovered", "unreached", "handing_over", "collectors")}
    tell("a job says how many targets it has, and who holds how many", counts("n") == {
        "job_name": "n", "live": 4, "covered": 3, "uncovered": 1, "unreached": 0, "handing_over": 0, "collectors": {"a": 3}}, counts("n"))
    tell("one that nobody reaches, too", counts("lone") == {
        "job_name": "lone", "live": 2, "covered": 0, "uncovered": 2, "unreached": 2, "handing_over": 0, "collectors": {}}, counts("lone"))
    told = of("n")["sources"]
    tell("its sources are told by their URLs, with their faults", [it["url"] for it in told] == [it["url"] for it in sources] and told[0]["fault"] is None
         and abs(told[0]["last_success"] - time.time()) < 30 and told[1]["last_success"] is None and "connect" in told[1]["fault"].lower(), told)
    tell("its links lead to its lists", [service.ask("GET", way)[0] for way in of(odd)["links"].values()] == [200, 200], of(odd)["links"])
    tell("there is no other job", (service.ask("GET", "/jobs/k"), answer_of(service, "/jobs/k", {"accept": BROWSER})[::2]) == ((404, '{"refused":"UnknownJob"}'), (404, '{"refused":"UnknownJob"}')))
    page, text = seen(service, "/jobs/n")
    tell("a browser has a page of it, with its name in the title", page.title == "allocd: job n", page.title)
    tell("it has no script, and each table a caption", "script" not in page.tags and list(page.tables) == ["How many targets", "Collectors", "Discovery sources", "Targets"], list(page.tables))
    tell("the counts", page.tables["How many targets"] == [["4", "3", "1", "0", "0"]] and page.tables["Collectors"] == [["a", "3"]], page.tables)
    tell("the sources, by their URLs", [row[0] for row in page.tables["Discovery sources"]] == [it["url"] for it in sources], page.tables["Discovery sources"])
    rows = page.tables["Targets"]
    tell("its targets, first those that nobody holds", len(rows) == 4 and rows[0][1] == "none: who reaches it is full" and {row[1] for row in rows[1:]} == {"a"}, rows)
    tell("a link of the page leads somewhere", not (lost := goes_on(service, page, "/jobs/n")), lost)
    page, text = seen(service, f"/jobs/{urllib.parse.quote(odd, safe='')}")
    row = page.tables["Targets"][0]
    tell("names and values of labels are text, and those with two underscores are left out", f"<h1>Job a/b &lt;i&gt;&amp;amp;?#%</h1>" in text and row[4].split() == [
        'instance="127.0.0.1:9300"', 'job="a/b', "<i>&amp;?#%\"", 'team="<b>x</b>"'], row)
    tell("of one that nobody reaches it is said", [row[1] for row in seen(service, "/jobs/lone")[0].tables["Targets"]] == ["none reaches it"] * 2)
    media = lambda accept, path="/jobs/n": headers_of(service, path, accept)[0]["content-type"]
    found = [media(it) for it in (None, "*/*", "application/json, text/html", "application/yaml, text/html", "Text/HTML;q=0.1, application/json", "text/html,application/yaml")]
    tell("the first of the media types decides", found == ["application/json"] * 3 + ["application/yaml"] + ["text/html; charset=utf-8"] * 2, found)
    tell("what has no page is told as before", (media(BROWSER, "/jobs"), media(BROWSER, "/collectors")) == ("application/json",) * 2)
    length = len(seen(service, "/jobs/lone")[1].encode())
    varies = [headers_of(service, "/jobs/lone", accept)[0]["vary"] for accept in (None, BROWSER, "application/yaml")]
    tell("each form says that there are others", varies == ["accept"] * 3, varies)
    tell("HEAD has the head of the same", head_of(service, "/jobs/lone", BROWSER) == (200, "text/html; charset=utf-8", str(length)), head_of(service, "/jobs/lone", BROWSER))
    reloaded(service, config([static("many", 1500)]))
    comes(lambda: service.ask("GET", "/jobs/many")[0] == 200 and of("many")["covered"] == 1500, 20)
    page, text = seen(service, "/jobs/many")
    tell("a page has 1,000 targets at most, and says how many more there are", len(page.tables["Targets"]) == 1000 and "<p>And 500 more. <code>/targets?search=TEXT</code>" in text, len(page.tables["Targets"]))
    ends(service)


def head_of(service, path, accept):
    """The status, the media type and the length that a HEAD tells."""
    it = http.client.HTTPConnection("127.0.0.1", service.port, timeout=30)
    it.request("HEAD", path, headers={"accept": accept})
    answer = it.getresponse()
    it.close()
    return answer.status, answer.headers["content-type"], answer.headers["content-length"]


def collector_pages(folder):
    odd = "<i>a/b"
    service = started(folder, [static("n", 3), static("m", 1, 9300)], collectors=[{"name": odd, "reach": [{"allow": True, "test": "equals", "label": "x", "value": "<x>"}, *ANY]}])
    has(service, 'allocd_targets_covered{job="n"}', 3)
    has(service, 'allocd_targets_covered{job="m"}', 1)
    comes(lambda: service.ask("GET", "/-/ready")[0] == 200, 20)
    page, text = seen(service, "/collectors/1")
    tell("a browser has a page of a collector, with its name as text", page.title == f"allocd: collector {odd}" and "<h1>Collector &lt;i&gt;a/b</h1>" in text, page.title)
    tell("it has no script, and each table a caption", not {"script", "form"} & page.tags and list(page.tables) == ["State", "By job", "Targets"], list(page.tables))
    tell("its state", page.tables["State"] == [["1", "live", "4", "nothing", "not yet"]], page.tables["State"])
    tell("whom it reaches", "[{&quot;allow&quot;:true,&quot;label&quot;:&quot;x&quot;,&quot;test&quot;:&quot;equals&quot;,&quot;value&quot;:&quot;&lt;x&gt;&quot;},{&quot;allow&quot;:true,&quot;test&quot;:&quot;any&quot;}]" in text, text)
    tell("what it holds by job", page.tables["By job"] == [["n", "3"], ["m", "1"]], page.tables["By job"])
    tell("its targets", sorted(row[:2] for row in page.tables["Targets"]) == [["127.0.0.1:9000", "n"], ["127.0.0.1:9001", "n"], ["127.0.0.1:9002", "n"], ["127.0.0.1:9300", "m"]], page.tables["Targets"])
    tell("lines for a shell change it", "curl -X POST $ALLOCD/collectors/1/drain  # it is to be emptied\n" in text and "curl -X DELETE $ALLOCD/collectors/1  # it leaves\n" in text)
    tell("a link of the page leads somewhere", not (lost := goes_on(service, page, "/collectors/1")), lost)
    tell("a look takes nothing", service.figure(f'allocd_collector_taken_allocation{{collector="{odd}"}}') == 0)
    tell("it is found by its name as well", seen(service, f"/collectors/{urllib.parse.quote(odd, safe='')}")[0].title == page.title)
    for job in "nm":
        service.ask("GET", f"/jobs/{job}/targets?collector_id={urllib.parse.quote(odd)}")
    service.ask("PUT", "/collectors/1/limits", {"limits": {"n": 2}})
    comes(lambda: seen(service, "/collectors/1")[0].tables["State"][0][2] == "3", 20)
    page = seen(service, "/collectors/1")[0]
    tell("its limits, and what it took", page.tables["Limits of its own"] == [["n", "2"]] and page.tables["State"][0][3] == "1" and page.tables["State"][0][4].endswith(" s ago"), page.tables)
    service.ask("POST", "/collectors/1/drain", {})
    tell("and that it is emptied", seen(service, "/collectors/1")[0].tables["State"][0][1] == "draining")
    tell("there is no other", answer_of(service, "/collectors/9", {"accept": BROWSER})[::2] == (404, '{"refused":"UnknownCollector"}'))
    tell("who asks for no page has the object", json.loads(service.ask("GET", "/collectors/1")[1])["limits"] == {"n": 2})
    ends(service)


def searches(folder):
    """The form on the page, and what it leads to in a browser."""
    odd = "a/b <i>&amp;?#%"
    reach = [{"allow": True, "test": "equals", "label": "job", "value": job} for job in ("n", odd)]
    jobs = [static("n", 3, target_limit=2), {"job_name": odd, "static_configs": [{"targets": ["127.0.0.1:9300"], "labels": {"team": "<b>x&y</b> z"}}]}, static("lone", 2, 9500)]
    service = started(folder, [*jobs, static("many", 120, 10000)], collectors=[{"name": "a", "reach": reach}])
    has(service, 'allocd_targets_covered{job="n"}', 2)
    comes(lambda: service.ask("GET", "/-/ready")[0] == 200, 20)
    page = seen(service, "/")[0]
    form = {"action": "/targets", "role": "search"}
    tell("the page has a form that searches", page.forms == [form] and [(it["type"], it["name"], it["value"]) for it in page.inputs] == [("search", "search", "")], (page.forms, page.inputs))
    policy = headers_of(service, "/", BROWSER)[0]["content-security-policy"]
    tell("which it may send to the service alone", "form-action 'self'" in policy and "default-src 'none'" in policy, policy)
    asked = "<b>x&y</b> z"
    page, text = seen(service, f"/targets?{urllib.parse.urlencode({'search': asked})}")
    tell("what it leads to has the text in its title and in the same form", (page.title, page.forms, page.inputs[0]["value"]) == (f"allocd: targets with {asked}", [form], asked), (page.title, page.inputs))
    tell("no text is markup, and it has no script", not {"script", "b", "i"} & page.tags and list(page.tables) == ["Targets"], page.tags)
    number = {it["target"]: it["labels"]["__meta_allocator_target"] for it in json.loads(service.ask("GET", "/targets?search=127.0.0.1:9")[1])["targets"]}
    row = page.tables["Targets"][0]
    tell("a row has the number, the job and who holds it", (len(page.tables["Targets"]), row[:4], row[5]) == (1, ["127.0.0.1:9300", number["127.0.0.1:9300"], odd, "a"], ""), row)
    tell("and the labels", 'team="<b>x&y</b> z"' in row[6], row)
    tell("with links that lead somewhere", not (lost := [way for way in page.links if service.ask("GET", way)[0] != 200]) and {"/collectors/1", "/jobs/a%2Fb%20%3Ci%3E%26amp%3B%3F%23%25"} <= set(page.links), lost)
    of = lambda search: [(row[2], row[3]) for row in seen(service, f"/targets?search={search}")[0].tables["Targets"]]
    tell("of what nobody holds it is said why", (sorted(of("127.0.0.1:900")), of("127.0.0.1:95")) == (
        [("n", "a"), ("n", "a"), ("n", "none: who reaches it is full")], [("lone", "none reaches it")] * 2), (of("127.0.0.1:900"), of("127.0.0.1:95")))
    page, text = seen(service, "/targets?search=127.0.0.1:10")
    tell("it has 100 targets at most, and says how many there are", len(page.tables["Targets"]) == 100 and "<p>120 live targets have the text" in text and "<p>And 20 more. A longer text" in text, len(page.tables["Targets"]))
    page, text = seen(service, "/targets?search=nothing+has+it")
    tell("where nothing is found it says so", page.tables["Targets"] == [] and "<p>0 live targets have the text" in text, text)
    tell("who asks for no page has the object", json.loads(service.ask("GET", "/targets?search=127.0.0.1:95")[1])["all"] == 2)
    tell("a search for nothing is refused", answer_of(service, "/targets?search=", {"accept": BROWSER})[::2] == (400, '{"refused":"Shape"}'))
    ends(service)


def since(folder):
    """Since when each target is held, and when it was reported last: by search and on the pages."""
    service = started(folder, [static("n", 4)])
    has(service, 'allocd_targets_covered{job="n"}', 4)
    of = lambda what: [it[what] for it in json.loads(service.ask("GET", "/targets?search=127.0.0.1")[1])["targets"]]
    first = int(service.figure("allocd_allocation"))
    tell("what was given out is held since then, and nothing is reported", (of("since"), of("last_round")) == ([first] * 4, [None] * 4), (of("since"), of("last_round")))
    groups = json.loads(service.ask("GET", "/jobs/n/targets?collector_id=a")[1])
    number = int(groups[1]["labels"]["__meta_allocator_target"])
    service.ask("POST", "/reports", {"collector": 1, "number": first, "target": number, "round": 1, "up": True, "samples": 8})
    tell("a report is told by its round", [of("last_round")[i] for i in (0, 1)] == [None, 1], of("last_round"))
    service.ask("POST", "/collectors", {"name": "b", "reach": ANY})
    service.ask("PUT", "/collectors/1/limits", {"limits": {"n": 2}})
    comes(lambda: sorted(of("collector")) == ["a", "a", "b", "b"], 20)
    second = int(service.figure("allocd_allocation"))
    wanted = [first if name == "a" else second for name in of("collector")]
    tell("what moved is held since then by another, what stayed as before", second > first and of("since") == wanted, (of("since"), of("collector"), second))
    service.ask("PUT", "/collectors/1/limits", {"limits": {"n": 3}})
    service.ask("POST", "/collectors/2/drain", {})
    comes(lambda: sorted(of("collector")) == ["a", "a", "a", "b"], 20)
    third = int(service.figure("allocd_allocation"))
    kept = [it for it, name, was in zip(of("since"), of("collector"), wanted) if name == "a" and was == second]
    tell("what comes back is held since it came back", kept == [third] and of("since").count(first) == 2, (of("since"), third))
    rows = {row[0]: row[2] for row in seen(service, "/jobs/n")[0].tables["Targets"]}
    found = {it["target"]: str(it["since"]) for it in json.loads(service.ask("GET", "/targets?search=127.0.0.1")[1])["targets"]}
    tell("the page of the job tells the same", rows == found, (rows, found))
    rows = {row[0]: row[2:4] for row in seen(service, "/collectors/a")[0].tables["Targets"]}
    reported = f"127.0.0.1:{9000 + number}"
    tell("that of the collector, too", all(found[target] == row[0] for target, row in rows.items()) and (reported not in rows or rows[reported][1] == "1"), (rows, found))
    service.ask("DELETE", "/collectors/2")
    service.ask("DELETE", "/collectors/1")
    tell("what nobody holds is held since nothing", comes(lambda: of("since") == [None] * 4, 10), of("since"))
    ends(service)


KINDS = "discover join leave drain limits install spread round take serve release report".split()
OWN_BOUNDS = [0.005, 0.01, 0.025, 0.05, 0.1, 0.2, 0.4, 1, 3, 8, 20, 60, 120]


def durations_in(text, name, labels=""):
    """The buckets of a histogram, its sum and its count."""
    one = lambda what, more="": float(re.search(rf"^{re.escape(name + what + (more and '{' + more + '}'))} (\S+)$", text, re.M)[1])
    before = labels and labels + ","
    told = re.findall(rf'^{re.escape(name)}_bucket\{{{re.escape(before)}le="([^"]+)"\}} (\d+)$', text, re.M)
    return [float(bound) for bound, _ in told], [int(count) for _, count in told], one("_sum", labels), one("_count", labels)


def series(folder):
    begun = time.time()
    service = started(folder, [static("n", 4)])
    text = service.ask("GET", "/metrics")[1]
    samples = re.findall(r"^([^#\s]\S*(?:\{.*\})?) \S+$", text, re.M)
    tell("no series is told twice", len(samples) == len(set(samples)), [name for name in samples if samples.count(name) > 1])
    with open(os.path.join(os.path.dirname(__file__), "..", "docs", "operate", "HTTP.md")) as it:
        paths = set(re.findall(r"^\| `(?:GET|POST|PUT|DELETE) (/[^`?]*)", it.read(), re.M))
    routes = re.findall(r'^allocd_http_requests_total\{route="([^"]+)",status="503"\} 0$', text, re.M)
    paths = {path.replace("{collector}", "{id}") for path in paths}
    missing = {path for path in paths if path not in {route.split(" ")[-1].partition("?")[0] for route in routes} | {"/readyz"}}
    tell("each route has its series from the start", len(routes) > 20 and not missing, missing)
    kinds = re.findall(r'^allocd_events_refused_total\{event="([^"]+)"\} \d+$', text, re.M)
    tell("each kind of events has one", kinds == KINDS, kinds)
    tell("the version is told", re.findall(r'^allocd_build_info\{version="([^"]+)"\} 1$', text, re.M) == run(["--version"])[1].decode().split()[1:])
    read = service.figure("allocd_config_last_reload_success_timestamp_seconds")
    tell("and when the configuration was read", int(begun) <= read <= time.time(), (begun, read))
    has(service, "allocd_allocation", 1)
    for _ in range(5):
        service.ask("GET", "/jobs")
    text = service.ask("GET", "/metrics")[1]
    bounds, counts, total, count = durations_in(text, "allocd_http_request_duration_seconds", 'route="/jobs"')
    tell("how long requests took is told by route", (bounds[:-1], bounds[-1], count, counts[-1]) == (OWN_BOUNDS, float("inf"), 5, 5), (bounds, counts, count))
    tell("each bucket has those below it, and their sum is what they took", counts == sorted(counts) and 0 < total < 5 * 60, (counts, total))
    _, counts, total, count = durations_in(text, "allocd_reallocation_duration_seconds")
    tell("so is how long searches took", count == service.figure("allocd_reallocations_total") == counts[-1] and total > 0, (counts, total))
    time.sleep(1.1)
    reloaded(service, config([static("n", 5)]))
    again = service.figure("allocd_config_last_reload_success_timestamp_seconds")
    tell("a reload is a later one", again > read, (read, again))
    service.write("{")
    service.ask("POST", "/-/reload")
    tell("but for one that is not taken", service.figure("allocd_config_last_reload_success_timestamp_seconds") == again)
    ends(service)


COUNTED = {
    'allocd_events_total{event="join",answer="Joined"}': 2,
    'allocd_events_total{event="join",answer="AlreadyJoined"}': 1,
    'allocd_events_refused_total{event="join"}': 1,
    'allocd_events_total{event="serve",answer="Served"}': 1,
    'allocd_events_total{event="report",answer="Booked"}': 1,
    'allocd_events_total{event="report",answer="AlreadyBooked"}': 1,
    'allocd_http_requests_total{route="POST /reports",status="200"}': 1,
    'allocd_http_requests_total{route="POST /reports",status="409"}': 1,
    'allocd_http_requests_total{route="none",status="404"}': 1,
    "allocd_samples_booked_total": 7,
    'allocd_targets_taken{job="n"}': 4,
    'allocd_collector_targets{collector="a"}': 4,
    'allocd_collector_targets{collector="b"}': 0,
    'allocd_collector_draining{collector="a"}': 0,
    'allocd_collector_taken_allocation{collector="a"}': 1,
    'allocd_collector_taken_allocation{collector="b"}': 0,
    "allocd_journal_broken": 0,
}
PROCESS = ("resident_memory_bytes", "virtual_memory_bytes", "cpu_seconds_total", "open_fds", "max_fds")
READ_ONLY = ("/", "/jobs", "/scrape_configs", "/jobs/n/targets", "/jobs/n/uncovered", "/allocations", "/certificate", "/-/healthy", "/-/ready", "/metrics", "/nothing")


def kernel_says(pid):
    """What Linux says of a process, in the order of PROCESS."""
    with open(f"/proc/{pid}/status") as it:
        status = dict(line.split(":", 1) for line in it)
    with open(f"/proc/{pid}/stat") as it:
        fields = it.read().rpartition(")")[2].split()
    with open(f"/proc/{pid}/limits") as it:
        most = next(int(line.split()[3]) for line in it if line.startswith("Max open files"))
    kilobytes = lambda name: 1024 * int(status[name].split()[0])
    ticks = (int(fields[11]) + int(fields[12])) / os.sysconf("SC_CLK_TCK")
    return kilobytes("VmRSS"), kilobytes("VmSize"), ticks, len(os.listdir(f"/proc/{pid}/fd")), most


def process(folder):
    service = started(folder, [static("n", 4)])
    text = service.ask("GET", "/metrics")[1]
    tell("a histogram of the journal's writes is there from the start", durations_in(text, "allocd_journal_write_duration_seconds")[0][:-1] == OWN_BOUNDS)
    has(service, "allocd_allocation", 1)
    written = lambda: durations_in(service.ask("GET", "/metrics")[1], "allocd_journal_write_duration_seconds")
    _, counts, total, count = written()
    tell("it counts the writes, and how long they took", count == counts[-1] > 0 and 0 < total < 60, (counts, total))
    service.ask("POST", "/collectors", {"name": "c", "reach": ANY})
    tell("one more where something is entered", comes(lambda: written()[3] > count, 5))
    # a service that does next to nothing has taken less than a tick by then
    comes(lambda: service.ask("GET", "/metrics")[0] == 200 and kernel_says(service.it.pid)[2] > 0, 30)
    time.sleep(6)
    told = [re.search(rf"^process_{name} (\S+)$", service.ask("GET", "/metrics")[1], re.M) for name in PROCESS]
    told, says = [one and float(one[1]) for one in told], kernel_says(service.it.pid)
    near = lambda a, b: a is not None and abs(a - b) <= max(a, b) / 4
    tell("memory is what Linux says", near(told[0], says[0]) and near(told[1], says[1]), (told, says))
    tell("so are the time of processors and the descriptors", 0 < told[2] <= says[2] and abs(told[3] - says[3]) <= 8 and told[4] == says[4], (told, says))
    ends(service)
    inner = f"{folder}/none"
    os.mkdir(inner)
    service = Service(inner, config([static("n", 4)]))
    service.is_up()
    has(service, "allocd_allocation", 1)
    _, counts, total, count = durations_in(service.ask("GET", "/metrics")[1], "allocd_journal_write_duration_seconds")
    tell("nothing is written where there is no journal", (set(counts), total, count) == ({0}, 0, 0), (counts, total, count))
    ends(service)


def takes(folder):
    collectors = [{"name": "a", "reach": ANY, "limits": {"n": 3}}, {"name": "b", "reach": ANY}]
    for handover in ("ordered", "free"):
        inner = f"{folder}/{handover}"
        os.mkdir(inner)
        service = started(inner, [static("n", 4), static("m", 2, 9500)], collectors=collectors, handover=handover)
        has(service, "allocd_allocation", 1)
        taken = lambda: tuple(service.figure(f'allocd_targets_taken{{job="{job}"}}') for job in "nm")
        given = lambda: tuple(service.figure(f'allocd_targets_covered{{job="{job}"}}') for job in "nm")
        tell(f"{handover}: what is given is not taken before lists are asked for", (given(), taken()) == ((4, 2), (0, 0)), (given(), taken()))
        ask_both = lambda jobs: [held(service, job, name) for job in jobs for name in "ab"]
        ask_both("n")
        tell(f"{handover}: then it is, job by job where lists are served in order", taken() == ((4, 0) if handover == "ordered" else (4, 2)), taken())
        ask_both("m")
        tell(f"{handover}: and all of it once all lists are", taken() == (4, 2), taken())
        reloaded(service, config([static("n", 5), static("m", 2, 9500)], collectors=collectors, handover=handover))
        has(service, 'allocd_targets_covered{job="n"}', 5)
        tell(f"{handover}: what came since is not", (given(), taken()) == ((5, 2), (4, 2)), (given(), taken()))
        ask_both("nm")
        tell(f"{handover}: until lists are asked for again", taken() == (5, 2), taken())
        had = [len(held(service, job)) for job in "nm"]
        service.ask("POST", "/collectors/1/drain", {})
        has(service, 'allocd_collector_targets{collector="a"}', 0)
        tell(f"{handover}: what moved is not", (given(), taken()) == ((5, 2), (5 - had[0], 2 - had[1])) and 0 < sum(had) < 7, (had, taken()))
        ask_both("nm")
        ask_both("nm")
        tell(f"{handover}: until its new collector has it", taken() == (5, 2), taken())
        ends(service)


def figures(folder):
    service = started(folder, [static("n", 4)])
    has(service, 'allocd_targets_covered{job="n"}', 4)
    for _ in range(2):
        service.ask("POST", "/collectors", {"name": "b", "reach": ANY})
    for _ in range(3):
        service.ask("GET", "/jobs/n/targets?collector_id=a")
    number = service.figure("allocd_allocation")
    for _ in range(2):
        service.ask("POST", "/reports", {"collector": 1, "number": number, "target": 0, "round": 1, "up": True, "samples": 7})
    service.ask("GET", "/nothing")
    counted = lambda: {name: service.figure(name) for name in COUNTED}
    same = comes(lambda: counted() == COUNTED, 5)
    tell("events, requests, samples and targets are counted", same, "" if same else counted())
    asked = [service.figure(f'allocd_collector_last_take_timestamp_seconds{{collector="{name}"}}') for name in "ab"]
    tell("and when each collector asked last", time.time() - 60 < asked[0] <= time.time() and asked[1] == 0, asked)
    first = lines_of(f"{folder}/journal").index(b"\n") + 1
    bytes_written = lambda: len(lines_of(f"{folder}/journal")) - first
    tell("so are the bytes of the journal", comes(lambda: service.figure("allocd_journal_written_bytes_total") == bytes_written(), 5))
    before = bytes_written()
    for path in READ_ONLY:
        service.ask("GET", path)
    tell("and what only reads enters nothing", bytes_written() == before == service.figure("allocd_journal_written_bytes_total"))
    looks = [service.ask(method, f"/jobs/n/targets?collector_id=b{look}")[0] for method, look in (("GET", "&take=false"), ("HEAD", ""))]
    service.ask("POST", "/collectors/1/drain", {})
    new = lines_of(f"{folder}/journal")[first + before :]
    tell("nor does who only looks at a list that nobody asked for yet", looks == [200, 200] and b'"drain"' in new and b'"serve"' not in new and b'"take"' not in new, (looks, new))
    tell("a drained collector is emptied, and the figures say how", has(service, 'allocd_collector_targets{collector="b"}', 4))
    moved = [service.figure(name) for name in ("allocd_allocation_moved", "allocd_allocation_left", 'allocd_collector_draining{collector="a"}')]
    tell("how many moved, how many are left, and who drains", moved == [4, 0, 1], moved)
    ends(service)


# What a history of joins, lists, reports and departures comes to: each figure of the page by its name and labels. A number is its value, 0 where a family of
# `ALL_ELSE` has a sample that is not here; else what is told of it is looked at by `every_figure`.
HISTORY = {
    'allocd_targets{job="n"}': 5, 'allocd_targets{job="m"}': 2, 'allocd_targets{job="u"}': 1,
    'allocd_targets_covered{job="n"}': 5, 'allocd_targets_covered{job="m"}': 2,
    'allocd_targets_uncovered{job="u"}': 1,
    'allocd_targets_handing_over{job="n"}': 5, 'allocd_targets_handing_over{job="m"}': 2,
    'allocd_collector_targets{collector="b"}': 4, 'allocd_collector_targets{collector="c"}': 3,
    'allocd_collector_draining{collector="b"}': 1,
    "allocd_targets_waited_for_left": 7,
    "allocd_round": 1, "allocd_allocation_moved": 3, "allocd_allocation_left": 4,
    "allocd_samples_booked_total": 12,
    'allocd_events_total{event="discover",answer="Discovered"}': 3,
    'allocd_events_total{event="join",answer="Joined"}': 3, 'allocd_events_total{event="join",answer="AlreadyJoined"}': 1,
    'allocd_events_total{event="leave",answer="Left"}': 1, 'allocd_events_total{event="leave",answer="UnknownCollector"}': 1,
    'allocd_events_total{event="drain",answer="Draining"}': 1, 'allocd_events_total{event="drain",answer="AlreadyDraining"}': 1,
    'allocd_events_total{event="limits",answer="LimitsSet"}': 1,
    'allocd_events_total{event="serve",answer="Served"}': 3, 'allocd_events_total{event="release",answer="UnknownCollector"}': 1,
    'allocd_events_total{event="report",answer="Booked"}': 3, 'allocd_events_total{event="report",answer="AlreadyBooked"}': 1,
    'allocd_events_total{event="report",answer="UnknownCollector"}': 1, 'allocd_events_total{event="report",answer="NotTaken"}': 2,
    'allocd_events_total{event="report",answer="RoundNotOpen"}': 1,
    'allocd_events_refused_total{event="join"}': 1, 'allocd_events_refused_total{event="leave"}': 1, 'allocd_events_refused_total{event="drain"}': 1,
    'allocd_events_refused_total{event="release"}': 1, 'allocd_events_refused_total{event="report"}': 5,
    'allocd_source_targets{job="m",source="m/1"}': 2, 'allocd_source_targets_dropped{job="m",source="m/1"}': 1, 'allocd_source_targets_without_address{job="m",source="m/1"}': 1,
    'allocd_refresh_failures_total{source="m/1"}': 0, 'allocd_refresh_last_success_timestamp_seconds{job="m",source="m/2"}': 0,
    "allocd_config_last_reload_successful": 1, "allocd_journal_broken": 0, "allocd_http_connections": 4, "allocd_http_connections_max": 64,
    "allocd_http_connections_turned_away_total": 0, "allocd_http_accept_failures_total": 0, "allocd_log_lines_lost_total": 0,
}
ALL_ELSE = ("allocd_events_refused_total", "allocd_targets_covered", "allocd_targets_uncovered", "allocd_targets_handing_over", "allocd_targets_taken", "allocd_collector_targets",
            "allocd_collector_draining", "allocd_collector_taken_allocation", "allocd_collector_waited_for", "allocd_reports_up", "allocd_reports_down", "allocd_reports_missing",
            "allocd_source_targets", "allocd_source_targets_dropped", "allocd_source_targets_without_address")
# Of which route a request of the history is.
ROUTES = {
    ("GET", "/jobs/n/targets?collector_id=a"): "/jobs/{job}/targets?collector_id", ("GET", "/jobs/m/targets?collector_id=a"): "/jobs/{job}/targets?collector_id",
    ("GET", "/jobs/n/targets?collector_id=b"): "/jobs/{job}/targets?collector_id",
    ("POST", "/collectors"): "POST /collectors", ("DELETE", "/collectors/1"): "DELETE /collectors/{id}", ("DELETE", "/collectors/77"): "DELETE /collectors/{id}",
    ("POST", "/collectors/2/drain"): "POST /collectors/{id}/drain", ("POST", "/collectors/77/release"): "POST /collectors/{id}/release",
    ("PUT", "/collectors/1/limits"): "PUT /collectors/{id}/limits", ("POST", "/reports"): "POST /reports", ("GET", "/nothing"): "none",
    ("GET", "/metrics"): "/metrics", ("GET", "/-/healthy"): "/-/healthy", ("GET", "/-/ready"): "/-/ready", ("GET", "/jobs"): "/jobs", ("GET", "/"): "/",
    ("GET", "/scrape_configs"): "/scrape_configs", ("GET", "/jobs/n/targets"): "/jobs/{job}/targets", ("GET", "/jobs/n/uncovered"): "/jobs/{job}/uncovered",
    ("GET", "/allocations"): "/allocations", ("GET", "/certificate"): "/certificate",
}


class Counting(Service):
    """A service that is asked, and how it answered: how often by route and status."""

    def __init__(self, *words):
        self.answered = collections.Counter()
        super().__init__(*words)

    def ask(self, method, path, body=None):
        status, text = super().ask(method, path, body)
        if status is not None:
            self.answered[ROUTES[method, path], status] += 1
        return status, text


def history(service):
    """What the figures of HISTORY come of. Gives when targets came to be handed over."""
    for job in "nm":
        service.ask("GET", f"/jobs/{job}/targets?collector_id=a")
    searched = lambda number: has(service, "allocd_reallocations_total", number)
    first, searches = service.figure("allocd_allocation"), service.figure("allocd_reallocations_total")
    report = {"collector": 1, "number": first, "target": 0, "round": 1, "up": True, "samples": 7}
    for more in ({}, {}, {"collector": 9}, {"target": 99}, {"target": 1, "round": 5}, {"target": 1, "number": 99}, {"target": 1, "samples": 5}):
        service.ask("POST", "/reports", {**report, **more})
    service.ask("POST", "/reports", {**report, "target": 2, "up": False, "samples": 0})
    for _ in range(2):
        service.ask("POST", "/collectors", {"name": "b", "reach": MOST})
    # the search that follows a join changes nothing, since all that b reaches is held
    searched(searches + 1)
    before = time.time()
    service.ask("PUT", "/collectors/1/limits", {"limits": {"n": 3}})
    searched(searches + 2)
    has(service, 'allocd_collector_targets{collector="b"}', 2)
    waits = [service.figure(name) for name in ('allocd_targets_handing_over{job="n"}', 'allocd_collector_waited_for{collector="a"}', 'allocd_targets_taken{job="n"}')]
    tell("what another list still has is handed over, and who has it is waited for", waits == [2, 2, 3], waits)
    service.ask("GET", "/jobs/n/targets?collector_id=b")
    after = time.time()
    service.ask("DELETE", "/collectors/1")
    has(service, 'allocd_collector_targets{collector="b"}', 7)
    searched(searches + 3)
    service.ask("POST", "/collectors", {"name": "c", "reach": MOST, "limits": {"n": 1}})
    searched(searches + 4)
    for _ in range(2):
        service.ask("POST", "/collectors/2/drain", {})
    has(service, 'allocd_collector_targets{collector="c"}', 3)
    for method, path in (("DELETE", "/collectors/77"), ("POST", "/collectors/77/release"), ("GET", "/nothing")):
        service.ask(method, path)
    return before, after


def samples_of(text):
    """The samples of a page by name and labels, and the kinds of its families."""
    samples = {name: float(value) for name, value in re.findall(r"^([^#\s]\S*(?:\{.*\})?) (\S+)$", text, re.M)}
    return samples, dict(re.findall(r"^# TYPE (\S+) (\S+)$", text, re.M))


def family_of(name, kinds):
    """The family of a sample."""
    bare = name.partition("{")[0]
    return bare if bare in kinds else re.sub("_(bucket|sum|count)$", "", bare)


MOST = [{"allow": False, "label": "job", "test": "equals", "value": "u"}, *ANY]


def every_figure(folder):
    """Each figure after a known history has the value that follows from it, and there is none that no row knows."""
    Source.lists["/figures"] = [f"127.0.0.1:{port}" for port in (7001, 7002, 7003, 7004)]
    rules = [{"action": "drop", "source_labels": ["__address__"], "regex": ".*:7001"}, {"target_label": "__address__", "source_labels": ["__address__"], "regex": ".*:7002", "replacement": ""}]
    jobs = [static("n", 5), {"job_name": "m", "http_sd_configs": [url("/figures", "300ms"), url("/none", "300ms", port=1)], "relabel_configs": rules}, static("u", 1, 9500)]
    begun = int(time.time())
    service = Counting(folder, config(jobs, rejoin=False, connections=64, collectors=[{"name": "a", "reach": MOST}]), f"{folder}/journal")
    service.is_up()
    up = time.time()
    comes(lambda: service.ask("GET", "/-/ready")[0] == 200, 20)
    has(service, 'allocd_targets_covered{job="m"}', 2)
    handed_over = history(service)
    idle = [socket.create_connection(("127.0.0.1", service.port), timeout=10) for _ in range(3)]
    # Connections that were closed go within a moment, and events are counted before they are in the file. A request for the figures is itself
    # counted once it is answered.
    end = time.monotonic() + 10
    while True:
        counted, asked = dict(service.answered), len(Source.asked["/figures"])
        samples, kinds = samples_of(service.ask("GET", "/metrics")[1])
        is_still = samples["allocd_http_connections"] == 4 and samples["allocd_journal_written_bytes_total"] == len(lines_of(f"{folder}/journal")) - first_line(folder)
        if is_still or time.monotonic() > end:
            break
    now, asked_then = time.time(), len(Source.asked["/figures"])
    replays, told, _ = replayed(f"{folder}/journal")
    done = collections.Counter((event["event"], answer.partition(" ")[0]) for event, answer in told)
    # What is found may be given out a part after the other, and b took its list of the last allocation but two. A search that changes nothing
    # has an entry of the journal, and is no event that is told.
    published = int([answer for _, answer in told if answer.startswith("Published ")][-1].split()[1])
    expected = {
        **{f'allocd_http_requests_total{{route="{route}",status="{status}"}}': count for (route, status), count in counted.items()}, **HISTORY,
        "allocd_allocation": published, 'allocd_events_total{event="install",answer="Published"}': published, "allocd_reallocations_total": published + 2,
        'allocd_collector_taken_allocation{collector="b"}': published - 2, "allocd_journal_entries": len(told) + sum(count for name, count in HISTORY.items() if name.startswith("allocd_events_refused_total")) + 2,
    }
    near = lambda low, high: lambda value: low <= value <= high
    looks = {
        'allocd_refreshes_total{source="m/1"}': near(asked - 1, asked_then), "process_start_time_seconds": near(begun, up), "allocd_config_last_reload_success_timestamp_seconds": near(begun, up),
        'allocd_refresh_last_success_timestamp_seconds{job="m",source="m/1"}': near(now - 20, now), "allocd_targets_handing_over_since_seconds": near(int(handed_over[0]), handed_over[1]),
        'allocd_collector_last_take_timestamp_seconds{collector="b"}': near(int(handed_over[0]), handed_over[1]), 'allocd_collector_last_take_timestamp_seconds{collector="c"}': near(0, 0),
        'allocd_refreshes_total{source="m/2"}': near(2, 5 * (now - begun)), 'allocd_refresh_failures_total{source="m/2"}': lambda value: value == samples['allocd_refreshes_total{source="m/2"}'],
        "allocd_journal_written_bytes_total": lambda value: value == len(lines_of(f"{folder}/journal")) - first_line(folder),
        f'allocd_build_info{{version="{run(["--version"])[1].decode().split()[1]}"}}': near(1, 1),
        # of the time of processors the first look may be at none
        **{f"process_{name}": near(name != "cpu_seconds_total", 1e15) for name in PROCESS},
    }
    wrong = {name: value for name, value in samples.items() if kinds[family_of(name, kinds)] != "histogram" and not figure_holds(name, value, family_of(name, kinds), expected, looks)}
    tell("each figure has the value that follows, and there is none that no row knows", not wrong, {name: (value, expected.get(name)) for name, value in wrong.items()})
    missing = (set(expected) | set(looks)) - set(samples) - {f"process_{name}" for name in PROCESS}
    tell("each of them is there", not missing, missing)
    done_then = {(event, answer): samples.get(f'allocd_events_total{{event="{event}",answer="{answer}"}}') for event, answer in done}
    tell("the events that were done are those of the journal", replays == 0 and done_then == done, (done_then, done))
    all_events = sum(value for name, value in samples.items() if name.startswith("allocd_events_total{"))
    tell("and all of them, those that were refused too, its entries", all_events + 2 == samples["allocd_journal_entries"], all_events)
    of_routes = collections.Counter()
    for (route, _), count in counted.items():
        of_routes[route] += count
    took = {route: samples[f'allocd_http_request_duration_seconds_count{{route="{route}"}}'] for route in of_routes}
    tell("how long each request took is told by route", took == dict(of_routes), (took, of_routes))
    sums = [samples[f"{name}_sum{labels}"] for name, labels in (("allocd_journal_write_duration_seconds", ""), ("allocd_reallocation_duration_seconds", ""), ("allocd_http_request_duration_seconds", '{route="POST /reports"}'))]
    tell("times are of what there was", all(0 < value < now - begun for value in sums) and samples["allocd_reallocation_duration_seconds_count"] == published + 2 and 0 < samples["allocd_journal_write_duration_seconds_count"] <= len(told) + 1, sums)
    pages = {path: service.ask("GET", path)[1] for path in READ_ONLY}
    again = samples_of(service.ask("GET", "/metrics")[1])[0]
    moves_by_itself = ("allocd_http_", "allocd_refresh", "process_", "allocd_log_")
    changed = {name: (samples.get(name), value) for name, value in again.items() if samples.get(name) != value and not name.startswith(moves_by_itself)}
    tell("a page that is read changes no figure but those of requests", not changed, changed)
    foot = re.search(r"; (\d+) refreshes of sources, (\d+) in vain; (\d+) reallocations; (\d+) samples booked", pages["/"])
    told = [int(number) for number in foot.groups()]
    asked = [[sum(value for name, value in of.items() if name.startswith(f"allocd_refresh{what}_total")) for of in (samples, again)] for what in ("es", "_failures")]
    holds = all(low - 1 <= number <= high + 1 for number, (low, high) in zip(told, asked)) and told[2:] == [samples["allocd_reallocations_total"], samples["allocd_samples_booked_total"]]
    tell("the foot of the page has the same", holds, (told, asked))
    for it in idle:
        it.close()
    service.it.kill()
    service.ended()


def half_sent(service):
    """A connection with a request whose body does not end."""
    it = socket.create_connection(("127.0.0.1", service.port), timeout=30)
    it.sendall(post(b"/collectors", b"{", 1000))
    return it


def turned_away(folder):
    """Who finds no place is answered so, and counted."""
    service = Service(folder, config([static("n", 1)], connections=64))
    service.is_up()
    held = [half_sent(service) for _ in range(64)]

    told = []

    def is_told():
        answer = service.ask("GET", "/jobs")
        if answer == (503, '{"refused":"Busy"}'):
            told.append(answer)
        else:
            # (one whose head had not been read yet counted as idle and gave its place up, or one that took a last place was cut)
            held.append(half_sent(service))
        return len(told) == 2

    tell("where each place has a body that does not end a further client is told so", comes(is_told, 15), told)
    for it in held:
        it.close()
    counted = comes(lambda: (service.figure("allocd_http_connections_turned_away_total") or 0) >= 2)
    tell("and counted", counted, service.figure("allocd_http_connections_turned_away_total"))
    ends(service)


def first_line(folder):
    """How many bytes the first line of a journal has."""
    return lines_of(f"{folder}/journal").index(b"\n") + 1


def figure_holds(name, value, family, expected, looks):
    """Whether a figure is what it is to be."""
    if name in looks:
        return looks[name](value)
    if name in expected:
        return value == expected[name]
    return value == 0 and (family in ALL_ELSE or family == "allocd_http_requests_total")


def post(path, body, length=None, more=b"", method=b"POST"):
    """A request with a body, on a connection that it ends. `length`: what its head says of it."""
    length = len(body) if length is None else length
    head = method + b" " + path + b" HTTP/1.1\r\nhost: localhost\r\ncontent-type: application/json\r\nconnection: close\r\n"
    return head + more + b"content-length: %d\r\n\r\n" % length + body


JOIN = b'{"name":"a","reach":[]}'

# What a stranger does, what it sends, what it does then, and how all that comes back begins and ends. All but one say that the connection is to be
# closed, or are cut.
TALKS = [
    ("two requests in one segment", b"GET /certificate HTTP/1.1\r\nhost: localhost\r\n\r\nGET /jobs HTTP/1.1\r\nhost: localhost\r\nconnection: close\r\n\r\n",
     "reads", b"HTTP/1.1 200 OK\r\ncontent-type: application/json\r\n", b'\r\n\r\n{"j":{"_link":"/jobs/j/targets"}}'),
    ("a head of more than a MiB", b"GET /jobs HTTP/1.1\r\nhost: localhost\r\nx: " + b"x" * 1048576, "reads", b"HTTP/1.1 431 ", b'{"refused":"Request"}'),
    ("a target that is as long", b"GET /" + b"x" * 1048576, "reads", b"HTTP/1.1 4", b'{"refused":"Request"}'),
    ("no host", b"GET /jobs HTTP/1.1\r\n\r\n", "reads", b"HTTP/1.1 400 Bad Request\r\n", b'{"refused":"Request"}'),
    ("no request", b"\x01\x02\r\n\r\n", "reads", b"HTTP/1.1 400 Bad Request\r\n", b'{"refused":"Request"}'),
    ("a reset in mid-body", post(b"/collectors", b"{" + b"x" * 100, 1000, b"expect: 100-continue\r\n"), "leaves", b"", b""),
    ("a length that promises more than comes", post(b"/collectors", JOIN, 100), "ends", b"HTTP/1.1 400 Bad Request\r\n", b'\r\n\r\n{"refused":"Shape"}'),
    ("a length that promises less", post(b"/collectors", JOIN, 22), "reads", b"HTTP/1.1 400 Bad Request\r\n", b'\r\n\r\n{"refused":"Shape"}'),
    ("the longest body, which is no JSON", post(b"/collectors", b"x" * 1048576), "reads", b"HTTP/1.1 400 Bad Request\r\n", b'\r\n\r\n{"refused":"Shape"}'),
    ("one byte more", post(b"/collectors", b"x" * 1048577), "reads", b"HTTP/1.1 413 Payload Too Large\r\n", b'\r\n\r\n{"refused":"TooLong"}'),
    ("limits of a collector that is not there", post(b"/collectors/9/limits", b'{"limits":{}}', method=b"PUT"), "reads", b"HTTP/1.1 404 Not Found\r\n", b'\r\n\r\n{"refused":"UnknownCollector"}'),
    ("limits that are none", post(b"/collectors/9/limits", b'{"limits":[]}', method=b"PUT"), "reads", b"HTTP/1.1 400 Bad Request\r\n", b'\r\n\r\n{"member":"limits","refused":"Shape"}'),
    ("a chunked body", b"POST /collectors HTTP/1.1\r\nhost: localhost\r\ncontent-type: application/json\r\nconnection: close\r\ntransfer-encoding: chunked\r\n\r\n"
     b'8\r\n{"name":\r\nf\r\n"a","reach":[]}\r\n0\r\n\r\n', "reads", b"HTTP/1.1 200 OK\r\n", b'\r\n\r\n{"answer":"Joined 1"}'),
    ("a drain", post(b"/collectors/1/drain", b""), "reads", b"HTTP/1.1 200 OK\r\n", b'\r\n\r\n{"answer":"Draining"}'),
    ("drained twice", post(b"/collectors/1/drain", b""), "reads", b"HTTP/1.1 409 Conflict\r\n", b'\r\n\r\n{"refused":"AlreadyDraining"}'),
    ("a release", post(b"/collectors/1/release", b""), "reads", b"HTTP/1.1 200 OK\r\n", b'\r\n\r\n{"answer":"Released 0"}'),
    ("a release of a collector that is not there", post(b"/collectors/9/release", b""), "reads", b"HTTP/1.1 404 Not Found\r\n", b'\r\n\r\n{"refused":"UnknownCollector"}'),
    ("a release by another method", post(b"/collectors/1/release", b"", method=b"GET"), "reads",
     b"HTTP/1.1 405 Method Not Allowed\r\ncontent-type: application/json\r\nx-content-type-options: nosniff\r\nallow: POST\r\n", b'\r\n\r\n{"refused":"Method"}'),
    ("a release of a name that nobody had", post(b"/collectors/z/release", b""), "reads", b"HTTP/1.1 404 Not Found\r\n", b'\r\n\r\n{"refused":"UnknownCollector"}'),
    ("limits that are all of its own", post(b"/collectors/1/limits", b'{"limits":{}}', method=b"PUT"), "reads", b"HTTP/1.1 200 OK\r\n", b'\r\n\r\n{"answer":"LimitsSet"}'),
]


HTML = b"content-type: text/html; charset=utf-8\r\nx-content-type-options: nosniff\r\n"
JSON = b"content-type: application/json\r\nx-content-type-options: nosniff\r\n"
REPORT = b'{"collector":1,"number":1,"target":0,"round":1,"up":true,"samples":9}'
GROUP = b'{"labels":{"__meta_allocator_target":"0","__metrics_path__":"/metrics","__scheme__":"http","instance":"e1:9100","job":"j","zone":"east"},"targets":["e1:9100"]}'
# Requests in order, to a service of a job that nobody holds a target of: method, path, body, and how the answer begins, and its body, or its end.
ROWS = [
    ("GET", "/x", b"", b"404 Not Found\r\n", b'\r\n\r\n{"refused":"NoRoute"}'),
    ("POST", "/jobs", b"", b"405 Method Not Allowed\r\n" + JSON + b"allow: GET, HEAD\r\n", b'\r\n\r\n{"refused":"Method"}'),
    ("DELETE", "/collectors/z", b"", b"404 Not Found\r\n", b'\r\n\r\n{"refused":"UnknownCollector"}'),
    ("GET", "/jobs/%FF/targets", b"", b"400 Bad Request\r\n", b'\r\n\r\n{"refused":"Shape"}'),
    ("GET", "/jobs/k/targets?collector_id=a", b"", b"404 Not Found\r\n", b'\r\n\r\n{"refused":"UnknownJob"}'),
    ("GET", "/jobs/j/targets?collector_id=a", b"", b"404 Not Found\r\n", b'\r\n\r\n{"refused":"UnknownCollector"}'),
    ("POST", "/collectors", JOIN, b"200 OK\r\n", b'\r\n\r\n{"answer":"Joined 1"}'),
    ("POST", "/collectors", JOIN, b"409 Conflict\r\n", b'\r\n\r\n{"refused":"AlreadyJoined 1"}'),
    ("GET", "/jobs/j/targets?collector_id=a", b"", b"200 OK\r\n", b"\r\n\r\n[]"),
    ("POST", "/collectors/1/drain", b"\xff{", b"200 OK\r\n", b'\r\n\r\n{"answer":"Draining"}'),
    ("GET", "/jobs", b"", b"200 OK\r\n", b'\r\n\r\n{"j":{"_link":"/jobs/j/targets"}}'),
    ("GET", "/certificate", b"", b"200 OK\r\n", b'"reach":[],"version":2}'),
    ("GET", "/jobs/j/uncovered", b"", b"200 OK\r\n" + JSON, b'\r\n\r\n{"full":[],"handing_over":[],"unreached":[]}'),
    ("GET", "/jobs/k/uncovered", b"", b"404 Not Found\r\n", b'\r\n\r\n{"refused":"UnknownJob"}'),
    ("GET", "/", b"", b"200 OK\r\n" + HTML, b"</body>\n</html>\n"),
    ("POST", "/-/reload", b"", b"403 Forbidden\r\ncontent-type: text/plain; charset=utf-8\r\nx-content-type-options: nosniff\r\n", b"\r\n\r\nThe lifecycle API is not enabled.\n"),
    ("DELETE", "/collectors/1", b"\xff{", b"200 OK\r\n", b'\r\n\r\n{"answer":"Left"}'),
]
# To a service whose one target is held by its collector 1, `h`.
HELD_ROWS = [
    ("GET", "/jobs/j/targets?collector_id=h", b"", b"200 OK\r\n" + JSON + b"vary: accept\r\nx-allocation-number: 1\r\nx-scrape-round: 1\r\n", b"\r\n\r\n[" + GROUP + b"]"),
    ("GET", "/jobs/j/targets", b"", b"200 OK\r\n" + JSON,
     b'\r\n\r\n{"h":{"_link":"/jobs/j/targets?collector_id=h","targets":[' + GROUP + b"]}}"),
    ("GET", "/certificate", b"", b"200 OK\r\n" + JSON,
     b'\r\n\r\n{"before":[],"bin_prices":[0],"bins":[1],"draining":[],"item_prices":[6],"pairs":[[0,0]],"reach":[[0]],"version":2}'),
    ("POST", "/reports", REPORT, b"200 OK\r\n", b'\r\n\r\n{"answer":"Booked"}'),
    ("POST", "/reports", REPORT, b"409 Conflict\r\n", b'\r\n\r\n{"refused":"AlreadyBooked"}'),
    ("PUT", "/collectors/1/limits", b'{"limits":{"j":1}}', b"200 OK\r\n", b'\r\n\r\n{"answer":"LimitsSet"}'),
    ("DELETE", "/collectors/1", b"", b"200 OK\r\n", b'\r\n\r\n{"answer":"Left"}'),
    ("GET", "/jobs/j/targets?collector_id=h", b"", b"200 OK\r\n", b"\r\n\r\n[]"),
]


def goes(port, sent, then, begins, ends_with):
    """Whether a talk goes as it says."""
    it = socket.create_connection(("127.0.0.1", port), timeout=30)
    try:
        it.sendall(sent)
    except OSError:
        pass
    if then == "leaves":
        came = it.recv(1, socket.MSG_PEEK)
        it.close()
        return came == b"H"
    if then == "ends":
        it.shutdown(socket.SHUT_WR)
    came = b""
    while True:
        more = it.recv(65536)
        if not more:
            break
        came += more
    it.close()
    return came.startswith(begins) and came.endswith(ends_with)


def talks(folder):
    service = Service(folder, config([{"job_name": "j", "target_limit": 1}], collectors=[]), f"{folder}/journal")
    service.is_up()
    for what, sent, then, begins, ends_with in TALKS:
        tell(f"a stranger: {what}", goes(service.port, sent, then, begins, ends_with))
    ends(service)


def are_answered(port, rows):
    """Each row over a connection of its own."""
    for method, path, body, begins, ends_with in rows:
        sent = post(path.encode(), body, method=method.encode())
        tell(f"{method} {path}: {begins.decode().split(chr(13))[0]}", goes(port, sent, "reads", b"HTTP/1.1 " + begins, ends_with))


def requests(folder):
    service = Service(folder, config([{"job_name": "j", "target_limit": 1}], collectors=[], lifecycle=False), f"{folder}/journal")
    service.is_up()
    are_answered(service.port, ROWS)
    service.it.kill()
    service.it.wait(20)


LIFECYCLES = ((True, 200, 200), (False, 403, 403), ({"reload": True, "quit": False}, 200, 403), ({"quit": True}, 403, 200), ({}, 403, 403))


def lifecycles(folder):
    for index, (lifecycle, reload, quit) in enumerate(LIFECYCLES):
        inner = f"{folder}/{index}"
        os.mkdir(inner)
        service = started(inner, [static("n", 1)], lifecycle=lifecycle)
        answered = [reload_told(service), service.ask("POST", "/-/quit")[0]]
        tell(f"lifecycle {json.dumps(lifecycle)}: reload {reload}, quit {quit}", answered == [reload, quit], answered)
        if quit != 200:
            service.it.kill()
        service.it.wait(20)


def held_rows(folder):
    job = {"job_name": "j", "target_limit": 1, "static_configs": [{"targets": ["e1:9100"], "labels": {"zone": "east"}}]}
    service = started(folder, [job], collectors=[{"name": "h", "reach": ANY}], rejoin=False)
    has(service, "allocd_allocation", 1)
    are_answered(service.port, HELD_ROWS)
    ends(service)


def stalls(folder):
    """A body that does not come holds no reload for longer than an exchange may go on once the server ends."""
    service = started(folder, [static("a", 3)])
    with socket.create_connection(("127.0.0.1", service.port)) as stranger:
        stranger.sendall(post(b"/collectors", b"{", 1000))
        time.sleep(0.3)
        begun = time.monotonic()
        tell("a reload beside a body that does not come", reloaded(service, config([static("a", 3), static("b", 1)])) == 200)
        follows = comes(lambda: "b" in json.loads(service.ask("GET", "/jobs")[1]), 30)
        took = time.monotonic() - begun
        tell("it is followed within 15 seconds", follows and took < 15, f"{took:.1f} seconds")
    ends(service)


def logged_at(folder, what):
    """When the log tells of something for the first time, in seconds of the day, or None."""
    with open(f"{folder}/log") as it:
        found = re.search(rf"^ts=\S+T(\d+):(\d+):(\S+)Z .*{what}", it.read(), re.M)
    return found and 3600 * int(found[1]) + 60 * int(found[2]) + float(found[3])


def settles(folder):
    """Changes are gathered for as long as `settle` says, from the first one on, also where it was read again."""
    service = started(folder, [static("n", 2)])
    has(service, "allocd_allocation", 1)
    reloaded(service, config([static("n", 2)], settle="2s"))
    comes(lambda: service.ask("GET", "/-/ready")[0] == 200, 20)
    began = time.time() % 86400
    for _ in range(2):
        service.ask("PUT", "/collectors/1/limits", {"limits": {"n": 1}})
        time.sleep(0.7)
    has(service, "allocd_allocation", 2)
    took = (logged_at(folder, "allocation=2 ") - began) % 86400
    tell("it reallocates so long after the first change", 1.8 < took < 2.6, f"{took:.2f} seconds")
    ends(service)


def absent_over_reloads(folder):
    """Who asks for nothing leaves, however often the configuration is read again meanwhile."""
    settings = lambda turn: config([static("n", 2)], collector_timeout="3s", settle=f"{50 + turn}ms")
    service = Service(folder, settings(0), f"{folder}/journal")
    service.is_up()
    service.ask("POST", "/collectors", {"name": "b", "reach": ANY})
    for name in "ab":
        service.ask("GET", f"/jobs/n/targets?collector_id={name}")
    joined = lambda: [it["name"] for it in json.loads(service.ask("GET", "/collectors")[1] or "[]")]
    turn, end = 0, time.monotonic() + 25
    while time.monotonic() < end and joined() != ["a"]:
        turn += 1
        service.ask("GET", "/jobs/n/targets?collector_id=a")
        reloaded(service, settings(turn))
        time.sleep(0.4)
    tell("who asked is there, and who did not has left", joined() == ["a"] and turn > 3, (joined(), turn))
    ends(service)
    told = [event["event"] for event, _ in replayed(f"{folder}/journal")[1] if event.get("collector") == 2]
    tell("after it was drained", [kind for kind in told if kind in ("drain", "leave")] == ["drain", "leave"], told)


def many_ids(folder):
    """A collector is one whatever its number."""
    service = started(folder, [static("n", 1)])
    it = http.client.HTTPConnection("127.0.0.1", service.port, timeout=30)

    def ask(method, path, body=None):
        it.request(method, path, body=body and json.dumps(body), headers={"content-type": "application/json"})
        answer = it.getresponse()
        return answer.status, json.loads(answer.read())

    joined = [ask("POST", "/collectors", {"name": "b", "reach": []})[1].get("answer") == f"Joined {number}" and ask("DELETE", f"/collectors/{number}")[0] == 200 for number in range(2, 1032)]
    tell("1,030 join and leave, one after the other", all(joined), joined.count(False))
    ask("POST", "/collectors", {"name": "b", "reach": ANY})
    told = [ask(*words) for words in (("PUT", "/collectors/1032/limits", {"limits": {"n": 1}}), ("POST", "/collectors/1032/drain", {}), ("POST", "/collectors/1032/release", {}), ("DELETE", "/collectors/1032"))]
    tell("to the next happens what is asked", told == [(200, {"answer": answer}) for answer in ("LimitsSet", "Draining", "Released 0", "Left")], told)
    it.close()
    ends(service)


def rounds(folder):
    service = started(folder, [static("n", 1)], interval="1s")
    first, began = service.figure("allocd_round"), time.monotonic()
    time.sleep(4)
    opened, passed = service.figure("allocd_round") - first, time.monotonic() - began
    tell("a round opens each scrape_interval", abs(opened - passed) <= 1.5, f"{opened} in {passed:.1f} seconds")
    ends(service)


def changes_from(service, number):
    """When another round is open than that of a number."""
    comes(lambda: service.figure("allocd_round") not in (None, number), 20)
    return time.monotonic()


def opens_after(service, journal):
    """When the round opens that follows the one which a renewal has opened."""
    comes(lambda: os.path.exists(journal) and service.ask("GET", "/-/ready")[0] == 200, 20)
    return changes_from(service, service.figure("allocd_round"))


def answer_of(service, path, headers):
    """The status, the headers and the text of an answer."""
    it = http.client.HTTPConnection("127.0.0.1", service.port, timeout=30)
    it.request("GET", path, headers=headers)
    answer = it.getresponse()
    text = answer.read().decode()
    it.close()
    return answer.status, answer.headers, text


def headers_of(service, path, accept=None):
    """The headers and the text of an answer."""
    return answer_of(service, path, {"accept": accept} if accept else {})[1:]


ROUND = 6


def rounds_kept(folder):
    """A round of 6 seconds ends when it would have, whatever comes in the midst of it."""
    one, two, three = static("a", 1), static("b", 1), static("c", 1)
    service = started(folder, [one], interval=f"{ROUND}s")
    on_time = lambda opened, last: (abs(opened - last - ROUND) < 1, f"{opened - last:.2f} seconds after the one before")
    last = changes_from(service, service.figure("allocd_round"))
    time.sleep(2)
    reloaded(service, config([one, two], interval=f"{ROUND}s"))
    opened = opens_after(service, f"{folder}/journal.1")
    tell("a renewal in the midst of a round", *on_time(opened, last))
    last += ROUND
    time.sleep(2)
    service.quit()
    service = started(folder, [one, two], interval=f"{ROUND}s")
    number = service.figure("allocd_round")
    has(service, "allocd_targets_covered{job=\"b\"}", 1)
    age = int(headers_of(service, "/jobs/b/targets?collector_id=a")[0]["x-scrape-round-age"]) / 1000
    passed = time.monotonic() - last
    tell("after a start the open round has its age", abs(age - passed) < 1, f"{age:.2f} of {passed:.2f} seconds")
    tell("a start in the midst of a round", *on_time(changes_from(service, number), last))
    last += ROUND
    time.sleep(2)
    service.quit()
    service = started(folder, [one, two, three], interval=f"{ROUND}s")
    opened = opens_after(service, f"{folder}/journal.2")
    tell("a start with another job in the midst of a round", *on_time(opened, last))
    ends(service)


LIMIT = 3


def beside_silent(folder, silent):
    """How long it took until a service was ready with three sources beside so many that take a connection and never answer, and how long at most
    one of the three was left alone then."""
    with socket.create_server(("127.0.0.1", 0)) as dumb:
        port = dumb.getsockname()[1]
        quick = [f"/quick{silent}/{i}" for i in range(3)]
        found = [url(f"/dumb{i}", "1s", port) for i in range(silent)] + [url(path, "1s") for path in quick]
        for i, path in enumerate(quick):
            Source.lists[path] = [f"127.0.0.1:{7300 + i}"]
        service = Service(folder, config([{"job_name": "n", "http_sd_configs": found}], fetch_timeout=f"{LIMIT}s"), f"{folder}/journal{silent}")
        began = time.monotonic()
        service.is_up()
        comes(lambda: service.ask("GET", "/-/ready")[0] == 200, 60)
        took = time.monotonic() - began
        time.sleep(6)
        figures = [service.figure(f'allocd_refresh_last_success_timestamp_seconds{{job="n",source="n/{i + 1}"}}') for i in range(silent + 3)]
        now = time.monotonic()
        service.it.kill()
        service.ended()
    # the second refresh of each comes after a part of its interval
    gaps = [after - before for path in quick for before, after in zip(Source.asked[path][1:], [*Source.asked[path][2:], now])]
    return took, max(gaps, default=60), figures


def changing_lists(folder):
    """The journal has each list of a source that changes all the time, and a target that stays is in memory once."""
    addresses = lambda first: [f"10.0.{i // 250}.{i % 250}:9100" for i in range(first, first + 2_048)]
    Source.lists["/changing"] = addresses(0)
    service = started(folder, [{"job_name": "n", "http_sd_configs": [url("/changing", "100ms")]}])
    memory = []
    for turn in range(30):
        Source.lists["/changing"] = addresses(turn)
        has(service, "allocd_allocation", turn + 1)
        memory.append(service.memory())
    more = memory[-1] - memory[5]
    tell("a target that stays is in memory once, however many lists have it", more < 20_000, f"{more} KB more for 24 lists of 2,048")
    ends(service)


def silences(folder):
    for silent in (1, 6):
        took, gap, figures = beside_silent(folder, silent)
        who = "a source that never answers" if silent == 1 else f"{silent} sources that never answer"
        tell(f"beside {who} others keep their second", gap < 1.6, f"{gap:.2f} seconds at most")
        tell("the service is ready after one fetch_timeout, and not their sum", LIMIT - 0.5 < took < LIMIT + 1.5, f"after {took:.2f} seconds")
        told = [figure is not None and abs(time.time() - figure) < 5 for figure in figures]
        tell("it tells when each source last gave its list", told == [False] * silent + [True] * 3 and figures[0] == 0, figures)
    with socket.create_server(("127.0.0.1", 0)) as dumb:
        jobs = [{"job_name": "n", "http_sd_configs": [url("/dumb", "1s", dumb.getsockname()[1])]}]
        service = Service(folder, config(jobs, fetch_timeout="20s"), f"{folder}/journal.silent")
        service.is_up()
        time.sleep(0.5)
        reloaded(service, config([*jobs, static("m", 2)], fetch_timeout="20s"))
        began = time.monotonic()
        tell("a reload waits for no source", has(service, 'allocd_targets{job="m"}', 2) and time.monotonic() - began < 5, f"after {time.monotonic() - began:.2f} seconds")
        began = time.monotonic()
        ends(service)
        tell("nor does the end of the service", time.monotonic() - began < 5, f"after {time.monotonic() - began:.2f} seconds")


# What `accept` says, and whether the answer is YAML.
ACCEPTS = [
    (None, False), ("*/*", False), ("application/json", False), ("application/yaml", True), ("application/x-yaml", True), ("text/yaml", True),
    ("text/html, Application/YAML; q=0.9, application/json", True), ("application/json, application/yaml", False), ("application/yamlish", False),
]


def yaml(folder):
    service = started(folder, [static("n", 2)])
    has(service, 'allocd_targets_covered{job="n"}', 2)
    for path in ("/scrape_configs", "/jobs", "/jobs/n/targets", "/jobs/n/targets?collector_id=a"):
        as_json = headers_of(service, path)[1]
        said = [(headers_of(service, path, accept), accept, is_yaml) for accept, is_yaml in ACCEPTS]
        media = lambda is_yaml: "application/yaml" if is_yaml else "application/json"
        right = all((text, headers["content-type"], headers["vary"]) == (as_json, media(is_yaml), "accept") for (headers, text), _, is_yaml in said)
        tell(f"{path} is YAML for who asks for that, in the same bytes", right)
    headers, text = headers_of(service, "/jobs/none/targets", "application/yaml")
    tell("a refusal is JSON", (headers["content-type"], headers["vary"], text) == ("application/json", None, '{"refused":"UnknownJob"}'))
    ends(service)


def own_of(groups):
    """The service's own target among a list's: what a Prometheus asks of it."""
    [own] = [group for group in groups if group["labels"]["__metrics_path__"] == "/acknowledged"]
    parameters = {label[len("__param_") :]: value for label, value in own["labels"].items() if label.startswith("__param_")}
    return own["targets"][0], parameters, own["labels"]["__scheme__"]


def lists_of_reports(folder):
    """Reports in a list are booked one after the other, each as if it had come alone."""
    journal = f"{folder}/journal"
    service = started(folder, [static("node", 6)])
    has(service, "allocd_allocation", 1)
    head = headers_of(service, "/jobs/node/targets?collector_id=a")[0]
    shared = {"collector": 1, "number": 1, "round": 1, "epoch": int(head["x-allocator-epoch"])}
    up = lambda target, samples: {"target": target, "up": True, "samples": samples}
    report = lambda reports, **other: service.ask("POST", "/reports", {**shared, "reports": reports, **other})
    status, text = report([up(0, 5), {"target": 1, "up": False}, up(0, 6), up(9, 1), up(2, 7)])
    tell("each has its answer, in order", (status, json.loads(text)) == (200, {"answers": ["Booked", "Booked", "AlreadyBooked", "NotTaken 0", "Booked"], "open": 1}), (status, text))
    tell("who reports all again is told which were booked", json.loads(report([up(0, 5), up(3, 2)])[1])["answers"] == ["AlreadyBooked", "Booked"])
    tell("an empty list is one", report([]) == (200, '{"answers":[],"open":1}'))
    tell("a list of another epoch is refused", report([up(4, 1)], epoch=shared["epoch"] + 1)[0] == 409)
    tell("a list with a fault is refused whole, with where", report([up(4, 1), {"target": 5, "up": True}]) == (400, '{"member":"reports[1].samples","refused":"Shape"}'))
    tell("of one that is too long nothing is entered", (report([up(4, 1)] * 4097)[0], json.loads(report([up(4, 1)])[1])["answers"]) == (413, ["Booked"]))
    status, text = report([up(5, 1)] * 4096)
    tell("4,096 are not too many", (status, json.loads(text)["answers"].count("AlreadyBooked")) == (200, 4095), status)
    tell("they are counted one by one", service.figure("allocd_samples_booked_total") == 5 + 7 + 2 + 1 + 1, service.figure("allocd_samples_booked_total"))
    ends(service)
    status, told, last = replayed(journal)
    booked = [event["target"] for event, answer in told if event["event"] == "report" and answer == "Booked"]
    tell("a replay answers as the service did", (status, booked) == (0, [0, 1, 2, 3, 4, 5]), booked)


def books_of(service, job):
    """How many targets of a job were reported as up and as down in the last round, and of how many nothing was reported."""
    return tuple(service.figure(f'allocd_reports_{what}{{job="{job}"}}') for what in ("up", "down", "missing"))


def books_at(service, round=None):
    """What /books tells of a round, or of the last one that is over: the status and the object."""
    status, text = service.ask("GET", "/books" if round is None else f"/books?round={round}")
    return status, json.loads(text)


def booked(round, open, *jobs):
    """The object that tells of a round: of each job its name, the collectors' numbers and names, and what is counted of each."""
    counts = lambda up, down, missing, samples: {"down": down, "missing": missing, "samples": samples, "up": up}
    rows = [{"collectors": [{**counts(*of_job), "id": id, "name": name} for id, name in collectors], "job": job, **counts(*of_job)} for job, collectors, of_job in jobs]
    return 200, {"jobs": rows, "open": open, "round": round}


def round_books(folder):
    """The figures and the books tell what was reported in the last round."""
    service = started(folder, [static("n", 4), static("m", 2)], interval="4s")
    a, gone, unknown = [(1, "a")], [(1, None)], (404, {"refused": "UnknownRound"})
    tell("before a round is over they are 0", (books_of(service, "n"), books_of(service, "m")) == ((0, 0, 0), (0, 0, 0)))
    status, told = books_at(service)
    tell("and the books have none", (status, told["jobs"], told["round"]) == (200, [], None), told)
    tell("a page says so", "<p>No round is over of which the books have a report.</p>" in seen(service, "/books")[1])
    has(service, "allocd_allocation", 1)
    last = service.figure("allocd_round")
    changes_from(service, last)
    for job in "nm":
        head = headers_of(service, f"/jobs/{job}/targets?collector_id=a")[0]
    groups = json.loads(headers_of(service, "/jobs/n/targets?collector_id=a&take=false")[1])
    numbers = [int(group["labels"]["__meta_allocator_target"]) for group in groups]
    shared = {name: int(head[f"x-{header}"]) for name, header in (("number", "allocation-number"), ("round", "scrape-round"), ("collector", "collector"))}
    reports = [{"target": numbers[0], "up": True, "samples": 3}, {"target": numbers[1], "up": True, "samples": 3}, {"target": numbers[2], "up": False}]
    answers = json.loads(service.ask("POST", "/reports", {**shared, "reports": reports})[1])["answers"]
    tell("three of six are reported", answers == ["Booked"] * 3, answers)
    changes_from(service, shared["round"])
    told = comes(lambda: books_of(service, "n") == (2, 1, 1), 2)
    tell("of a job two are up, one is down and one is missing", told, books_of(service, "n"))
    tell("of the other both are missing", books_of(service, "m") == (0, 0, 2), books_of(service, "m"))
    over = shared["round"]
    last = books_at(service)
    tell("the books tell it by job and collector", last == booked(over, over + 1, ("n", a, (2, 1, 1, 6)), ("m", a, (0, 0, 2, 0))), last)
    tell("and of the open round what is to come", books_at(service, over + 1) == booked(over + 1, over + 1, ("n", a, (0, 0, 4, 0)), ("m", a, (0, 0, 2, 0))), books_at(service, over + 1))
    page = seen(service, "/books")[0]
    rows = [[job, who, *counts] for job, counts in (("n", ["2", "1", "1", "6"]), ("m", ["0", "0", "2", "0"])) for who in ("all", "a")]
    tell("a page has the same", (page.title, page.tables["Reports"]) == (f"allocd: books of round {over}", rows), (page.title, page.tables))
    tell("its links lead somewhere, and it asks for another round", not (lost := goes_on(service, page, "/books")) and page.forms[0]["action"] == "/books" and page.inputs[0]["name"] == "round", (lost, page.inputs))
    changes_from(service, over + 1)
    tell("in the next round all are missing", comes(lambda: (books_of(service, "n"), books_of(service, "m")) == ((0, 0, 4), (0, 0, 2)), 2), books_of(service, "n"))
    told = books_at(service, over)
    tell("of an earlier round it is not known what is missing", told == booked(over, over + 2, ("n", a, (2, 1, None, 6)), ("m", a, (0, 0, None, 0))), told)
    tell("a round that is not in the books is refused", [books_at(service, it) for it in (0, over - 1, over + 4)] == [unknown] * 3)
    tell("and so is what is no round", [books_at(service, it) for it in ("", "x", "-1", "4294967296")] == [(400, {"refused": "Shape"})] * 4)
    tell("who only looks at its head is answered too", (service.ask("HEAD", "/books")[0], service.ask("POST", "/books")[0]) == (200, 405))
    varies = headers_of(service, "/books", "application/yaml")[0]
    tell("it is told as YAML too, and says so", (varies["vary"], varies["content-type"]) == ("accept", "application/yaml"), varies)
    service.ask("DELETE", "/collectors/1")
    told = books_at(service, over)[1]["jobs"]
    tell("who left stands there by its number", [[(it["id"], it["name"]) for it in row["collectors"]] for row in told] == [gone, []], told)
    ends(service)


def entity_tags(folder):
    """A list that is the same is not sent again to who shows its tag."""
    service = started(folder, [static("node", 4)])
    has(service, "allocd_allocation", 1)
    path = "/jobs/node/targets?collector_id=a"
    shows = lambda tags: answer_of(service, path, {"if-none-match": tags})
    tag = headers_of(service, f"{path}&take=false")[0]["etag"]
    tell("a list has an entity tag", re.fullmatch('"[0-9a-f]{32}"', tag or "") is not None, tag)
    status, headers, text = shows(tag)
    tell("who shows it is told that the list is the same", (status, text, headers["etag"], headers["x-allocation-number"]) == (304, "", tag, "1"), (status, text, headers.items()))
    tell("and has taken it", service.figure('allocd_collector_taken_allocation{collector="a"}') == 1)
    counted = [service.figure('allocd_http_requests_total{route="/jobs/{job}/targets?collector_id",status="%s"}' % status) for status in ("200", "304")]
    tell("it is counted as 304, and the list before as 200", counted == [1, 1], counted)
    tell("it may stand among others, and be weak", [shows(f'"x", W/{tag}')[0], shows(f'{tag},"y"')[0]] == [304, 304])
    tell("another one is none", [shows(f'"x{tag[1:]}')[0], shows(tag.strip('"'))[0], shows('"x", "y"')[0]] == [200, 200, 200])
    tell("as YAML it has none", (headers_of(service, path, "application/yaml")[0]["etag"], answer_of(service, path, {"accept": "application/yaml", "if-none-match": tag})[0]) == (None, 200))
    reloaded(service, config([static("node", 4), static("other", 2, 9100)]))
    has(service, 'allocd_targets_covered{job="other"}', 2)
    tell("a change that is not of the list leaves its tag", shows(tag)[0] == 304 or shows(tag)[1]["etag"])
    reloaded(service, config([static("node", 5), static("other", 2, 9100)]))
    has(service, 'allocd_targets_covered{job="node"}', 5)
    status, headers, text = shows(tag)
    tell("another list has another one", (status, len(json.loads(text)), headers["etag"] != tag) == (200, 5, True), (status, headers["etag"], text))
    ends(service)


def asked_again(folder):
    """A list that is asked for again is the same, to each its own, and another one once something has changed it."""
    both = [{"name": name, "reach": ANY} for name in "ab"]
    service = started(folder, [static("node", 6, target_limit=3), static("other", 4, 9100, target_limit=2)], collectors=both)
    has(service, "allocd_allocation", 1)
    told = lambda job, name: answer_of(service, f"/jobs/{job}/targets?collector_id={name}", {})
    count = lambda job, name: len(json.loads(told(job, name)[2]))
    pairs = [(job, name) for job in ("node", "other") for name in "ab"]
    first = {pair: told(*pair) for pair in pairs}
    entered = len(lines_of(f"{folder}/journal"))
    ages = [int(told("node", "a")[1]["x-scrape-round-age"])]
    again = [{pair: told(*pair) for pair in pairs} for _ in range(3)]
    time.sleep(1.1)
    ages.append(int(told("node", "a")[1]["x-scrape-round-age"]))
    tell("each job of each collector has a list of its own", len({text for _, _, text in first.values()}) == 4, first)
    tell("who asks again is told the same", all((it[pair][2], it[pair][1]["etag"]) == (first[pair][2], first[pair][1]["etag"]) for it in again for pair in pairs))
    tell("for which nothing is entered", len(lines_of(f"{folder}/journal")) == entered)
    tell("and how old the round is by then", ages[1] - ages[0] >= 1000, ages)
    head, held = first["node", "a"][1], json.loads(first["node", "a"][2])[0]["labels"]["__meta_allocator_target"]
    of = {"collector": int(head["x-collector"]), "number": int(head["x-allocation-number"]), "round": int(head["x-scrape-round"]), "epoch": int(head["x-allocator-epoch"])}
    tell("a report is booked", json.loads(service.ask("POST", "/reports", {**of, "target": int(held), "up": False})[1]) == {"answer": "Booked"})
    tell("and changes no list", all(told(*pair)[2] == first[pair][2] for pair in pairs))
    service.ask("PUT", "/collectors/1/limits", {"limits": {"node": 2}})
    tell("a list that is limited is another one", comes(lambda: count("node", "a") == 2, 20), count("node", "a"))
    tell("and the others stay", [count(*pair) for pair in pairs] == [2, 3, 2, 2], [count(*pair) for pair in pairs])
    service.ask("DELETE", "/collectors/2")
    tell("who has left has an empty list at once", (told("node", "b")[0], told("node", "b")[2]) == (200, "[]"), told("node", "b"))
    ends(service)


def acknowledge(folder):
    job = 'node/"a b"&c=+é'
    path = f"/jobs/{urllib.parse.quote(job, safe='')}/targets?collector_id="
    both = [{"name": name, "reach": ANY} for name in "ab"]
    more = {"rejoin": False, "collectors": both}
    service = Service(folder, lambda port: config([static(job, 8)], listen=f"127.0.0.1:{port}", acknowledge=f"127.0.0.1:{port}", **more), f"{folder}/journal")
    service.is_up()
    has(service, "allocd_allocation", 1)
    given = lambda name: json.loads(service.ask("GET", path + name)[1])
    addresses = lambda groups: {group["targets"][0] for group in groups if group["labels"]["__metrics_path__"] != "/acknowledged"}
    scrapes = lambda **parameters: service.ask("GET", f"/acknowledged?{urllib.parse.urlencode(parameters)}")
    events = lambda: len(lines_of(f"{folder}/journal").split(b"\n"))
    first, other = given("a"), given("b")
    where, asked, scheme = own_of(first)
    tell("each list has the service itself as one target more", (len(first), len(other), where, scheme) == (9, 1, f"127.0.0.1:{service.port}", "http"), first[0])
    tell("its parameters name the list", (sorted(asked), asked["job"], asked["collector"], asked["list"]) == (["collector", "epoch", "job", "list"], job, "1", "1"), asked)
    tell("who scrapes it gets an empty text of figures", scrapes(**asked) == (200, ""))
    service.ask("PUT", "/collectors/1/limits", {"limits": {job: 2}})
    has(service, "allocd_allocation", 2)
    # once a list is told, all that it rests on stands in the file
    waiting = given("a")
    before = events()
    stay = addresses(waiting)
    tell("a list that is to let targets go keeps those that stay, and has none that is new", len(stay) == 2 and stay < addresses(first), stay)
    tell("with the number of the current allocation", own_of(waiting)[1]["list"] == "2")
    served = given("b")
    tell("what goes is in no other list meanwhile", addresses(served) == addresses(other))
    now = own_of(waiting)[1]
    wrong = [asked, {**now, "epoch": 1}, {**now, "list": 3}, {**now, "collector": 2}, {**now, "collector": 9}, {**now, "job": "node"}]
    tell("another list, epoch, collector or job is told in vain", all(scrapes(**it) == (200, "") for it in wrong) and given("a") == waiting and addresses(given("b")) == addresses(other))
    # the other collector's list of the second allocation is the one event
    tell("lists that wait are no events", events() == before + 1, (before, events()))
    tell("a scrape that is none is refused", (scrapes()[0], scrapes(**{**now, "list": "x"})[0]) == (400, 400))
    scrapes(**now)
    tell("a list that is followed lets nothing go by itself", addresses(given("b")) == addresses(other))
    tell("the next one does", (given("a"), len(addresses(given("b")))) == (waiting, 6))
    service.ask("DELETE", "/collectors/1")
    tell("who left is given the empty list, and lets go by asking", (given("a"), comes(lambda: len(addresses(given("b"))) == 8, 20)) == ([], True))
    ends(service)
    free = Service(folder, config([static(job, 8)], **more))
    free.is_up()
    has(free, "allocd_allocation", 1)
    tell("without `acknowledge` lists have no such target, and there is no such path", ("acknowledged" in free.ask("GET", path + "a")[1], free.ask("GET", f"/acknowledged?{urllib.parse.urlencode(asked)}")) == (False, (404, '{"refused":"NoRoute"}')))
    ends(free)


def spreads(folder):
    three = [{"name": name, "reach": ANY} for name in "abc"]
    even = lambda **spread: config([static("n", 9)], collectors=three[:2], spread=spread)
    service = Service(folder, even(slack=0), f"{folder}/journal")
    service.is_up()
    loads = lambda: sorted(service.figure(f'allocd_collector_targets{{collector="{name}"}}') or 0 for name in "abc")
    becomes = lambda *wanted: comes(lambda: loads() == list(wanted), 10)
    tell("loads are even from the first allocation on", becomes(0, 4, 5), loads())
    service.ask("POST", "/collectors", three[2])
    tell("a newcomer is filled", becomes(3, 3, 3), loads())
    number, moved = service.figure("allocd_allocation"), service.figure("allocd_allocation_moved")
    tell("with no more moves than that takes", moved == 3, moved)
    time.sleep(0.5)
    tell("and then nothing moves", service.figure("allocd_allocation") == number)
    told = lambda what: [service.figure(f'allocd_collector_targets_{what}{{collector="{name}"}}') for name in "abc"]
    tell("it tells the most even loads, and what each may have", (told("even"), told("cap")) == ([3] * 3, [3] * 3), (told("even"), told("cap")))
    page = service.ask("GET", "/")[1]
    tell("the page does, too", page.count('<td data-h="Even load">3</td><td data-h="Cap">3</td>') == 3)
    status, document = service.ask("GET", "/certificate")
    judged = run(["check"], document.encode())
    tell("its certificate is that of the best within the caps", (status, judged[0], judged[1][:4]) == (200, 0, b"best"), judged)
    tell("such an allocation is an event of its own", b'"event":"spread"' in lines_of(f"{folder}/journal") and b'"event":"install"' not in lines_of(f"{folder}/journal"))
    counted = [service.figure(f'allocd_events_total{{event="{kind}",answer="Published"}}') or 0 for kind in ("spread", "install")]
    tell("and is counted as one", counted[0] > 0 == counted[1], counted)
    tell("a bound is read again", reloaded(service, even(slack=0, most_moves=1)) == 200)
    service.ask("PUT", "/collectors/3/limits", {"limits": {"n": 1}})
    tell("what may not stay moves at once, whatever the bound", becomes(1, 4, 4), loads())
    service.ask("PUT", "/collectors/3/limits", {"limits": {}})
    tell("what may be evened moves by as many as the bound says, until loads are even", becomes(3, 3, 3), loads())
    tell("the last time, too", service.figure("allocd_allocation_moved") == 1, service.figure("allocd_allocation_moved"))
    tell("without the setting", reloaded(service, config([static("n", 9)], collectors=three[:2])) == 200)
    service.ask("DELETE", "/collectors/3")
    tell("it tells no loads any more", comes(lambda: told("cap") == [None] * 3, 5), told("cap"))
    tell("only what has to move does", comes(lambda: sum(loads()) == 9 and loads()[0] == 0, 10) and service.figure("allocd_allocation_moved") == 0, loads())
    ends(service)
    status, out = run(["audit", f"{folder}/journal"])
    tell("the journal is audited", status == 0, out.decode().strip().rpartition("\n")[2])
    wrong = Service(folder, even(slack=1001))
    wrong.ended()
    with open(f"{folder}/log") as it:
        tell("a slack above 1,000 is refused by name", "allocator.spread.slack: no whole number from 0 to 1000" in it.read())


def moves(folder):
    service = started(folder, [static("n", 4), static("m", 2, 9200)])
    has(service, 'allocd_targets_covered{job="n"}', 4)
    last = lambda: json.loads(service.ask("GET", "/allocations")[1])[0]
    tell("an allocation that gives targets for the first time moves none", [last()[name] for name in ("covered", "moved", "moves", "more_moves")] == [6, 0, [], 0], last())
    service.ask("POST", "/collectors", {"name": "<b>", "reach": ANY})
    service.ask("POST", "/collectors/1/drain", {})
    rows = [{"count": 2, "from": "a", "job": "m", "to": "<b>"}, {"count": 4, "from": "a", "job": "n", "to": "<b>"}]
    tell("what moves is told by job, and from whom to whom", comes(lambda: last()["moves"] == rows, 10) and last()["moved"] == 6 == service.figure("allocd_allocation_moved"), last())
    cell = Page(service.ask("GET", "/")[1]).tables["Last allocations"][0][-1]
    with open(f"{folder}/log") as it:
        line = [line for line in it if 'msg="allocation published"' in line][-1]
    tell("how many moved is in the log", re.search(r" allocation=\d+ covered=6 moved=6 left=0 duration=\d+ms$", line), line)
    tell("so it is on the page", cell == "6 targets2 of m from a to <b>4 of n from a to <b>", cell)
    service.ask("DELETE", "/collectors/1")
    service.ask("PUT", "/collectors/2/limits", {"limits": {"m": 1}})
    tell("what nobody holds any more moved to nobody", comes(lambda: last()["moves"] == [{"count": 1, "from": "<b>", "job": "m", "to": None}], 10), last())
    tell("who only looks at its head is answered too", service.ask("HEAD", "/allocations")[0] == 200)
    ends(service)


def spreads_by_job(folder):
    both = [{"name": name, "reach": ANY} for name in "ab"]
    jobs = [static("heavy", 4, spread=0), static("light", 20, 9100), static("fixed", 6, 9200, spread="off")]
    loads = lambda: [tuple(len(held(service, job, name)) for name in "ab") for job in ("heavy", "light", "fixed")]
    service = started(folder, jobs)
    has(service, "allocd_allocation", 1)
    fixed = held(service, "fixed")
    tell("without `allocator.spread` a job's own says nothing", reloaded(service, config(jobs, collectors=both)) == 200)
    time.sleep(1)
    tell("and nothing moves", loads() == [(4, 0), (20, 0), (6, 0)], loads())
    tell("with it", reloaded(service, config(jobs, collectors=both, spread={"slack": 0})) == 200)
    number = lambda: service.figure("allocd_allocation")
    comes(lambda: number() == 2, 20)
    # what moves is given out once the collector that had it was given a list without it
    even = comes(lambda: loads() == [(2, 2), (10, 10), (6, 0)], 20)
    tell("each job that is by itself is even, and so are the others together", even, loads())
    tell("a job that is off stays as it is", held(service, "fixed") == fixed)
    tell("no more moves than that takes", service.figure("allocd_allocation_moved") == 12, service.figure("allocd_allocation_moved"))
    told = [service.figure(f'allocd_collector_targets_{what}{{collector="a"}}') for what in ("even", "cap")]
    tell("it does not tell the most even loads, but what a collector may have", told == [None, 18], told)
    status, document = service.ask("GET", "/certificate")
    judged = run(["check"], document.encode())
    tell("its certificate is that of the best within the caps", (status, judged[0], judged[1][:4]) == (200, 0, b"best"), judged)
    pages = json.loads(service.ask("GET", "/scrape_configs")[1])
    tell("who collects is told nothing of it", set(pages) == {"heavy", "light", "fixed"} and not any("spread" in page for page in pages.values()))
    together = [{name: value for name, value in job.items() if name != "spread"} for job in jobs]
    tell("without the members", reloaded(service, config(together, collectors=both, spread={"slack": 0})) == 200)
    even = comes(lambda: sum(a for a, _ in loads()) == sum(b for _, b in loads()) == 15, 20)
    tell("all jobs are even together", even, loads())
    for wrong in ("Off", -1, 1001, True, None, {"slack": 1}):
        service.write(config([static("n", 1), static("m", 1, 9100, spread=wrong)], collectors=both))
        status, told = service.ask("POST", "/-/reload")
        tell(f"{wrong!r} is refused, by name", status == 500 and 'scrape_configs[1].spread: neither "off" nor a whole number from 0 to 1000' in told, (status, told))
    ends(service)
    status, out = run(["audit", f"{folder}/journal"])
    tell("the journal is audited", status == 0, out.decode().strip().rpartition("\n")[2])


def evens(folder):
    both = [{"name": name, "reach": ANY} for name in "ab"]
    jobs = [static("node", 7), static("web", 5, 9100)]
    loads = lambda: tuple(service.figure(f'allocd_collector_targets{{collector="{name}"}}') for name in "ab")
    service = started(folder, jobs)
    has(service, "allocd_allocation", 1)
    reloaded(service, config(jobs, collectors=both))
    joined = comes(lambda: loads() == (12, 0), 20)
    time.sleep(1)
    tell("without `spread` a collector that joins gets nothing of what another one has", (joined, loads(), service.figure("allocd_allocation")) == (True, (12, 0), 1))
    reloaded(service, config(jobs, collectors=both, spread={"slack": 0, "most_moves": 2}))
    even = comes(lambda: loads() == (6, 6), 20)
    time.sleep(1)
    tell("with it loads are made even, so many targets at a time, until they are", (even, loads(), service.figure("allocd_allocation")) == (True, (6, 6), 4))
    tell("each time by an event of its own", sum(event["event"] == "spread" for event in events_in(lines_of(f"{folder}/journal"))) == 3)
    status, told, _ = replayed(f"{folder}/journal")
    tell("which a replay answers as the service did", (status, [answer for event, answer in told if event["event"] == "spread"]) == (0, [f"Published {number}" for number in (2, 3, 4)]))
    reloaded(service, config(jobs, collectors=both))
    time.sleep(1)
    tell("where it is taken out nothing moves back", (loads(), service.figure("allocd_allocation")) == ((6, 6), 4))
    tell("a slack that is none is refused", reloaded(service, config(jobs, collectors=both, spread={"slack": -1})) == 500)
    ends(service)


def evens_in_turn(folder):
    both = [{"name": name, "reach": ANY} for name in "ab"]
    loads = lambda: tuple(service.figure(f'allocd_collector_targets{{collector="{name}"}}') for name in "ab")
    service = started(folder, [static("node", 8)])
    has(service, "allocd_allocation", 1)
    held(service, "node")
    reloaded(service, config([static("node", 8)], collectors=both, spread={"slack": 0, "most_moves": 1}))
    first = comes(lambda: loads() == (7, 1), 20)
    time.sleep(1)
    tell("what moves next waits until what moved last is handed over", (first, loads()) == (True, (7, 1)), loads())
    held(service, "node")
    second = comes(lambda: loads() == (6, 2), 10)
    time.sleep(1)
    tell("and moves then", (second, loads()) == (True, (6, 2)), loads())
    ends(service)


def hanging(folder):
    """The environment in which the look-up of a name that begins with `hangs` does not come back, or None where there is no compiler."""
    by, library = compiler(), f"{folder}/hang_lookups.so"
    if by is None:
        return None
    subprocess.run([by, "-O2", "-shared", "-fPIC", "-nostdlib", "-o", library, f"{ROOT}/scripts/hang_lookups.c"], check=True)
    return {"LD_PRELOAD": library}


def fault_of(service, source):
    """What the page says of why a source fails."""
    rows = Page(service.ask("GET", "/")[1]).tables["Discovery sources"]
    return next((" ".join(row) for row in rows if row[0] == source), "")


def gap_of(path, since):
    """How long at most a source was left alone since then."""
    times = [since, *(at for at in Source.asked.get(path, []) if at > since), time.monotonic()]
    return max(after - before for before, after in zip(times, times[1:]))


def named(name, path, every="1s"):
    return {"url": f"http://{name}:{SOURCE.server_port}{path}", "refresh_interval": every}


def names(folder):
    Source.lists.update({"/named": ["127.0.0.1:7401", "127.0.0.1:7402"], "/beside": ["127.0.0.1:7403"]})
    # Names are told apart from addresses by letters, and `localhost` alone is an address: in capitals it is looked up.
    lost = {"url": "http://no-such-host.invalid/sd", "refresh_interval": "1s"}
    jobs = [{"job_name": "n", "http_sd_configs": [named("LOCALHOST", "/named"), lost]}, {"job_name": "p", "http_sd_configs": [url("/beside", "1s")]}]
    service = started(folder, jobs, fetch_timeout="3s")
    tell("a source by name is asked", has(service, 'allocd_targets_covered{job="n"}', 2))
    tell("by the name that its URL has", Source.hosts["/named"] == f"LOCALHOST:{SOURCE.server_port}", Source.hosts["/named"])
    tell("a name without an address fails, and says why", comes(lambda: "no such name" in fault_of(service, "n/2"), 10), fault_of(service, "n/2"))
    tell("its log line too", re.search(r'msg="refresh failed" job="n" source=2 url="http://no-such-host.invalid/sd" why="no such name"$', open(f"{folder}/log").read(), re.M))
    Source.lists["/named"] = ["127.0.0.1:7401"]
    tell("a source by name is asked again", has(service, 'allocd_targets{job="n"}', 1))
    began = time.monotonic()
    time.sleep(4)
    tell("others keep their second", gap_of("/beside", began) < 1.6, f"{gap_of('/beside', began):.2f} seconds at most")
    ends(service)
    environment = hanging(folder)
    if environment is None:
        print("skipped: names whose look-up hangs (there is no C compiler)")
        return
    stuck = [{"url": f"http://hangs{i}.invalid/sd", "refresh_interval": "1s"} for i in range(6)]
    jobs = [{"job_name": "n", "http_sd_configs": [*stuck, named("LOCALHOST", "/named"), url("/beside", "1s")]}]
    service = Service(folder, config(jobs, fetch_timeout="1s"), f"{folder}/journal.hangs", environment)
    service.is_up()
    comes(lambda: service.ask("GET", "/-/ready")[0] == 200, 20)
    began = time.monotonic()
    time.sleep(4)
    tell("beside names whose look-up hangs a source by address keeps its second", gap_of("/beside", began) < 1.6, f"{gap_of('/beside', began):.2f} seconds at most")
    tell("such a source fails in time", "no answer in time" in fault_of(service, "n/1"), fault_of(service, "n/1"))
    began = time.monotonic()
    reloaded(service, config([*jobs, static("m", 2)], fetch_timeout="1s"))
    tell("a reload waits for no look-up", has(service, 'allocd_targets{job="m"}', 2) and time.monotonic() - began < 5, f"after {time.monotonic() - began:.2f} seconds")
    began = time.monotonic()
    ends(service)
    tell("nor does the end of the service", time.monotonic() - began < 5, f"after {time.monotonic() - began:.2f} seconds")


def files(folder):
    os.makedirs(f"{folder}/targets", exist_ok=True)
    path = lambda name: f"{folder}/targets/{name}"

    def put(name, text):
        with open(path("part"), "w") as it:
            it.write(text if isinstance(text, str) else json.dumps(text))
        os.replace(path("part"), path(name))

    group = lambda *ports, **labels: {"targets": [f"127.0.0.1:{port}" for port in ports], "labels": labels}
    keeps = [{"source_labels": ["__meta_filepath"], "target_label": "from"}, {"source_labels": ["__meta_url"], "regex": ".+", "action": "drop"}]
    found = [{"files": ["targets/*.json", f"{folder}/more.json"], "refresh_interval": "500ms"}]
    jobs = [{"job_name": "f", "file_sd_configs": found, "relabel_configs": keeps}, static("n", 1)]
    service = started(folder, jobs)
    comes(lambda: service.ask("GET", "/-/ready")[0] == 200, 20)
    tell("a pattern without a file is an empty list and no failure", service.figure('allocd_refresh_failures_total{source="f/1"}') == 0, service.figure('allocd_refresh_failures_total{source="f/1"}'))
    put("a.json", [group(7501, zone="x"), group(7502)])
    tell("a file that appears is read", has(service, 'allocd_targets_covered{job="f"}', 2))
    line = re.compile(r'^ts=\S+ level=info msg="targets discovered" job="f" source=1 url="file:[^" ]*targets/\*\.json%0A[^" ]*more\.json%0A" added=2 removed=0$', re.M)
    with open(f"{folder}/log") as it:
        told = it.read()
    tell("its URL with both paths is in one line of the log", line.search(told), told)
    listed = {g["targets"][0]: g["labels"].get("from") for g in json.loads(service.ask("GET", "/jobs/f/targets?collector_id=a")[1])}
    tell("its targets have its path, and no URL", set(listed.values()) == {path("a.json")}, listed)
    put("b.json", [group(7503)])
    with open(f"{folder}/more.json", "w") as it:
        json.dump([group(7504)], it)
    tell("a star stands for each of several, beside a path of its own", has(service, 'allocd_targets_covered{job="f"}', 4))
    put("a.json", [group(7501, zone="x")])
    tell("a file that changes is read again", has(service, 'allocd_targets{job="f"}', 3))
    put("b.json", "[{")
    tell("a faulty one fails with its path", comes(lambda: f"{path('b.json')}: no JSON" in fault_of(service, "f/1"), 10), fault_of(service, "f/1"))
    put("a.json", [group(7501), group(7505)])
    time.sleep(1.5)
    tell("and the whole list stays", service.figure('allocd_targets{job="f"}') == 3, service.figure('allocd_targets{job="f"}'))
    put("b.json", [group(7503)])
    tell("until it is mended", has(service, 'allocd_targets{job="f"}', 4))
    os.remove(path("b.json"))
    tell("a file that goes takes its targets with it", has(service, 'allocd_targets{job="f"}', 3))
    os.mkdir(path("c.json"))
    tell("a folder of such a name is a fault", comes(lambda: f"{path('c.json')}: no regular file" in fault_of(service, "f/1"), 10), fault_of(service, "f/1"))
    os.rmdir(path("c.json"))
    put("big.json", " " * 4_194_305)
    tell("and files of more than 4 MiB together", comes(lambda: f"{path('big.json')}: " in fault_of(service, "f/1") and "too long" in fault_of(service, "f/1"), 10), fault_of(service, "f/1"))
    os.remove(path("big.json"))
    Source.lists["/beside"] = ["127.0.0.1:7506"]
    jobs[0] = {**jobs[0], "http_sd_configs": [url("/beside")], "relabel_configs": keeps[:1]}
    reloaded(service, config(jobs))
    tell("sources over HTTP stand before those of files", has(service, 'allocd_targets{job="f"}', 4) and comes(lambda: fault_of(service, "f/2").startswith("f/2"), 5))
    ends(service)
    status, _, last = replayed(f"{folder}/journal")
    tell("its journal is replayed", status == 0, last)


SOURCE = http.server.ThreadingHTTPServer(("127.0.0.1", 0), Source)
SOURCE.daemon_threads = True
threading.Thread(target=SOURCE.serve_forever, daemon=True).start()
PARTS = (settings, relabels, reloads, uncovered, texts, page, job_pages, collector_pages, searches, since, series, figures, every_figure, turned_away, process, takes, talks, requests, lifecycles, held_rows, stalls, settles, absent_over_reloads, many_ids, rounds, rounds_kept, changing_lists, silences, yaml, lists_of_reports, round_books, entity_tags, asked_again, acknowledge, spreads, moves, spreads_by_job, evens, evens_in_turn, names, files)
run_parts(PARTS, sys.argv[1:])
