#!/usr/bin/env python3
"""Has promtool test examples/alerts.yml, and a real Prometheus scrape a service and answer each query of examples/dashboard.json: try_monitor.py

Each rule is to load without a fault, each query to give at least a series, each metric that documents and examples name to be one that the service has,
and each alert to stand in docs/operate/MONITOR.md. It needs Debian's package prometheus (with promtool), PyYAML and the program (ALLOCD_PROGRAM, or
dist/allocd), and takes half a minute."""

import http.server
import json
import re
import shutil
import subprocess
import sys
import tempfile
import threading
import urllib.parse

from allocd_service import ROOT, Service, ask, comes, free_port
from told_rows import Teller

for name in ("prometheus", "promtool"):
    if not shutil.which(name):
        print(f"try_monitor: {name} is not here: apt-get install prometheus", file=sys.stderr)
        sys.exit(2)
try:
    import yaml
except ImportError:
    print("try_monitor: PyYAML is not here: apt-get install python3-yaml", file=sys.stderr)
    sys.exit(2)

ANY = [{"allow": True, "test": "any"}]
METRIC = re.compile(r"\b(?:allocd|process)_[a-z_]+")
tell = Teller()


def text_of(name):
    with open(f"{ROOT}/{name}") as it:
        return it.read()


def promtool(*words):
    done = subprocess.run(["promtool", *words], cwd=f"{ROOT}/examples", capture_output=True, text=True)
    return done.returncode == 0, done.stdout + done.stderr


class Source(http.server.BaseHTTPRequestHandler):
    """A discovery source of one target, another one at each request."""
    asked = 0

    def do_GET(self):
        Source.asked += 1
        body = json.dumps([{"targets": [f"127.0.0.1:{1000 + Source.asked}"]}]).encode()
        self.send_response(200)
        self.send_header("content-type", "application/json")
        self.send_header("content-length", str(len(body)))
        self.end_headers()
        self.wfile.write(body)

    def log_message(self, *_):
        pass


def config_of(source):
    """Jobs with a source that changes and one that fails, a collector that joins and one that drains, and rounds that go by."""
    urls = [{"url": f"http://127.0.0.1:{port}/sd", "refresh_interval": "1s"} for port in (source, free_port())]
    return {
        "global": {"scrape_interval": "1s"},
        "scrape_configs": [{"job_name": "node", "static_configs": [{"targets": ["127.0.0.1:9"]}]}, {"job_name": "web", "http_sd_configs": urls}],
        "allocator": {"settle": "100ms", "lifecycle": True, "collectors": [{"name": name, "reach": ANY} for name in "ab"]},
    }


def queries():
    """The title and the expression of each query of the dashboard, with what Grafana puts in place of its variables."""
    for panel in json.loads(text_of("examples/dashboard.json"))["panels"]:
        for target in panel["targets"]:
            yield f"{panel['title']} {target['refId']}", target["expr"].replace("$__rate_interval", "10s").replace("$job", "allocd")


def is_dashboard():
    """What Grafana's format asks of a dashboard, as far as it is looked at here."""
    it = json.loads(text_of("examples/dashboard.json"))
    ids = [panel["id"] for panel in it["panels"]]
    names = {variable["name"] for variable in it["templating"]["list"]}
    wanted = set(re.findall(r"\$\{?(\w+)", json.dumps(it["panels"]))) - {"__rate_interval"}
    places = [(panel["gridPos"], panel["title"]) for panel in it["panels"]]
    apart = all(a["y"] + a["h"] <= b["y"] or b["y"] + b["h"] <= a["y"] or a["x"] + a["w"] <= b["x"] or b["x"] + b["w"] <= a["x"]
                for n, (a, _) in enumerate(places) for b, _ in places[:n])
    return len(ids) == len(set(ids)) and wanted <= names and apart and all(one["x"] + one["w"] <= 24 for one, _ in places)


def asked(port, path):
    return json.loads(ask(port, "GET", path)[1])["data"]


def is_answered(port, expression):
    return bool(asked(port, "/api/v1/query?query=" + urllib.parse.quote(expression))["result"])


def prometheus(folder, port, service):
    """Prometheus with the alerts, and the service as the job allocd."""
    config = {
        "global": {"scrape_interval": "1s", "evaluation_interval": "1s"}, "rule_files": [f"{ROOT}/examples/alerts.yml"],
        "scrape_configs": [{"job_name": "allocd", "static_configs": [{"targets": [f"127.0.0.1:{service}"]}]}],
    }
    with open(f"{folder}/prometheus.json", "w") as it:
        json.dump(config, it)
    log = open(f"{folder}/prometheus.log", "wb")
    words = ["prometheus", f"--config.file={folder}/prometheus.json", f"--storage.tsdb.path={folder}/data", f"--web.listen-address=127.0.0.1:{port}"]
    return subprocess.Popen(words, stdout=log, stderr=log)


def names_in(text):
    """The families of a text exposition, and the series of its histograms."""
    families = re.findall(r"^# TYPE (\S+) (\S+)", text, re.M)
    return {name + more for name, kind in families for more in ("", *(("_bucket", "_sum", "_count") if kind == "histogram" else ()))}


def documents(metrics):
    """What the documents name, beside what the service has."""
    table = set(METRIC.findall(text_of("docs/operate/SERVE.md").split("| Metric | What |")[1].split("\n\n")[0]))
    monitor = text_of("docs/operate/MONITOR.md")
    tell("each metric of docs/operate/SERVE.md's table is one of the service", table <= metrics, table - metrics)
    for name in ("docs/operate/MONITOR.md", "examples/dashboard.json", "examples/alerts.yml", "examples/alerts_test.yml"):
        named = set(METRIC.findall(text_of(name)))
        tell(f"each metric that {name} names is one of the service", named <= metrics, named - metrics)
    alerts = {rule["alert"] for group in yaml.safe_load(text_of("examples/alerts.yml"))["groups"] for rule in group["rules"]}
    tell("docs/operate/MONITOR.md has each alert, and no other", set(re.findall(r"`(Allocd[A-Za-z]+)`", monitor)) == alerts, alerts)
    tested = {one["alertname"] for test in yaml.safe_load(text_of("examples/alerts_test.yml"))["tests"] for one in test["alert_rule_test"] if one.get("exp_alerts")}
    tell("examples/alerts_test.yml has a test in which each alert comes", tested == alerts, alerts - tested)


def live(folder):
    server = http.server.ThreadingHTTPServer(("127.0.0.1", 0), Source)
    threading.Thread(target=server.serve_forever, daemon=True).start()
    it = Service(folder, config_of(server.server_port), f"{folder}/journal")
    port = free_port()
    peer = prometheus(folder, port, it.port)
    try:
        tell("the service is up", it.is_up())
        tell("Prometheus is up", comes(lambda: ask(port, "GET", "/-/ready")[0] == 200, 30))
        it.ask("POST", "/collectors/2/drain")

        def goes_on():
            it.ask("GET", "/jobs/node/targets?collector_id=a")
            it.ask("POST", "/collectors", {"name": "a", "reach": ANY})
            return len(asked(port, "/api/v1/query?query=" + urllib.parse.quote('count_over_time(up{job="allocd"}[1m]) > 12'))["result"]) > 0
        tell("it is scraped", comes(goes_on, 40))
        for what, expression in queries():
            tell(f"dashboard: {what}", is_answered(port, expression), expression)
        rules = [rule for group in asked(port, "/api/v1/rules")["groups"] for rule in group["rules"]]
        tell("each rule is loaded, and evaluated without a fault", rules and all(rule["health"] == "ok" for rule in rules), rules)
        documents(names_in(it.ask("GET", "/metrics")[1]))
        tell("the service ends", it.quit() == (200, 0))
    finally:
        it.it.kill()
        peer.terminate()
        it.it.wait()
        peer.wait()


def main():
    tell("promtool check rules examples/alerts.yml", *promtool("check", "rules", "alerts.yml"))
    tell("promtool test rules examples/alerts_test.yml", *promtool("test", "rules", "alerts_test.yml"))
    tell("the dashboard: panels apart, each variable made", is_dashboard())
    with tempfile.TemporaryDirectory() as folder:
        live(folder)
    return tell.end()


if __name__ == "__main__":
    sys.exit(main())
