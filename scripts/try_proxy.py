#!/usr/bin/env python3
"""Puts nginx with examples/nginx.conf in front of a service, and asks it with and without its password: try_proxy.py

Its ports, files and name are replaced by those of a folder. It needs Debian's packages nginx-light and openssl and the program (ALLOCD_PROGRAM, or
dist/allocd); with Debian's prometheus it tries that one's lines too."""

import base64
import http.client
import json
import os
import re
import shutil
import socket
import ssl
import subprocess
import sys
import tempfile

from allocd_service import ROOT, Service, ask, comes, free_port
from told_rows import Teller

NGINX = shutil.which("nginx") or shutil.which("nginx", path="/usr/sbin")
if not NGINX:
    print("try_proxy: nginx is not here: apt-get install nginx-light", file=sys.stderr)
    sys.exit(2)
if not shutil.which("openssl"):
    print("try_proxy: openssl is not here: apt-get install openssl", file=sys.stderr)
    sys.exit(2)

NAME = "allocd.example"
PASSWORD = "correct horse"
TOKEN = "0123456789abcdef"
LIST = "/jobs/node/targets?collector_id=a"
tell = Teller()


def text_of(name):
    with open(f"{ROOT}/{name}") as it:
        return it.read()


def write(path, text):
    with open(path, "w") as it:
        it.write(text)


def documented():
    """The first block of the page, without its indent."""
    block = re.search(r"(?:^    .*\n)+", text_of("docs/operate/PROXY.md"), re.M).group(0)
    return "".join(line[4:] + "\n" for line in block.splitlines())


def configure(folder, port, service, server):
    """The files of nginx in the folder."""
    subprocess.run(
        ["openssl", "req", "-x509", "-newkey", "rsa:2048", "-nodes", "-days", "2", "-subj", f"/CN={NAME}", "-addext", f"subjectAltName=DNS:{NAME}",
         "-keyout", f"{folder}/allocd.key", "-out", f"{folder}/allocd.crt"], check=True, capture_output=True)
    made = subprocess.run(["openssl", "passwd", "-apr1", "-stdin"], input=PASSWORD, capture_output=True, text=True, check=True).stdout
    write(f"{folder}/allocd.passwords", f"prometheus:{made}")
    os.chmod(folder, 0o755)
    server = server.replace("/etc/nginx", folder).replace("8443", str(port)).replace("127.0.0.1:8080", f"127.0.0.1:{service}")
    temporary = "".join(f"{kind}_temp_path {folder}/{kind};\n" for kind in ("client_body", "proxy", "fastcgi", "uwsgi", "scgi"))
    write(f"{folder}/nginx.conf", f"daemon off;\nuser root;\npid {folder}/pid;\nerror_log {folder}/nginx.log;\nevents {{}}\nhttp {{\naccess_log off;\n{temporary}{server}}}\n")


class Answer:
    """An answer over TLS, of a server whose certificate is looked at."""

    def __init__(self, folder, port, method, path, password=None, host=NAME, headers=None):
        known = ssl.create_default_context(cafile=f"{folder}/allocd.crt")
        it = http.client.HTTPSConnection("127.0.0.1", port, context=known, timeout=10)
        it.sock = known.wrap_socket(socket.create_connection(("127.0.0.1", port), 10), server_hostname=NAME)
        sent = {"Host": f"{host}:{port}", **(headers or {})}
        if password is not None:
            sent["Authorization"] = "Basic " + base64.b64encode(f"prometheus:{password}".encode()).decode()
        it.request(method, path, headers=sent)
        said = it.getresponse()
        self.status, self.headers, self.text = said.status, said.headers, said.read().decode()
        it.close()


def config(port, **settings):
    return {
        "scrape_configs": [{"job_name": "node", "static_configs": [{"targets": ["127.0.0.1:9"]}]}],
        "allocator": {"listen": f"127.0.0.1:{port}", "hosts": [NAME], "settle": "100ms", "lifecycle": True,
                      "collectors": [{"name": "a", "reach": [{"allow": True, "test": "any"}]}], **settings},
    }


def tried(folder, it, port):
    def got(method, path, *more, **named):
        return Answer(folder, port, method, path, *more, **named)

    def begun():
        try:
            return got("GET", "/livez", PASSWORD).status == 200
        except OSError:
            return False
    tell("nginx answers over TLS", comes(begun, 20))
    comes(lambda: it.ask("GET", "/-/ready")[0] == 200, 20)
    none = got("GET", LIST)
    tell("no password: 401, by Basic", none.status == 401 and none.headers["www-authenticate"].startswith("Basic"), none.status)
    tell("a wrong password: 401", got("GET", LIST, "wrong").status == 401)
    listed = got("GET", LIST, PASSWORD)
    tell("the password: the collector's list, with its headers", listed.status == 200 and json.loads(listed.text)[0]["targets"] == ["127.0.0.1:9"]
         and listed.headers["x-allocation-number"] == "1", listed.text)
    page = got("GET", "/", PASSWORD, headers={"Sec-Fetch-Site": "none"})
    tell("the page, in a browser", page.status == 200 and page.headers["content-type"].startswith("text/html"), page.status)
    drained = got("POST", "/collectors/1/drain", PASSWORD, headers={"Origin": f"https://{NAME}:{port}", "Sec-Fetch-Site": "same-origin"})
    tell("a drain, from a page of the same site", drained.status == 200 and json.loads(drained.text) == {"answer": "Draining"}, drained.text)
    foreign = got("POST", "/collectors/1/drain", PASSWORD, headers={"Origin": "https://evil.example", "Sec-Fetch-Site": "cross-site"})
    tell("and from another site: 403 Origin", (foreign.status, foreign.text) == (403, '{"refused":"Origin"}'), foreign.text)
    linked = got("GET", "/jobs/node", PASSWORD, headers={"Sec-Fetch-Site": "cross-site", "Sec-Fetch-Mode": "navigate"})
    tell("a link from another site leads to its page: 200", linked.status == 200, linked.status)
    for path in ("/-/quit", "/-/reload"):
        refused = got("POST", path, PASSWORD)
        tell(f"{path}: 403 of nginx", refused.status == 403 and "<html>" in refused.text, refused.text)
    other = got("GET", LIST, PASSWORD, host="other.example")
    tell("another name: 403 Host", (other.status, other.text) == (403, '{"refused":"Host"}'), other.text)
    plain = ask(port, "GET", LIST)
    tell("without TLS: 400", plain[0] == 400, plain)
    tell("a health check without a password, by the line for it", got("GET", "/livez").status == 200)
    if shutil.which("prometheus"):
        by_prometheus(folder, port)
    else:
        print("skipped: Prometheus's lines (apt-get install prometheus)")
    it.quit()
    tell("the service has ended: 502", got("GET", LIST, PASSWORD).status == 502)


def by_prometheus(folder, port):
    """The page's lines for Prometheus, with this address and these files. Nobody here looks the name up, so it is told which one the certificate has."""
    lines = text_of("docs/operate/PROXY.md").split("In Prometheus:\n\n")[1].split("\n\n")[0]
    lines = re.sub(r"^    ", "", lines, flags=re.M).replace(f"{NAME}:8443", f"127.0.0.1:{port}")
    lines = lines.replace("/etc/prometheus/allocd.password", f"{folder}/password").replace("/etc/prometheus/allocd-ca.crt", f"{folder}/allocd.crt")
    lines = lines.replace("allocd.crt}", f"allocd.crt, server_name: {NAME}}}")
    write(f"{folder}/password", PASSWORD)
    job = "".join(f"    {line}\n" for line in lines.splitlines())
    write(f"{folder}/prometheus.yml", f"scrape_configs:\n  - job_name: node\n{job}        refresh_interval: 1s\n")
    checked = subprocess.run(["promtool", "check", "config", f"{folder}/prometheus.yml"], capture_output=True, text=True)
    tell("promtool takes Prometheus's lines", checked.returncode == 0, checked.stdout + checked.stderr)
    here = free_port()
    with open(f"{folder}/prometheus.log", "wb") as log:
        peer = subprocess.Popen(["prometheus", f"--config.file={folder}/prometheus.yml", f"--storage.tsdb.path={folder}/data",
                                 f"--web.listen-address=127.0.0.1:{here}"], stdout=log, stderr=log)
    try:
        def targets():
            found = json.loads(ask(here, "GET", "/api/v1/targets")[1] or "{}").get("data", {}).get("activeTargets", [])
            return [one["discoveredLabels"]["__address__"] for one in found] == ["127.0.0.1:9"]
        tell("by them it has the collector's list", comes(lambda: ask(here, "GET", "/-/ready")[0] == 200 and targets(), 30))
    finally:
        peer.terminate()
        peer.wait()


def server():
    """nginx's server, with the line for health checks that the page has besides."""
    line = re.search(r"^    (location = /livez .*)$", text_of("docs/operate/PROXY.md"), re.M).group(1)
    return text_of("examples/nginx.conf").replace("    location / ", f"    {line}\n    location / ")


def with_tokens(folder, it, port):
    """Without the lines of the password, tokens pass."""
    def status(token):
        return Answer(folder, port, "GET", LIST, headers={"Authorization": f"Bearer {token}"} if token else {}).status

    def begun():
        try:
            return status("") == 401
        except OSError:
            return False
    tell("with tokens and without passwords: no token is 401 of allocd", comes(begun, 20))
    comes(lambda: it.ask("GET", "/-/ready")[0] == 200, 20)
    tell("and the token is passed on", (status("wrong"), status(TOKEN)) == (401, 200), (status("wrong"), status(TOKEN)))


def behind(try_it, lines, tokens=False):
    """Tries a service, with tokens or without, behind nginx with these lines."""
    with tempfile.TemporaryDirectory() as folder:
        with open(f"{folder}/tokens", "w", opener=lambda path, flags: os.open(path, flags, 0o600)) as it:
            it.write(TOKEN)
        named = {"tokens": {"admin": f"{folder}/tokens", "collectors": f"{folder}/tokens"}} if tokens else {}
        it = Service(folder, lambda port: config(port, **named))
        port = free_port()
        configure(folder, port, it.port, lines)
        proxy = subprocess.Popen([NGINX, "-e", f"{folder}/nginx.log", "-c", f"{folder}/nginx.conf", "-p", folder])
        try:
            try_it(folder, it, port)
        finally:
            proxy.terminate()
            proxy.wait()
            it.it.kill()
            it.it.wait()


def main():
    tell("the page shows examples/nginx.conf, ten lines", documented() == text_of("examples/nginx.conf") and documented().count("\n") == 10)
    behind(tried, server())
    behind(with_tokens, re.sub(r"    auth_basic.*\n", "", text_of("examples/nginx.conf")), tokens=True)
    return tell.end()


if __name__ == "__main__":
    sys.exit(main())
