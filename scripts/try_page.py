#!/usr/bin/env python3
"""Has headless Chromium lay out the pages of a service of 7,280 targets and 60 collectors at four widths: try_page.py [FOLDER]

They are the page of the service, and those of a job with more targets than a page has rows, of a collector, and of a search. At none of the widths one scrolls sideways.
On a screen that is wide enough for its tables the service's is less than 3,000 pixels high. In a folder that is named it leaves pictures of each: wide,
narrow, and dark. It needs Debian's package chromium and the program (ALLOCD_PROGRAM, or dist/allocd)."""

import html
import http.client
import os
import re
import shutil
import subprocess
import sys
import tempfile

from allocd_service import Service, comes
from told_rows import Teller

if not shutil.which("chromium"):
    print("try_page: chromium is not here: apt-get install chromium", file=sys.stderr)
    sys.exit(2)

ANY = [{"allow": True, "test": "any"}]
JOBS = ["node", "kube-state-metrics", "cadvisor", "blackbox-http", "serviceMonitor/monitoring/very-long-service-monitor-name-for-payments-backend/0",
        "windows", "<script>document.title=0</script>", "redis"]
# More than a page has rows.
MANY = 1960
WIDE, NARROW = (1280, 1920), (390, 768)
tell = Teller()


def config():
    jobs = [{"job_name": name, "static_configs": [{"targets": [f"10.{place}.{i // 250}.{i % 250}:9100" for i in range(760 if place else MANY)]}]} for place, name in enumerate(JOBS)]
    names = [f"otel-collector-{i:02}.monitoring.svc.cluster.local" if i % 7 == 0 else f"prometheus-west-{i:02}" for i in range(60)]
    return {"scrape_configs": jobs, "allocator": {"settle": "100ms", "lifecycle": True, "collectors": [{"name": name, "reach": ANY} for name in names]}}


def chromium(*words):
    return subprocess.run(["chromium", "--headless", "--no-sandbox", "--disable-gpu", "--hide-scrollbars", *words], capture_output=True, text=True, timeout=120).stdout


def laid_out(folder, page, width):
    """How wide and how high a page is in a window of a width: it stands in a frame, which a script beside it measures."""
    measures = "setTimeout(()=>{const e=document.querySelector('iframe').contentDocument.documentElement;document.querySelector('p').textContent=`SIZE ${e.scrollWidth} ${e.scrollHeight}`},1000)"
    frame = f'<!DOCTYPE html><p></p><iframe style="border:0;width:{width}px;height:900px" srcdoc="{html.escape(page)}"></iframe><script>{measures}</script>'
    with open(f"{folder}/frame.html", "w") as it:
        it.write(frame)
    found = re.search(r"<p>SIZE (\d+) (\d+)</p>", chromium("--dump-dom", "--virtual-time-budget=3000", f"file://{folder}/frame.html"))
    return tuple(map(int, found.groups())) if found else None


def browsed(service, path):
    """What a browser is shown."""
    it = http.client.HTTPConnection("127.0.0.1", service.port, timeout=60)
    it.request("GET", path, headers={"accept": "text/html,*/*;q=0.8"})
    text = it.getresponse().read().decode()
    it.close()
    return text


def look(folder, service, kind, path):
    page = browsed(service, path)
    sizes = {width: laid_out(folder, page, width) for width in (*NARROW, *WIDE)}
    for width, size in sizes.items():
        tell(f"the page of {kind} at {width} pixels does not scroll sideways", size and size[0] <= width, size)
    if path == "/":
        for width in WIDE:
            tell(f"at {width} pixels it is less than 3,000 high", sizes[width] and sizes[width][1] < 3000, sizes[width])
    tell("it has less than 1 MiB", len(page) < 1048576, len(page))
    if sys.argv[1:]:
        take_pictures(folder, page, kind.split()[-1])


def take_pictures(folder, page, name):
    with open(f"{folder}/page.html", "w") as it:
        it.write(page)
    for size, words in (("wide", ["--window-size=1280,900"]), ("narrow", ["--window-size=390,900"]), ("dark", ["--window-size=1280,900", "--blink-settings=preferredColorScheme=0"])):
        chromium(*words, f"--screenshot={os.path.abspath(sys.argv[1])}/{name}-{size}.png", f"file://{folder}/page.html")


def main():
    with tempfile.TemporaryDirectory() as folder:
        service = Service(folder, config())
        service.is_up()
        tell("7,280 targets have a collector", comes(lambda: sum(service.figure(f'allocd_targets_covered{{job="{name}"}}') or 0 for name in JOBS) == 7280, 60))
        for kind, path in (("the service", "/"), ("a job", f"/jobs/{JOBS[0]}"), ("a collector", "/collectors/8"), ("a search", "/targets?search=10."), ("the books", "/books")):
            look(folder, service, kind, path)
        tell("the service ends", service.quit() == (200, 0))
    return tell.end()


if __name__ == "__main__":
    sys.exit(main())
