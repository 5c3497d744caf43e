#!/usr/bin/env bash
# Has headless Chromium take a picture of the service's page on examples/serve.json: try_browser.sh [PICTURE]
# The program is ALLOCD_PROGRAM, or what ./allocd runs. It needs Debian's packages chromium and curl, and ports 8080 and 9100 to 9107 of loopback.
set -eu
root=$(cd "$(dirname "$0")/.." && pwd)
picture=$(realpath -m "${1:-$root/docs/operate/page.png}")
python3 "$root/examples/targets.py" &
targets=$!
until curl -sf http://127.0.0.1:9100/targets > /dev/null; do sleep 0.1; done
folder=$(mktemp -d)
"${ALLOCD_PROGRAM:-$root/allocd}" serve --config "$root/examples/serve.json" --journal "$folder/allocator.journal" &
service=$!
trap 'kill $targets $service 2> /dev/null || true; rm -rf "$folder"' EXIT
for _ in $(seq 100); do
    curl -sf http://127.0.0.1:8080/metrics | grep -q 'allocd_targets_covered{job="web"} [1-9]' && break
    sleep 0.2
done
chromium --headless --no-sandbox --disable-gpu --hide-scrollbars --window-size=1280,800 --screenshot="$picture" http://127.0.0.1:8080/ 2> /dev/null
curl -s -X POST http://127.0.0.1:8080/-/quit
wait "$service"
