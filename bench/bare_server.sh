#!/usr/bin/env bash
# What the event loops of the service and hyper take by themselves, beside nginx: bare_server.sh [SECONDS [TURNS]]     (2 seconds, 3 turns)
root=$(cd "$(dirname "$0")/.." && pwd)
. "$root/bench/programs.sh"
BARE_SERVER=$(bare_server) || exit 1
export BARE_SERVER
exec python3 "$root/bench/serve_http.py" "${1:-2}" "${2:-3}" bare
