#!/usr/bin/env python3
"""What examples/serve.json discovers and its collectors scrape, on loopback: targets at ports 9101 to 9107, and a discovery source at 9100."""

import http.server
import json
import threading

SOURCE = 9100
TARGETS = range(9101, 9108)
WEB = [{"targets": [f"127.0.0.1:{port}" for port in TARGETS if port > 9104], "labels": {"zone": "east"}}]


class Served(http.server.BaseHTTPRequestHandler):
    def do_GET(self):
        if self.server.server_port == SOURCE:
            self.tell("application/json", json.dumps(WEB))
        else:
            self.tell("text/plain; version=0.0.4", "# TYPE lamps_lit gauge\nlamps_lit 1\n")

    def tell(self, media, body):
        self.send_response(200)
        self.send_header("content-type", media)
        self.send_header("content-length", str(len(body)))
        self.end_headers()
        self.wfile.write(body.encode())

    def log_message(self, *_):
        pass


servers = [http.server.ThreadingHTTPServer(("127.0.0.1", port), Served) for port in (SOURCE, *TARGETS)]
for server in servers[1:]:
    threading.Thread(target=server.serve_forever, daemon=True).start()
servers[0].serve_forever()
