#!/usr/bin/env python3
"""A plain registry over HTTP, without proofs, by `http.server` and the registry of peer.py: the peer of `usbreg serve` in
benchmarks.

Usage: http_peer.py STORE PORT: serves POST /commands, GET /numbers/{pid}, GET /list and GET /reports/holders of a new or an
existing store, on 127.0.0.1, one connection after another, until it is killed. It keeps the list and the report until an
order comes."""

import json
import sys
from http.server import BaseHTTPRequestHandler, HTTPServer

from peer import VID, Registry, one

REGISTRY = Registry(sys.argv[1])
FIELDS = ("licence", "org", "site", "source", "title")
KEPT = {}


def listed():
    rows = REGISTRY.db.execute("SELECT pid, title FROM entries3 WHERE vid = ? AND held = 1 ORDER BY pid", (VID,))
    return "# List of USB numbers in the syntax of usb.ids\n\n1209  Shared products\n" + "".join(f"\t{pid:04x}  {title}\n" for pid, title in rows)


def holders():
    rows = REGISTRY.db.execute("SELECT org, sum(held), sum(1 - held) FROM entries3 GROUP BY org ORDER BY org")
    return "".join(f"{org:32}{held:6}{returned:6}\n" for org, held, returned in rows)


MAKE = {"/list": listed, "/reports/holders": holders}


class Handler(BaseHTTPRequestHandler):
    protocol_version = "HTTP/1.1"
    wbufsize = -1

    def respond(self, body, status=200, kind="application/json"):
        self.send_response_only(status)
        for name, value in (("content-type", kind), ("content-length", len(body)), ("connection", "close")):
            self.send_header(name, value)
        self.end_headers()
        self.wfile.write(body)

    def respond_json(self, value, status=200):
        self.respond(json.dumps(value, separators=(",", ":")).encode() + b"\n", status)

    def do_POST(self):
        body = self.rfile.read(int(self.headers["content-length"]))
        sender = {"caller": self.headers["registry-caller"], "key": self.headers["registry-key"]}
        reply = REGISTRY.act(json.loads(body) | sender, body)
        KEPT.clear()
        self.respond_json(reply, 200 if "done" in reply else 409)

    def do_GET(self):
        if self.path in MAKE:
            if self.path not in KEPT:
                KEPT[self.path] = MAKE[self.path]().encode()
            self.respond(KEPT[self.path], kind="text/plain; charset=utf-8")
            return
        pid = int(self.path.removeprefix("/numbers/"), 16)
        found = one(REGISTRY.db, f"SELECT {', '.join(FIELDS)}, held FROM entries3 WHERE vid = ? AND pid = ?", VID, pid)
        state = ("held" if found[-1] else "returned") if found else "free"
        self.respond_json(dict(zip(FIELDS, found or ())) | {"number": f"{pid:04x}", "state": state})


class Server(HTTPServer):
    request_queue_size = 128


Server(("127.0.0.1", int(sys.argv[2])), Handler).serve_forever()
