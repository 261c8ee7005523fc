"""A log that answers too early, as a program between `usbreg serve` and the etcd of the same machine.

It answers each append at once, as etcd does once it has written the line, and sends it to etcd only after that, in the order in
which the appends came; what etcd says of it is heard by nobody. Any other request goes to etcd first, and gets its answer.

Usage: early_log.py PORT ETCD, two ports of 127.0.0.1."""

import http.client
import http.server
import json
import queue
import sys
import threading

HOST = "127.0.0.1"
# The seconds that etcd may take: without a quorum it answers after ten.
PATIENCE = 20
APPENDED = b'{"header":{"revision":"1"},"succeeded":true,"responses":[{"response_put":{"header":{"revision":"1"}}}]}'
# What each message has of its own.
OWN = ("host", "connection", "content-length")


def is_append(path, body):
    """Returns whether a request writes a line if its conditions hold."""
    return path == "/v3/kv/txn" and any("requestPut" in it for it in json.loads(body).get("success", ()))


def ask(etcd, path, body, fields):
    """Sends a request to etcd, and returns the status and the body of the answer: 503 if there is none."""
    connection = http.client.HTTPConnection(HOST, etcd, timeout=PATIENCE)
    try:
        connection.request("POST", path, body, fields)
        response = connection.getresponse()
        return response.status, response.read()
    except (OSError, http.client.HTTPException):
        return 503, b"{}"
    finally:
        connection.close()


def send_in_turn(etcd, appends):
    """Sends one append after another to etcd, without an end."""
    while True:
        ask(etcd, *appends.get())


def handler(etcd, appends):
    """Returns what serves a connection, and leaves appends to be sent."""

    class Handler(http.server.BaseHTTPRequestHandler):
        """Answers the requests of a connection, which stays open."""

        protocol_version = "HTTP/1.1"
        disable_nagle_algorithm = True

        def do_POST(self):
            body = self.rfile.read(int(self.headers["content-length"]))
            request = self.path, body, {name: value for name, value in self.headers.items() if name.lower() not in OWN}
            if is_append(self.path, body):
                self.answer(200, APPENDED)
                appends.put(request)
            else:
                self.answer(*ask(etcd, *request))

        def answer(self, status, body):
            self.send_response(status)
            self.send_header("content-type", "application/json")
            self.send_header("content-length", str(len(body)))
            self.end_headers()
            self.wfile.write(body)

        def log_message(self, *_):
            pass

    return Handler


def main(port, etcd):
    """Serves until it is killed."""
    appends = queue.Queue()
    threading.Thread(target=send_in_turn, args=(etcd, appends), daemon=True).start()
    http.server.ThreadingHTTPServer((HOST, port), handler(etcd, appends)).serve_forever()


if __name__ == "__main__":
    main(*map(int, sys.argv[1:]))
