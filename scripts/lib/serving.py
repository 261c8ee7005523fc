"""What the scripts and benchmarks that talk HTTP to `usbreg serve` share: a process that serves, messages, and the
responses that they must get. Status, name and number of each refusal are those of the table in docs/requests.md."""

import contextlib
import functools
import itertools
import json
import os
import random
import re
import socket
import subprocess
import sys
import time

from lib.stopping import kill
from lib.usbreg import TOP, content

HOST = "127.0.0.1"
# Ports below those that the system gives to clients, so that no connection takes one while nobody listens on it.
PORTS = range(20000, 32768)
# How many of them a process takes for itself.
BLOCK = 256
# The seconds that a script waits for a process or a response.
PATIENCE = 60
PHRASES = {
    200: "OK", 400: "Bad Request", 403: "Forbidden", 404: "Not Found", 405: "Method Not Allowed", 409: "Conflict",
    411: "Length Required", 413: "Payload Too Large", 422: "Unprocessable Entity", 503: "Service Unavailable",
}
JSON, TEXT = "application/json", "text/plain; charset=utf-8"


@functools.cache
def ports_of(_process):
    """Takes a block of ports until the process ends. Returns them in turn, without an end, and what holds them.

    Scripts run side by side, and a port that is free when one of them looks may be another's by the time that its server
    binds it. So a name of the abstract namespace of sockets stands for each block; the system frees it with the process."""
    blocks = [PORTS[at : at + BLOCK] for at in range(0, len(PORTS), BLOCK)]
    random.shuffle(blocks)
    for block in blocks:
        held = socket.socket(socket.AF_UNIX)
        try:
            held.bind(f"\0usbreg-ports-{block[0]}")
        except OSError:
            held.close()
        else:
            return itertools.cycle(block), held
    sys.exit("other processes have all blocks of ports")


def free_port():
    """Returns a free port of those that this process has taken."""
    for port in ports_of(os.getpid())[0]:
        with socket.socket() as it, contextlib.suppress(OSError):
            # as a server binds: a port whose connections were closed a moment ago is free
            it.setsockopt(socket.SOL_SOCKET, socket.SO_REUSEADDR, 1)
            it.bind((HOST, port))
            return port


def listens(port):
    """Returns whether a process listens on the port. It asks the system, since a connection would count as one served."""
    wanted = f"0100007F:{port:04X}"
    rows = (line.split() for line in content("/proc/net/tcp").decode().splitlines()[1:])
    return any(row[1] == wanted and row[3] == "0A" for row in rows)


class Serving:
    """A process that serves on a port, for a `with`: at its end the process is killed if it still runs."""

    def __init__(self, words, port, env=None, limit=None):
        self.words, self.port = words, port
        how = {"stdin": subprocess.DEVNULL, "stdout": subprocess.PIPE, "stderr": subprocess.PIPE}
        self.process = subprocess.Popen(words, env={**os.environ, **(env or {})}, preexec_fn=limit, **how)

    def __enter__(self):
        return self

    def __exit__(self, *_):
        self.process.kill()
        self.process.communicate()

    def is_up(self):
        """Waits until it listens, and returns true; or until it has ended, and returns false."""
        until = time.monotonic() + PATIENCE
        while time.monotonic() < until:
            if listens(self.port):
                return True
            if self.process.poll() is not None:
                return False
            time.sleep(0.002)
        self.kill()
        sys.exit(f"{' '.join(self.words)}: it doesn't listen after {PATIENCE} seconds")

    def up(self):
        """Returns itself, once it listens. Ends the script if the process ends before."""
        if not self.is_up():
            sys.exit(f"{' '.join(self.words)}: it ended with {self.ended()}")
        return self

    def ended(self):
        """Returns the exit status and the output, once it ends by itself."""
        try:
            output, errors = self.process.communicate(timeout=PATIENCE)
        except subprocess.TimeoutExpired:
            sys.exit(f"{' '.join(self.words)}: it doesn't end")
        return self.process.returncode, output, errors

    def kill(self):
        """Kills it as `kill -9` does."""
        kill(self.process)


def serving(usbreg, store, count=None, port=None, **how):
    """Starts `usbreg serve` on a store, for `count` connections if given."""
    port = port or free_port()
    counted = [] if count is None else ["--count", str(count)]
    return Serving([usbreg, "serve", store, "--port", str(port), *counted], port, **how)


def message(method, target, body=None, **fields):
    """Returns a message. The names of fields have _ in place of -; a length is added if it has a body."""
    length = {} if body is None else {"content-length": len(body)}
    named = {name.replace("_", "-"): value for name, value in fields.items()}
    lines = "".join(f"{name}: {value}\r\n" for name, value in ({"host": "localhost"} | named | length).items())
    return f"{method} {target} HTTP/1.1\r\n{lines}\r\n".encode() + (body or b"")


def get(target):
    return message("GET", target)


def post(caller, key, body, target="/commands"):
    return message("POST", target, body, registry_caller=caller, registry_key=key)


def command(request):
    """Returns the message of a request: caller, key and time are fields of its head, and a list is the body of an import."""
    told = {"registry_caller": request["caller"], "registry_key": request["key"]}
    if request.get("at"):
        told["registry_time"] = request["at"]
    if request["order"] == "import":
        vendor = [request["vendor"]] if "vendor" in request else []
        return message("POST", "/".join(["/imports", request["org"], *vendor]), request["list"].encode(), **told)
    order = {name: value for name, value in request.items() if name not in ("caller", "key", "at")}
    return message("POST", "/commands", json.dumps(order, separators=(",", ":")).encode(), **told)


def connected(port):
    """Opens a connection that sends bytes without delay."""
    connection = socket.create_connection((HOST, port), timeout=PATIENCE)
    connection.setsockopt(socket.IPPROTO_TCP, socket.TCP_NODELAY, 1)
    return connection


def read_to_end(connection):
    """Returns all bytes that come. A reset is an error."""
    return b"".join(iter(lambda: connection.recv(65536), b""))


def exchange(port, sent, last=False):
    """Returns the response to these bytes. If they are the last, the connection is closed for writing after them."""
    with connected(port) as connection:
        connection.sendall(sent)
        if last:
            connection.shutdown(socket.SHUT_WR)
        return read_to_end(connection)


def response(body, status=200, kind=JSON, allow=None, digest=None):
    """Returns the bytes of a response."""
    allowed = f"allow: {allow}\r\n" if allow else ""
    continued = f"registry-digest: {digest}\r\n" if digest else ""
    head = f"HTTP/1.1 {status} {PHRASES[status]}\r\ncontent-type: {kind}\r\ncontent-length: {len(body)}\r\n{allowed}{continued}connection: close\r\n\r\n"
    return head.encode() + body


def done(text):
    return response(f'{{"done":"{text}"}}\n'.encode())


def refusals():
    """Returns the name and the status of each refusal over HTTP by its number, as in docs/requests.md."""
    rows = re.findall(r"^\| (\d+) \| (\w+) \| (\d+) \|", content(f"{TOP}/docs/requests.md").decode(), re.MULTILINE)
    return {int(number): (name, int(status)) for number, name, status in rows}


def refused(number, detail=None, allow=None):
    """Returns the response with a refusal."""
    name, status = refusals()[number]
    told = ({"detail": detail} if detail else {}) | {"name": name, "refused": number}
    return response(json.dumps(told, separators=(",", ":")).encode() + b"\n", status, allow=allow)
