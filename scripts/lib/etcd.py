"""Members of an etcd that scripts start, ask, stop and kill."""

import base64
import http.client
import json
import os
import signal
import subprocess
import sys
import time

from lib.serving import HOST, free_port
from lib.stopping import kill

PATHS = {"append": "/v3/kv/txn", "page": "/v3/kv/range", "head": "/v3/kv/range", "login": "/v3/auth/authenticate"}
SECONDS = 60
# As in contrib/etcd: an import is one long line.
LIMITS = ["--max-request-bytes", "16777216"]


def in_base64(value):
    return base64.b64encode(value).decode()


class Members:
    """Members of one etcd, each with a folder of its own below the one that is given."""

    def __init__(self, room, count):
        ports = [(free_port(), free_port()) for _ in range(count)]
        self.ports = [client for client, _ in ports]
        peers = [f"http://{HOST}:{peer}" for _, peer in ports]
        whole = ",".join(f"m{index}={peer}" for index, peer in enumerate(peers))
        self.processes = []
        for index, (client, peer) in enumerate(zip(self.ports, peers)):
            url = f"http://{HOST}:{client}"
            words = ["etcd", "--name", f"m{index}", "--data-dir", f"{room}/m{index}", *LIMITS]
            words += ["--listen-client-urls", url, "--advertise-client-urls", url]
            words += ["--listen-peer-urls", peer, "--initial-advertise-peer-urls", peer, "--initial-cluster", whole]
            with open(f"{room}/m{index}.log", "wb") as log:
                self.processes.append(subprocess.Popen(words, stdout=log, stderr=log))

    def __enter__(self):
        return self

    def __exit__(self, *_):
        kill(*self.processes)

    def post(self, index, path, text, token=None):
        """Posts a text to a member, and returns the status and the body of its answer."""
        connection = http.client.HTTPConnection(HOST, self.ports[index], timeout=SECONDS)
        try:
            connection.request("POST", path, text.encode(), {"Authorization": token} if token else {})
            response = connection.getresponse()
            return response.status, response.read().decode()
        finally:
            connection.close()

    def wait(self, index):
        """Waits until a member answers a read."""
        text = json.dumps({"key": in_base64(b"none")})
        for _ in range(SECONDS * 5):
            try:
                if self.post(index, PATHS["page"], text)[0] == 200:
                    return
            except (OSError, http.client.HTTPException):
                pass
            time.sleep(0.2)
        sys.exit("FAILED: etcd does not start")

    def address(self, index, name):
        """Returns the address of a log at a member, as `--log` has it."""
        return f"http://{HOST}:{self.ports[index]}/{name}"

    def stop(self, *indexes):
        """Stops these members, and waits until they stand: until then one may still answer the others."""
        for index in indexes:
            process = self.processes[index]
            process.send_signal(signal.SIGSTOP)
            os.waitpid(process.pid, os.WUNTRACED)

    def go_on(self, *indexes):
        for index in indexes:
            self.processes[index].send_signal(signal.SIGCONT)

    def ask_for_logins(self, log, name, password):
        """Lets each request need a login from now on, and makes a user who may read and write the lines of this log alone."""
        lines = {"key": in_base64(f"{log}/".encode()), "range_end": in_base64(f"{log}0".encode()), "permType": "READWRITE"}
        for path, value in (
            ("user/add", {"name": "root", "password": "r"}),
            ("user/grant", {"user": "root", "role": "root"}),
            ("user/add", {"name": name, "password": password}),
            ("role/add", {"name": log}),
            ("role/grant", {"name": log, "perm": lines}),
            ("user/grant", {"user": name, "role": log}),
            ("enable", {}),
        ):
            status, body = self.post(0, f"/v3/auth/{path}", json.dumps(value))
            if status != 200:
                sys.exit(f"FAILED: {path} of etcd: {status} {body}")

    def lines(self, index, name):
        """Returns the lines of a log."""
        first, last = (in_base64(f"{name}/{digits}".encode()) for digits in ("0000000000", "9999999999"))
        status, body = self.post(index, PATHS["page"], json.dumps({"key": first, "range_end": last}))
        if status != 200:
            sys.exit(f"FAILED: the lines of {name}: {status} {body}")
        return [base64.b64decode(it["value"]).decode() for it in json.loads(body).get("kvs", [])]
