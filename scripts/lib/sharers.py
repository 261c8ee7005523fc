"""Machines that share a registry, as docs/sharing.md sets them up, and clients that send orders to them."""

import json
import random
import re
import subprocess
import sys
import threading
import time

from lib.booted import Booted
from lib.pages import OPERATING, block
from lib.usbreg import same

PAGE = ("docs/sharing.md",)
ADDRESSES = {"one": "192.0.2.11", "two": "192.0.2.12", "three": "192.0.2.13"}
HOST, LINK = "registry.example", "https://acme.example/"
NAME = "curator-1"
SERVER = "http://127.0.0.1:8080"
# The seconds between two orders of a client, and those that it waits for a reply.
BETWEEN, PATIENCE = 1, 120


def enrol(org):
    return {"order": "enrol", "org": org, "title": org, "site": LINK}


def ask(org, number):
    return {"order": "ask", "org": org, "number": number, "title": "Blinker", "licence": "MIT", "site": LINK, "source": LINK}


class Sharer(Booted):
    """A machine that shares a registry, as the page sets it up."""

    def __init__(self, room, name):
        super().__init__(room, name, 0)
        self.room, self.address = room, ADDRESSES[name]

    def own(self, commands):
        """Returns commands with the names and addresses of this machine."""
        others = " ".join(it for it in ADDRESSES.values() if it != self.address)
        commands = re.sub(r"^name=one\b", f"name={self.name}", commands, flags=re.MULTILINE)
        commands = re.sub(r"address=192\.0\.2\.11$", f"address={self.address}", commands, flags=re.MULTILINE)
        return re.sub(r'OTHERS="[^"]*"', f'OTHERS="{others}"', commands)

    def step(self, title, at=0):
        """Runs the commands below a title of the page."""
        return self.must_run(self.own(block(title, at, PAGE)))

    def install(self, package):
        """Installs what the page asks for, and puts the files there that it says to copy."""
        self.put(package, "/root/usbreg_of_this_walk.deb")
        self.must_run(block("The package", 0, OPERATING))
        self.step("Install")

    def certify(self):
        for it in ("ca.crt", f"{self.name}.crt", f"{self.name}.key"):
            self.put(f"{self.room}/{it}", f"/root/{it}")
        self.step("Certificates", 1)
        self.step("etcd")

    def begin(self, record):
        """Founds the registry, or makes it from a copy of its record, and puts the record into the log."""
        if record:
            self.put(record, "/root/record.jsonl")
            self.step("All are lost")
        else:
            self.step("The store and the log", 1)
        same("what sharing says", self.step("The store and the log", 2), "")

    def serve(self):
        same(f"{self.name}: what the service says", re.findall("serves [0-9]+ requests", self.step("The store and the log", 3))[:1] != [], True)

    def front(self):
        """Sets up nginx."""
        for it in ("certificate.pem", "key.pem"):
            self.put(f"{self.room}/{it}", f"/etc/usbreg/{it}")
        self.must_run("cat /etc/usbreg/certificate.pem >> /etc/ssl/certs/ca-certificates.crt")
        self.step("The proxies", 2)

    def users(self):
        self.put(f"{self.room}/usbreg.users", "/root/usbreg.users")
        self.step("The proxies", 1)

    def publish(self):
        """Publishes the list, and closes the log to others if this machine knows such rules."""
        same(f"{self.name}: the list", "# List of USB numbers" in self.step("The list"), True)
        if self.runs("nft list ruleset")[0]:
            return False
        self.must_run(block("The firewall", 0, OPERATING))
        nobody = [self.runs(f"runuser -u nobody -- curl -sS -m 5 http://127.0.0.1:{port}/")[0] != 0 for port in (2379, 8080, 8081, 8082)]
        same(f"{self.name}: what another user reaches", nobody, [True] * 4)
        return True

    def asks(self, path, address="127.0.0.1"):
        """Returns the status and the body of what its nginx answers, by any machine. The address is one of its own."""
        curl = f"curl -sS -m 60 --cacert /etc/usbreg/certificate.pem --resolve {HOST}:443:{address} -w '%{{http_code}}'"
        output = self.must_run(f"{curl} https://{HOST}{path}")
        return int(output[-3:]), output[:-3]

    def says(self, path):
        """Returns what its server answers, once it answers."""
        return self.waits(f"an answer to {path}", f"curl -fsS -m 60 {SERVER}{path}")

    def record(self):
        """Returns the record of its store, which is sound, while its service is stopped."""
        self.must_run("systemctl stop usbreg; runuser -u usbreg -- usbreg check /var/lib/usbreg/numbers.db")
        record = self.must_run("runuser -u usbreg -- usbreg history /var/lib/usbreg/numbers.db")
        self.must_run("systemctl start usbreg")
        return record

    def waits(self, what, commands):
        """Returns the output of commands once they succeed."""
        until = time.monotonic() + PATIENCE
        while (ran := self.runs(commands))[0]:
            if time.monotonic() > until:
                sys.exit(f"{self.name}: {what}: {ran[1]} {self.runs('journalctl -n 30 --no-pager -o cat')[1]}")
            time.sleep(0.3)
        return ran[1]

    def sends(self, password, address, key, order, *words, to="/commands"):
        """Sends an order, or the text of a list, to the nginx at an address over the wires of this machine. Returns the status, 0
        if there is none, and the reply."""
        body = order if isinstance(order, str) else json.dumps(order)
        curl = ["curl", "-sS", "-m", "60", "--cacert", f"{self.room}/certificate.pem", "--resolve", f"{HOST}:443:{address}", "-w", "\n%{http_code}"]
        curl += ["-u", f"{NAME}:{password}", "-H", f"registry-key: {key}", "--data-binary", body, *words, f"https://{HOST}{to}"]
        ran = subprocess.run(["nsenter", "-t", self.pid, "-n", *curl], capture_output=True, check=False, timeout=PATIENCE)
        reply, _, status = ran.stdout.decode().rpartition("\n")
        return int(status or 0), reply


class Client(threading.Thread):
    """Asks for one number after another, and grants it to itself: an order that gets no reply it sends again, under its key, to any
    machine, until it is accepted or refused."""

    def __init__(self, name, machine, password, accepted):
        super().__init__(daemon=True)
        self.name, self.machine, self.password, self.accepted = name, machine, password, accepted
        self.again, self.refused, self.ends, self.failed = 0, 0, threading.Event(), None

    def run(self):
        try:
            self.order("enrol", enrol(self.name))
            number = 0x100
            while not self.ends.is_set():
                number += 1
                self.ends.wait(BETWEEN)
                if petition := self.order(f"ask-{number:x}", ask(self.name, f"{number:04x}")):
                    self.ends.wait(BETWEEN)
                    self.order(f"grant-{number:x}", {"order": "grant", "petition": int(petition.split()[1])})
        # (the script ends with what it was)
        except Exception as failed:
            self.failed = failed

    def order(self, what, order):
        """Returns what was done, or nothing if the order was refused."""
        key, until = f"{self.name}-{what}", time.monotonic() + PATIENCE
        while time.monotonic() < until:
            status, reply = self.machine.sends(self.password, random.choice(list(ADDRESSES.values())), key, order)
            if status == 200:
                self.accepted[key] = json.loads(reply)["done"]
                return self.accepted[key]
            # (what the proxy refuses, the registry has not judged)
            if 400 <= status < 500 and '"proxy"' not in reply:
                self.refused += 1
                return None
            self.again += 1
            time.sleep(0.2)
        raise RuntimeError(f"{key} got no reply in {PATIENCE} seconds")


class Clients:
    """Two clients that ask for the same numbers, for a `with`."""

    def __init__(self, round_, machine, password, accepted):
        self.all = [Client(f"{it}{round_}", machine, password, accepted) for it in ("acme", "bolt")]

    def __enter__(self):
        for it in self.all:
            it.start()
        return self

    def __exit__(self, kind, *_):
        for it in self.all:
            it.ends.set()
        for it in self.all:
            it.join(PATIENCE)
            if kind is None and (it.failed or it.is_alive()):
                sys.exit(f"the client {it.name} failed: {it.failed}")
