#!/usr/bin/env python3
"""Times `usbreg serve` over a log in etcd beside the same server without one, and beside what etcd itself takes: orders on a new store,
and queries for one organisation, one after another, each message on a connection of its own.

The log has one member, and then three, all on this machine. Stores and logs are on the disk (TMPDIR), since both are synced for
each order. Runs alternate; it prints the median of a message in microseconds and these ratios: an order over a log to an append to etcd
plus 1.2 of an order without one, and a query over a log to one without plus an empty read of etcd. Needs the program that `make`
builds, or the one whose path is in USBREG, and etcd, and says if it is missing."""

import http.client
import json
import os
import shutil
import statistics
import sys
import tempfile
import time

HERE = os.path.dirname(os.path.abspath(__file__))
sys.path.insert(0, f"{HERE}/../scripts")
from lib.etcd import PATHS, Members, in_base64
from lib.serving import HOST, Serving, command, exchange, free_port, get
from lib.usbreg import done, found, program

RUNS, COUNT = int(os.environ.get("TIMES", "5")), 200
SITE = "https://acme.example/"


def timed(calls):
    """Returns the median of the seconds that each call takes."""
    taken = []
    for call in calls:
        begun = time.perf_counter()
        call()
        taken.append(time.perf_counter() - begun)
    return statistics.median(taken)


def orders(port, run):
    """Returns calls that send an order each."""
    def call(index):
        name = f"r{run}n{index}"
        order = {"caller": "ann", "key": name, "order": "enrol", "org": name, "title": f"Maker {index}", "site": SITE}
        if b" 200 " not in exchange(port, command(order))[:20]:
            sys.exit("an order is not accepted")

    return [lambda index=index: call(index) for index in range(COUNT)]


def queries(port, run):
    return [lambda: exchange(port, get(f"/orgs/r{run}n0"))] * COUNT


class Etcd:
    """One connection to a member, which is kept open."""

    def __init__(self, members, name):
        self.connection, self.name, self.next = http.client.HTTPConnection(HOST, members.ports[0]), name, 0

    def key(self, n):
        return in_base64(f"{self.name}/{n:010d}".encode())

    def post(self, path, value):
        self.connection.request("POST", path, json.dumps(value))
        return json.loads(self.connection.getresponse().read())

    def append(self):
        """Appends a line as long as that of an order, on the condition that `usbreg` has."""
        n, line = self.next, in_base64(b"x" * 200)
        before = [{"key": self.key(n - 1), "target": "CREATE", "result": "GREATER", "create_revision": "0"}] if n else []
        free = {"key": self.key(n), "target": "CREATE", "result": "EQUAL", "create_revision": "0"}
        put, there = {"requestPut": {"key": self.key(n), "value": line}}, {"requestRange": {"key": self.key(n)}}
        if not self.post(PATHS["append"], {"compare": [free, *before], "success": [put], "failure": [there]}).get("succeeded"):
            sys.exit("etcd takes no line")
        self.next += 1

    def read(self):
        """Reads the lines behind the last one: none."""
        self.post(PATHS["page"], {"key": self.key(self.next), "range_end": self.key(10**10 - 1), "limit": "1000"})


def measure(title, usbreg, room, count):
    """Times the server without a log and over one with so many members."""
    taken = {it: [] for it in ("order", "query", "order over a log", "query over a log", "append", "read")}
    with Members(room, count) as members:
        members.wait(0)
        log = members.address(0, "numbers")
        plain, shared = found(usbreg, f"{room}/plain.db"), found(usbreg, f"{room}/shared.db")
        done([usbreg, "share", shared, "--log", log])
        ports = free_port(), free_port()
        with Serving([usbreg, "serve", plain, "--port", str(ports[0])], ports[0]) as one, Serving([usbreg, "serve", shared, "--port", str(ports[1]), "--log", log], ports[1]) as two:
            one.up()
            two.up()
            etcd = Etcd(members, "bench")
            for run in range(RUNS):
                taken["order"].append(timed(orders(ports[0], run)))
                taken["order over a log"].append(timed(orders(ports[1], run)))
                taken["append"].append(timed([etcd.append] * COUNT))
                taken["query"].append(timed(queries(ports[0], run)))
                taken["query over a log"].append(timed(queries(ports[1], run)))
                taken["read"].append(timed([etcd.read] * COUNT))
    middle = {name: statistics.median(it) for name, it in taken.items()}
    print(f"{title}, {COUNT} messages a run, runs: {RUNS}:")
    for name, seconds in middle.items():
        print(f"  {name:17} {seconds * 1e6:7.0f} us")
    print(f"  an order over the log takes {middle['order over a log'] / (middle['append'] + 1.2 * middle['order']):.2f} of an append plus 1.2 of an order without one")
    print(f"  a query over the log takes {middle['query over a log'] / (middle['query'] + middle['read']):.2f} of one without it plus an empty read", flush=True)


def main():
    if not shutil.which("etcd"):
        print("no etcd: apt-get install etcd-server")
        return
    for title, count in (("one member", 1), ("three members", 3)):
        with tempfile.TemporaryDirectory() as room:
            measure(title, program(), room, count)


if __name__ == "__main__":
    main()
