#!/usr/bin/env python3
"""Times `usbreg serve` beside two registries over HTTP of a few lines without proofs, one in C over libsqlite3 and one in
Python by http.server and sqlite3: the same messages, one connection each, from a client in C that keeps up. The one in C
runs once with the pages that SQLite gives it, of 4,096 bytes, and once with pages as small as those of usbreg. All keep the
list and a report until an order comes.

Prints messages per second and their ratios, in a file on tmpfs (/dev/shm), best and median of five runs that alternate:
orders on a new store, and numbers, the list and the holders of a store with 60,000 numbers and 100,000 petitions: once
unchanged since they were last asked for, and once after a grant each. Then, for usbreg
alone, it prints the cost of a query on that store over that on one with 100 numbers, and how much the longest order, the
longest list, the most devices and a query for the list raise the peak memory. Needs the program that `make` builds, or the
one whose path is in USBREG, and cc, and says what is missing."""

import os
import re
import shutil
import statistics
import subprocess
import sys
import tempfile

HERE = os.path.dirname(os.path.abspath(__file__))
sys.path.insert(0, f"{HERE}/../scripts")
from lib.serving import Serving, command, exchange, free_port, get, post
from lib.usbreg import PAGE_SIZE, apply, content, declined, done, found, program, remove, rounds, write_requests

RUNS = int(os.environ.get("TIMES", "5"))
# The number of connections that the client has open at a time.
OPEN = 8
TABLES = f"{HERE}/tables.sql"
NUMBERS, PETITIONS, FEW = 60000, 100000, 100


class Program:
    """A program that serves a store on a port, and another that acts on request lines."""

    def __init__(self, name, serve, found, act):
        self.name, self.words, self.new, self.act = name, serve, found, act

    def serve(self, store):
        port = free_port()
        return Serving(self.words(store, port), port).up()

    def filled(self, store, lines):
        self.act(self.new(store), lines)
        return store


def absent(store):
    remove(store)
    return store


def programs(room):
    usbreg = program()
    yield Program("usbreg", lambda store, port: [usbreg, "serve", store, "--port", str(port)], lambda store: found(usbreg, store), lambda store, lines: apply(usbreg, store, lines))
    if os.path.exists("/usr/include/sqlite3.h"):
        peer, by_lines = build(room, "http_peer", "-lsqlite3"), build(room, "peer", "-lsqlite3")
        yield Program("C, libsqlite3", lambda store, port: [peer, store, str(port), TABLES], absent, lambda store, lines: done([by_lines, store, lines, TABLES]))
        small = [TABLES, str(PAGE_SIZE)]
        yield Program("C, small pages", lambda store, port: [peer, store, str(port), *small], absent, lambda store, lines: done([by_lines, store, lines, *small]))
    else:
        print("no peer in C: apt-get install libsqlite3-dev")
    python = sys.executable
    yield Program("Python, sqlite3", lambda store, port: [python, f"{HERE}/http_peer.py", store, str(port)], absent, lambda store, lines: done([python, f"{HERE}/peer.py", store, lines]))


def build(room, name, *libraries):
    subprocess.run(["cc", "-O2", "-o", f"{room}/{name}", f"{HERE}/{name}.c", *libraries], check=True)
    return f"{room}/{name}"


def write_messages(path, messages):
    with open(path, "wb") as file:
        for it in messages:
            file.write(b"%d\n%s" % (len(it), it))
    return path


class Client:
    def __init__(self, room):
        self.path = build(room, "http_client")

    def send(self, server, messages):
        """Returns the seconds, and the bytes of all responses."""
        seconds, count = done([self.path, str(server.port), messages, str(OPEN)]).split()
        return float(seconds), int(count)


def side_by_side(title, all_programs, count, run):
    """Runs each program in turn, the given number of times; the responses of all must have equally many bytes."""
    taken = {it.name: [] for it in all_programs}
    for _ in range(RUNS):
        sizes = set()
        for it in all_programs:
            seconds, size = run(it)
            taken[it.name].append(seconds)
            sizes.add(size)
        if len(sizes) != 1:
            sys.exit(f"{title}: the programs do not respond the same: {sizes} bytes")
    ours = taken[all_programs[0].name]
    print(f"{title}, {count} messages, runs: {RUNS}:")
    for name, seconds in taken.items():
        best, middle = min(seconds), statistics.median(seconds)
        print(f"  {name:16} {count / best:9.0f} a second, usbreg has {min(seconds) / min(ours):5.2f} of its rate at best, {middle / statistics.median(ours):5.2f} at the median", flush=True)


def orders(all_programs, client, room):
    messages = [command(it) for it in rounds(1, 1000)]
    path = write_messages(f"{room}/orders", messages)

    def run(it):
        with it.serve(it.new(f"{room}/new.db")) as server:
            return client.send(server, path)

    side_by_side("POST /commands, in a file on tmpfs", all_programs, len(messages), run)


def queries(title, all_programs, client, room, stores, messages, before=()):
    """Times the messages; those before them are sent first, and not timed."""
    path, first = write_messages(f"{room}/queries", messages), write_messages(f"{room}/before", before)

    def run(it):
        with it.serve(stores[it.name]) as server:
            client.send(server, first)
            return client.send(server, path)

    side_by_side(title, all_programs, len(messages), run)


def numbers(count, most):
    """Queries for held numbers, spread over a store with the given number of them."""
    return [get(f"/numbers/{17 + at * 7919 % most:04x}") for at in range(count)]


def granted(count):
    """Each query for the list follows the grant of one more number to a new organisation."""
    for number in range(NUMBERS + 1, NUMBERS + 1 + count):
        yield from (command(it) for it in rounds(number, number, PETITIONS - NUMBERS))
        yield get("/list")


def growth(usbreg, client, room, full):
    """Returns the cost of queries on the large store over that on a small one."""
    few = usbreg.filled(f"{room}/few.db", write_requests(f"{room}/few.jsonl", rounds(1, FEW)))
    for title, of in (
        ("/numbers/{pid}", lambda most: numbers(5000, most)),
        ("/orgs/{org}", lambda most: [get(f"/orgs/o{1 + at * 7919 % most}") for at in range(5000)]),
        ("/petitions/{id}", lambda most: [get(f"/petitions/{1 + at * 7919 % (most if most == FEW else PETITIONS)}") for at in range(5000)]),
    ):
        taken = {few: [], full: []}
        for _ in range(RUNS):
            for store, most in ((few, FEW), (full, NUMBERS)):
                with usbreg.serve(store) as server:
                    taken[store].append(client.send(server, write_messages(f"{room}/queries", of(most)))[0])
        print(f"GET {title} of {NUMBERS:,} numbers and {PETITIONS:,} petitions costs {min(taken[full]) / min(taken[few]):.2f} of one of {FEW} (best), {statistics.median(taken[full]) / statistics.median(taken[few]):.2f} (median)", flush=True)


def peak(server):
    """Returns the peak memory of the process, in bytes."""
    return 1024 * int(re.search(r"^VmHWM:\s+(\d+)", content(f"/proc/{server.process.pid}/status").decode(), re.MULTILINE)[1])


def memory(usbreg, room, full):
    """Measures the peak memory after messages of the greatest sizes."""
    listed = (b"# \n" * 4194304)[:4194304]
    devices = b"1209  x\n" + b"".join(b"\t%04x  %s\n" % (1 + at % 0xfff0, b"D" * 200) for at in range(8192))
    enrolment = b'{"order":"enrol","org":"acme","title":"Acme","site":"https://acme.example/"}'
    for title, store, sent in (
        ("an order of 16,384 bytes", None, post("ann", "k2", enrolment.replace(b"enrol", b"amend-org").ljust(16384))),
        ("a list of 4,194,304 bytes without devices", None, post("cora", "i1", listed, "/imports/acme")),
        (f"a list of 8,192 devices, {len(devices):,} bytes", None, post("cora", "i1", devices, "/imports/acme")),
        (f"the list of {NUMBERS:,} numbers", full, get("/list")),
    ):
        with usbreg.serve(store or usbreg.new(f"{room}/peak.db")) as server:
            exchange(server.port, post("ann", "k1", enrolment))
            before = peak(server)
            size = len(exchange(server.port, sent))
            print(f"{title}: {(peak(server) - before) / 1e6:.1f} MB more than the {before / 1e6:.1f} MB before it; the response has {size:,} bytes")


def main():
    if not shutil.which("cc"):
        sys.exit("no C compiler: apt-get install gcc")
    with tempfile.TemporaryDirectory(dir="/dev/shm") as room:
        all_programs, client = list(programs(room)), Client(room)
        orders(all_programs, client, room)
        lines = write_requests(f"{room}/full.jsonl", [*rounds(1, NUMBERS), *declined(NUMBERS, PETITIONS - NUMBERS)])
        stores = {it.name: it.filled(f"{room}/{number}.db", lines) for number, it in enumerate(all_programs)}
        queries(f"GET /numbers/{{pid}} of {NUMBERS:,}", all_programs, client, room, stores, numbers(5000, NUMBERS))
        for path in ("/list", "/reports/holders"):
            queries(f"GET {path} of {NUMBERS:,} numbers, unchanged", all_programs, client, room, stores, [get(path)] * 500, [get(path)])
        queries(f"GET /list of {NUMBERS:,} numbers, each after three orders, of which the last grants a number", all_programs, client, room, stores, [*granted(20)])
        usbreg = all_programs[0]
        growth(usbreg, client, room, stores[usbreg.name])
        memory(usbreg, room, stores[usbreg.name])


if __name__ == "__main__":
    main()
