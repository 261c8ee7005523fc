"""Stores with many accepted requests, and with many open petitions, for `worst_orders.py`: what an opening of the one and the
report of the other take. SQLite makes them, since each row would take an order."""

import os
import re
import sqlite3
import subprocess
import threading
import time

from lib.serving import command, connected, exchange, get, read_to_end, serving
from lib.usbreg import content, copy, found, kept_rows, opened, put_rows
from order_cases import KEEPER, RUNS, SCALE, SITE

HERE = os.path.dirname(os.path.abspath(__file__))
# The accepted requests of the stores that are opened; the petitions of those that are reported on, how many of them are
# open, the most of an organisation, and their titles.
REQUESTS = [it // SCALE for it in (20_000, 200_000, 1_000_000)]
PETITIONS, OF_EACH, TITLE = 1_000_000 // SCALE, 16, "L" * 200
OPEN = [PETITIONS, 1_000]
PUT_ORG = "INSERT INTO orgs VALUES (?, 'Workshop', ?, ?)"


def with_requests(usbreg, room, count):
    """Makes a store with so many accepted requests, and returns its path."""
    form = f"amend-org\to1\tWorkshop\t{SITE}".encode()
    return put_rows(found(usbreg, f"{room}/requests.db"), (
        (PUT_ORG, [("o1", SITE, KEEPER)]),
        *kept_rows((KEEPER, f"a{it:08}", form, "amended organisation o1") for it in range(count)),
    ))


def with_petitions(usbreg, room, count, open_ones):
    """Makes a store with so many petitions with the longest titles, of which the last are open and the others declined, and
    returns its path."""
    return put_rows(found(usbreg, f"{room}/petitions.db"), (
        (PUT_ORG, ((f"o{it}", SITE, KEEPER) for it in range(count // OF_EACH + 1))),
        ("INSERT INTO petitions3 VALUES (?, 0x1209, ?, NULL, ?, 'MIT', ?, ?, ?, NULL)",
         ((it + 1, f"o{it // OF_EACH}", TITLE, SITE, SITE, 2 * (it < count - open_ones)) for it in range(count))),
    ))


def least(run):
    """Returns the least seconds of several runs."""
    taken = []
    for _ in range(max(1, RUNS // 4)):
        began = time.perf_counter()
        run()
        taken.append(time.perf_counter() - began)
    return min(taken)


def checked(store):
    """Lets SQLite check each page, index and constraint of a store."""
    with opened(store) as connection:
        if connection.execute("PRAGMA integrity_check").fetchall() != [("ok",)]:
            raise sqlite3.DatabaseError(f"{store} is damaged")


def openings(usbreg, room):
    """Prints what an opening takes by the number of accepted requests, beside SQLite's check of the same file."""
    subprocess.run(["cc", "-O2", "-o", f"{room}/peak", f"{HERE}/peak.c"], check=True)
    print("\n| Accepted requests | File | Opening | SQLite's check | Times as long | Peak memory | Of the file |\n|---|---|---|---|---|---|---|")
    for count in REQUESTS:
        store = with_requests(usbreg, room, count)
        size, opening = os.path.getsize(store), [f"{room}/peak", usbreg, "report", store, "census"]
        checking = least(lambda: checked(copy(store, f"{room}/checked.db")))
        seconds = least(lambda: subprocess.run(opening, stdout=subprocess.DEVNULL, check=True))
        peak = int(subprocess.run(opening, stdout=subprocess.PIPE, check=True).stdout.splitlines()[-1])
        print(f"| {count:,} | {size / 1e6:.1f} MB | {seconds:.2f} s | {checking:.2f} s | {seconds / checking:.1f} | {peak / 1e6:.1f} MB | {peak / size:.2f} |", flush=True)


def most_memory(server):
    """Returns the most bytes of memory that a server has had."""
    return 1024 * int(re.search(rb"VmHWM:\s+(\d+)", content(f"/proc/{server.process.pid}/status"))[1])


def timed(run):
    """Returns the seconds that a call takes, and its result."""
    began = time.perf_counter()
    result = run()
    return time.perf_counter() - began, result


def report(usbreg, room):
    """Prints what the report of many petitions takes, all open or few, anew and as before, and how long an order waits for it."""
    print("\n| Petitions | Open | File | The report | Anew | As before | An order beside it | Memory above the opening's |\n|---|---|---|---|---|---|---|---|")
    for open_ones in OPEN:
        report_on(usbreg, room, open_ones)


def report_on(usbreg, room, open_ones):
    """Prints a row of that table."""
    store = with_petitions(usbreg, room, PETITIONS, open_ones)
    with serving(usbreg, store).up() as server:
        opened_with, first = most_memory(server), connected(server.port)
        began = time.perf_counter()
        first.sendall(get("/reports/petitions"))
        taken = []
        reader = threading.Thread(target=lambda: taken.append((read_to_end(first), time.perf_counter() - began)))
        reader.start()
        enrol = {"caller": KEEPER, "key": "e", "order": "enrol", "org": "beside", "title": "Workshop", "site": SITE}
        waited, answer = timed(lambda: exchange(server.port, command(enrol)))
        reader.join()
        first.close()
        anew, seconds = taken[0]
        if not answer.startswith(b"HTTP/1.1 200 ") or anew.count(b"\n") < open_ones:
            raise RuntimeError(f"an order gets {answer[:200]}, and the report {anew[:200]}")
        again, _ = timed(lambda: exchange(server.port, get("/reports/petitions")))
        peak = most_memory(server)
    size, more = os.path.getsize(store), peak - opened_with
    print(f"| {PETITIONS:,} | {open_ones:,} | {size / 1e6:.1f} MB | {len(anew) / 1e6:.1f} MB | {seconds:.2f} s | {again:.2f} s | {waited:.2f} s | {more / 1e6:.1f} MB |", flush=True)
