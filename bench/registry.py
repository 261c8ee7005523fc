#!/usr/bin/env python3
"""Times `usbreg` beside two registries of a few lines without proofs, one in C over libsqlite3 and one in
Python over sqlite3, on the same made-up requests: whole programs, from request lines to reply lines. The one in C runs
once with the pages that SQLite gives it, of 4,096 bytes, and once with pages as small as those of usbreg.

Prints requests per second and their ratios, in memory and in a file on tmpfs (/dev/shm), best and median of five runs
that alternate (of 99,999 in memory only one: there a table is a sorted list). Then it prints the cost of a request on a
store with 60,000 entries and 100,000 petitions over that on an empty one. Needs the program that `make` builds, or the
one whose path is in USBREG, and says what is missing."""

import os
import shutil
import statistics
import subprocess
import sys
import tempfile
import time

HERE = os.path.dirname(os.path.abspath(__file__))
sys.path.insert(0, f"{HERE}/../scripts")
from lib.usbreg import PAGE_SIZE, content, copy, declined, found, program, remove, rounds, write_requests

RUNS = int(os.environ.get("TIMES", "5"))


def timed(words, lines=os.devnull):
    """Returns the seconds, and the output."""
    with open(lines, "rb") as given:
        began = time.perf_counter()
        ran = subprocess.run(words, stdin=given, stdout=subprocess.PIPE, check=True)
        return time.perf_counter() - began, ran.stdout


class Usbreg:
    name = "usbreg"

    def __init__(self):
        self.path = program()

    def in_memory(self, lines):
        return timed([self.path, "trial"], lines)

    def new_store(self, store):
        return found(self.path, store)

    def in_file(self, store, lines):
        return timed([self.path, "apply", store, lines])


class Peer:
    def __init__(self, name, words, last):
        self.name, self.words, self.last = name, words, last

    def in_memory(self, lines):
        return timed([*self.words, ":memory:", lines, *self.last])

    def new_store(self, store):
        remove(store)
        return store

    def in_file(self, store, lines):
        return timed([*self.words, store, lines, *self.last])


def programs(room):
    yield Usbreg()
    if shutil.which("cc") and os.path.exists("/usr/include/sqlite3.h"):
        subprocess.run(["cc", "-O2", "-o", f"{room}/peer", f"{HERE}/peer.c", "-lsqlite3"], check=True)
        yield Peer("C, libsqlite3", [f"{room}/peer"], [f"{HERE}/tables.sql"])
        yield Peer("C, small pages", [f"{room}/peer"], [f"{HERE}/tables.sql", str(PAGE_SIZE)])
    else:
        print("no peer in C: apt-get install gcc libsqlite3-dev")
    yield Peer("Python, sqlite3", [sys.executable, f"{HERE}/peer.py"], [])


def side_by_side(all_programs, lines, run, title, runs):
    """Runs each program in turn, the given number of times; all must print the same."""
    count = content(lines).count(b"\n")
    taken = {it.name: [] for it in all_programs}
    for _ in range(runs):
        printed = set()
        for it in all_programs:
            seconds, out = run(it, lines)
            taken[it.name].append(seconds)
            printed.add(out)
        if len(printed) != 1:
            sys.exit(f"{title}: the programs do not print the same")
    ours = taken[all_programs[0].name]
    print(f"{title}, {count} requests, runs: {runs}:")
    for name, seconds in taken.items():
        best, middle = min(seconds), statistics.median(seconds)
        print(f"  {name:16} {count / best:9.0f} a second, usbreg has {min(seconds) / min(ours):5.2f} of its rate at best, {middle / statistics.median(ours):5.2f} at the median")


def new_store(room, it):
    return it.new_store(f"{room}/{it.name.split(',')[0]}.db")


def on_a_full_store(all_programs, room):
    """Returns the cost of a request on a full store over that on an empty one, without opening."""
    full = write_requests(f"{room}/full.jsonl", [*rounds(1, 60000), *declined(60000, 40000)])
    more = write_requests(f"{room}/more.jsonl", rounds(60001, 65000, others=40000))
    few = write_requests(f"{room}/few.jsonl", rounds(1, 5000))
    for it in all_programs:
        empty, filled = [], []
        store = new_store(room, it)
        it.in_file(store, full)
        kept = copy(store, f"{room}/kept.db")
        for _ in range(RUNS):
            opening, _ = it.in_file(copy(kept, store), os.devnull)
            seconds, _ = it.in_file(store, more)
            filled.append(seconds - opening)
            fresh = new_store(room, it)
            opening, _ = it.in_file(fresh, os.devnull)
            seconds, _ = it.in_file(fresh, few)
            empty.append(seconds - opening)
        print(f"  {it.name:16} a request with 60,000 entries and 100,000 petitions costs {min(filled) / min(empty):5.2f} of one on an empty store (best), {statistics.median(filled) / statistics.median(empty):5.2f} (median)")


def main():
    with tempfile.TemporaryDirectory(dir="/dev/shm") as room:
        all_programs = list(programs(room))
        for last, runs in ((1000, RUNS), (33333, 1)):
            lines = write_requests(f"{room}/{last}.jsonl", rounds(1, last))
            side_by_side(all_programs, lines, lambda it, lines: it.in_memory(lines), "in memory", runs)
            side_by_side(all_programs, lines, lambda it, lines: it.in_file(new_store(room, it), lines), "in a file on tmpfs", RUNS)
        on_a_full_store(all_programs, room)


if __name__ == "__main__":
    main()
