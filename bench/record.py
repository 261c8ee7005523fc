#!/usr/bin/env python3
"""Times `usbreg history` and `usbreg replay` on a registry with many requests, whole processes that alternate.

- `replay` into a new store beside `apply` on the same requests, which also founds its store by `found`.
- `history` beside the `sqlite3` shell, which prints all rows of the table in which the requests are kept. Both write to a
  file, and `history` once more with `--after` for the last 1,000.
- The peak memory of both, and of an opening alone (`report census`), with all requests and with a tenth of them.
- `GET /history/{n}` near the end of the record beside the same at its beginning.

Prints medians of five runs that alternate, and their ratios. All files are on tmpfs (/dev/shm). Usage: bench/record.py
[REQUESTS], by default 200,000. Needs cc, the shell `sqlite3`, and the program that `make` builds, or the one whose path is
in USBREG. The exit status is 0 if `replay` has at least 0.9 of the rate of `apply`, and `history` at least that of the
shell."""

import os
import shutil
import statistics
import subprocess
import sys
import tempfile
import time

HERE = os.path.dirname(os.path.abspath(__file__))
sys.path.insert(0, f"{HERE}/../scripts")
from lib.serving import exchange, get, serving
from lib.usbreg import copy, declined, done, found, program, remove, rounds, write_requests

RUNS = int(os.environ.get("TIMES", "5"))
REQUESTS, PAGE = 200_000, 1000
# Of the requests so many are organisations with a petition and a grant each; the others are declined petitions.
MOST_ROUNDS = 60_000
REPLAY, HISTORY = 0.9, 1.0
ROWS = "SELECT caller, request_key, request, reply FROM kept ORDER BY rowid"


def requests(count):
    made = min(MOST_ROUNDS, count // 3)
    return [*rounds(1, made), *declined(made, (count - 3 * made) // 2)]


def seconds_of(words, output):
    """Returns the seconds of a process that prints to a file."""
    with open(output, "wb") as file:
        began = time.perf_counter()
        subprocess.run(words, stdout=file, check=True)
        return time.perf_counter() - began


def in_turn(**runs):
    """Runs each of these in turn, so many times, and returns the median seconds of each."""
    taken = {name: [] for name in runs}
    for _ in range(RUNS):
        for name, run in runs.items():
            taken[name].append(run())
    return {name: statistics.median(seconds) for name, seconds in taken.items()}


class Store:
    """A store with so many requests, and its record."""

    def __init__(self, usbreg, room, count):
        self.program, self.room = usbreg, room
        self.path, self.output = f"{room}/{count}.db", f"{room}/output"
        self.lines = write_requests(f"{room}/{count}.jsonl", requests(count))
        self.record = f"{room}/{count}.record"
        found(usbreg, self.path)
        done([usbreg, "apply", self.path, self.lines])
        seconds_of([usbreg, "history", self.path], self.record)
        with open(self.record, "rb") as file:
            self.count = sum(1 for _ in file) - 1

    def apply(self):
        store = found(self.program, f"{self.room}/applied.db")
        return seconds_of([self.program, "apply", store, self.lines], self.output)

    def replay(self):
        store = f"{self.room}/replayed.db"
        remove(store)
        return seconds_of([self.program, "replay", store, self.record], self.output)

    def history(self, *words):
        return seconds_of([self.program, "history", self.path, *words], self.output)

    def by_shell(self):
        return seconds_of(["sqlite3", copy(self.path, f"{self.room}/shell.db"), ROWS], self.output)

    def opening(self):
        return seconds_of([self.program, "report", self.path, "census"], self.output)

    def peak(self, *words):
        """Returns the most bytes of memory that a command takes."""
        seconds_of([f"{self.room}/peak", self.program, *words], self.output)
        return int(done(["tail", "-n", "1", self.output]))

    def peaks(self):
        store = f"{self.room}/replayed.db"
        remove(store)
        commands = {"opening": ("report", self.path, "census"), "history": ("history", self.path), "replay": ("replay", store, self.record)}
        return {name: self.peak(*words) for name, words in commands.items()}


def pages(store):
    """Returns the median seconds for a page of the record at its beginning, and near its end."""
    with serving(store.program, store.path).up() as server:

        def page(after):
            began = time.perf_counter()
            size = len(exchange(server.port, get(f"/history/{after}")))
            if size < PAGE:
                sys.exit(f"GET /history/{after} has {size} bytes")
            return time.perf_counter() - began

        taken = [(page(0), page(store.count - PAGE)) for _ in range(4 * RUNS)]
    return [statistics.median(it) for it in zip(*taken)]


def main():
    usbreg = program()
    if missing := [it for it in ("cc", "sqlite3") if not shutil.which(it)]:
        sys.exit(f"not installed: {' '.join(missing)}")
    with tempfile.TemporaryDirectory(dir="/dev/shm") as room:
        subprocess.run(["cc", "-O2", "-o", f"{room}/peak", f"{HERE}/peak.c"], check=True)
        store = Store(usbreg, room, int(sys.argv[1]) if len(sys.argv) > 1 else REQUESTS)
        few = Store(usbreg, room, store.count // 10)
        print(f"{store.count:,} requests, a record of {os.path.getsize(store.record) / 1e6:.1f} MB, medians of {RUNS} runs:")
        acting = in_turn(apply=store.apply, replay=store.replay)
        replayed = acting["apply"] / acting["replay"]
        print(f"  apply {acting['apply']:.2f} s, replay {acting['replay']:.2f} s: replay has {replayed:.2f} of the rate of apply", flush=True)
        showing = in_turn(history=store.history, last=lambda: store.history("--after", str(store.count - PAGE)), shell=store.by_shell, opening=store.opening)
        printed = showing["shell"] / showing["history"]
        print(f"  history {showing['history']:.2f} s, the shell {showing['shell']:.2f} s: history has {printed:.2f} of the rate of the shell")
        print(f"  an opening alone {showing['opening']:.2f} s, history --after {store.count - PAGE} {showing['last']:.2f} s", flush=True)
        first, last = pages(store)
        print(f"  GET /history/0 {1000 * first:.1f} ms, GET /history/{store.count - PAGE} {1000 * last:.1f} ms: {last / first:.2f} times as long", flush=True)
        most, least = store.peaks(), few.peaks()
        for name, size in most.items():
            print(f"  peak memory of {name}: {size / 1e6:.1f} MB, {least[name] / 1e6:.1f} MB with {few.count:,} requests")
    if replayed < REPLAY or printed < HISTORY:
        sys.exit(f"replay is to have at least {REPLAY} of the rate of apply, and history at least that of the shell")


if __name__ == "__main__":
    main()
