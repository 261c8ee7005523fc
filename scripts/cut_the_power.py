#!/usr/bin/env python3
"""Makes the files that a power cut can leave of a store, and opens them with `usbreg`.

A kill leaves to the disk all that was written; a power cut does not. A preloaded library records what the program writes
and syncs, and in which order (`recording.py`), for a founding, requests of a file, an import, orders over HTTP, and the
opening of stores of schemas 1 to 4. docs/contracts.md says below "Only tested" which states of the files come from this
record, what each must show, and what the control is. Where a founding was cut a registry is there whole, or can be founded.
An older store opens as the same history.

Usage: scripts/cut_the_power.py [STATES [PROGRAM]], by default 60 states of each run of the program that `make` builds;
with --all in place of the number every cut of each run, in several ways. The exit status is 0 if all of this holds."""

import itertools
import os
import random
import re
import sqlite3
import sys

from lib.older_stores import COUNTS, in_order, make, rows_of
from lib.plain_history import History, line
from lib.recording import FOLDER, Step, recorded, recording, states, steps_in, told
from lib.refusing import each
from lib.requests import ask, enrol, request, requests_in
from lib.serving import command, exchange, serving
from lib.usbreg import EXAMPLES, FOUNDING, apply, content, copy, done, folder, found, library, program, remove, rounds, run, write, write_requests

STORE = "store.db"
LOG = f"{STORE}-wal"
# Syncs that a control takes as not made, and the states of each run that it tries at most.
ALL = "any sync"
LOST = {ALL: (STORE, LOG, FOLDER), "those of the log": (LOG,), "those of the file": (STORE,), "those of the folder": (FOLDER,)}
CONTROL = 200
# One in so many states is opened by a run that is cut too.
TWICE = 4


class Wrong(Exception):
    """What a power cut may not leave."""


def same(what, there, wanted):
    if there != wanted:
        raise Wrong(f"{what}: {str(there)[:800]}, where {str(wanted)[:800]} is wanted")


def rows(store):
    """Returns the rows of each table, as SQLite reads them in a copy."""
    return rows_of(copy(store, f"{store}.copy"))


class Requests:
    """A run over the requests of a file, in a registry that has others before; and the plain history of both."""

    def __init__(self, usbreg, room, name, requests, before=()):
        self.usbreg, self.name, self.requests, self.before = usbreg, name, requests, before
        self.lines = write_requests(f"{room}/{name}.jsonl", [*before, *requests])
        self.history, self.replies, self.counts, self.known = History(FOUNDING), [], [], {}
        for it in [*before, *requests]:
            self.counts.append(len(self.history.deeds))
            self.replies.append(f"{line(self.history.answer(it))}\n".encode())
        self.counts.append(len(self.history.deeds))

    def after(self, count):
        """Returns the list and the tables of the plain history after so many requests."""
        if count not in self.known:
            history = History(FOUNDING)
            history.deeds = self.history.deeds[: self.counts[count]]
            self.known[count] = "".join(f"{it}\n" for it in history.list_lines()).encode(), in_order(history.tables())
        return self.known[count]

    def begin(self, store):
        """Makes the store that the run begins with."""
        found(self.usbreg, store)
        if self.before:
            apply(self.usbreg, store, write_requests(f"{store}.jsonl", self.before))

    def words(self, store, answered):
        return [self.usbreg, "apply", store, self.lines, "--answered", str(answered)]

    def record(self, store, library):
        """Returns the steps of the run."""
        return self.record_from(store, library, len(self.before))

    def record_from(self, store, library, answered):
        """Returns the steps of a run that goes on."""
        ended, steps = recorded(self.words(store, answered), os.path.dirname(store), library)
        self.check_end(ended, answered)
        return steps

    def check_end(self, ended, answered):
        same("the end of a run", ended, (0, b"".join(self.replies[answered:]), b""))

    def answered(self, steps):
        """Returns the number of whole replies that these steps printed or sent."""
        return len(re.findall(rb"^\{.*\}\n", told(steps), re.MULTILINE))

    def check(self, store, answered):
        """Checks what a cut left after so many replies, and goes on."""
        shown = run([self.usbreg, "export", store])
        there = rows(store)
        known = [self.after(it) for it in (answered, answered + 1) if it <= len(self.replies)]
        if shown[0] or shown[2] or (shown[1], there) not in known:
            raise Wrong(f"after {answered} replies the store has {shown} and {str(there)[:2000]}")
        self.check_end(run(self.words(store, answered)), answered)
        same("the tables in the end", rows(store), self.after(len(self.replies))[1])


class Served(Requests):
    """The same requests as orders over HTTP."""

    def record(self, store, library):
        record = f"{store}.record"
        with serving(self.usbreg, store, count=len(self.requests), env=recording(library, record)).up() as server:
            for it, reply in zip(self.requests, self.replies[len(self.before) :]):
                same(f"{it}", exchange(server.port, command(it)).partition(b"\r\n\r\n")[2], reply)
            same("the end of a server", server.ended(), (0, b"", b""))
        return [*steps_in(content(record), os.path.dirname(store)), Step("end")]


class Imported(Requests):
    """A run that imports a list."""

    def __init__(self, usbreg, room, name, imported, before):
        super().__init__(usbreg, room, name, [imported], before)
        self.list = write(f"{room}/{name}.ids", imported["list"])

    def words(self, store, answered):
        caller, key, org = (self.requests[0][it] for it in ("caller", "key", "org"))
        return [self.usbreg, "import", store, self.list, "--caller", caller, "--key", key, "--org", org]

    def check_end(self, ended, answered):
        same("the end of an import", ended, (0, self.replies[-1], b""))


class Founded(Requests):
    """A founding. It has no reply but its end."""

    def begin(self, store):
        remove(store)

    def words(self, store, answered):
        return [self.usbreg, "found", store, FOUNDING]

    def check_end(self, ended, answered):
        if ended not in ((0, b"", b""), (1, b"", b"fault: taken\n")):
            raise Wrong(f"a founding ended with {ended}")

    def answered(self, steps):
        return steps[-1:].count(Step("end"))

    def check(self, store, answered):
        listed, tables = self.after(0)
        shown = run([self.usbreg, "export", store])
        is_there = shown == (0, listed, b"")
        if not is_there and (answered or shown not in ((1, b"", b"fault: file\n"), (1, b"", b"fault: foreign\n"))):
            raise Wrong(f"after {answered} foundings the store has {shown}")
        same("a founding", run(self.words(store, 0)), (1, b"", b"fault: taken\n") if is_there else (0, b"", b""))
        same("the list in the end", run([self.usbreg, "export", store]), (0, listed, b""))
        same("the tables in the end", rows(store), tables)


class Migrated(Requests):
    """The opening of a store of an older schema."""

    def __init__(self, usbreg, room, name, version, requests):
        super().__init__(usbreg, room, name, requests)
        self.version, self.tables = version, self.after(len(requests))[1]
        self.begin(store := f"{room}/{name}.db")
        self.census = done(self.words(store, 0))

    def begin(self, store):
        make(store, self.version, self.tables | {"kept": self.history.kept()})

    def words(self, store, answered):
        return [self.usbreg, "report", store, "census"]

    def check_end(self, ended, answered):
        same("the census", ended, (0, self.census, b""))

    def answered(self, steps):
        return 0

    def check(self, store, answered):
        self.check_end(run(self.words(store, 0)), 0)
        same("the tables in the end", rows(store), self.tables)


def put(files, store):
    """Puts these files in place of a store, and returns its path."""
    remove(store)
    for name, data in files.items():
        with open(f"{os.path.dirname(store)}/{name}", "wb") as file:
            file.write(data)
    return store


def files_of(store):
    """Returns the bytes of a store's file and log."""
    paths = (f"{os.path.dirname(store)}/{name}" for name in (STORE, LOG))
    return {os.path.basename(path): content(path) for path in paths if os.path.exists(path)}


class Cuts:
    """One run, its record, and the states that cuts leave of it."""

    def __init__(self, what, room, library, seed):
        self.what, self.room, self.library, self.seed = what, f"{room}/{what.name}", library, f"{seed} {what.name}"
        os.makedirs(f"{self.room}/run")
        store = f"{self.room}/run/{STORE}"
        what.begin(store)
        self.before = files_of(store)
        self.steps = what.record(store, library)

    def states(self, lost=()):
        """Yields the number of replies before a cut, the files that it leaves, and its place in the record."""
        for cut, files in states(self.before, self.steps, random.Random(self.seed), lost):
            yield len(self.what.before) + self.what.answered(self.steps[:cut]), files, cut

    def cut_again(self, files, store, answered, lost, number):
        """Returns what a second cut leaves, of a run that goes on after a first one."""
        steps = self.what.record_from(put(files, store), self.library, answered)
        cut, left = next(states(files, steps, random.Random(f"{self.seed} {number}"), lost))
        # an import or a founding that is run again ends again
        most = len(self.what.replies) or 1
        return min(answered + self.what.answered(steps[:cut]), most), left

    def fault(self, state, lost, number, place):
        """Returns what is wrong with a state, or None."""
        answered, files, cut = state
        store = f"{place}/{STORE}"
        try:
            if number % TWICE == 0:
                answered, files = self.cut_again(files, store, answered, lost, number)
            self.what.check(put(files, store), answered)
        except (Wrong, SystemExit, sqlite3.DatabaseError) as wrong:
            return f"{self.what.name}, state {number}, cut after step {cut} of {len(self.steps)}, with {answered} replies: {wrong}"
        return None

    def faults(self, count, lost=()):
        """Yields for each of so many states what is wrong with it, or None."""
        numbered = enumerate(itertools.islice(self.states(lost), count), 1)
        while some := dict(itertools.islice(numbered, 64)):
            yield from each([*some], self.room, lambda number, place: self.fault(some[number], lost, number, place))


def runs(usbreg, room):
    """Returns each run that is recorded."""
    orders = requests_in(f"{EXAMPLES}/orders.jsonl")
    for it in orders:
        # the plain history knows addresses only in their canonical form
        if it.get("site") == "HTTPS://Acme.example":
            it["site"] = "https://acme.example/"
    listed = "1209  Vendor\n" + "".join(f"\t{pid:04x}  Device {pid}\n" for pid in range(1, 400))
    imported = request("cora", "i1", "import", org="acme", list=listed)
    older = [*requests_in(f"{EXAMPLES}/one_vendor.requests"), *rounds(1, 60, 6)]
    yield Founded(usbreg, room, "found", [])
    yield Requests(usbreg, room, "apply", orders)
    yield Imported(usbreg, room, "import", imported, [enrol("acme"), ask("k1", number="0011")])
    yield Served(usbreg, room, "serve", [enrol("acme"), ask("k1"), ask("k2", number="0011"), request("cora", "g1", "grant", petition=2)])
    # only a store of schema 4 has times
    timed = [it | {"at": f"2026-11-29T{number // 60:02}:{number % 60:02}:00Z"} for number, it in enumerate(older)]
    for version in COUNTS:
        yield Migrated(usbreg, room, f"schema{version}", version, timed if version == 4 else older)


def main():
    given = sys.argv[1] if len(sys.argv) > 1 else "60"
    count = None if given == "--all" else int(given)
    usbreg = program(*sys.argv[2:3])
    caught, total = set(), 0
    with folder() as room:
        recorder = library(room, "record")
        for what in runs(usbreg, room):
            cuts = Cuts(what, room, recorder, seed=1)
            faults = list(cuts.faults(count))
            if any(faults):
                sys.exit(f"{sum(map(bool, faults))} of {len(faults)} states are wrong, the first: {next(filter(None, faults))}")
            its = {name for name, lost in LOST.items() if any(cuts.faults(CONTROL, lost))}
            if ALL not in its:
                sys.exit(f"{what.name}: no state was wrong with all syncs taken as not made")
            caught, total = caught | its, total + len(faults)
            print(f"{what.name}: {len(cuts.steps)} steps, {len(faults)} states; wrong without {', '.join(sorted(its))}")
    if caught != set(LOST):
        sys.exit(f"no state of any run was wrong without {set(LOST) - caught}")
    print(f"{total} states that a power cut can leave, each right and the same in the end; without syncs some are wrong")


if __name__ == "__main__":
    main()
