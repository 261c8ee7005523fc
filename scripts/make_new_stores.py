#!/usr/bin/env python3
"""Founds registries where there is no store, and looks at what `usbreg found` makes.

Each page of a founded store must have its sum, by the rule of SQLite's extension cksumvfs, also after requests; the page
that a founding begins with is that of stop_a_founding.py. The other cases: without a founding file no store is made; a
store without bytes keeps its mode and, for root, its owner and its group; a leftover of an earlier stop is overwritten; a log
that may hold commits is never taken for that of a new store, nor lost; a database that is there keeps its page size, and can
be renewed by renew_a_store.py; a link, a missing folder and the names that SQLite gives another meaning are refused; of
several programs that found the same store at once one succeeds.

Usage: scripts/make_new_stores.py [PROGRAM], by default the one that `make` builds. The exit status is 0 if every case
passes."""

import os
import subprocess
import sys

from lib.usbreg import (
    EXAMPLES, FOUNDING, PAGE_SIZE, SUM_SIZE, TOP, apply, content, copy, done, folder, form, found, found_without_sums, opened, program,
    remove, run, sum_of, tables, write,
)

DONE, TAKEN, FAILED = (0, b"", b""), (1, b"", b"fault: taken\n"), (1, b"", b"fault: store\n")
AT_ONCE, ROUNDS = 4, 10


class Cases:
    """A program, a folder, and the number of cases that ran."""

    def __init__(self, usbreg, room):
        self.program, self.room, self.seen = usbreg, room, 0

    def found(self, store, wanted, founding=FOUNDING):
        ended = run([self.program, "found", store, founding])
        if ended != wanted:
            sys.exit(f"found {store!r} ends with {ended} and not {wanted}")

    def holds(self, what, there, wanted):
        if there != wanted:
            sys.exit(f"{what}: {there!r:.500} and not {wanted!r:.500}")
        self.seen += 1

    def sums(self, what, store):
        """Checks the form of a closed store, and the sum of each page."""
        self.holds(what, form(store), (PAGE_SIZE, SUM_SIZE))
        there = content(store)
        pages = [there[at : at + PAGE_SIZE] for at in range(0, len(there), PAGE_SIZE)]
        self.holds(what, [it[-SUM_SIZE:] for it in pages], [sum_of(it) for it in pages])

    def leaves(self, what, name, *wanted):
        """Checks which files with names that begin so are in the folder."""
        self.holds(what, sorted(it for it in os.listdir(self.room) if it.startswith(name)), sorted(wanted))


def new_stores(cases):
    """There is no store, or one without bytes, or a leftover of an earlier stop."""
    store = f"{cases.room}/new.db"
    cases.found(store, (1, b"", b"fault: file\n"), f"{cases.room}/missing.toml")
    cases.leaves("a founding file that is missing", "new.db")
    cases.found(store, DONE)
    cases.sums("a new store", store)
    apply(cases.program, store, f"{EXAMPLES}/orders.jsonl")
    cases.sums("a store after requests", store)
    cases.leaves("a new store", "new.db", "new.db", "new.db-wal")
    cases.found(store, TAKEN)
    cases.leaves("a store that is there", "new.db", "new.db", "new.db-wal")

    empty = write(f"{cases.room}/empty.db", "")
    os.chmod(empty, 0o640)
    owners = (65534, 65533) if os.geteuid() == 0 else (os.geteuid(), os.getegid())
    os.chown(empty, *owners)
    cases.found(empty, DONE)
    cases.sums("a store without bytes", empty)
    cases.holds("the mode of a store without bytes", os.stat(empty).st_mode & 0o777, 0o640)
    cases.holds("the owner and the group of a store without bytes", (os.stat(empty).st_uid, os.stat(empty).st_gid), owners)

    stopped = f"{cases.room}/stopped.db"
    write(f"{stopped}-new", "what a stop left" * 1000)
    cases.found(stopped, DONE)
    cases.sums("a store with a leftover", stopped)
    cases.leaves("a leftover", "stopped.db", "stopped.db", "stopped.db-wal")


def logs(cases):
    """A store is gone, and its log is left."""
    store = f"{cases.room}/logged.db"
    found(cases.program, store)
    os.remove(store)
    cases.found(store, DONE)
    cases.sums("the log of a closed store", store)

    with open("/dev/full", "wb") as device:
        subprocess.run([cases.program, "apply", store, f"{EXAMPLES}/orders.jsonl"], stdout=device, stderr=subprocess.DEVNULL, check=False)
    kept, gone = copy(store, f"{cases.room}/kept.db"), content(f"{store}-wal")
    cases.holds("the log has commits", len(gone) > 1000, True)
    wanted = tables(copy(kept, f"{cases.room}/looked.db"))
    os.remove(store)
    cases.found(store, FAILED)
    cases.holds("the log that is left", content(f"{store}-wal"), gone)
    copy(kept, store)
    cases.found(store, TAKEN)
    cases.holds("a store that was put back", tables(copy(store, f"{cases.room}/looked.db")), wanted)


def other_stores(cases):
    """A database is there, or the name is none of a new file."""
    plain, renewed = (f"{cases.room}/{it}.db" for it in ("plain", "renewed"))
    found_without_sums(cases.program, plain)
    apply(cases.program, plain, f"{EXAMPLES}/orders.jsonl")
    cases.holds("a database of another form", form(plain), (4096, 0))
    before = content(plain)
    done([sys.executable, f"{TOP}/scripts/users/renew_a_store.py", plain, renewed, cases.program])
    cases.holds("a store that is renewed", content(plain), before)
    cases.sums("a renewed store", renewed)
    cases.holds("a renewed store", tables(copy(renewed, f"{cases.room}/looked.db")), tables(copy(plain, f"{cases.room}/looked2.db")))
    cases.holds("a renewed store", *(apply(cases.program, it, f"{EXAMPLES}/orders.jsonl") for it in (renewed, plain)))
    for name in ("", ":memory:", "file:uri.db", "no_folder/store.db"):
        cases.found(name, FAILED)
    for name in (":memory:", "file:", "-new", "uri", "no_folder"):
        cases.leaves("a name of no file", name)
    link = f"{cases.room}/link.db"
    os.symlink(f"{cases.room}/nowhere.db", link)
    cases.found(link, FAILED)
    cases.leaves("a link to nothing", "link.db", "link.db")
    cases.holds("a link to nothing", os.path.islink(link), True)
    cases.leaves("a link to nothing", "nowhere.db")


def at_once(cases):
    """Several programs found the same store."""
    store, wanted = f"{cases.room}/shared.db", tables(copy(f"{cases.room}/empty.db", f"{cases.room}/looked.db"))
    for _ in range(ROUNDS):
        remove(store)
        words = [cases.program, "found", store, FOUNDING]
        running = [subprocess.Popen(words, stderr=subprocess.PIPE) for _ in range(AT_ONCE)]
        ends = sorted((said, it.returncode) for it in running for said in [it.communicate()[1]])
        cases.holds("the first of several", ends[0], (b"", 0))
        if any(it not in ((b"fault: store\n", 1), (b"fault: taken\n", 1)) for it in ends[1:]):
            sys.exit(f"several at once end with {ends}")
        cases.sums("founded by one of several", store)
        cases.holds("founded by one of several", tables(copy(store, f"{cases.room}/looked.db")), wanted)
        cases.found(store, TAKEN)


def main():
    usbreg = program(*sys.argv[1:2])
    with folder() as room:
        os.chdir(room)
        cases = Cases(usbreg, room)
        for each in (new_stores, logs, other_stores, at_once):
            each(cases)
        with opened(copy(f"{room}/new.db", f"{room}/looked.db")) as connection:
            cases.holds("SQLite finds the new store", connection.execute("PRAGMA integrity_check").fetchall(), [("ok",)])
    print(f"{cases.seen} checks of new stores: the sum of each page is as SQLite's documents say")


if __name__ == "__main__":
    main()
