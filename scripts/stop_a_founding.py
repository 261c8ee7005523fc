#!/usr/bin/env python3
"""Kills `usbreg found` before each call that opens, makes or changes a file, and founds again.

A preloaded library, stop.c, counts the calls and kills the program before the one with a given number. The store does not
exist at first, or has no bytes, or a file that an earlier stop left lies beside it. Each time there is no store, or one
without bytes as at first, or an empty database, or the registry that was to be founded; each of the three is seen. The
empty database is one page, which must be the one that `blank_page` makes from SQLite's file format: the header of an
empty database, and the sum by the rule of SQLite's extension cksumvfs. Founding again succeeds, or reports that the
registry is there already. The tables are then those of a founding without stops, and nothing is left beside the store but
its log.

Usage: scripts/stop_a_founding.py [PROGRAM], by default the one that `make` builds. Needs a C compiler. The exit status
is 0 if all of this holds."""

import os
import shutil
import sys

from lib.refusing import each
from lib.usbreg import FOUNDING, PAGE_SIZE, SUM_SIZE, blank_page, content, copy, folder, form, found, library, opened, program, run, tables

NO_STORE, BLANK, FOUNDED = "no store", "an empty database", "the registry"


def missing(_store):
    """The store does not exist."""


def empty(store):
    """The store has no bytes."""
    with open(store, "wb"):
        pass


def left(store):
    """An earlier stop left a file beside it."""
    with open(f"{store}-new", "wb") as file:
        file.write(b"SQLite format 3\0" * 300)


def run_stopped(words, shim, stopped, counted=None):
    """Returns status, output and errors of a run that is killed before the call with this number, or never for 0."""
    env = {"LD_PRELOAD": shim, "STOPPED": str(stopped), **({"COUNTED": counted} if counted else {})}
    return run(words, env=env)


def left_of(store, wanted, room):
    """Returns what the store is that a stop left. Ends the script if it is none of the three."""
    if not os.path.exists(store) or not content(store):
        return NO_STORE
    with opened(copy(store, f"{room}/copy.db")) as connection:
        if connection.execute("PRAGMA integrity_check").fetchone() != ("ok",):
            sys.exit("the store that a stop left is not sound")
    there = tables(f"{room}/copy.db")
    if there == wanted:
        return FOUNDED
    if there != ["BEGIN TRANSACTION;", "COMMIT;"]:
        sys.exit(f"a stop left other tables: {there[:5]}")
    if content(store) != blank_page():
        sys.exit("the first page of an empty store is not that of SQLite's documents")
    return BLANK


def stop(usbreg, shim, begin, number, wanted, room):
    """Stops a founding before the call with this number, and founds again. Returns what the stop left."""
    shutil.rmtree(room)
    os.makedirs(room)
    store = f"{room}/store.db"
    begin(store)
    words = [usbreg, "found", store, FOUNDING]
    if run_stopped(words, shim, number)[0] != -9:
        sys.exit(f"the run was not stopped at call {number}")
    there = left_of(store, wanted, room)
    ended = run(words)
    if ended != ((1, b"", b"fault: taken\n") if there == FOUNDED else (0, b"", b"")):
        sys.exit(f"{begin.__name__}, stopped before call {number}: founding again ends with {ended}")
    if form(store) != (PAGE_SIZE, SUM_SIZE):
        sys.exit(f"{begin.__name__}, stopped before call {number}: the store has pages and reserved bytes {form(store)}")
    if tables(copy(store, f"{room}/copy.db")) != wanted:
        sys.exit(f"{begin.__name__}, stopped before call {number}: the tables are not those of a founding without stops")
    others = {it for it in os.listdir(room) if not it.startswith("copy.db")} - {"store.db", "store.db-wal"}
    # A registry that is there is left as it is, with what lies beside it.
    if others and there != FOUNDED:
        sys.exit(f"{begin.__name__}, stopped before call {number}: {others} are left")
    return there


def main():
    usbreg = program(*sys.argv[1:2])
    with folder() as room:
        shim = library(room, "stop")
        wanted = tables(copy(found(usbreg, f"{room}/wanted.db"), f"{room}/copy.db"))
        for begin in (missing, empty, left):
            store = f"{room}/{begin.__name__}.db"
            begin(store)
            run_stopped([usbreg, "found", store, FOUNDING], shim, 0, f"{room}/counted")
            count = int(content(f"{room}/counted"))
            ends = each(range(count), room, lambda at, own, begin=begin: stop(usbreg, shim, begin, at + 1, wanted, own))
            seen = {it: ends.count(it) for it in (NO_STORE, BLANK, FOUNDED)}
            if 0 in seen.values():
                sys.exit(f"{begin.__doc__} The stops left {seen}")
            told = ", ".join(f"{it} {times} times" for it, times in seen.items())
            print(f"{begin.__doc__[:-1].lower()}: stopped before each of {count} calls, which left {told}; founded again")


if __name__ == "__main__":
    main()
