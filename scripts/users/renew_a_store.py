#!/usr/bin/python3
"""Makes a store with small pages and sums of one with the same tables that has none. Both are closed.

SQLite reads the tables of the old store, and writes them, in the same order, to an empty database that has the first page
of a new store. Then each page gets its sum. At the end the list and the reports of both stores must be the same.

Usage: scripts/users/renew_a_store.py OLD NEW [PROGRAM], by default with the program that `make` builds. NEW must not exist. The
exit status is 0 if the new store shows what the old one shows; otherwise remove it."""

import os
import sys

sys.path.insert(0, os.path.dirname(os.path.dirname(os.path.abspath(__file__))))
from lib.usbreg import REPORTS, TEXTS, blank_page, copy, done, folder, opened, program, seal, tables



def renewed(store, other):
    """Writes the tables of a store to a new one, and returns its path."""
    with opened(store) as connection:
        texts = [text for (text,) in connection.execute(TEXTS)]
    rows = [it for it in tables(store) if it.startswith("INSERT")]
    with open(other, "xb") as file:
        file.write(blank_page())
    with opened(other) as connection:
        connection.executescript("".join(f"{it}\n" for it in ("BEGIN;", *(f"{it};" for it in texts), *rows, "COMMIT;")))
    seal(other)
    return other


def shown(usbreg, store, room):
    """Returns what the program shows of a copy of a store: opening may write to it."""
    store = copy(store, f"{room}/shown.db")
    return [done([usbreg, "export", store]), *(done([usbreg, "report", store, it]) for it in REPORTS)]


def main():
    if len(sys.argv) < 3:
        sys.exit(__doc__)
    old, new = sys.argv[1:3]
    usbreg = program(*sys.argv[3:4])
    if not os.path.exists(old):
        sys.exit(f"{old} is not there")
    with folder() as room:
        # SQLite reads a copy, so that the old store keeps its bytes and its log.
        renewed(copy(old, f"{room}/old.db"), new)
        if shown(usbreg, new, room) != shown(usbreg, old, room):
            sys.exit(f"{new} does not show what {old} shows")


if __name__ == "__main__":
    main()
