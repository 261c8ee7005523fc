#!/usr/bin/env python3
"""Checks with SQLite itself a store that `usbreg` wrote.

The script founds a registry in a file by examples/founding.toml, and applies examples/orders.jsonl, which has all orders
of request lines. Then SQLite opens the file: the texts of its tables must be those of docs/schema.md, to the byte, and
each statement of examples/orders.rows must return the lines below it there, as `sqlite3 -quote` prints them. Each table
has a statement, so the store has these rows and no others.

Two copies of the store must open with the same list, reports, record and head, and give its first request the same reply:
one that SQLite made from a dump, which has no sums, and one after a VACUUM, once its pages have their sums again; before
that it must be refused. One whose tables were made in another order must be foreign.

Usage: scripts/look_into_a_store.py [PROGRAM [ROWS]], by default the program that `make` builds, and
examples/orders.rows. The exit status is 0 if all of this holds.
"""

import re
import sys

from lib.seen_by_sqlite import asked, documented_texts, same
from lib.usbreg import EXAMPLES, REPORTS, TEXTS, apply, content, copy, done, folder, found, opened, program, run, seal, tables, write

TABLES = "SELECT name FROM sqlite_schema WHERE type = 'table' ORDER BY name"
OTHERS = "SELECT type, name FROM sqlite_schema WHERE type NOT IN ('table', 'index') ORDER BY name"


def statements(rows):
    """Returns each statement with the lines below it."""
    for block in content(rows).decode().strip("\n").split("\n\n"):
        statement, *lines = block.split("\n")
        yield statement, lines


def vacuumed(store, other):
    """Writes a copy of the store after a VACUUM, which spoils the sums of its pages, and returns its path."""
    with opened(copy(store, other)) as connection:
        connection.execute("VACUUM")
    return other


def sealed(store, other):
    """Writes the same with the right sums, and returns its path."""
    seal(vacuumed(store, other))
    return other


def dumped(store, other):
    """Writes the store that SQLite makes from a dump, whose tables are in the order in which they were made, and returns
    its path."""
    with opened(store) as connection:
        texts = [text for (text,) in connection.execute(TEXTS)]
    with opened(other) as connection:
        connection.executescript("".join(f"{it};\n" for it in texts + rows_of(store)))
    return other


def shuffled(store, other):
    """Writes a store with the same tables and rows, whose tables are made by name, and returns its path."""
    with opened(other) as connection:
        connection.executescript("\n".join(tables(store)))
    return other


def rows_of(store):
    """Returns the statements that insert all rows of a store."""
    return [it.rstrip(";") for it in tables(store) if it.startswith("INSERT")]


def shown(usbreg, store, first):
    """Returns what the program shows of a store: its list, each report, its record, a part of that, its head, and the reply
    to a request that it keeps."""
    reports = [done([usbreg, "report", store, name]) for name in REPORTS]
    record = [done([usbreg, "history", store, *part]) for part in ([], ["--after", "3"])]
    return [done([usbreg, "export", store]), *reports, *record, done([usbreg, "head", store]), apply(usbreg, store, first)]


def main():
    usbreg = program(*sys.argv[1:2])
    rows = sys.argv[2] if len(sys.argv) > 2 else f"{EXAMPLES}/orders.rows"
    with folder() as room:
        store = found(usbreg, f"{room}/store.db")
        apply(usbreg, store, f"{EXAMPLES}/orders.jsonl")
        with opened(store) as connection:
            texts = asked(connection, TEXTS)
            same("the texts of the tables are not those of docs/schema.md", texts, documented_texts())
            same("there is more than tables and the indexes of their keys", asked(connection, OTHERS), [])
            looked_at = []
            for statement, wanted in statements(rows):
                same(statement, asked(connection, statement), wanted)
                looked_at += re.findall(r" FROM (\w+)", statement)
            wanted = [f"'{name}'" for name in sorted(looked_at)]
            same("the statements are not on all tables", asked(connection, TABLES), wanted)
        first = write(f"{room}/first.jsonl", content(f"{EXAMPLES}/orders.jsonl").decode().splitlines(keepends=True)[0])
        wanted = shown(usbreg, store, first)
        if run([usbreg, "export", vacuumed(store, f"{room}/vacuumed.db")]) != (1, b"", b"fault: store\n"):
            sys.exit("a store without the right sums is not refused")
        for make in (sealed, dumped):
            if shown(usbreg, make(store, f"{room}/{make.__name__}.db"), first) != wanted:
                sys.exit(f"the store that SQLite {make.__name__} does not show the same")
        if run([usbreg, "export", shuffled(store, f"{room}/shuffled.db")]) != (1, b"", b"fault: foreign\n"):
            sys.exit("a store with its tables in another order is not foreign")
    print(f"{len(texts)} tables with the texts and the rows that they should have, and SQLite finds the file sound")
    print("after a VACUUM, with its sums, and read back from a dump, the store shows the same")


if __name__ == "__main__":
    main()
