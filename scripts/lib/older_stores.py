"""Stores of the older schemas, which SQLite makes from the rows of the newest one, and the rows that it finds in
one."""

import re
import sys

from lib.usbreg import older_text, opened, remove

# The tables of the third schema that replace older ones, those that the fourth and the newest add, and the numbers of tables
# of the older schemas.
NEW = {"vendors", "spans3", "entries3", "petitions3"}
FOURTH = {"digests4", "reasons4"}
NEWEST = {"opened5", "closed5"}
COUNTS = {1: 9, 2: 10, 3: 14, 4: 16}


def in_schema(version, tables):
    """Returns the rows of the same history in an older schema, from those in the newest. Below the fourth it has no times
    and no reasons."""
    ((_, _, vendor, name),) = tables["meta"]
    spans = [row[1:] for row in tables["spans3"]]
    rows = {it: tables[it] for it in tables if it not in NEWEST} | {"meta": [(1, version, vendor, name)]}
    if version == 4:
        return rows
    rows = {it: rows[it] for it in rows if it not in FOURTH}
    if version == 3:
        return rows
    rows = {it: rows[it] for it in rows if it not in NEW and it != "spans"}
    rows["entries"] = [row[1:] for row in tables["entries3"]]
    rows["petitions"] = [(number, *rest) for number, _, *rest in tables["petitions3"]]
    if version == 1:
        return rows | {"reserved": [(pid,) for lo, hi in spans for pid in range(lo, hi + 1)]}
    return rows | {"reserved": [], "spans": spans}


def make(store, version, tables):
    """Makes a store of an older schema with SQLite, from the rows in the newest one, and returns the file's path."""
    remove(store)
    with opened(store) as connection:
        connection.execute("PRAGMA journal_mode = WAL")
        for text in re.findall(r"^CREATE .*;$", older_text(version), re.MULTILINE):
            connection.execute(text)
        for name, rows in in_schema(version, tables).items():
            for row in rows:
                connection.execute(f"INSERT INTO {name} VALUES ({', '.join('?' * len(row))})", row)
        connection.commit()
    return store


def in_order(tables):
    return {name: sorted(rows, key=repr) for name, rows in tables.items()}


def rows_of(store):
    """Returns the rows of each table. Ends the script if SQLite finds the store unsound."""
    with opened(store) as connection:
        if connection.execute("PRAGMA integrity_check").fetchone() != ("ok",):
            sys.exit(f"{store} is not sound")
        names = [it for (it,) in connection.execute("SELECT name FROM sqlite_schema WHERE type = 'table'")]
        return in_order({it: list(connection.execute(f"SELECT * FROM {it}")) for it in names})
