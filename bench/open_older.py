#!/usr/bin/env python3
"""Measures the first opening of a large store of schema 2, which migrates it to the newest schema, and the second one: the
seconds and the peak memory of `usbreg report STORE census`. Beside it, it measures what the engine alone takes to open
such a file: a store with one more table, which is foreign, so that nothing of it is read.

SQLite makes the store on tmpfs (/dev/shm), in memory: 65,535 entries and 1,000,000 petitions of 1,000 organisations,
once without the kept replies of these requests, 2,001,000, and once with them. For comparison SQLite itself copies and
empties the tables, by the same statements in one transaction, and Python computes a digest for each kept request. Each first opening is of a new copy; the best of three is
printed. Needs cc and the program that `make` builds, or the one whose path is given or is in USBREG."""

import hashlib
import os
import re
import shutil
import subprocess
import sys
import tempfile
import time

HERE = os.path.dirname(os.path.abspath(__file__))
sys.path.insert(0, f"{HERE}/../scripts")
from lib.usbreg import copy, older_text, opened, program

RUNS = int(os.environ.get("TIMES", "3"))
ENTRIES, PETITIONS, ORGS = 65535, 1000000, 1000
COUNTED = "WITH RECURSIVE numbers (i) AS (SELECT 1 UNION ALL SELECT i + 1 FROM numbers LIMIT {})"
ORG = f"'o' || (i % {ORGS} + 1)"
SITE = f"'https://' || {ORG} || '.example/'"
FORMED = "CAST(replace({}, '|', char(9)) AS BLOB)"

ROWS = f"""
INSERT INTO meta VALUES (1, 2, 4617, 'Shared products');
INSERT INTO curators VALUES ('cora');
INSERT INTO licences VALUES ('MIT');
{COUNTED.format(ORGS)} INSERT INTO orgs SELECT {ORG}, 'Workshop ' || i, {SITE}, 'ann' FROM numbers;
{COUNTED.format(PETITIONS)} INSERT INTO petitions
    SELECT i, {ORG}, NULL, 'Lamp', 'MIT', {SITE}, {SITE}, iif(i <= {ENTRIES}, 1, 2), iif(i <= {ENTRIES}, i, NULL) FROM numbers;
{COUNTED.format(ENTRIES)} INSERT INTO entries SELECT i, {ORG}, 1, 'Lamp', 'MIT', {SITE}, {SITE} FROM numbers;
"""
KEPT = f"""
{COUNTED.format(ORGS)} INSERT INTO kept
    SELECT 'ann', 'e' || i, {FORMED.format(f"'enrol|' || {ORG} || '|Workshop ' || i || '|' || {SITE}")}, 'enrolled ' || {ORG} FROM numbers;
{COUNTED.format(PETITIONS)} INSERT INTO kept
    SELECT 'ann', 'a' || i, {FORMED.format(f"'ask|' || {ORG} || '|-|Lamp|MIT|' || {SITE} || '|' || {SITE}")}, 'petition ' || i FROM numbers;
{COUNTED.format(PETITIONS)} INSERT INTO kept
    SELECT 'cora', 'g' || i, {FORMED.format(f"iif(i <= {ENTRIES}, 'grant|' || i || '|-', 'decline|' || i)")},
        iif(i <= {ENTRIES}, printf('granted %04x to ', i) || {ORG} || ' by petition ' || i, 'declined petition ' || i) FROM numbers;
"""
NEWEST = """
CREATE TABLE vendors (vid INTEGER PRIMARY KEY, name TEXT NOT NULL) STRICT;
CREATE TABLE spans3 (vid INTEGER NOT NULL, lo INTEGER NOT NULL, hi INTEGER NOT NULL, PRIMARY KEY (vid, lo)) STRICT;
CREATE TABLE entries3 (vid INTEGER NOT NULL, pid INTEGER NOT NULL, org TEXT NOT NULL, held INTEGER NOT NULL, title TEXT NOT NULL, licence TEXT, site TEXT, source TEXT, PRIMARY KEY (vid, pid)) STRICT;
CREATE TABLE petitions3 (id INTEGER PRIMARY KEY, vid INTEGER NOT NULL, org TEXT NOT NULL, want INTEGER, title TEXT NOT NULL, licence TEXT NOT NULL, site TEXT NOT NULL, source TEXT NOT NULL, state INTEGER NOT NULL, pid INTEGER) STRICT;
INSERT INTO spans3 SELECT 4617, lo, hi FROM spans;
INSERT INTO entries3 SELECT 4617, pid, org, held, title, licence, site, source FROM entries;
INSERT INTO petitions3 SELECT id, 4617, org, want, title, licence, site, source, state, pid FROM petitions;
DELETE FROM spans;
DELETE FROM entries;
DELETE FROM petitions;
INSERT INTO vendors VALUES (4617, 'Shared products');
CREATE TABLE digests4 (id INTEGER PRIMARY KEY, time TEXT, digest TEXT NOT NULL) STRICT;
CREATE TABLE reasons4 (petition INTEGER PRIMARY KEY, reason TEXT NOT NULL) STRICT;
CREATE TABLE opened5 (petition INTEGER PRIMARY KEY, time TEXT NOT NULL) STRICT;
CREATE TABLE closed5 (petition INTEGER PRIMARY KEY, time TEXT NOT NULL) STRICT;
INSERT INTO digests4 VALUES (0, NULL, printf('%064d', 0));
UPDATE meta SET version = 5;
"""


def make(store, rows):
    with opened(store) as connection:
        connection.execute("PRAGMA journal_mode = WAL")
        connection.executescript("BEGIN;" + "".join(re.findall(r"^CREATE .*;$", older_text(2), re.MULTILINE)) + rows + "COMMIT;")
    return store


def measured(peak, words, fault=""):
    """Returns the seconds, the peak memory in bytes, and the output of a run that ends with this fault or none."""
    began = time.perf_counter()
    ran = subprocess.run([peak, *words], capture_output=True, check=False)
    seconds, said = time.perf_counter() - began, ran.stderr.decode().strip()
    if (ran.returncode, said) != (1 if fault else 0, fault):
        sys.exit(f"{' '.join(words)} ended with status {ran.returncode}: {said}")
    *printed, most = ran.stdout.decode().splitlines()
    return seconds, int(most), printed


def digests(connection):
    """Yields a digest for each kept request, of the one before it and the row: as much as is computed of a record."""
    digest = "0" * 64
    for number, row in enumerate(connection.execute("SELECT caller, request_key, CAST(request AS TEXT), reply FROM kept ORDER BY rowid"), 1):
        digest = hashlib.sha256("\t".join((digest, *row)).encode()).hexdigest()
        yield number, digest


def by_sqlite(store):
    with opened(store) as connection:
        began = time.perf_counter()
        connection.executescript("BEGIN;" + NEWEST)
        connection.executemany("INSERT INTO digests4 VALUES (?, NULL, ?)", digests(connection))
        connection.commit()
    return time.perf_counter() - began


def foreign(store):
    """Adds a table to the store."""
    with opened(store) as connection:
        connection.execute("CREATE TABLE other (title TEXT NOT NULL) STRICT")
        connection.commit()


def best(runs):
    return min(it[0] for it in runs), min(it[1] for it in runs)


def show(title, runs, engine, size):
    seconds, most = best(runs)
    times, memory = seconds / engine[0], most / engine[1]
    print(f"  {title}: {seconds:.1f} s, {most / 1e6:.0f} MB at the peak, {times:.2f} and {memory:.2f} times the engine's; the file then {size / 1e6:.0f} MB")


def main():
    usbreg = program(*sys.argv[1:2])
    if not shutil.which("cc"):
        sys.exit("no C compiler: apt-get install gcc")
    with tempfile.TemporaryDirectory(dir="/dev/shm") as room:
        peak = f"{room}/peak"
        subprocess.run(["cc", "-O2", "-o", peak, f"{HERE}/peak.c"], check=True)
        for what, rows in (("no kept replies", ROWS), ("2,001,000 kept replies", ROWS + KEPT)):
            made, store = make(f"{room}/{len(rows)}.db", rows), f"{room}/store.db"
            words = [usbreg, "report", store, "census"]
            first, second = [], []
            for _ in range(RUNS):
                copy(made, store)
                first.append(measured(peak, words))
                size = os.path.getsize(store)
                second.append(measured(peak, words))
                newest = os.path.getsize(store)
            if {tuple(it[2]) for it in first + second} != {tuple(first[0][2])} or "held       65535" not in first[0][2]:
                sys.exit(f"the census is {first[0][2]}")
            print(f"{ENTRIES:,} entries and {PETITIONS:,} petitions, {what}, {os.path.getsize(made) / 1e6:.0f} MB in schema 2:")
            foreign(store)
            engine = best([measured(peak, words, "fault: foreign") for _ in range(RUNS)])
            print(f"  the engine's own opening: {engine[0]:.1f} s, {engine[1] / 1e6:.0f} MB at the peak")
            show("the first opening", first, engine, size)
            show("the second opening", second, engine, newest)
            print(f"  SQLite, the same statements: {min(by_sqlite(copy(made, store)) for _ in range(RUNS)):.1f} s")


if __name__ == "__main__":
    main()
