#!/usr/bin/env python3
"""Checks stores with `usbreg check`: sound ones, and others that open but hold other rows than their record makes.

The stores of all cases in `cases/`, and one of random requests, are sound, with the counts of a plain history in Python
(`plain_history.py`), and their files keep their bytes. Each statement of the list below makes a store that opens, and that
`check` must call unsound by the line beside it: another title, reply, owner or state, a row that is gone or that was added, in
each table. What is added to the founding has another digest. Another reason is not noticed, nor is a digest before the last. A page of zeros, a file that ends early, one of another program and an
empty one are no registries, or have a fault. While a server has the store open, `check` has a fault as each command has; after it the check is as before. A store
of an older schema is brought to the newest, and is sound.

With --cost it times the check of a store of so many requests beside a replay of its record, and does nothing else.

Usage: scripts/check_a_store.py [--cost COUNT] [PROGRAM], by default the program that `make` builds. The exit status is 0 if
all of this holds."""

import argparse
import os
import sys
import time

from lib.beside_plain import Room
from lib.older_stores import COUNTS
from lib.requests import Chance, all_cases, requests_in
from lib.serving import serving
from lib.usbreg import (
    ENDINGS, EXAMPLES, PAGE_SIZE, apply, content, copy, done, folder, found, older, opened, program, put_rows, remove, rounds, run,
    same, write, write_requests,
)

IN_CHANCE = 2_000
# What another program changed in the store of examples/one_vendor.requests, and what `check` says of it.
UNSOUND = (
    ("UPDATE entries3 SET title = 'Lamp' WHERE pid = (SELECT min(pid) FROM entries3)", "number 1209:{first}"),
    ("UPDATE entries3 SET org = (SELECT max(slug) FROM orgs) WHERE pid = (SELECT min(pid) FROM entries3)", "number 1209:{first}"),
    ("UPDATE entries3 SET held = 1 - held WHERE pid = (SELECT max(pid) FROM entries3)", "number 1209:{last}"),
    ("UPDATE entries3 SET site = 'https://other.example/' WHERE pid = (SELECT min(pid) FROM entries3)", "number 1209:{first}"),
    ("DELETE FROM entries3 WHERE pid = (SELECT max(pid) FROM entries3)", "number 1209:{last}"),
    ("INSERT INTO entries3 SELECT vid, 65535, org, held, title, licence, site, source FROM entries3 LIMIT 1", "number 1209:ffff"),
    ("UPDATE petitions3 SET title = 'Lamp 2' WHERE id = 1", "petition 1"),
    ("UPDATE petitions3 SET state = 2 WHERE id = 5", "petition 5"),
    ("DELETE FROM petitions3 WHERE id = (SELECT max(id) FROM petitions3)", "petition {petitions}"),
    ("UPDATE orgs SET title = 'Other' WHERE slug = (SELECT min(slug) FROM orgs)", "organisation {org}"),
    ("UPDATE orgs SET keeper = 'bob' WHERE slug = (SELECT min(slug) FROM orgs)", "organisation {org}"),
    ("INSERT INTO orgs VALUES ('zebra', 'Zebra', 'https://zebra.example/', 'ann')", "organisation zebra"),
    ("INSERT INTO vendors VALUES (51966, 'Other')", "vendor cafe"),
    ("INSERT INTO spans3 VALUES (4617, 60000, 60001)", "reserved numbers of vendor 1209"),
    ("DELETE FROM licences WHERE name = 'MIT'", None),
    ("UPDATE kept SET reply = 'enrolled other' WHERE rowid = 1", 'request 1: another reply: {{"done":"enrolled {enrolled}"}}'),
    ("UPDATE kept SET reply = 'petition 77' WHERE reply = 'petition 1'", 'request {asked}: another reply: {{"done":"petition 1"}}'),
    ("UPDATE kept SET caller = 'dan' WHERE rowid = 1", None),
    ("UPDATE kept SET rowid = 1000000 WHERE rowid = 1", None),
    ("DELETE FROM kept WHERE rowid = 1", None),
    ("DELETE FROM kept WHERE rowid = (SELECT max(rowid) FROM kept)", None),
    ("UPDATE curators SET name = 'dan'", None),
    ("UPDATE meta SET name = 'Other products'", "vendor 1209"),
    ("INSERT INTO curators VALUES ('dan')", "digest of the record"),
    ("INSERT INTO licences VALUES ('Other')", "digest of the record"),
    ("UPDATE digests4 SET digest = printf('%064d', 7) WHERE id = (SELECT max(id) FROM digests4)", "digest of the record"),
    ("UPDATE digests4 SET time = '2026-11-28T20:34:13Z' WHERE id = 1", "digest of the record"),
)
# What is compared with nothing: a digest before the last, a reason, a time of a petition.
UNNOTICED = (
    "UPDATE digests4 SET digest = printf('%064d', 7) WHERE id < (SELECT max(id) FROM digests4)",
    "INSERT INTO reasons4 VALUES (3, 'Spam')",
    "INSERT INTO opened5 VALUES (3, '2026-11-28T20:34:13Z')",
    "INSERT INTO closed5 VALUES (3, '2026-11-28T20:34:13Z')",
)


def files(store):
    """Returns the bytes of the store's files."""
    return {ending: content(store + ending) for ending in ENDINGS if os.path.exists(store + ending)}


def checked(usbreg, store, *options):
    """Returns how `check` ends, and what it prints. Ends the script if a file changed."""
    before = files(store)
    ended = run([usbreg, "check", *options, store])
    after = files(store)
    same(f"the database after a check of {store}", after.get(""), before.get(""))
    # The engine writes the header of an empty log anew at each opening.
    same(f"the length of the log after a check of {store}", len(after.get("-wal", b"")), len(before.get("-wal", after.get("-wal", b""))))
    return ended


def is_sound(usbreg, what, store, requests, held):
    same(what, checked(usbreg, store), (0, f"sound: {requests} requests, {held} numbers held\n".encode(), b""))


def sound_stores(usbreg, room):
    """Checks the store of each case, and that of random requests."""
    for name, requests, replies in all_cases():
        registry = room.registry()
        registry.send(name, requests, replies)
        is_sound(usbreg, name, registry.store, len(registry.history.deeds), len(registry.history.titles()))
    registry, chance = room.registry("ann", "0007", ("Zlib", "MIT", "Apache-2.0")), Chance(54)
    registry.send("random requests", [chance.request() for _ in range(IN_CHANCE)])
    is_sound(usbreg, "random requests", registry.store, len(registry.history.deeds), len(registry.history.titles()))


def plain(usbreg, room, made):
    """Returns the store of the examples, and what is in it."""
    registry = room.registry()
    registry.send("the examples", requests_in(f"{EXAMPLES}/one_vendor.requests"))
    store = registry.store
    with opened(copy(store, f"{made}/seen.db")) as connection:
        asked = lambda statement: connection.execute(statement).fetchone()[0]
        names = {
            "first": f"{asked('SELECT min(pid) FROM entries3'):04x}",
            "last": f"{asked('SELECT max(pid) FROM entries3'):04x}",
            "petitions": asked("SELECT max(id) FROM petitions3"),
            "org": asked("SELECT min(slug) FROM orgs"),
            "enrolled": asked("SELECT reply FROM kept WHERE rowid = 1").removeprefix("enrolled "),
            "asked": asked("SELECT count(*) FROM kept WHERE rowid <= (SELECT rowid FROM kept WHERE reply = 'petition 1')"),
        }
        counts = asked("SELECT count(*) FROM kept"), asked("SELECT count(*) FROM entries3 WHERE held = 1")
    is_sound(usbreg, "the example", store, *counts)
    return store, names, counts


def unsound_stores(usbreg, made, store, names):
    """Checks that each change is found, and that the store opened before."""
    for statement, wanted in UNSOUND:
        changed = put_rows(copy(store, f"{made}/changed.db"), [(statement, [()])])
        same(f"{statement}: the status of export", run([usbreg, "export", changed])[0], 0)
        status, output, errors = checked(usbreg, changed)
        same(f"{statement}: the status and the output", (status, output), (1, b""))
        if wanted and errors.decode() != f"unsound: {wanted.format(**names)}\n":
            sys.exit(f"{statement}: {errors!r} in place of {wanted.format(**names)}")
        if not errors.startswith(b"unsound: "):
            sys.exit(f"{statement}: {errors!r}")
        cause = f"usbreg: {changed}: its rows are not those that its record makes; keep it, and restore a backup\n"
        same(f"{statement}, with --verbose", checked(usbreg, changed, "--verbose"), (1, b"", errors + cause.encode()))


def unnoticed(usbreg, made, store, counts):
    """Checks that what is compared with nothing is taken as it is."""
    for statement in UNNOTICED:
        is_sound(usbreg, statement, put_rows(copy(store, f"{made}/changed.db"), [(statement, [()])]), *counts)


def faulty_files(usbreg, made, store):
    """Checks files that hold no sound pages, or no registry."""
    whole = content(store)

    def of_bytes(name, text, fault):
        remove(path := f"{made}/{name}.db")
        with open(path, "wb") as file:
            file.write(text)
        same(name, checked(usbreg, path), (1, b"", f"fault: {fault}\n".encode()))

    for page in range(len(whole) // PAGE_SIZE):
        at = page * PAGE_SIZE
        remove(path := f"{made}/zeroed.db")
        with open(path, "wb") as file:
            file.write(whole[:at] + bytes(PAGE_SIZE) + whole[at + PAGE_SIZE :])
        status, output, errors = checked(usbreg, path)
        same(f"page {page + 1} of zeros", (status, output), (1, b""))
        if not errors.startswith((b"fault: ", b"unsound: ")):
            sys.exit(f"page {page + 1} of zeros: {errors!r}")
    of_bytes("truncated", whole[: len(whole) - PAGE_SIZE], "store")
    of_bytes("cut", whole[: len(whole) - 100], "store")
    of_bytes("text", b"This is no database.\n" * 100, "store")
    # The engine makes a database without tables of an empty file, whatever the command.
    same("an empty file", run([usbreg, "check", write(f"{made}/empty.db", "")]), (1, b"", b"fault: foreign\n"))
    with opened(f"{made}/other.db") as connection:
        connection.execute("CREATE TABLE other (id INTEGER)")
        connection.commit()
    same("another program's database", run([usbreg, "check", f"{made}/other.db"]), (1, b"", b"fault: foreign\n"))
    same("no store", run([usbreg, "check", f"{made}/none.db"]), (1, b"", b"fault: file\n"))
    same("the folder after a check of no store", os.path.exists(f"{made}/none.db"), False)


def served_store(usbreg, store, counts):
    """Checks a store while a server has it open, and after."""
    with serving(usbreg, store) as server:
        same("the server listens", server.is_up(), True)
        same("a served store", run([usbreg, "check", store]), (1, b"", b"fault: store\n"))
        said = f"fault: store\nusbreg: {store}: in use by another process\n".encode()
        same("a served store, with --verbose", run([usbreg, "check", store, "--verbose"]), (1, b"", said))
    status, output, errors = run([usbreg, "check", store])
    same("the store that was served", (status, output, errors), (0, f"sound: {counts[0]} requests, {counts[1]} numbers held\n".encode(), b""))


def older_stores(usbreg, made):
    """Checks stores of the older schemas."""
    for version in COUNTS:
        store = older(f"{made}/older.db", version)
        status, output, errors = run([usbreg, "check", store])
        if status or errors or not output.startswith(b"sound: "):
            sys.exit(f"a store of schema {version}: status {status}, {output!r} and {errors!r}")
        requests = len(done([usbreg, "history", store, "--after", "0"]).splitlines())
        held = sum(line.startswith(b"\t") for line in done([usbreg, "export", store]).splitlines())
        is_sound(usbreg, f"a store of schema {version}", store, requests, held)


def cost(usbreg, made, count):
    """Times a check, and a replay of the record into a new store, of the same requests."""
    store = found(usbreg, f"{made}/large.db")
    apply(usbreg, store, write_requests(f"{made}/large.jsonl", rounds(1, count // 3)))
    record = f"{made}/record.jsonl"
    with open(record, "wb") as file:
        file.write(done([usbreg, "history", store]))
    start = time.monotonic()
    output = done([usbreg, "check", store])
    check = time.monotonic() - start
    start = time.monotonic()
    done([usbreg, "replay", f"{made}/again.db", record])
    replay = time.monotonic() - start
    print(f"{output.decode().strip()}: check {check:.1f} s, replay into a new store {replay:.1f} s, the ratio {check / replay:.2f}")


def main():
    parser = argparse.ArgumentParser()
    parser.add_argument("--cost", type=int)
    parser.add_argument("program", nargs="?")
    asked = parser.parse_args()
    usbreg = program(asked.program)
    with folder() as made:
        if asked.cost:
            return cost(usbreg, made, asked.cost)
        room = Room(usbreg, made)
        sound_stores(usbreg, room)
        store, names, counts = plain(usbreg, room, made)
        unsound_stores(usbreg, made, store, names)
        unnoticed(usbreg, made, store, counts)
        faulty_files(usbreg, made, store)
        served_store(usbreg, store, counts)
        older_stores(usbreg, made)
    print(f"{len(UNSOUND)} changed stores are found")


if __name__ == "__main__":
    main()
