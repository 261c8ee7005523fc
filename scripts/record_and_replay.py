#!/usr/bin/env python3
"""Prints the records of registries with `usbreg history`, and replays them with `usbreg replay`.

The record must be the founding and the accepted requests of a plain history in Python (`plain_history.py`), line by line:
for each kind of order, the cases in `cases/`, and random requests. Replayed into a new store it must give the same tables
and the same record, also if it is replayed line by line, from standard input, after random kills, or a second time. Ten
thousand random requests, some with times and reasons, make the same tables and the same record by `apply`, by `replay`, and
as messages to `usbreg serve`, and `GET /head` names its digest. Lines that carry their digests are compared with it: the first
one of another record is named. A record that was changed is refused at its line, with
status 2, and the lines before that one stand; memory does not grow with a line that is too long, of two gigabytes. Stores of the older schemas
have their whole record too.

The commands for the record in docs/backup.md run as they are written, but for folders, addresses, `apt-get`, `systemctl` and
`runuser`, while orders come: the copy and the registry on the second machine end equal to the first, the loop of a page
computes the digest that the registry gives, and the signed head of the day is that of the record, and of no other one.

Usage: scripts/record_and_replay.py [PROGRAM], by default the one that `make` builds. The commands for the record are skipped
if curl, Git or ssh-keygen is not installed. The exit status is 0 if all of this holds."""

import json
import os
import random
import shutil
import sys
import time

from lib.beside_plain import Room
from lib.followed import follows
from lib.older_stores import COUNTS
from lib.plain_history import FIELDS, History, line as compact
from lib.requests import Chance, all_cases, enrol, request, requests_in
from lib.serving import command, exchange, get, serving
from lib.stopping import killed
from lib.usbreg import (
    EXAMPLES, FOUNDING, done, folder, found, older, opened, program, remove, rounds, run, same, tables, write,
    write_requests,
)

# The random requests, and the most bytes of a line.
ORDERS_IN_CHANCE = 10_000
MOST = 4_194_304
# The kibibytes of address space in which a line of two gigabytes has to be refused.
ROOM_FOR_A_LINE = 65_536
STOPS = 20
BAD_JSON = '{"name":"BadJson","refused":27}'


def lines_in(text):
    """Returns the lines of a text. They end at line feeds alone: a title may have U+2028."""
    *lines, rest = text.decode().split("\n")
    same("what follows the last line feed", rest, "")
    return lines


class Records:
    """A folder with a program, for one record after another."""

    def __init__(self, usbreg, made):
        self.program, self.folder, self.count = usbreg, made, 0

    def path(self, ending):
        self.count += 1
        return f"{self.folder}/record{self.count}.{ending}"

    def history(self, store, *words):
        return lines_in(done([self.program, "history", store, *words]))

    def replay(self, store, lines, status=0, said=""):
        """Replays these lines, and checks how that ends. Nothing is printed but what is said."""
        record = write(self.path("jsonl"), "".join(line + "\n" for line in lines))
        same(f"replay of {lines[:3]}..", run([self.program, "replay", store, record]), (status, b"", said.encode()))

    def check(self, what, store, record):
        """Checks the record of a store, each part of it, and what its replay makes."""
        same(f"{what}: the record", self.history(store), record)
        for after in {0, 1, len(record) // 2, len(record) - 1, len(record)}:
            same(f"{what}: after {after}", self.history(store, "--after", str(after)), record[1:][after:])
        same(f"{what}: after 2^32 - 1", self.history(store, "--after", str(2**32 - 1)), [])
        copy = self.path("db")
        for _ in range(2):
            self.replay(copy, record)
            same(f"{what}: the tables of the copy", rows(copy), rows(store))
            same(f"{what}: the record of the copy", self.history(copy), record)
        return copy


def rows(store):
    """Returns the rows of each table, in order."""
    with opened(store) as connection:
        names = [it for (it,) in connection.execute("SELECT name FROM sqlite_schema WHERE type = 'table'")]
        return {it: sorted(connection.execute(f"SELECT * FROM {it}"), key=repr) for it in names}


def each_kind(room, records):
    """Records the examples and the cases, which have each kind of order."""
    kinds = set()
    for name, requests, _ in all_cases():
        registry = room.registry()
        registry.send(name, requests)
        records.check(name, registry.store, registry.history.record())
        kinds |= {it["order"] for it in registry.history.deeds}
    same("the kinds of orders", kinds, set(FIELDS))


def made_up(room, records):
    """Records random requests, with licences and vendors that were added later."""
    registry, chance, sent = room.registry("ann", "0007", ("Zlib", "MIT", "Apache-2.0")), Chance(54), []
    while len(sent) < ORDERS_IN_CHANCE:
        sent.append(chance.request())
    replies = registry.send("made-up requests", sent)
    records.check("made-up requests", registry.store, registry.history.record())
    store = found(records.program, records.path("db"), f"{room.folder}/{room.count}.toml")
    over_http(records, store, registry, zip(sent, replies, strict=True))


def over_http(records, store, registry, answered):
    """Sends the requests of a registry as messages to a new one: its replies, its tables and its record are the same."""
    with serving(records.program, store).up() as server:

        def asked(path):
            return exchange(server.port, get(path)).partition(b"\r\n\r\n")[2]

        for it, reply in answered:
            same(f"{it} over HTTP", exchange(server.port, command(it)).partition(b"\r\n\r\n")[2], f"{reply}\n".encode())
        lines, page = lines_in(asked("/history/founding")), [""]
        while page:
            page = lines_in(asked(f"/history/{len(lines) - 1}"))
            lines += page
        same("the record over HTTP", lines, registry.history.record())
        same("the head over HTTP", asked("/head"), f"{compact(registry.history.head())}\n".encode())
    same("the tables of the requests that came over HTTP", rows(store), rows(registry.store))


def small(room):
    """Returns a registry with some accepted requests, and its record."""
    registry = room.registry()
    listed = "1209  Vendor\n\t0011  Blinker\n\t0012  \n\t0000  Zero\n"
    requests = [
        enrol("acme"), enrol("bolt"),
        *(request("ann", f"a{it}", "ask", org="acme", title="Lamp", licence="MIT", site="https://a.example/", source="https://a.example/") for it in range(3)),
        request("cora", "g1", "grant", petition=2), request("cora", "v", "add-vendor", vendor="cafe", name="Café"),
        request("cora", "l", "add-licence", licence="0BSD"), request("cora", "i", "import", org="acme", list=listed),
        request("cora", "none", "import", org="acme", list="1209  Vendor\n"),
        request("cora", "other", "import", org="bolt", vendor="cafe", list="cafe  Café\n\t0001  One\n\t0001  Again\n\t0002  \n"),
        request("bob", "r", "enrol", org="coil", title="U+2028: \u2028", site="https://c.example/"),
    ]
    registry.send("small", requests)
    return registry, registry.history.record()


def changed(room, records):
    """Replays records that were changed. What the lines before the named one made stands."""
    registry, record = small(room)
    founded = record[0]

    def refused(what, lines, number, said, made, over=()):
        """Checks that line `number` is named, and that the copy has the record `made`, twice. `over` is replayed before."""
        copy = records.path("db")
        if over:
            records.replay(copy, over)
        for _ in range(2):
            records.replay(copy, lines, 2, f"line {number}: {said}\n")
            same(f"{what}: the record of the copy", records.history(copy), made)

    def bad_field(detail):
        return compact({"detail": detail, "name": "BadField", "refused": 28})

    first, second, third = record[3:6]
    renumbered = third.replace("petition 3", "petition 2")
    taken = compact({"name": "OrgTaken", "refused": 5})
    refused("another reply", [*record[:5], third.replace("petition 3", "petition 4"), *record[6:]], 6, 'another reply: {"done":"petition 3"}', record[:6])
    refused("dropped", [*record[:4], *record[5:]], 5, 'another reply: {"done":"petition 2"}', [*record[:4], renumbered])
    swapped = [*record[:3], second.replace("petition 2", "petition 1")]
    refused("swapped", [*record[:3], second, first, *record[5:]], 4, 'another reply: {"done":"petition 1"}', swapped)
    refused("under another key", [*record[:3], record[1].replace("enrol-acme", "again"), *record[3:]], 4, f"another reply: {taken}", record[:3])
    refused("no JSON", [*record[:3], "[]", *record[3:]], 4, BAD_JSON, record[:3])
    refused("cut", [*record[:3], first[:20]], 4, BAD_JSON, record[:3])
    refused("a field is missing", [*record[:2], '{"order":"enrol"}'], 3, bad_field("caller"), record[:2])
    refused("the reply is missing", [*record[:2], record[2].replace('"done"', '"other"')], 3, bad_field("done"), record[:2])
    refused("a late founding", [*record[:3], founded, *record[3:]], 4, "a founding after the first line", record[:3])
    refused("too long", [*record[:3], " " * (MOST + 1)], 4, "more than 4194304 bytes", record[:3])
    # the record of another registry that was founded like this one
    other = [founded, first.replace('"a0"', '"b0"').replace("Lamp", "Other")]
    refused("another registry's record", other, 2, 'another reply: {"done":"petition 4"}', [*record, other[1].replace("petition 1", "petition 4")], record)

    for what, lines in (
        ("doubled", [line for line in record for _ in range(2 if line != founded else 1)]),
        ("blank lines", ["", "  ", founded, *(part for line in record[1:] for part in (line, " \t\r"))]),
        ("a blank line of the greatest size", [*record, " " * MOST]),
        ("swapped, where it does not matter", [founded, record[2], record[1], *record[3:]]),
    ):
        copy = records.path("db")
        records.replay(copy, lines)
        same(what, sorted(records.history(copy)), sorted(record))

    # Another founding leaves a store as it is, and a bad record leaves none behind.
    there = tables(registry.store)
    records.replay(registry.store, [founded.replace("Shared", "Other"), *record[1:]], 2, "line 1: the registry was founded otherwise\n")
    same("another founding", tables(registry.store), there)
    bad_founding = compact({"detail": "curators", "name": "BadFounding", "refused": 32})
    for lines, number, said in (
        (['{"order":"BadJson"}'], 1, bad_field("caller")), (["", "{"], 2, BAD_JSON), (["{}"], 1, compact({"detail": "vendor", "name": "BadFounding", "refused": 32})),
        ([founded.replace('["cora"]', "[]")], 1, bad_founding),
    ):
        store = records.path("db")
        records.replay(store, lines, 2, f"line {number}: {said}\n")
        same(f"a store of {lines}", os.path.exists(store), False)
    no_file = (1, b"", b"fault: file\n")
    same("no record", run([records.program, "replay", f"{records.folder}/none.db", f"{records.folder}/none"]), no_file)
    same("no store and no founding", run([records.program, "replay", f"{records.folder}/none.db", write(records.path("jsonl"), record[1])]), no_file)
    same("a store of no record", os.path.exists(f"{records.folder}/none.db"), False)


def with_digests(room, records):
    """Replays lines with digests. The first one of another record is named, and has taken effect; so a second replay goes on."""
    registry, record = small(room)
    digests = [digest for _, _, digest in registry.history.digests()]

    def told(line, digest):
        return compact(json.loads(line) | {"digest": digest})

    lines, copy = [record[0], *map(told, record[1:], digests[1:])], records.path("db")
    for _ in range(2):
        records.replay(copy, lines)
        same("lines with digests: the record of the copy", records.history(copy), record)
    for bad in ("", digests[3][:-1], f"{digests[3]}0", digests[3].upper(), 7):
        refused, copy = compact({"detail": "digest", "name": "BadField", "refused": 28}), records.path("db")
        records.replay(copy, [*lines[:3], told(record[3], bad), *lines[4:]], 2, f"line 4: {refused}\n")
        same(f"the digest {bad}: the record of the copy", records.history(copy), record[:3])
    copy = records.path("db")
    for status, said, left in ((2, "line 4: another record\n", record[:4]), (0, "", record)):
        records.replay(copy, [*lines[:3], told(record[3], digests[4]), *lines[4:]], status, said)
        same("a digest of another line: the record of the copy", records.history(copy), left)
    # a restored registry that took an order of its own
    own = compact({"caller": "bob", "done": "enrolled own", "key": "own", "order": "enrol", "org": "own", "site": "https://own.example/", "title": "Own"})
    copy = records.path("db")
    records.replay(copy, [*record[:3], own])
    records.replay(copy, lines, 2, "line 4: another record\n")
    same("another record", records.history(copy), [*record[:3], own, record[3]])


def in_pieces(room, records):
    """Follows a registry by what is new in its record, through standard input; and replays one line at a time."""
    registry, record = small(room)
    copy = records.path("db")
    for count in range(1, len(record) + 1):
        given = record[0] + "\n" if count == 1 else record[count - 1]
        same("one more line", run([records.program, "replay", copy, "-"], given.encode()), (0, b"", b""))
        same("so far", records.history(copy), record[:count])
    more = [request("ann", f"w{it}", "withdraw", petition=it) for it in (1, 3)]
    done([records.program, "apply", registry.store, write_requests(records.path("jsonl"), more)])
    new = done([records.program, "history", registry.store, "--after", str(len(record) - 1)])
    same("what is new", new.count(b"\n"), 2)
    for _ in range(2):
        same("the follower", run([records.program, "replay", copy, "-"], new), (0, b"", b""))
        same("the follower's tables", rows(copy), rows(registry.store))
    same("nothing new", run([records.program, "replay", copy, "-"]), (0, b"", b""))


def one_long_line(room, records):
    """Gives two gigabytes of one line, which are refused once the limit is passed, in little memory."""
    _, record = small(room)
    copy, begun = records.path("db"), write(records.path("jsonl"), "".join(f"{it}\n" for it in record[:3]))
    lines = f"{{ cat {begun}; head -c 2000000000 /dev/zero; }}"
    ended = run(["sh", "-c", f"ulimit -v {ROOM_FOR_A_LINE}; {lines} | {records.program} replay {copy} -"])
    same("two gigabytes of one line", ended, (2, b"", b"line 4: more than 4194304 bytes\n"))
    same("what stands before it", records.history(copy), record[:3])


def stopped(records, seed):
    """Kills replays at random moments, and runs them again over what is left. Returns how many were killed."""
    dice = random.Random(seed)
    whole = found(records.program, records.path("db"))
    done([records.program, "apply", whole, write_requests(records.path("jsonl"), rounds(1, 200))])
    record = records.history(whole)
    path, copy, stops = write(records.path("jsonl"), "\n".join(record)), records.path("db"), 0
    began = time.monotonic()
    done([records.program, "replay", records.path("db"), path])
    seconds = time.monotonic() - began
    for _ in range(10 * STOPS):
        if not killed([records.program, "replay", copy, path], dice.uniform(0, seconds)):
            remove(copy)
            continue
        stops += 1
        if os.path.exists(copy) and run([records.program, "report", copy, "census"])[0] == 0:
            there = records.history(copy)
            same("what a stop leaves", there, record[: len(there)])
        if stops == STOPS:
            break
    same("after the stops", run([records.program, "replay", copy, path]), (0, b"", b""))
    same("the tables after the stops", rows(copy), rows(whole))
    return stops


def older_stores(records):
    """Prints and replays the records of stores of the older schemas, whose history is that of an example."""
    history = History(FOUNDING)
    for asked in requests_in(f"{EXAMPLES}/one_vendor.requests"):
        history.answer(asked)
    for version in COUNTS:
        store = older(records.path("db"), version)
        records.check(f"schema {version}", store, history.record())
        remove(store)


def main():
    began, seed = time.monotonic(), int(time.time())
    lacking = [it for it in ("curl", "git", "ssh-keygen") if not shutil.which(it)]
    with folder() as made:
        usbreg = program(*sys.argv[1:2])
        room, records = Room(usbreg, made), Records(usbreg, made)
        each_kind(room, records)
        changed(room, records)
        with_digests(room, records)
        in_pieces(room, records)
        one_long_line(room, records)
        stops = stopped(records, seed)
        older_stores(records)
        if not lacking:
            follows(usbreg, made)
        made_up(room, records)
    print(
        f"{room.count} records and those of four older schemas are those of a plain history, and their replays make the same"
        f" registries; {stops} replays were killed (seed {seed}); {time.monotonic() - began:.0f} s"
    )
    if lacking:
        print(f"SKIPPED: not installed: {', '.join(lacking)}; so the commands for the record were not run")


if __name__ == "__main__":
    main()
