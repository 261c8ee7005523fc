#!/usr/bin/env python3
"""Opens stores of the older schemas with `usbreg`, and compares them with the same history founded today.

SQLite makes the stores: from examples/schema1.sql to schema4.sql there, whose texts are those of docs/schema.md and
whose rows are those of a plain history after examples/one_vendor.requests; then from the rows of the cases in `cases/`
and of random requests: for schemas 1 to 3 those without a vendor, a time and a reason, and for schema 4 also others.
Whichever command opens such a store first, it prints what it prints for a registry that was founded today by the same
requests: the list, the reports, the record in its order, and its head. The rows of all tables are the same. Each accepted
request gets its first reply again, and later requests do the same to both.

The program is killed at random moments while it opens a store with many rows. The file that is left is sound and holds
the history in the older schema, in one between, or in the newest; opened again it is as without a stop.

A store whose version is not that of its tables, or with other tables, is foreign: its file keeps its bytes, and so does a
store of the newest schema when it is opened.

Usage: scripts/open_older_stores.py [STOPS [PROGRAM]], by default 6 stops from each schema of the program that `make`
builds. The exit status is 0 if all of this holds."""

import collections
import copy as copies
import random
import sys
import time

from lib.beside_plain import Registry, Room
from lib.older_stores import COUNTS, FOURTH, NEWEST, in_order, in_schema, make, rows_of
from lib.requests import Chance, all_cases, request, requests_in
from lib.seen_by_sqlite import asked, documented_texts, same
from lib.stopping import killed
from lib.usbreg import (
    EXAMPLES, REPORTS, TEXTS, apply, content, copy, declined, done, folder, found, found_without_sums, older, opened, program,
    rounds, run, seal, write, write_requests,
)

LINK = "https://acme.example/"


def rows_as_kept(store):
    """Returns the rows of each table, with the kept requests in the order in which they came."""
    with opened(store) as connection:
        return rows_of(store) | {"kept": list(connection.execute("SELECT * FROM kept ORDER BY rowid"))}


def same_rows(what, there, wanted):
    """Ends the script if the tables, or their rows, are not the wanted ones."""
    for name in sorted({*there, *wanted}):
        if there.get(name) != wanted.get(name):
            sys.exit(f"{what}: the table {name} is {str(there.get(name))[:2000]}, where {str(wanted.get(name))[:2000]} is expected")


def views(usbreg, store):
    """Returns the commands that show a store."""
    return [*([usbreg, it, store] for it in ("export", "history", "head")), *([usbreg, "report", store, it] for it in REPORTS)]


def keeps_bytes(what, store, ran, wanted):
    """Checks that a run ends as wanted, and leaves the file of the store as it was."""
    before = content(store)
    ended = run(ran)
    if ended != wanted:
        sys.exit(f"{what}: {ended} and not {wanted}")
    if content(store) != before:
        sys.exit(f"{what}: the file has other bytes")


class Stores:
    """Registries founded today, and stores of the older schemas with the same history."""

    def __init__(self, usbreg, made):
        self.program, self.folder, self.room, self.opened = usbreg, made, Room(usbreg, made), 0

    def today(self, what, requests, **founding):
        """Founds a registry today, and returns it and its accepted requests with their replies."""
        registry = self.room.registry(**founding)
        replies = registry.send(what, requests)
        return registry, [it for it in zip(requests, replies) if it[1].startswith('{"done"')]

    def open_with(self, what, older, words, wanted, today):
        """Opens a copy of an older store by a command, twice: checks that it prints the wanted text, and has today's rows."""
        store = copy(older, f"{self.folder}/opened.db")
        words = [store if it == today.store else it for it in words]
        if done(words) != wanted:
            sys.exit(f"{what}: {words} prints another text than with the registry founded today")
        same_rows(what, rows_of(copy(store, f"{self.folder}/looked.db")), rows_of(today.store))
        keeps_bytes(f"{what}, opened again", store, words, (0, wanted, b""))
        self.opened += 1
        return store

    def opens_as(self, what, version, older, today, accepted, more=()):
        """Checks that each accepted request gets its first reply again, and that more requests do the same as today."""
        registry = Registry(self.program, older, copies.deepcopy(today.history))
        registry.send(what, [it for it, _ in accepted], [it for _, it in accepted])
        same_rows(f"{what} in schema {version}", rows_of(older), rows_of(today.store))
        registry.send(f"{what} in schema {version}, and more", more)
        if more:
            today = Registry(self.program, copy(today.store, f"{self.folder}/more.db"), copies.deepcopy(today.history))
            today.send(f"{what}, and more", more)
        same_rows(f"{what} in schema {version}, and more", rows_of(older), rows_of(today.store))
        shown = [[done(words) for words in views(self.program, it)] for it in (older, today.store)]
        if shown[0] != shown[1]:
            sys.exit(f"{what} in schema {version} shows another list, other reports, another record or another head than founded today")
        self.opened += 1


def later_requests():
    """Returns requests that the older schemas did not know, and some about what their stores hold."""
    asked = {"title": "Lamp 3", "site": LINK, "source": LINK}
    return [
        request("cora", "l1", "add-vendor", vendor="cafe", name="Second vendor"),
        request("cora", "l2", "add-licence", licence="CERN-OHL-S-2.0"),
        request("cora", "l3", "reserve", first="0001", last="00ff", vendor="cafe"),
        request("ann", "l4", "ask", org="acme", licence="CERN-OHL-S-2.0", vendor="cafe", **asked),
        request("cora", "l5", "grant", petition=7),
        request("cora", "l6", "reserve", first="2100", last="21ff"),
        request("cora", "l7", "release", first="2000", last="2000"),
        request("cora", "l8", "reserve", first="2010", last="2011"),
        request("cora", "l9", "grant", petition=5),
        request("cora", "l10", "grant", petition=6),
        request("ann", "l11", "ask", org="acme", number="0011", licence="MIT", **asked),
        request("bob", "l12", "ask", org="bolt", number="0011", licence="MIT", **asked),
        request("cora", "l13", "grant", petition=8),
        request("ann", "l14", "return", number="2010", vendor="1209"),
        request("bob", "l15", "amend", number="0300", licence="MIT", **asked),
    ]


def examples(stores):
    """Checks that the stores of the texts are those of the requests, and open as the same history by any command."""
    requests = requests_in(f"{EXAMPLES}/one_vendor.requests")
    today, accepted = stores.today("the examples", requests)
    if len(accepted) != len(requests):
        sys.exit("a request of one_vendor.requests is refused")
    # `apply` takes no import, which has a command of its own.
    lines = [it for it in accepted if it[0]["order"] != "import"]
    repeats = write_requests(f"{stores.folder}/repeats.jsonl", [it for it, _ in lines])
    commands = [([stores.program, "apply", today.store, repeats], "".join(f"{it}\n" for _, it in lines).encode())]
    # The rows of the texts are in the order of the requests, so the record is the same too.
    commands += [(it, done(it)) for it in views(stores.program, today.store)]
    for version, count in COUNTS.items():
        what = f"examples/schema{version}.sql"
        store = older(f"{stores.folder}/older{version}.db", version)
        with opened(store) as connection:
            same(f"the texts of {what}", asked(connection, TEXTS), documented_texts()[:count])
        same_rows(what, rows_of(store), in_order(in_schema(version, today.history.tables())))
        for words, wanted in commands:
            stores.open_with(what, store, words, wanted, today)
        with_journal = copy(store, f"{stores.folder}/journal.db")
        with opened(with_journal) as connection:
            connection.execute("PRAGMA journal_mode = DELETE")
        stores.open_with(f"{what} with a journal", with_journal, *commands[0], today)
        stores.opens_as(what, version, store, today, accepted, later_requests())


def is_known(asked):
    """Returns whether the older schemas have what a request says."""
    return asked["order"] != "add-licence" and not any(asked.get(it) for it in ("vendor", "at")) and not (asked["order"] == "decline" and asked.get("reason"))


class OneVendor(Chance):
    """Random requests that the older schemas know."""

    def request(self):
        while not is_known(made := super().request()):
            pass
        return made


def histories(stores):
    """Returns the cases that the older schemas know, and random requests."""
    known = [it for it in all_cases() if all(map(is_known, it[1]))]
    all_histories = [(name, requests, {}) for name, requests, _ in known]
    for seed in (1, 2, 3):
        chance = OneVendor(seed)
        made_up = [chance.request() for _ in range(300)]
        all_histories.append((f"requests made up by {seed}", made_up, {"curator": "ann", "fixed": "0007"}))
    chance = Chance(4)
    more = [chance.request() for _ in range(100)]
    for what, requests, founding in all_histories:
        today, accepted = stores.today(what, requests, **founding)
        for version in COUNTS:
            store = make(f"{stores.folder}/older.db", version, rows_as_kept(today.store))
            stores.opens_as(what, version, store, today, accepted, more)
    # In schema 4 requests have times, name vendors and give reasons.
    for seed in (5, 6):
        chance = Chance(seed)
        what = f"requests with times made up by {seed}"
        today, accepted = stores.today(what, [chance.request() for _ in range(1000)], curator="ann", fixed="0007")
        if not all(today.history.tables()[it] for it in (*FOURTH, *NEWEST)):
            sys.exit(f"{what} give no reason, or open or close no petition at a time")
        stores.opens_as(what, 4, make(f"{stores.folder}/older.db", 4, rows_as_kept(today.store)), today, accepted, more)
    return len(all_histories) + 2


def stops_from(version, stores, today, stops):
    """Kills the opening of a store with many rows the given number of times. Returns how often each schema was left."""
    wanted = {5: rows_of(today)} | {it: in_order(in_schema(it, rows_of(today))) for it in range(version, 5)}
    whole = make(f"{stores.folder}/whole.db", version, rows_as_kept(today))
    store = copy(whole, f"{stores.folder}/stopped.db")
    words = [stores.program, "report", store, "census"]
    census = done([stores.program, "report", today, "census"])
    began = time.monotonic()
    done(words)
    seconds, left, again = time.monotonic() - began, collections.Counter(), True
    while left.total() < stops:
        if again:
            copy(whole, store)
        again = not killed(words, random.uniform(0, 1.1 * seconds))
        there = rows_of(copy(store, f"{stores.folder}/looked.db"))
        reached = there["meta"][0][1]
        same_rows(f"a stop from schema {version} left schema {reached}", there, wanted.get(reached, wanted[5]))
        if not again:
            left[reached] += 1
            again = reached == 5
            if again and done(words) != census:
                sys.exit("what a stop left has another census")
    return left


def timed(requests):
    """Yields the requests with times, a second apart."""
    for number, it in enumerate(requests):
        yield it | {"at": time.strftime("%Y-%m-%dT%H:%M:%SZ", time.gmtime(1_700_000_000 + number))}


def stops(stores, count):
    """Stops the opening of a store with 2,000 entries, 7,000 petitions and 513 reserved numbers, of each older schema. That of
    schema 4 has a time of each request."""
    spans = [request("cora", f"r{it}", "reserve", first=f"{it:04x}", last=f"{it + 1:04x}") for it in range(0x8000, 0x8400, 4)]
    spans.append(request("cora", "r1", "reserve", first="ffff", last="ffff"))
    many = [*rounds(1, 2000), *declined(2000, 5000), *spans]
    made = {}
    for name, requests in (("many", many), ("timed", [*timed(many)])):
        made[name] = found(stores.program, f"{stores.folder}/{name}.db")
        apply(stores.program, made[name], write_requests(f"{stores.folder}/{name}.jsonl", requests))
    return {it: stops_from(it, stores, made["timed" if it == 4 else "many"], count) for it in COUNTS}


def foreign_changes(version):
    """Returns changes by another program that make it no store of this schema."""
    yield from (f"UPDATE meta SET version = {it}" for it in (-1, 0, 1, 2, 3, 4, 5, 6, 259) if it != version)
    last = {1: "kept", 2: "spans", 3: "petitions3", 4: "reasons4", 5: "closed5"}[version]
    yield from (f"ALTER TABLE {it} RENAME TO other" for it in ("meta", "orgs", last))
    yield f"DROP TABLE {last}"
    yield "CREATE TABLE other (title TEXT NOT NULL) STRICT"
    yield "DELETE FROM meta"


def foreign_stores(stores):
    """Checks that any command reports a store of no schema, and writes nothing to it."""
    lines = write(f"{stores.folder}/lines.jsonl", content(f"{EXAMPLES}/first.jsonl").decode())
    count = 0
    for version in (*COUNTS, 5):
        store = f"{stores.folder}/foreign.db"
        for change in foreign_changes(version):
            if version == 5:
                found(stores.program, store)
            else:
                older(store, version)
            with opened(store) as connection:
                connection.execute(change)
                connection.commit()
            seal(store)
            for words in ([stores.program, "apply", store, lines], *views(stores.program, store)):
                keeps_bytes(f"schema {version} after {change}", store, words, (1, b"", b"fault: foreign\n"))
            count += 1
    return count


def newest(stores):
    """Checks that a store of the newest schema keeps its bytes, whichever command opens it: a new one, and one with pages
    of 4,096 bytes and without sums. Both show the same."""
    lines, shown = f"{EXAMPLES}/orders.jsonl", []
    for make_store in (found, found_without_sums):
        store = make_store(stores.program, f"{stores.folder}/newest.db")
        replies = apply(stores.program, store, lines)
        answered = zip(content(lines).splitlines(keepends=True), replies.splitlines(keepends=True), strict=True)
        accepted = [(line, reply) for line, reply in answered if reply.startswith(b'{"done"')]
        repeats = write(f"{stores.folder}/again.jsonl", b"".join(line for line, _ in accepted).decode())
        keeps_bytes("repeats", store, [stores.program, "apply", store, repeats], (0, b"".join(reply for _, reply in accepted), b""))
        for words in views(stores.program, store):
            keeps_bytes("the newest schema", store, words, (0, done(words), b""))
        shown.append((replies, rows_of(store), [done(words) for words in views(stores.program, store)]))
    if shown[0] != shown[1]:
        sys.exit("a store without sums shows other rows, replies, lists, reports, records or heads than a new one")


def main():
    count = int(sys.argv[1]) if len(sys.argv) > 1 else 6
    usbreg = program(*sys.argv[2:3])
    seed = int(time.time())
    random.seed(seed)
    with folder() as made:
        stores = Stores(usbreg, made)
        examples(stores)
        several = histories(stores)
        refused = foreign_stores(stores)
        newest(stores)
        for version, left in stops(stores, count).items():
            told = ", ".join(f"{left[it]} left schema {it}" for it in sorted(left))
            print(f"{left.total()} stops of opening a store of schema {version}: {told}; each time the same history, and opened again as without a stop (seed {seed})")
    print(f"{stores.opened} openings of older stores, the examples and {several} histories, are the same histories founded today; {refused} stores are foreign and keep their bytes")


if __name__ == "__main__":
    main()
