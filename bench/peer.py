#!/usr/bin/env python3
"""A registry of a few lines over sqlite3, without proofs: the peer of `usbreg` in benchmarks.

Usage: peer.py STORE FILE: acts on the request lines of a file over a new or an existing store (:memory: for memory). It
makes the checks of enrol, ask, grant and decline in SQL, keeps counts and the least free number in memory, commits each
accepted request, and writes each reply before it acts on the next request. It keeps no times and no digests."""

import json
import os
import sqlite3
import sys

VID = 0x1209


class Refused(Exception):
    pass


def one(db, text, *values):
    return db.execute(text, values).fetchone()


def check(passes, number):
    if not passes:
        raise Refused(number)


class Registry:
    def __init__(self, store):
        is_new = store == ":memory:" or not os.path.exists(store)
        self.db = sqlite3.connect(store, isolation_level=None)
        self.db.execute("PRAGMA journal_mode = WAL")
        self.db.execute("PRAGMA synchronous = FULL")
        if is_new:
            with open(os.path.join(os.path.dirname(os.path.abspath(__file__)), "tables.sql"), encoding="utf-8") as file:
                self.db.executescript(file.read())
        self.open = dict(self.db.execute("SELECT org, count(*) FROM petitions3 WHERE state = 0 GROUP BY org"))
        self.orgs = one(self.db, "SELECT count(*) FROM orgs")[0]
        self.last = one(self.db, "SELECT coalesce(max(id), 0) FROM petitions3")[0]
        self.owned = {pid for (pid,) in self.db.execute("SELECT pid FROM entries3")}
        self.least = 17
        self.move()

    def move(self):
        while self.least in self.owned:
            self.least += 1

    def keeps(self, org, caller):
        found = one(self.db, "SELECT keeper FROM orgs WHERE slug = ?", org)
        check(found, 4)
        check(found[0] == caller, 3)

    def enrol(self, it):
        check(not one(self.db, "SELECT 1 FROM orgs WHERE slug = ?", it["org"]), 5)
        check(self.orgs < 65536, 18)
        self.db.execute("INSERT INTO orgs VALUES (?, ?, ?, ?)", (it["org"], it["title"], it["site"], it["caller"]))
        self.orgs += 1
        return f"enrolled {it['org']}"

    def ask(self, it):
        self.keeps(it["org"], it["caller"])
        check(one(self.db, "SELECT 1 FROM licences WHERE name = ?", it["licence"]), 13)
        check(self.open.get(it["org"], 0) < 16, 14)
        check(self.last < 1_000_000, 18)
        self.last += 1
        self.db.execute("INSERT INTO petitions3 VALUES (?, ?, ?, NULL, ?, ?, ?, ?, 0, NULL)", (self.last, VID, it["org"], it["title"], it["licence"], it["site"], it["source"]))
        self.open[it["org"]] = self.open.get(it["org"], 0) + 1
        return f"petition {self.last}"

    def petition(self, it):
        check(one(self.db, "SELECT 1 FROM curators WHERE name = ?", it["caller"]), 2)
        found = one(self.db, "SELECT org, title, licence, site, source, state FROM petitions3 WHERE id = ?", it["petition"])
        check(found, 6)
        check(found[5] == 0, 7)
        return found

    def grant(self, it):
        org, *card, _ = self.petition(it)
        pid = self.least
        fixed = one(self.db, "SELECT hi FROM fixed WHERE lo <= ? ORDER BY lo DESC LIMIT 1", pid)
        spans = one(self.db, "SELECT hi FROM spans3 WHERE vid = ? AND lo <= ? ORDER BY lo DESC LIMIT 1", VID, pid)
        check(not (fixed and fixed[0] >= pid) and not (spans and spans[0] >= pid), 8)
        check(not one(self.db, "SELECT org, held FROM entries3 WHERE vid = ? AND pid = ?", VID, pid), 9)
        self.db.execute("INSERT INTO entries3 VALUES (?, ?, ?, 1, ?, ?, ?, ?)", (VID, pid, org, *card))
        self.db.execute("UPDATE petitions3 SET state = 1, pid = ? WHERE id = ?", (pid, it["petition"]))
        self.open[org] -= 1
        self.owned.add(pid)
        self.move()
        return f"granted {pid:04x} to {org} by petition {it['petition']}"

    def decline(self, it):
        org, *_ = self.petition(it)
        self.db.execute("UPDATE petitions3 SET state = 2 WHERE id = ?", (it["petition"],))
        self.open[org] -= 1
        return f"declined petition {it['petition']}"

    def act(self, it, line):
        self.db.execute("BEGIN IMMEDIATE")
        kept = one(self.db, "SELECT request, reply FROM kept WHERE caller = ? AND request_key = ?", it["caller"], it["key"])
        try:
            if kept:
                check(kept[0] == line, 1)
                self.db.execute("ROLLBACK")
                return {"done": kept[1]}
            done = getattr(self, it["order"])(it)
        except Refused as refused:
            self.db.execute("ROLLBACK")
            return {"refused": refused.args[0]}
        self.db.execute("INSERT INTO kept VALUES (?, ?, ?, ?)", (it["caller"], it["key"], line, done))
        self.db.execute("COMMIT")
        return {"done": done}


def main():
    registry = Registry(sys.argv[1])
    with open(sys.argv[2], "rb") as file:
        lines = file.read().splitlines()
    for line in lines:
        reply = json.dumps(registry.act(json.loads(line), line), separators=(",", ":"))
        os.write(1, reply.encode() + b"\n")


if __name__ == "__main__":
    main()
