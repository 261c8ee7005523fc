#!/usr/bin/env python3
"""Runs the commands for a backup and for a restore in docs/backup.md as they are written, except for the folders, the day of
the restore, the port, and `systemctl` and `runuser`, for which scripts stand: one starts and stops `usbreg serve` and runs the
commands of a unit.

Backups are made while orders come, one after another. Each holds every order that was acknowledged before it began, none
that was not sent when it ended, and the orders between are a prefix of those that were sent; the server goes on. One that
cannot copy its files fails, leaves the last one, and lets the server go on.

The registry that is restored has the list and the tables of the backup, and later orders are acted on anew. A second
restore keeps what the first one replaced. Then a follower has what came after the backup, which is restored once more and
takes other orders: the follower must stop, say that the histories part, and keep its lines, also where the registry has the
same line again at the place of the follower's last one, and goes on from there. With the record of the follower the restored
registry has all that was acknowledged, and the follower goes on. As a control, the restore is run without the lines that move
the last store away, on a backup of the file alone: the command at its end must notice. Then the newest of two backups is damaged by one
bit, and the commands that look for a sound one must find the other, and leave no copy behind.

Usage: scripts/restore_a_backup.py [PROGRAM], by default the one that `make` builds. If curl is not installed it says that
it was skipped. The exit status is 0 if all of this holds."""

import os
import re
import shutil
import sys
import time

from lib.machine import Machine, Orders
from lib.pages import block
from lib.usbreg import content, copy, done, folder, form, found, opened, program, rounds, same

# The backups that are made while orders come, and the rounds of orders that are sent before, and after.
BACKUPS, ROUNDS = 5, 40


class BackedUp(Machine):
    """A machine with backups."""

    def backups(self):
        """Returns the names of the backups, and of their lists."""
        return sorted(it for it in os.listdir(f"{self.room}/backups") if not it.startswith("usbreg-"))

    def kept(self):
        """Returns the callers and keys of the requests that the newest backup holds, oldest first."""
        day = [it for it in self.backups() if re.fullmatch(r"\d{4}-\d\d-\d\d", it)][-1]
        with opened(copy(f"{self.room}/backups/{day}/numbers.db", f"{self.room}/looked.db")) as connection:
            return [tuple(row) for row in connection.execute("SELECT caller, request_key FROM kept ORDER BY rowid")]


def must_back_up(machine, commands):
    """Makes a backup, whose copy is found sound."""
    ended = machine.runs(commands)
    if ended[0] or not re.fullmatch(rb"sound: \d+ requests, \d+ numbers held\n", ended[1]):
        sys.exit(f"{commands}\nended with {ended}")


def back_up_in_motion(machine, again):
    """Makes backups while the orders of rounds come, and checks what each holds. Returns the last round, which is whole."""
    requests, earlier = list(rounds(ROUNDS + 1, 100 * ROUNDS)), len(machine.kept())
    # They come for as long as the backups take.
    with Orders(machine, requests, 0.005) as orders:
        for _ in range(BACKUPS):
            orders.go_on(5)
            before = orders.done
            must_back_up(machine, again)
            after, held = orders.done, machine.kept()[earlier:]
            if held != [(it["caller"], it["key"]) for it in requests[: len(held)]] or not before <= len(held) <= after + 1:
                sys.exit(f"{before} orders were acknowledged before the backup and {after} after it, and it holds {len(held)}: {held[-3:]}")
        there = machine.backups()
        os.rename(f"{machine.store}-wal", f"{machine.lib}/away")
        ended = machine.runs(again)
        os.rename(f"{machine.lib}/away", f"{machine.store}-wal")
        if not ended[0] or [it for it in machine.backups() if it != "unfinished"] != there:
            sys.exit(f"a backup without a log ended with {ended}, and left {machine.backups()}")
        orders.go_on(1)
    last = -(-orders.done // 3)
    machine.send(requests[orders.done : 3 * last])
    return ROUNDS + last


def page_in_file(store):
    """Returns a page of the file that its log does not have too, and so would replace."""
    size, _ = form(store)
    log = content(f"{store}-wal")
    in_log = {int.from_bytes(log[at : at + 4], "big") for at in range(32, len(log), 24 + size)}
    return max(set(range(1, os.path.getsize(store) // size + 1)) - in_log)


def find_a_sound_one(machine, commands):
    """Changes a bit of the newest backup, and checks that the commands find the one before it."""
    backups, before = f"{machine.room}/backups", "2001-02-03"
    (newest,) = (it for it in os.listdir(backups) if re.fullmatch(r"\d{4}-\d\d-\d\d", it))
    shutil.copytree(f"{backups}/{newest}", f"{backups}/{before}")
    shutil.copyfile(f"{backups}/{newest}.ids", f"{backups}/{before}.ids")
    store = f"{backups}/{newest}/numbers.db"
    page, (size, _) = page_in_file(store), form(store)
    with open(store, "r+b") as file:
        there = bytearray(file.read())
        there[page * size - size // 2] ^= 1
        file.seek(0)
        file.write(there)
    ended = machine.runs(commands)
    status, said = ended[0], ended[1].decode().splitlines()
    if (status, said[0], said[-1], len(said)) != (0, "fault: store", f"{backups}/{before}", 3):
        sys.exit(f"looking for a sound backup ended with {ended}")
    if machine.backups() != sorted(it + ending for it in (newest, before) for ending in ("", ".ids")):
        sys.exit(f"looking for a sound backup left {machine.backups()}")


def restore_twice(machine, restore, later, before):
    """Restores a backup whose tables are `before` two times, and sends the orders after it each time."""
    after = machine.rows()
    for _ in range(2):
        machine.must_run(restore)
        same("the tables of the restored registry", machine.rows() == before, True)
        machine.send(later)
        same("the tables after the orders that came after the backup", machine.rows() == after, True)
        # the folder of the replaced files is named by the second
        time.sleep(1)


def under_other_keys(requests):
    return [it | {"key": f"other-{it['key']}"} for it in requests]


def forks(usbreg, first, restore, later):
    """Restores a backup that a follower is beyond, twice without a record, and then with that of the follower. `later` are the
    orders after the backup, which the registry has. After the second restore both histories have the same last line where the
    follower is, so only its digest tells them apart."""
    def record():
        copied = copy(first.store, f"{first.room}/recorded.db")
        return done([usbreg, "history", copied]).decode()

    last, *more = ({"caller": "ann", "key": it, "order": "enrol", "org": it, "title": "Lamp", "site": "https://lamp.example/"} for it in ("last", "m1", "m2", "m3", "m4"))
    first.send([last])
    second = BackedUp(usbreg, f"{first.room}/second", {"https://registry.example": f"http://127.0.0.1:{first.port}"})
    second.must_run(block("A second machine"))
    follow, kept = "systemctl start usbreg-follow.service", f"{second.lib}/record.jsonl"
    same("what the follower has", content(kept).decode(), record())
    lines, tables = content(kept), second.rows()
    for orders, word in ((under_other_keys(later[:12:3]), b"it goes on from an older state"), ([*under_other_keys(later), last, *more], b"has another digest of the first ")):
        first.must_run(restore)
        first.send(orders)
        for _ in range(2):
            status, said = second.runs(follow)
            if not status or word not in said or (content(kept), second.rows()) != (lines, tables):
                sys.exit(f"a follower of another history ended with {status}, {said!r}")
        # the folder of the replaced files is named by the second
        time.sleep(1)
    os.makedirs(f"{first.lib}-record")
    shutil.copy(kept, f"{first.lib}-record/record.jsonl")
    first.must_run(restore)
    same("the restored registry after the record", first.rows(), tables)
    first.send(later[:1])
    second.must_run(follow)
    same("the follower after that", (content(kept), second.rows()), (lines, tables))
    shutil.rmtree(f"{first.lib}-record")


def without_removal(machine, restore):
    """Restores the file alone beside a newer log, which the commands must notice. Returns what they say."""
    wrong = re.sub(r"^ *(mkdir|mv) .*\n", "", restore, flags=re.MULTILINE)
    wrong = re.sub(r"(cp -p \S+numbers\.db) \S+numbers\.db-wal", r"\1", wrong)
    status, said = machine.runs(wrong)
    if not status:
        sys.exit("an old file beside a newer log was not noticed")
    return said


def main():
    usbreg = program(*sys.argv[1:2])
    if not shutil.which("curl"):
        print("SKIPPED: curl is not installed, so no backup was restored")
        return
    backup, restore = block("Backup"), block("Restore")
    day = "$(date +%F)"
    if not (given := re.search(r"^day=(.*)$", restore, re.MULTILINE)):
        sys.exit("docs/backup.md: the commands name no day")
    restore = restore.replace(given[1], day)
    (again,) = (it for it in backup.splitlines() if it.startswith("systemctl start "))
    with folder() as room:
        machine = BackedUp(usbreg, room)
        found(usbreg, machine.store)
        machine.must_run("systemctl start usbreg")
        try:
            machine.send(rounds(1, ROUNDS))
            must_back_up(machine, backup)
            last = back_up_in_motion(machine, again)
            before, later = machine.rows(), list(rounds(last + 1, last + ROUNDS))
            must_back_up(machine, again)
            machine.send(later)
            restore_twice(machine, restore, later, before)
            forks(usbreg, machine, restore, later)
            replaced = [os.listdir(f"{machine.lib}/{it}") for it in os.listdir(machine.lib) if it.startswith("replaced-")]
            if [sorted(it) for it in replaced] != [["numbers.db", "numbers.db-wal"]] * 5:
                sys.exit(f"five restores kept these files of the replaced stores: {replaced}")
            said = without_removal(machine, restore)
            find_a_sound_one(machine, block("A damaged store"))
        finally:
            machine.runs("systemctl stop usbreg")
    print(f"docs/backup.md: backups while orders came and a restore ran as they are written; without the removal, the check at the end says {said[:80]!r}")


if __name__ == "__main__":
    main()
