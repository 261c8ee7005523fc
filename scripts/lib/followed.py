"""The commands of docs/backup.md for a copy of the record, a second machine, a signed head and an audit, as they are written, while
orders come; and two machines that both take orders."""

import json
import os
import shutil

from lib.machine import Machine, Orders
from lib.pages import block
from lib.requests import enrol, request
from lib.upstreams import head_of
from lib.usbreg import content, done, found, rounds, same, write

# How often the copy and the second machine follow while orders come, the requests that come before, and the seconds between
# two of the others.
FOLLOWED, BEFORE, APART = 5, 1_100, 0.01


def fork(org):
    """Returns orders of an organisation after which a petition of another one has another number."""
    link = "https://fork.example/"
    return [enrol(org), request("ann", f"ask-{org}", "ask", org=org, title="Lamp", licence="MIT", site=link, source=link)]


def follows(usbreg, made):
    """Runs the commands of docs/backup.md for a copy of the record, a second machine and an audit, while orders come."""
    first = Machine(usbreg, f"{made}/first")
    record, address = f"{first.lib}-record/record.jsonl", {"https://registry.example": f"http://127.0.0.1:{first.port}"}
    first.places |= address
    heads = {"https://registry.example/heads": f"file://{first.lib}-heads/heads"}
    second, auditor = (Machine(usbreg, f"{made}/{it}", heads | address) for it in ("second", "auditor"))
    other, requests = f"{second.lib}/record.jsonl", list(rounds(1, 4 * BEFORE))
    started = (first, "systemctl start usbreg-record.service"), (second, "systemctl start usbreg-follow.service")
    found(usbreg, first.store)
    first.must_run("systemctl start usbreg")
    try:
        first.send(requests[:30])
        first.must_run(block("A copy of the record"))
        second.must_run(block("A second machine"))
        first.send(requests[30:BEFORE])
        with Orders(first, requests[BEFORE:], APART) as orders:
            for _ in range(FOLLOWED):
                orders.go_on(5)
                least = BEFORE + orders.done + 1
                for machine, words in started:
                    machine.must_run(words)
                for path in (record, other):
                    same("what is followed", least <= content(path).count(b"\n") <= BEFORE + orders.done + 2, True)
        # what a power cut may leave: a part of a line, and lines that were replayed and not appended
        write(record, content(record).decode()[:-20])
        write(other, "".join(f"{it}\n" for it in content(other).decode().split("\n")[:-8]))
        for machine, words in started:
            machine.must_run(words)
        same("the copies", content(other), content(record))
        by_hand(auditor, content(record))
        shutil.copy(record, auditor.room)
        auditor.must_run(block("An audit"), auditor.room)
        signed_head(first, auditor)
    finally:
        first.must_run("systemctl stop usbreg")
    same("the copy of the record", content(record), done([usbreg, "history", first.store]))
    same("the second machine's tables", second.rows(), first.rows())
    same("what Git has", done(["git", "-C", os.path.dirname(record), "show", "HEAD:record.jsonl"]), content(record))
    take_over(first, second, requests[:3], started[1][1])


def by_hand(auditor, record):
    """Lets a page fetch the beginning of a record, and compute its digest."""
    ended = auditor.runs(block("Times and digests"), auditor.room)
    begun = content(f"{auditor.room}/record.jsonl")
    same("the beginning of the record", record.startswith(begun), True)
    digest = json.loads(head_of(begun.splitlines(keepends=True)))["digest"]
    same("the digest by hand, and the head", ended, (0, f"{digest}\n".encode() + head_of(record.splitlines(keepends=True))))


def signed_head(first, auditor):
    """Lets a machine sign its head, and an auditor check the signature and then the record, whole and with another line."""
    title, record = "A signed head each day", f"{auditor.room}/record.jsonl"
    status, said = first.runs(block(title))
    same("the public key", (status, said.startswith(b"ssh-ed25519 ")), (0, True))
    status, said = auditor.runs(block(title, 1), auditor.room)
    same("the signature", (status, said.startswith(b'Good "usbreg-head" signature for registry with ED25519 key ')), (0, True))
    auditor.must_run(block(title, 2), auditor.room)
    write(record, content(record).decode().replace("Workshop 7", "Workshop 8", 1))
    same("the record with another line", auditor.runs(block(title, 2), auditor.room), (1, b""))
    (day,) = (it for it in os.listdir(f"{first.lib}-heads/heads") if it.startswith("2") and not it.endswith(".sig"))
    write(f"{first.lib}-heads/heads/{day}", content(f"{first.lib}-heads/heads/{day}").decode().replace(" ", " 1", 1))
    same("a line that was changed", auditor.runs(block(title, 1), auditor.room)[0] != 0, True)


def take_over(first, second, requests, following):
    """Lets the second machine take over, and then both take orders, which is noticed."""
    kept = content(f"{second.lib}/record.jsonl")
    for machine, start, org in ((second, "systemctl start usbreg", "later"), (first, "systemctl start usbreg", "fork")):
        machine.must_run(start)
        machine.send([*requests, *fork(org)])
        if machine == second:
            machine.must_run("systemctl stop usbreg")
    try:
        status, said = second.runs(following)
        same("two that took orders", (status, b"line 2: another reply: " in said, content(f"{second.lib}/record.jsonl")), (2, True, kept))
    finally:
        first.must_run("systemctl stop usbreg")
