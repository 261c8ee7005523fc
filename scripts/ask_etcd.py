#!/usr/bin/env python3
"""Sends the requests in the rows of `etcd_messages_tests` to etcd, and compares its answers with those in the rows.

A row of a request shows the text that `etcd_messages` writes, and the row after it the answer of etcd and what
`etcd_messages` reads of it; `rt ci` compares both. This script sends each text to one etcd of its own, in the order of the
rows, and takes its answer for equal if only the names of the machines and the token differ. Between the two groups of rows
it makes users, so that the second group has a login.

Then it starts three members, and puts a line of 12 MB in, which comes back as it was. It stops two of them, and looks at
what the third answers without a quorum.

Usage: scripts/ask_etcd.py. If etcd is not installed, it says that it was skipped. The exit status is 0 if all answers
agree."""

import json
import re
import shutil
import sys
import tempfile

from lib.etcd import PATHS, Members, in_base64
from lib.usbreg import TOP

ROWS = f"{TOP}/crates/etcd_messages_tests"
ANSWERS = {"append": "appended", "page": "lines", "head": "top", "login": "token"}
LONG = 12_000_000


def plain(text):
    """Returns the bytes of an escaped text, as Latin-1."""
    escapes = {"n": "\n", "r": "\r", "t": "\t", "\\": "\\"}
    return re.sub(r"\\(x..|.)", lambda it: escapes.get(it[1]) or chr(int(it[1][1:], 16)), text)


def tame(text):
    """Returns an answer without what differs from one etcd to the next."""
    text = re.sub(r'"(cluster_id|member_id|raft_term)":"\d+"', r'"\1":"7"', text)
    return re.sub(r'"token":"[^"]*"', '"token":"t"', text)


def groups():
    """Returns the groups of rows, each with its comment: lists of a kind, a request and the answer's row."""
    with open(f"{ROWS}/stdin", encoding="latin-1") as file:
        rows = file.read().splitlines()
    with open(f"{ROWS}/stdout", encoding="latin-1") as file:
        shown = file.read().splitlines()
    found = []
    for (row, text), after in zip(zip(rows, shown), rows[1:] + [""]):
        kind = row.split(" ", 1)[0]
        if kind == "#":
            found.append([])
        elif after.split(" ", 1)[0] == ANSWERS.get(kind):
            found[-1].append((row, plain(text), plain(after)))
    return [group for group in found if group]


def compared(members, group):
    """Sends the requests of a group, and returns how many answers are not those of the rows."""
    failed, token = 0, None
    for row, text, wanted in group:
        # The last request of a group with a login is about a token that is not valid.
        used = "none" if "invalid auth token" in wanted else token
        status, body = members.post(0, PATHS[row.split(" ", 1)[0]], text, used)
        if '"token":"' in body:
            token = json.loads(body)["token"]
        if re.split(rf"[| ]{status}\|", tame(wanted), maxsplit=1)[1:] != [tame(body)]:
            failed += 1
            print(f"FAILED: {row}: {status} {body}, and the row has {wanted}")
    return failed


def without_a_quorum(members):
    """Looks at what a member answers that is alone."""
    members.stop(1, 2)
    status, body = members.post(0, PATHS["page"], json.dumps({"key": in_base64(b"reg/0000000000")}))
    if (status, json.loads(body)["error"]) != (503, "etcdserver: request timed out"):
        print(f"FAILED: without a quorum etcd answers {status} {body}")
        return 1
    return 0


def a_long_line(members):
    """Puts a long line into the log, and reads it."""
    key, line = in_base64(b"long/0000000000"), in_base64(b"x" * LONG)
    put = {"requestPut": {"key": key, "value": line}}
    status, body = members.post(0, PATHS["append"], json.dumps({"compare": [], "success": [put]}))
    read = members.post(0, PATHS["page"], json.dumps({"key": key}))
    if status != 200 or read[0] != 200 or json.loads(read[1])["kvs"][0]["value"] != line:
        print(f"FAILED: a line of {LONG} bytes: {status} {body}, and it reads back with status {read[0]}")
        return 1
    return 0


def main():
    """Compares the answers of etcd with the rows."""
    if not shutil.which("etcd"):
        print("SKIPPED: etcd is not installed, so its answers were not compared with those of the rows")
        return
    count, failed = 0, 0
    first, second = groups()
    with tempfile.TemporaryDirectory() as room:
        with Members(room, 1) as members:
            members.wait(0)
            failed += compared(members, first)
            members.ask_for_logins("reg", "reg", 'se"cret')
            failed += compared(members, second)
        count = len(first) + len(second)
    with tempfile.TemporaryDirectory() as room, Members(room, 3) as members:
        members.wait(0)
        failed += a_long_line(members)
        failed += without_a_quorum(members)
    print(f"{count} answers of etcd")
    sys.exit(failed > 0)


if __name__ == "__main__":
    main()
