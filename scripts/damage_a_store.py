#!/usr/bin/env python3
"""Damages a closed store, and sees that `usbreg` refuses to open it.

A store is made from examples/first.jsonl, or, for random bits, from some hundred requests. Then each byte of its file is
changed in turn, or random bits are, each in a copy of its own. `usbreg export` must print nothing but `fault: store`, end
with status 1, and leave the file as it was. In the log, which is empty, the engine renews the header.

With --without-sums the store is one with pages of 4,096 bytes and without sums, as older programs made them. Then the
script counts how many damaged copies are refused, how many show the same list, reports and head, and how many show others.

Usage: scripts/damage_a_store.py [--bits COUNT] [--without-sums] [PROGRAM], by default each byte for the program that
`make` builds. The exit status is 0 if every opening is refused, and with --without-sums always."""

import argparse
import collections
import os
import random
import sys
import time

from lib.refusing import each
from lib.usbreg import EXAMPLES, REPORTS, apply, content, folder, form, found, found_without_sums, program, rounds, run, write_requests

ROUNDS = 150


def changes(count, bits):
    """Returns where the damaged copies differ from a file of this length: at a byte, by these bits."""
    if bits is None:
        return [(at, random.randrange(1, 256)) for at in range(count)]
    return [(random.randrange(count), 1 << random.randrange(8)) for _ in range(bits)]


def shown(usbreg, store):
    """Returns how the commands end that show a store, and what they print: the first one alone, if it fails."""
    exported = run([usbreg, "export", store])
    if exported[0]:
        return [exported]
    return [exported, *(run([usbreg, "report", store, it]) for it in REPORTS), run([usbreg, "head", store])]


def damage(usbreg, store, changed, room, wanted):
    """Returns what the commands make of a copy of the store with this change: Refused, Same or Others, or
    Written if it is refused and its file has other bytes, or its log another length."""
    at, bits = changed
    sound, log = content(store), content(f"{store}-wal")
    damaged = sound[:at] + bytes([sound[at] ^ bits]) + sound[at + 1 :]
    copy = f"{room}/damaged.db"
    for ending, text in (("", damaged), ("-wal", log)):
        with open(copy + ending, "wb") as file:
            file.write(text)
    there = shown(usbreg, copy)
    if there == [(1, b"", b"fault: store\n")]:
        return "Refused" if content(copy) == damaged and os.path.getsize(f"{copy}-wal") == len(log) else "Written"
    return "Same" if there == wanted else "Others"


def main():
    parser = argparse.ArgumentParser()
    parser.add_argument("--bits", type=int)
    parser.add_argument("--without-sums", action="store_true")
    parser.add_argument("program", nargs="?")
    asked = parser.parse_args()
    usbreg, seed = program(asked.program), int(time.time())
    random.seed(seed)
    with folder() as room:
        make = found_without_sums if asked.without_sums else found
        store = make(usbreg, f"{room}/store.db")
        lines = write_requests(f"{room}/many.jsonl", rounds(1, ROUNDS)) if asked.bits else f"{EXAMPLES}/first.jsonl"
        apply(usbreg, store, lines)
        length, (size, reserved) = os.path.getsize(store), form(store)
        tried = changes(length, asked.bits)
        wanted = shown(usbreg, store)
        ends = each(range(len(tried)), room, lambda number, own: damage(usbreg, store, tried[number], own, wanted))
    counts = collections.Counter(ends)
    what = f"{asked.bits} random bits" if asked.bits else "each byte"
    print(
        f"{what} changed in a store of {length:,} bytes, pages of {size:,} bytes with {reserved} reserved (seed {seed}): {counts['Refused']} refused, "
        f"{counts['Same']} with the same list, reports and head, {counts['Others']} with others"
    )
    if counts["Written"]:
        sys.exit(f"{counts['Written']} damaged stores were written to")
    if not asked.without_sums and counts["Refused"] != len(tried):
        missed = [tried[at] for at, end in enumerate(ends) if end != "Refused"]
        sys.exit(f"not refused: (byte, bits) {missed[:20]}")


if __name__ == "__main__":
    main()
