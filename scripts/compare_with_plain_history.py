#!/usr/bin/env python3
"""Compares `usbreg` with a plain history in Python (`plain_history.py`): over the cases in `cases/`, histories at the
edges of limits, and random requests, the same ones in each run, some of them with times and reasons. Replies, all tables,
the digests of the record among them, and the exported list must be the same, and another reader must find the held numbers
and their titles in the list.

Usage: scripts/compare_with_plain_history.py [PROGRAM], by default the one that `make` builds. The exit status is 0 if all
agree."""

import json
import sys

from lib import plain_history
from lib.beside_plain import Room
from lib.plain_history import REFUSALS
from lib.requests import Chance, all_cases, ask, enrol, request
from lib.usbreg import folder, program

ORDERS_IN_CHANCE = 3000
# Refusals that the random requests do not meet.
RARE = {12, 14, 18, 19}


def cases(room):
    for name, requests, replies in all_cases():
        room.registry().send(name, requests, replies)


def limits(room):
    """Tries the greatest numbers of vendors, licences and items, and one more; and a registry whose numbers are all fixed."""
    full, known = '{"name":"Full","refused":18}', '{"name":"{}Taken","refused":{}}'
    vendors = [request("cora", f"v{it}", "add-vendor", vendor=f"{it:04x}", name=f"Vendor {it}") for it in range(0x3001, 0x3101)]
    again = request("cora", "again", "add-vendor", vendor="3001", name="Vendor")
    replies = [f'{{"done":"added vendor {it["vendor"]}"}}' for it in vendors[:255]]
    room.registry().send("vendors", [*vendors, again], [*replies, full, known.replace("{}", "Vendor", 1).replace("{}", "33")])

    licences = room.registry(licences=[f"Licence {it}" for it in range(1023)])
    names = ("MIT", "GPL-3.0-only", "Licence 7")
    added = [request("cora", f"l{place}", "add-licence", licence=it) for place, it in enumerate(names)]
    licences.send("licences", added, ['{"done":"added licence MIT"}', full, known.replace("{}", "Licence", 1).replace("{}", "35")])

    asked = [enrol("acme"), ask("a1"), request("cora", "g1", "grant", petition=1)]
    replies = ['{"done":"enrolled acme"}', '{"done":"petition 1"}', '{"name":"NoneFree","refused":12}']
    room.registry(fixed="0001-ffff").send("all numbers fixed", asked, replies)

    for count, reply in (
        (8192, '{"done":"imported fresh 0, owned 0, reserved 0, doubled 0, untitled 0, zero 8192"}'),
        (8193, '{"name":"ImportTooLong","refused":19}'),
    ):
        imported = request("cora", "i", "import", org="acme", list="1209  Vendor\n" + "\t0000  Zero\n" * count)
        room.registry().send(f"{count} items", [enrol("acme"), imported], ['{"done":"enrolled acme"}', reply])


def made_up(room):
    """Makes random requests, a fourth of them repeats. Each kind of order is accepted, and each refusal occurs."""
    registry, chance, sent, replies = room.registry("ann", "0007"), Chance(13), [], []
    while len(sent) < ORDERS_IN_CHANCE:
        again = sent and chance.dice.randrange(4) == 0
        sent.append(chance.again(sent) if again else chance.request())
    for first in range(0, len(sent), 250):
        replies += registry.send(f"made-up requests from {first}", sent[first : first + 250])
    refused = {json.loads(reply).get("refused") for reply in replies}
    orders = {deed["order"] for deed in registry.history.deeds}
    missing = set(REFUSALS) - RARE - refused, set(plain_history.FIELDS) - orders, lacking(registry.history, sent)
    if any(missing):
        sys.exit(f"made-up requests never met these refusals, orders and others: {missing}")


def lacking(history, sent):
    """Returns what is optional in requests and never came in these."""
    kept = {(it["caller"], it["key"]): it for it in history.deeds}
    repeats = [(it, kept[it["caller"], it["key"]]) for it in sent if (it["caller"], it["key"]) in kept]
    others = [deed for it, deed in repeats if history.canonical(it) == deed["form"] and it.get("at") != deed.get("at")]
    came = {
        "a time": any(it.get("at") for it in history.deeds), "no time": any(not it.get("at") for it in history.deeds),
        "a repeat at another time": others, "a reason": history.tables()["reasons4"],
        "an opening at a time": history.tables()["opened5"], "a closing at a time": history.tables()["closed5"],
    }
    return {name for name, met in came.items() if not met}


def main():
    with folder() as made:
        room = Room(program(*sys.argv[1:2]), made)
        for histories in (cases, limits, made_up):
            histories(room)
        print(f"{room.count} histories are those of the plain one")


if __name__ == "__main__":
    main()
