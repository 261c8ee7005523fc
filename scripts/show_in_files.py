#!/usr/bin/env python3
"""Runs exports, reports, imports, look-ups and heads of `usbreg` over stores and lists in files, and compares what they print.

Usage: scripts/show_in_files.py [PROGRAM], by default the one that `make` builds. The exit status is 0 if every case
passes."""

import json
import sys

from lib.cases import Room
from lib.plain_history import History, line as compact
from lib.requests import line
from lib.second_reader import devices
from lib.usbreg import EXAMPLES, FOUNDING, content, folder, program, run, tables

HEADER = "# List of USB numbers in the syntax of usb.ids\n"
STAMP = "# Version: 2024.01.30\n# Date:    2024-01-30 20:34:02\n"
VENDOR = "\n1209  Shared products\n"
LINK = "https://acme.example/"
FIRST = ["enrolled acme", "petition 1", "granted 0011 to acme by petition 1"]

OTHER_KINDS = "\nC 00  (Defined at Interface level)\nHID 21  HID\nBIAS 0  Not Applicable\nL 0001  Arabic\n"
LISTED = f"# Version: 2024.01.30\n{VENDOR}\t0011  Blinker\n{OTHER_KINDS}"
ORPHAN = "1209  A\n\t\t01  x\n"
USUAL = "1209  One\n\t0011  First\n\t0011  Second\n1210  Two\n\t0012  Other\n1209  Again\n\t0012  Late\n\t0000  \n"
FAULTY = "1209  One\n\t0011  First\n\t11  x\n"


def ask(key, title, **fields):
    return line("ann", key, "ask", org="acme", title=title, licence="MIT", site=LINK, source=LINK, **fields)


def act(room, store, lines, replies):
    """Checks that the store's registry gives these replies to the lines."""
    room.case(["apply", store, room.file("lines.jsonl", "".join(lines))], output="".join(f'{{"done":"{it}"}}\n' for it in replies))


def first(room, name):
    """Returns the registry after the lines of the first trial."""
    store = room.founded(name)
    act(room, store, content(f"{EXAMPLES}/first.jsonl").decode().splitlines(keepends=True), FIRST)
    return store


def more_vendors(room, store):
    """Grants a number under a second vendor, and takes the first one back."""
    lines = [
        line("cora", "v1", "add-vendor", vendor="cafe", name="Second vendor"),
        ask("k4", "Lamp", vendor="cafe"),
        line("cora", "v3", "grant", petition=2),
        line("ann", "k5", "return", number="0011"),
    ]
    act(room, store, lines, ["added vendor cafe", "petition 2", "granted cafe:0001 to acme by petition 2", "returned 0011"])


def exports(room):
    """Exports an empty registry, with and without a stamp; the first one; two vendors and a returned number."""
    empty = room.founded("shown")
    room.case(["export", empty], output=HEADER + VENDOR)
    room.case(["export", empty, "--stamp", "2024-01-30 20:34:02"], output=HEADER + STAMP + VENDOR)
    for bad in ("2024-13-30 20:34:02", "2024-01-30 20:34:60", "2024-13-30", "2024-01-30", ""):
        room.case(["export", empty, "--stamp", bad], 2, errors="bad word: stamp\n")
    room.case(["export", f"{room.folder}/none.db"], 1, errors="fault: file\n")
    store = first(room, "one")
    room.case(["export", store], output=f"{HEADER}{VENDOR}\t0011  Blinker\n")
    more_vendors(room, store)
    room.case(["export", store], output=f"{HEADER}{VENDOR}cafe  Second vendor\n\t0001  Lamp\n")
    room.case(["export", room.file("empty.db", "")], 1, errors="fault: foreign\n")


def census(vendor, free, reserved, held, returned):
    rows = (("vendor", vendor), ("free", free), ("reserved", reserved), ("held", held), ("returned", returned), ("total", 65535))
    return "".join(f"{label:<10}{value:>6}\n" for label, value in rows)


def numbers(*rows):
    """Returns the report `numbers` of rows: vendor, product, state, and organisation and title if it has an owner."""
    return "".join(f"{vid}  {pid}  {state:<8}" + "".join(f"  {org:<32}  {title}" for org, title in owner) + "\n" for vid, pid, state, *owner in rows)


FIXED = [("1209", f"{number:04x}", "reserved") for number in range(1, 17)]


def reports(room):
    """Reports on an empty registry, on the first one, after another petition, on two vendors, and with a returned number."""
    empty, store = room.founded("unused"), first(room, "reported")
    for name, text in (("census", census("1209", 65519, 16, 0, 0)), ("holders", ""), ("petitions", ""), ("numbers", numbers(*FIXED)), ("organisations", "")):
        room.case(["report", empty, name], output=text)
    holder = f"{'acme':<32}"
    for name, text in (("census", census("1209", 65518, 16, 1, 0)), ("holders", f"{holder}     1     0\n"), ("petitions", "")):
        room.case(["report", store, name], output=text)
    room.case(["report", store, "numbers"], output=numbers(*FIXED, ("1209", "0011", "held", ("acme", "Blinker"))))
    room.case(["report", store, "organisations"], output=f"{'acme':<32}  {'ann':<32}  Acme Tools\n")
    act(room, store, [ask("k4", "Lamp")], ["petition 2"])
    room.case(["report", store, "petitions"], output=f"      2  {holder}  any   Lamp\n")
    lines = [
        line("cora", "v1", "add-vendor", vendor="cafe", name="Second vendor"),
        ask("k5", "Clock", vendor="cafe"),
        line("cora", "v2", "grant", petition=3),
        ask("k6", "Drive", vendor="cafe", number="00ff"),
    ]
    act(room, store, lines, ["added vendor cafe", "petition 3", "granted cafe:0001 to acme by petition 3", "petition 4"])
    room.case(["report", store, "census"], output=census("1209", 65518, 16, 1, 0) + census("cafe", 65534, 0, 1, 0))
    room.case(["report", store, "petitions"], output=f"      2  {holder}  any   Lamp\n      4  {holder}  cafe:00ff  Drive\n")
    room.case(["export", store], output=f"{HEADER}{VENDOR}\t0011  Blinker\ncafe  Second vendor\n\t0001  Clock\n")
    other = first(room, "vendors")
    more_vendors(room, other)
    act(room, other, [ask("k6", "Drive", vendor="cafe"), ask("k7", "Clock", vendor="cafe", number="00ff")], ["petition 3", "petition 4"])
    room.case(["report", other, "census"], output=census("1209", 65518, 16, 0, 1) + census("cafe", 65534, 0, 1, 0))
    room.case(["report", other, "holders"], output=f"{holder}     1     1\n")
    room.case(["report", other, "petitions"], output=f"      3  {holder}  cafe:any  Drive\n      4  {holder}  cafe:00ff  Clock\n")
    taken = (*FIXED, ("1209", "0011", "returned", ("acme", "Blinker")), ("cafe", "0001", "held", ("acme", "Lamp")))
    room.case(["report", other, "numbers"], output=numbers(*taken))
    act(room, other, [line("cora", "cafe-reserved", "reserve", first="0002", last="0003", vendor="cafe")], ["reserved cafe:0002-0003"])
    room.case(["report", other, "numbers"], output=numbers(*taken, ("cafe", "0002", "reserved"), ("cafe", "0003", "reserved")))
    for bad in ("list", "Census", "number", ""):
        room.case(["report", store, bad], 2, errors="bad word: name\n")
    room.case(["report", f"{room.folder}/none.db", "census"], 1, errors="fault: file\n")
    room.case(["report", room.file("empty2.db", ""), "census"], 1, errors="fault: foreign\n")


def imports(room):
    """Imports items of each class, again under another key and under the same one; too many; untitled; an export; several
    vendors."""
    store = first(room, "imported")
    mixed = room.file("mixed.ids", "1209  x\n\t0000  Zero\n\t0001  Fixed\n\t0011  Taken\n\t0012  New board\n\t0012  New board again\n")

    def words(it, items, key, caller="cora", org="acme"):
        return ["import", it, items, "--caller", caller, "--key", key, "--org", org]

    def done(it, items, key, counts, *more):
        names = ("fresh", "owned", "reserved", "doubled", "untitled", "zero")
        text = ", ".join(f"{name} {count}" for name, count in zip(names, counts))
        room.case([*words(it, items, key), *more], output=f'{{"done":"imported {text}"}}\n')

    done(store, mixed, "i1", (1, 1, 1, 1, 0, 1))
    room.case(["export", store], output=f"{HEADER}{VENDOR}\t0011  Blinker\n\t0012  New board\n")
    before = tables(store)
    done(store, mixed, "i1", (1, 1, 1, 1, 0, 1))
    if tables(store) != before:
        sys.exit("an import under its key again changed the tables")
    done(store, mixed, "i2", (0, 2, 1, 1, 0, 1))
    room.case(["export", store], output=f"{HEADER}{VENDOR}\t0011  Blinker\n\t0012  New board\n")

    other = room.founded("taken-over")
    act(room, other, [content(f"{EXAMPLES}/first.jsonl").decode().splitlines(keepends=True)[0]], FIRST[:1])
    many = "1209  x\n" + "\t0000  y\n" * 8192
    room.case(words(other, room.file("many.ids", many + "\t0000  y\n"), "i1"), 2, output='{"name":"ImportTooLong","refused":19}\n')
    done(other, room.file("most.ids", many), "i1", (0, 0, 0, 0, 0, 8192))
    done(other, room.file("untitled.ids", "1209  x\n\t0011\n"), "i2", (0, 0, 0, 0, 1, 0))
    listed = f"{HEADER}{VENDOR}\t0011  Blinker\n"
    done(other, room.file("listed.ids", listed), "i3", (1, 0, 0, 0, 0, 0))
    room.case(["export", other], output=listed)

    two = room.file("two.ids", "1209  x\n\t1000  One\ncafe  y\n\t2000  Two\n1209  z\n\t1001  Three\n")
    room.case([*words(other, two, "i4"), "--vendor", "cafe"], 2, output='{"name":"NoVendor","refused":34}\n')
    act(room, other, [line("cora", "v1", "add-vendor", vendor="cafe", name="Second vendor")], ["added vendor cafe"])
    done(other, two, "i4", (1, 0, 0, 0, 0, 0), "--vendor", "CAFE")
    done(other, two, "i5", (2, 0, 0, 0, 0, 0))
    done(other, two, "i6", (0, 2, 0, 0, 0, 0), "--vendor", "1209")
    room.case(["export", other], output=f"{listed}\t1000  One\n\t1001  Three\ncafe  Second vendor\n\t2000  Two\n")

    before = tables(other)
    room.case(words(other, two, "i7", caller="ann"), 2, output='{"name":"NotCurator","refused":2}\n')
    room.case(words(other, two, "i7", org="bolt"), 2, output='{"name":"NoOrg","refused":4}\n')
    room.case(words(other, two, "i1"), 2, output='{"name":"KeyReused","refused":1}\n')
    bad = room.file("bad.ids", FAULTY)
    room.case(words(other, bad, "i7"), 2, errors='{"detail":"line 3: BadCode","name":"BadList","refused":29}\n')
    none = f"{room.folder}/none.ids"
    for caller, key, org, vendor, word in (
        ("Cora", "", "Acme", "0", "caller"), ("cora", "", "Acme", "0", "key"), ("cora", "i7", "Acme", "0", "org"), ("cora", "i7", "acme", "0000", "vendor"),
    ):
        room.case([*words(none, none, key, caller, org), "--vendor", vendor], 2, errors=f"bad word: {word}\n")
    room.case(words(none, bad, "i7"), 1, errors="fault: file\n")
    room.case(words(other, none, "i7"), 1, errors="fault: file\n")
    room.case(words(room.file("empty3.db", ""), none, "i7"), 1, errors="fault: foreign\n")
    if tables(other) != before:
        sys.exit("an import that was refused changed the tables")


def look_ups(room):
    """Looks up the first match of several, no match, a match in a faulty list, and arguments that are not numbers."""
    listed, orphan = room.file("other_kinds.ids", LISTED), room.file("orphan.ids", ORPHAN)
    room.case(["lookup", listed, "1209", "0011"], output="Blinker\n")
    room.case(["lookup", listed, "1209", "0012"], 2, errors="not found\n")
    room.case(["lookup", orphan, "1209", "0011"], 2, errors='{"detail":"line 2: NoParent","name":"BadList","refused":29}\n')
    room.case(["lookup", room.file("doubled.ids", "1209  One\n\t0011  First\n\t0011  Second\n"), "1209", "0011"], output="First\n")
    # The last line has no line feed.
    cut = room.file("cut.ids", "1210  One\n\t0011  First\n1209  Two\n\t0012  Other")
    room.case(["lookup", cut, "1209", "0012"], output="Other\n")
    room.case(["lookup", room.file("other.ids", "1210  One\n\t0011  First\n"), "1209", "0011"], 2, errors="not found\n")
    usual, faulty = room.file("usual.ids", USUAL), room.file("faulty.ids", FAULTY)
    for vid, pid, name in (("1209", "0011", "First"), ("1209", "0012", "Late"), ("1210", "0012", "Other"), ("1209", "0000", "")):
        room.case(["lookup", usual, vid, pid], output=f"{name}\n")
    for vid, pid in (("1210", "0011"), ("1211", "0012"), ("0012", "1209")):
        room.case(["lookup", usual, vid, pid], 2, errors="not found\n")
    room.case(["lookup", faulty, "1209", "0011"], 2, errors='{"detail":"line 3: BadCode","name":"BadList","refused":29}\n')
    for vid, pid, bad in (("0000", "0011", "vid"), ("12g9", "12g4", "vid"), ("1209", "12g4", "pid")):
        room.case(["lookup", usual, vid, pid], 2, errors=f"bad word: {bad}\n")
    room.case(["lookup", f"{room.folder}/none.ids", "1209", "0011"], 1, errors="fault: file\n")


def heads(room):
    """Prints the head of an empty registry, and after each of some orders: with a time, repeated at another one, without one,
    and refused."""
    store, history = room.founded("headed"), History(FOUNDING)
    enrol = {"title": "Größe", "site": LINK}
    orders = (
        line("ann", "k1", "enrol", org="acme", at="2026-11-28T20:34:13Z", **enrol),
        line("ann", "k1", "enrol", org="acme", at="2027-01-01T00:00:00Z", **enrol),
        line("ann", "k2", "enrol", org="bolt", **enrol),
        line("ann", "k3", "enrol", org="bolt", at="2026-11-29T00:00:00Z", **enrol),
    )
    room.case(["head", store], output=f"{compact(history.head())}\n")
    for order in orders:
        reply = history.answer(json.loads(order))
        room.case(["apply", store, room.file("order.jsonl", order)], output=f"{compact(reply)}\n")
        room.case(["head", store], output=f"{compact(history.head())}\n")
    room.case(["head", f"{room.folder}/none.db"], 1, errors="fault: file\n")
    room.case(["head", room.file("empty4.db", "")], 1, errors="fault: foreign\n")


def second_reader(room):
    """Checks that another program reads in an export what a look-up finds in it."""
    store = room.founded("read")
    numbers = [f"{number:04x}" for number in range(0x1000, 0x1010)]
    lines = [line("ann", "k0", "enrol", org="acme", title="Acme", site=LINK)]
    replies = ["enrolled acme"]
    for place, number in enumerate(numbers, 1):
        lines += [ask(f"a{place}", f"Device {number}", number=number), line("cora", f"g{place}", "grant", petition=place)]
        replies += [f"petition {place}", f"granted {number} to acme by petition {place}"]
    act(room, store, lines, replies)
    status, listed, errors = run([room.program, "export", store])
    read = devices(listed.decode())
    if (status, errors) != (0, b"") or read != {("1209", number): f"Device {number}" for number in numbers}:
        sys.exit(f"a second reader of the export: status {status}, {errors!r}, {read}")
    exported = room.file("exported.ids", listed.decode())
    for (vid, pid), name in read.items():
        room.case(["lookup", exported, vid, pid], output=f"{name}\n")


def main():
    with folder() as made:
        room = Room(program(*sys.argv[1:2]), made)
        for cases in (exports, reports, imports, look_ups, heads, second_reader):
            cases(room)
        print(f"what is shown of files: {room.seen} cases are as they should be")


if __name__ == "__main__":
    main()
