#!/usr/bin/env python3
"""Times each kind of order and each query of `usbreg serve` on a full store beside the same on a small one, which has some
ten of everything: accepted and repeated, refused by each check, and by callers who may not give it. `order_cases.py` has
them. The full store has a vendor whose 65,535 numbers are all owned, one whose even numbers are all reserved, 100,000
petitions, and all organisations, vendors and licences but those that the accepted orders add.

Then it times pages of the record where imports of the most titles, each of the most bytes, stand, beside a page of small
requests; an opening by the number of accepted requests, with its memory; and the report of a million petitions, all open or few
(`large_stores.py`).

Prints tables for docs/performance.md: the median of each in milliseconds, with its connection, from a client in Python,
in files on tmpfs, the two stores in turn, and the pages in turn. Then it lists what misses the aims: a refused or repeated
order takes at most 1 ms, and at most twice as long as on the small store; an import of 8,192 items takes at most 300 ms,
whatever its outcome. TIMES sets the number of runs, SCALE divides the sizes of the full store and of imports, and words
given as arguments choose the kinds that have one of them; those pages are of the kind `pages of imports`, and the others
`opening by size` and `report of petitions`. Needs cc, and the program that `make` builds, or the one whose path is in USBREG."""

import itertools
import os
import statistics
import sys
import time

HERE = os.path.dirname(os.path.abspath(__file__))
sys.path.insert(0, f"{HERE}/../scripts")
from lib.serving import exchange, get, serving
from lib.usbreg import apply, done, folder, found, program, put_rows, write, write_requests
from large_stores import openings, report
from order_cases import CARD, CURATOR, EMPTY, FRESH, FULL, ITEMS, KEEPER, LINES, MOST_IMPORT, MOST_ITEMS, RUNS, SCALE, SCATTERED, SITE, STRIPED, Orders, cases, listed

# The imports of the pages that are timed, their titles, and the most small requests before them on a page.
IMPORTS, LONG, BEFORE = 64, "L" * 200, 8


class Size:
    """How many of everything a store has: numbers of one vendor, organisations, petitions, vendors and licences."""

    def __init__(self, name, numbers, orgs, petitions, vendors, licences):
        self.name, self.numbers, self.orgs, self.petitions, self.vendors, self.licences = name, numbers, orgs, petitions, vendors, licences

    def span(self):
        return {"first": "0001", "last": f"{self.numbers:04x}", "vendor": FULL}

    def parts(self):
        """Returns the imports that give the vendor its numbers: the first and the last code of each."""
        firsts = range(1, self.numbers + 1, MOST_ITEMS)
        return [(first, min(first + MOST_ITEMS - 1, self.numbers)) for first in firsts]

    def accepted(self):
        """Returns how many accepted requests a new store of this size has."""
        return sum(1 for _ in filling(self)) + len(self.parts()) + 1


def sizes():
    # The accepted orders add one organisation, vendor or licence each run, and fill the store to the last.
    yield Size("full", 65535 // SCALE, 65536 // SCALE - RUNS, 100000 // SCALE, 256 // SCALE - RUNS, 1024 // SCALE - RUNS)
    yield Size("small", 10, 10, 16, 10, 10)


def vendors(size):
    """The vendors apart from the founding one: three, those of the imports of fresh numbers, and others up to the count."""
    some = [FULL, EMPTY, STRIPED, *(f"{it + run:04x}" for it in (FRESH, SCATTERED) for run in range(RUNS))]
    return some + [f"{0x3001 + it:04x}" for it in range(size.vendors - len(some) - 1)]


def filling(size):
    """The requests that fill a store, apart from its imports: organisation 1 owns the vendor's numbers, and organisation 2
    has 16 open petitions."""
    for vendor in vendors(size):
        yield {"caller": CURATOR, "key": f"v{vendor}", "order": "add-vendor", "vendor": vendor, "name": "Vendor"}
    for number in range(3, size.licences + 1):
        yield {"caller": CURATOR, "key": f"l{number}", "order": "add-licence", "licence": f"Made-up licence {number}"}
    for number in range(1, size.orgs + 1):
        yield {"caller": KEEPER, "key": f"e{number}", "order": "enrol", "org": f"o{number}", "title": f"Workshop {number}", "site": SITE}
    for number in range(1, 17):
        yield {"caller": KEEPER, "key": f"b{number}", "order": "ask", "org": "o2", **CARD}
    orgs = itertools.cycle(range(3, size.orgs + 1))
    for number in range(17, size.petitions + 1):
        yield {"caller": KEEPER, "key": f"a{number}", "order": "ask", "org": f"o{next(orgs)}", **CARD}


def filled(usbreg, room, size):
    """Makes a store of this size. The reserved numbers are put into it by SQLite, since each would take an order."""
    store = found(usbreg, f"{room}/{size.name}.db")
    apply(usbreg, store, write_requests(f"{room}/filling.jsonl", filling(size)))
    given = [(f"i{first}", FULL, range(first, last + 1)) for first, last in size.parts()] + [("s1", STRIPED, [65535])]
    for key, vendor, codes in given:
        devices = write(f"{room}/devices.ids", listed(vendor, codes).decode())
        done([usbreg, "import", store, devices, "--caller", CURATOR, "--key", key, "--org", "o1", "--vendor", vendor])
    stripes = ((int(STRIPED, 16), code, code) for code in range(2, size.numbers + 1, 2))
    return put_rows(store, [("INSERT INTO spans3 VALUES (?, ?, ?)", stripes)])


def small_requests(count):
    """So many small requests for the record: a vendor, and organisations."""
    yield {"caller": CURATOR, "key": "v1", "order": "add-vendor", "vendor": EMPTY, "name": "Vendor"}
    for number in range(1, count):
        yield {"caller": KEEPER, "key": f"e{number}", "order": "enrol", "org": f"o{number}", "title": f"Workshop {number}", "site": SITE}


def timed(case, o, run):
    """Returns the milliseconds of each message of one run. Ends the script if the response is not of the case's outcome, or
    a repeated order does not get the first response."""
    sent, taken, answers = case.message(o, run), [], []
    for _ in case.outcomes():
        began = time.perf_counter()
        answers.append(exchange(o.server.port, sent))
        taken.append(1000 * (time.perf_counter() - began))
    if not case.holds(answers[0]) or answers[-1] != answers[0]:
        sys.exit(f"{case.kind} of a {case.caller} on the {o.size.name} store should be {case.outcome}: {answers[0][:400]!r} {answers[-1][:400]!r}")
    while o.left:
        o.send(o.left.pop())
    return taken


def measured(case, stores):
    """Returns the median of each message on the full store and on the small one, or None for the latter if the case has
    none."""
    of_case = stores[:1] if case.only_full else stores
    taken = [[timed(case, o, run) for o in of_case] for run in range(RUNS)]
    for at, outcome in enumerate(case.outcomes()):
        medians = [statistics.median(run[store][at] for run in taken) for store in range(len(of_case))]
        yield (outcome, *medians, None)[:3]


def misses(case, outcome, full, small):
    """What the case misses of the aims, in words."""
    if not case.is_order():
        return
    if full > case.aim and (outcome != "accepted" or case.aim == MOST_IMPORT):
        yield f"it takes {full:.2f} ms, and may take {case.aim:g}"
    if outcome != "accepted" and small and full > 2 * small:
        yield f"it takes {full / small:.1f} times as long as on the small store, and may take twice as long"


def long_record(usbreg, room):
    """Makes a store whose record has a page of small requests, and then the imports. Returns it, and the places of the pages
    that are timed."""
    store, count = found(usbreg, f"{room}/pages.db"), LINES // SCALE
    apply(usbreg, store, write_requests(f"{room}/small.jsonl", small_requests(count)))
    devices = write(f"{room}/long.ids", listed(EMPTY, range(1, ITEMS + 1)).decode().replace("Lamp", LONG))
    for number in range(1, IMPORTS + 1):
        done([usbreg, "import", store, devices, "--caller", CURATOR, "--key", f"i{number}", "--org", "o1", "--vendor", EMPTY])
    return store, {f"{count:,} small requests": 0, "an import": count, **{f"{it} small requests before the imports": count - it for it in range(1, BEFORE + 1)}}


def import_pages(usbreg, room):
    """Prints the median of each page beside that of the page of small requests. An import leaves no room on a page. Of the
    pages that end before the imports, which may read some of these in vain, it prints the slowest."""
    store, places = long_record(usbreg, room)
    taken, sizes_of = {name: [] for name in places}, {}
    with serving(usbreg, store).up() as server:
        for _ in range(RUNS):
            for name, place in places.items():
                began = time.perf_counter()
                sizes_of[name] = len(exchange(server.port, get(f"/history/{place}")))
                taken[name].append(1000 * (time.perf_counter() - began))
    medians = {name: statistics.median(each) for name, each in taken.items()}
    small, alone, *before = places
    print(f"\n{IMPORTS} imports of {ITEMS:,} titles of {len(LONG)} bytes\n\n| Page of the record | Bytes | Time | Times as long |\n|---|---|---|---|")
    for name in (small, alone, max(before, key=medians.get)):
        print(f"| {name} | {sizes_of[name]:,} | {medians[name]:.2f} ms | {medians[name] / medians[small]:.1f} |")


def load():
    return f"{os.getloadavg()[0]:.1f}"


def kinds(usbreg, room, chosen):
    """Prints the medians of the chosen cases on both stores, and returns what misses the aims."""
    full, small = sizes()
    with serving(usbreg, filled(usbreg, room, full)).up() as on_full, serving(usbreg, filled(usbreg, room, small)).up() as on_small:
        stores, missed = [Orders(full, on_full), Orders(small, on_small)], []
        print(f"medians of {RUNS} runs; {full.numbers:,} numbers of a vendor, {full.orgs:,} organisations, {full.petitions:,} petitions\n")
        print("| Message | By | Outcome | Full store | Small store |\n|---|---|---|---|---|")
        for case in chosen:
            for outcome, *medians in measured(case, stores):
                told = f"refused: {outcome}" if isinstance(outcome, int) else outcome
                cells = ["–" if it is None else f"{it:.2f} ms" for it in medians]
                print(f"| {case.kind} | {case.caller} | {told} | {' | '.join(cells)} |", flush=True)
                missed += [f"{case.kind} by a {case.caller}, {told}: {it}" for it in misses(case, outcome, *medians)]
    return missed


def main():
    usbreg, words, before, missed = program(), sys.argv[1:], load(), []

    def is_chosen(kind):
        return not words or any(it in kind for it in words)

    with folder() as room:
        chosen = [case for case in cases() if is_chosen(case.kind)]
        if chosen:
            missed = kinds(usbreg, room, chosen)
        if is_chosen("pages of imports"):
            import_pages(usbreg, room)
        if is_chosen("opening by size"):
            openings(usbreg, room)
        if is_chosen("report of petitions"):
            report(usbreg, room)
        print(f"\nload of the machine: {before} before, {load()} after; {len(missed)} aims missed")
        print("".join(f"  {it}\n" for it in missed), end="")


if __name__ == "__main__":
    main()
