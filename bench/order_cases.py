"""The orders and queries that `worst_orders.py` times: each kind of order accepted, refused by each check and by callers who
may not give it, and repeated; each query; and what only a hostile caller sends."""

import itertools
import os
import re

from lib.serving import command, exchange, get, post
from lib.usbreg import REPORTS

RUNS = int(os.environ.get("TIMES", "11"))
SCALE = int(os.environ.get("SCALE", "1"))
# The most items of an import, those of the imports that are timed, and the milliseconds that one may take.
MOST_ITEMS = 8192
ITEMS = MOST_ITEMS // SCALE
MOST_IMPORT = 300
# The vendor whose numbers are all owned in the full store, one that has no number, and one whose even numbers are all
# reserved in the full store and whose last one is owned. Each import of fresh numbers has a vendor of its own.
FULL, EMPTY, STRIPED = "fa11", "e111", "5719"
FRESH, SCATTERED = 0x1000, 0x1100
CURATOR, KEEPER, STRANGER = "cora", "ann", "eve"
SITE = "https://o.example/"
CARD = {"title": "Lamp", "licence": "MIT", "site": SITE, "source": SITE}
# The most bytes of an order, and the most petitions, lines of a page of the record and bytes of a list.
ORDER, LINES, LIST = 16384, 1000, 4194304


def listed(vendor, codes, last="Lamp"):
    """Returns a list of devices in the syntax of usb.ids."""
    lines = [f"\t{code:04x}  Lamp\n" for code in codes]
    return "".join([f"{vendor}  x\n", *lines[:-1], *(it.replace("Lamp", last) for it in lines[-1:])]).encode()


class Orders:
    """Messages of orders on a store that is served, each with a new key unless one is given."""

    def __init__(self, size, server):
        self.size, self.server, self.count, self.left = size, server, itertools.count(1), []

    def new_key(self):
        return f"x{next(self.count)}"

    def send(self, *messages):
        """Sends messages that are not timed, and returns the response to the last."""
        return [exchange(self.server.port, it) for it in messages][-1]

    def asked(self, org="o3", **fields):
        """Returns the number of a new petition, which is withdrawn after the run."""
        petition = int(re.search(rb"petition (\d+)", self.send(self.order(KEEPER, "ask", org=org, **{**CARD, **fields})))[1])
        self.left.append(self.order(KEEPER, "withdraw", petition=petition))
        return petition

    def order(self, caller, kind, key=None, **fields):
        return command({"caller": caller, "key": key or self.new_key(), "order": kind, **fields})

    def imported(self, caller, vendor, codes, org="o1", key=None, last="Lamp"):
        return post(caller, key or self.new_key(), listed(vendor, codes, last), f"/imports/{org}/{vendor}")


class Case:
    """A kind of order or query, who sends it, what becomes of it, and a function from a store and a number of a run to the
    message that is timed, which may send others before. An accepted order is sent once more, which is timed too."""

    def __init__(self, kind, caller, outcome, message, aim=1.0, only_full=False):
        self.kind, self.caller, self.outcome, self.message, self.aim, self.only_full = kind, caller, outcome, message, aim, only_full

    def is_order(self):
        return not self.kind.startswith("GET")

    def outcomes(self):
        """Returns what becomes of each of the messages that are timed."""
        return ["accepted", "repeated"] if self.outcome == "accepted" else [self.outcome]

    def holds(self, answer):
        """Returns whether the response is of this outcome: a refusal's number, or any other is a success."""
        if isinstance(self.outcome, int):
            return b'"refused":%d}' % self.outcome in answer
        return answer.startswith(b"HTTP/1.1 200 ")


def enrolments():
    def enrol(caller, org, key=None, title="Workshop 1"):
        return lambda o, run: o.order(caller, "enrol", key, org=org.format(run), title=title, site=SITE)

    def amend(caller, org="o1"):
        return lambda o, run: o.order(caller, "amend-org", org=org, title="Workshop", site=SITE)

    yield Case("enrol", "keeper", "accepted", enrol(KEEPER, "n{}"))
    yield Case("enrol", "keeper", 18, enrol(KEEPER, "full"), only_full=True)
    yield Case("enrol", "keeper", 1, enrol(KEEPER, "o1", "e1", "Another"))
    for caller, name in ((KEEPER, "keeper"), (CURATOR, "curator"), (STRANGER, "stranger")):
        yield Case("enrol", name, 5, enrol(caller, "o1"))
    yield Case("amend-org", "keeper", "accepted", amend(KEEPER))
    yield Case("amend-org", "keeper", 4, amend(KEEPER, "absent"))
    yield Case("amend-org", "curator", 3, amend(CURATOR))
    yield Case("amend-org", "stranger", 3, amend(STRANGER))

    def hand_over(caller, org="o1"):
        return lambda o, run: o.order(caller, "hand-over", org=org, keeper=KEEPER)

    def correct(caller, org="o1"):
        return lambda o, run: o.order(caller, "correct-org", org=org, title="Workshop", site=SITE)

    for caller, name in ((KEEPER, "keeper"), (CURATOR, "curator")):
        yield Case("hand-over", name, "accepted", hand_over(caller))
    yield Case("hand-over", "keeper", 4, hand_over(KEEPER, "absent"))
    yield Case("hand-over", "stranger", 3, hand_over(STRANGER))
    yield Case("correct-org", "curator", "accepted", correct(CURATOR))
    yield Case("correct-org", "curator", 4, correct(CURATOR, "absent"))
    yield Case("correct-org", "keeper", 2, correct(KEEPER))


def asks():
    def ask(caller=KEEPER, key=None, org="o1", **fields):
        return lambda o, run: o.order(caller, "ask", key, org=org, **{**CARD, **fields})

    yield Case("ask", "keeper", "accepted", lambda o, run: o.order(KEEPER, "ask", org=f"o{1 + 2 * (run % 2)}", **CARD))
    yield Case("ask", "keeper", 1, ask(key="b1", org="o2", title="Another"))
    yield Case("ask", "keeper", 4, ask(org="absent"))
    yield Case("ask", "curator", 3, ask(CURATOR))
    yield Case("ask", "stranger", 3, ask(STRANGER))
    yield Case("ask", "keeper", 34, ask(vendor="dddd"))
    yield Case("ask", "keeper", 13, ask(licence="Other"))
    yield Case("ask", "keeper", 14, ask(org="o2"))
    yield Case("ask", "keeper", 8, ask(number="0001"))
    yield Case("ask", "keeper", 9, ask(org="o3", number="0001", vendor=FULL))
    yield Case("ask", "keeper", 10, ask(number="0001", vendor=FULL))


def decisions():
    """Grants, and what closes a petition in another way. Petition 1 stays open."""

    def on(kind, caller, petition):
        return lambda o, run: o.order(caller, kind, petition=petition)

    def on_new(kind, caller, number=None, **fields):
        return lambda o, run: o.order(caller, kind, petition=o.asked(**fields), **({"number": number} if number else {}))

    def on_closed(o, caller, kind):
        petition = o.asked()
        o.send(o.order(CURATOR, "decline", petition=petition))
        return o.order(caller, kind, petition=petition)

    for kind, caller, name in (("grant", CURATOR, "curator"), ("decline", CURATOR, "curator"), ("withdraw", KEEPER, "keeper")):
        yield Case(kind, name, "accepted", on_new(kind, caller))
        yield Case(kind, name, 6, on(kind, caller, 999999))
        yield Case(kind, name, 7, lambda o, run, kind=kind, caller=caller: on_closed(o, caller, kind))
    for kind, caller, name, outcome in (("grant", KEEPER, "keeper", 2), ("grant", STRANGER, "stranger", 2), ("decline", KEEPER, "keeper", 2), ("decline", STRANGER, "stranger", 2), ("withdraw", CURATOR, "curator", 3), ("withdraw", STRANGER, "stranger", 3)):
        yield Case(kind, name, outcome, on(kind, caller, 1))
    yield Case("grant", "curator", 12, on_new("grant", CURATOR, vendor=FULL), only_full=True)
    yield Case("grant", "curator", 8, on_new("grant", CURATOR, number="0001"))
    yield Case("grant", "curator", 9, on_new("grant", CURATOR, number="0001", vendor=FULL))
    yield Case("grant", "curator", 10, on_new("grant", CURATOR, number="0001", vendor=FULL, org="o1"))


def given_numbers():
    """Orders on numbers: those of the full vendor are organisation 1's, imported, and held."""

    def amend(caller, **fields):
        return lambda o, run: o.order(caller, "amend", **{"number": "0001", "vendor": FULL, **CARD, **fields})

    def give_back(caller, vendor=FULL):
        return lambda o, run: o.order(caller, "return", number="0001", vendor=vendor)

    def given(o, run):
        """Number 2 is granted again after each run."""
        if run > 0:
            o.send(o.order(CURATOR, "grant", petition=o.asked("o1", vendor=FULL), number="0002"))
        return o.order(KEEPER, "return", number="0002", vendor=FULL)

    yield Case("amend", "keeper", "accepted", amend(KEEPER))
    yield Case("amend", "keeper", 11, amend(KEEPER, vendor=EMPTY))
    yield Case("amend", "curator", 3, amend(CURATOR))
    yield Case("amend", "stranger", 3, amend(STRANGER))
    yield Case("amend", "keeper", 13, amend(KEEPER, licence="Other"))
    yield Case("return", "keeper", "accepted", given)
    yield Case("return", "keeper", 11, give_back(KEEPER, EMPTY))
    yield Case("return", "curator", 3, give_back(CURATOR))
    yield Case("return", "stranger", 3, give_back(STRANGER))

    def correct(caller, **fields):
        return lambda o, run: o.order(caller, "correct", **{"number": "0001", "vendor": FULL, **CARD, **fields})

    def revoke(caller, vendor=FULL):
        return lambda o, run: o.order(caller, "revoke", number="0001", vendor=vendor, reason="No product uses it")

    def revoked(o, run):
        """Number 3 is granted again after each run."""
        if run > 0:
            o.send(o.order(CURATOR, "grant", petition=o.asked("o1", vendor=FULL), number="0003"))
        return o.order(CURATOR, "revoke", number="0003", vendor=FULL, reason="No product uses it")

    yield Case("correct", "curator", "accepted", correct(CURATOR))
    yield Case("correct", "curator", 11, correct(CURATOR, vendor=EMPTY))
    yield Case("correct", "curator", 13, correct(CURATOR, licence="Other"))
    yield Case("correct", "keeper", 2, correct(KEEPER))
    yield Case("revoke", "curator", "accepted", revoked)
    yield Case("revoke", "curator", 11, revoke(CURATOR, EMPTY))
    yield Case("revoke", "keeper", 2, revoke(KEEPER))


def spans():
    def on(kind, caller, **fields):
        return lambda o, run: o.order(caller, kind, **{**o.size.span(), **fields})

    def after(kind, before, caller=CURATOR, **fields):
        """An order on a span that another one precedes, which is not timed."""
        return lambda o, run: (o.send(o.order(CURATOR, before, **fields)), o.order(caller, kind, **fields))[1]

    whole = {"first": "0001", "last": "ffff", "vendor": EMPTY}
    one, all_stripes = ({"first": first, "last": last, "vendor": STRIPED} for first, last in (("0005", "0005"), ("0001", "ffff")))
    for kind, other in (("reserve", "release"), ("release", "reserve")):
        yield Case(kind, "curator", "accepted", after(kind, other, **whole))
        yield Case(f"{kind}, one number beside many reserved ones", "curator", "accepted", after(kind, other, **one))
        yield Case(kind, "keeper", 2, on(kind, KEEPER))
        yield Case(kind, "stranger", 2, on(kind, STRANGER))
        yield Case(kind, "curator", 34, on(kind, CURATOR, vendor="dddd"))
        yield Case(kind, "curator", 16, on(kind, CURATOR, vendor="1209"))
    yield Case("reserve", "curator", 15, on("reserve", CURATOR))
    yield Case("reserve, each second number reserved", "curator", 15, on("reserve", CURATOR, **all_stripes))
    yield Case("release", "curator", 17, on("release", CURATOR))
    yield Case("release, each second number reserved", "curator", 17, on("release", CURATOR, **all_stripes))


def imports():
    """Short imports of two devices with codes far apart, and long ones of as many devices as an import may have. The aim
    of 1 ms is for short ones: the server reads the list before the rules refuse the order."""
    ends, short = (1, 65535), "import of 2 devices"
    many, long = range(1, ITEMS + 1), f"import of {ITEMS:,} devices"
    blank = (b"# \n" * (LIST // 3 + 1))[:LIST]
    most = listed(FULL, []) + b"\t0001  L\n" * ((LIST - 8) // 9)

    def listing(caller, vendor, codes, org="o1", **how):
        return lambda o, run: o.imported(caller, vendor, codes, org, **how)

    def fresh(vendors, codes):
        return lambda o, run: o.imported(CURATOR, f"{vendors + run:04x}", codes)

    for caller, name in ((KEEPER, "keeper"), (STRANGER, "stranger")):
        yield Case(short, name, 2, listing(caller, FULL, ends))
    yield Case(short, "curator", 4, listing(CURATOR, FULL, ends, "absent"))
    yield Case(short, "curator", 34, listing(CURATOR, "dddd", ends))
    yield Case(short, "curator", "accepted", listing(CURATOR, FULL, ends))
    for caller, vendor, org, outcome, name in ((STRANGER, FULL, "o1", 2, "stranger"), (CURATOR, FULL, "absent", 4, "curator"), (CURATOR, "dddd", "o1", 34, "curator")):
        yield Case(long, name, outcome, listing(caller, vendor, many, org), aim=MOST_IMPORT)
    yield Case(long, "curator", 1, listing(CURATOR, FULL, many, key="i1", last="Other"), aim=MOST_IMPORT)
    yield Case(f"import of {MOST_ITEMS + 1:,} devices", "curator", 19, listing(CURATOR, FULL, range(1, MOST_ITEMS + 2)), aim=MOST_IMPORT)
    yield Case(f"import of {(LIST - 8) // 9:,} devices, the longest list", "curator", 19, lambda o, run: post(CURATOR, o.new_key(), most, f"/imports/o1/{FULL}"), aim=MOST_IMPORT)
    yield Case(f"import of {LIST:,} bytes without devices", "stranger", 2, lambda o, run: post(STRANGER, o.new_key(), blank, "/imports/o1"), aim=MOST_IMPORT)
    yield Case(f"{long}, owned in the full store", "curator", "accepted", listing(CURATOR, FULL, many), aim=MOST_IMPORT)
    yield Case(f"{long}, all fresh", "curator", "accepted", fresh(FRESH, many), aim=MOST_IMPORT)
    yield Case(f"{long}, each second number, backwards", "curator", "accepted", fresh(SCATTERED, range(2 * ITEMS, 0, -2)), aim=MOST_IMPORT)


def additions():
    yield Case("add-vendor", "curator", "accepted", lambda o, run: o.order(CURATOR, "add-vendor", vendor=f"{0x2000 + run:04x}", name="Vendor"))
    yield Case("add-vendor", "curator", 18, lambda o, run: o.order(CURATOR, "add-vendor", vendor="3000", name="Vendor"), only_full=True)
    yield Case("add-vendor", "curator", 33, lambda o, run: o.order(CURATOR, "add-vendor", vendor=FULL, name="Vendor"))
    yield Case("add-licence", "curator", "accepted", lambda o, run: o.order(CURATOR, "add-licence", licence=f"Licence {run}"))
    yield Case("add-licence", "curator", 18, lambda o, run: o.order(CURATOR, "add-licence", licence="Other"), only_full=True)
    yield Case("add-licence", "curator", 35, lambda o, run: o.order(CURATOR, "add-licence", licence="MIT"))
    for caller, name in ((KEEPER, "keeper"), (STRANGER, "stranger")):
        yield Case("add-vendor", name, 2, lambda o, run, caller=caller: o.order(caller, "add-vendor", vendor="3000", name="Vendor"))
        yield Case("add-licence", name, 2, lambda o, run, caller=caller: o.order(caller, "add-licence", licence="Other"))


def no_orders():
    """Bodies that are no order, of the most bytes."""
    members = b'{"order":"none"' + b"".join(b',"%d":0' % it for it in range(10_000))[: ORDER - 40]
    for what, body, outcome in (
        ("many members", members[: members.rindex(b",")] + b"}", 28),
        ("an array in an array", b"[" * ORDER, 27),
        ("one text", b'{"order":"' + b"\\u0041" * 2700 + b'"}', 28),
    ):
        yield Case(f"{ORDER:,} bytes, {what}", "stranger", outcome, lambda o, run, body=body: post(STRANGER, o.new_key(), body))


def queries():
    def asked(path):
        return lambda o, run: get(path)

    def last_page(o):
        return f"/history/{max(0, o.size.accepted() - LINES)}"

    def after_an_order(path):
        return lambda o, run: (o.send(o.order(KEEPER, "amend-org", org="o1", title="Workshop", site=SITE)), get(path))[1]

    def after_a_refused_order(path):
        return lambda o, run: (o.send(get(path), o.order(STRANGER, "amend-org", org="o1", title="Workshop", site=SITE)), get(path))[1]

    for path in (f"/numbers/{FULL}/0001", "/numbers/0001", "/orgs/o1", "/orgs/absent", "/petitions/1", "/petitions/999999", "/founding", "/none"):
        yield Case(f"GET {path}", "", 24 if path == "/none" else 4 if path == "/orgs/absent" else 6 if path == "/petitions/999999" else "found", asked(path))
    whole = ("/list", *(f"/reports/{it}" for it in REPORTS))
    for path in whole:
        yield Case(f"GET {path}", "", "as before", lambda o, run, path=path: (o.send(get(path)), get(path))[1])
    for path in whole:
        yield Case(f"GET {path}", "", "after a refused order", after_a_refused_order(path))
    for path in whole:
        yield Case(f"GET {path}", "", "after an order", after_an_order(path))
    yield Case("GET /history/founding", "", "after an order", after_an_order("/history/founding"))
    yield Case("GET /history/{n}, the first page", "", "found", asked("/history/0"))
    yield Case("GET /history/{n}, the last full page", "", "found", lambda o, run: get(last_page(o)))
    yield Case("GET /history/{n}, behind the end", "", "found", asked("/history/4294967295"))


def cases():
    """All cases, those that fill both stores last; a store that is scaled down has none that needs all numbers of a vendor."""
    every = itertools.chain(queries(), enrolments(), asks(), decisions(), given_numbers(), additions(), no_orders(), spans(), imports())
    return (it for it in every if SCALE == 1 or not it.only_full)
