"""The rules again, as plain and slow questions to the list of all accepted requests, the oldest first.

It shares only `docs/requests.md` and `docs/schema.md` with the program: scripts compare the program's replies and tables
with it. Numbers are pairs of a vendor ID and a product ID, as integers; a request that names no vendor means the founding
one."""

import json
import tomllib
from hashlib import sha256

REFUSALS = {
    1: "KeyReused", 2: "NotCurator", 3: "NotKeeper", 4: "NoOrg", 5: "OrgTaken", 6: "NoPetition", 7: "PetitionClosed",
    8: "NumberReserved", 9: "NumberOwned", 10: "NumberHeld", 11: "NumberNotHeld", 12: "NoneFree", 13: "LicenceUnknown",
    14: "TooManyOpen", 15: "RangeOwned", 16: "RangeFixed", 17: "RangeNotReserved", 18: "Full", 19: "ImportTooLong",
    33: "VendorTaken", 34: "NoVendor", 35: "LicenceTaken",
}
# The fields of an order in the sequence of its canonical form. Each item of a list is a field there.
FIELDS = {
    "enrol": ("org", "title", "site"), "amend-org": ("org", "title", "site"), "hand-over": ("org", "keeper"),
    "correct-org": ("org", "title", "site"),
    "ask": ("org", "number", "title", "licence", "site", "source", "vendor"), "grant": ("petition", "number"),
    "decline": ("petition", "reason"), "withdraw": ("petition",),
    "amend": ("number", "title", "licence", "site", "source", "vendor"), "return": ("number", "vendor"),
    "correct": ("number", "title", "licence", "site", "source", "vendor"), "revoke": ("number", "reason", "vendor"),
    "reserve": ("first", "last", "vendor"), "release": ("first", "last", "vendor"),
    "import": ("org", "vendor", "list"), "add-vendor": ("vendor", "name"), "add-licence": ("licence",),
}
# The product IDs that an order may leave out: `-` in its canonical form.
OPTIONAL = {"ask": ("number",), "grant": ("number",)}
OPEN, GRANTED, DECLINED, WITHDRAWN = range(4)
STATES = {"grant": GRANTED, "decline": DECLINED, "withdraw": WITHDRAWN}
CURATORS_ORDERS = {"grant", "decline", "correct", "correct-org", "revoke", "reserve", "release", "import", "add-vendor", "add-licence"}
TERMS = ("title", "licence", "site", "source")
# The most open petitions of one organisation.
MOST_OPEN = 16


class Refused(Exception):
    """A failed check: the refusal's number, and its detail if it has one."""


def is_optional(order, field):
    """Returns whether the order may leave the field out."""
    return field in OPTIONAL.get(order, ()) or (field == "vendor" and order != "add-vendor") or (order, field) == ("decline", "reason")


def check(passes, number, detail=None):
    if not passes:
        raise Refused(number, detail)


def hexadecimal(text):
    return int(text, 16) if text else None


def items(text):
    """Returns the (number, title) pairs of a list of one vendor's devices."""
    lines = [line for line in text.splitlines() if line.startswith("\t")]
    return [(int(line[1:5], 16), line[7:]) for line in lines]


class History:
    """A founding, and the accepted requests with the effect of each."""

    def __init__(self, founding):
        with open(founding, "rb") as file:
            self.founding = tomllib.load(file)
        self.founder = int(self.founding["vendor"], 16)
        self.deeds = []

    def of_order(self, *orders):
        return [deed for deed in self.deeds if deed["order"] in orders]

    # What the history says.

    def vendor(self, request):
        return hexadecimal(request.get("vendor")) or self.founder

    def vendors(self):
        """Returns the name of each vendor."""
        return {self.founder: self.founding["name"]} | {int(it["vendor"], 16): it["name"] for it in self.of_order("add-vendor")}

    def licences(self):
        return [*self.founding["licences"], *(it["licence"] for it in self.of_order("add-licence"))]

    def keeper(self, org):
        """Returns who got the organisation last: by a hand-over, or by enrolling it."""
        told = [it.get("keeper", it["caller"]) for it in self.of_order("enrol", "hand-over") if it["org"] == org]
        return told[-1] if told else None

    def petition(self, number):
        asked = self.of_order("ask")
        return asked[number - 1] if number <= len(asked) else None

    def state(self, number):
        """Returns the state of a petition."""
        return next((STATES[it["order"]] for it in self.of_order(*STATES) if it["petition"] == number), OPEN)

    def open_petitions(self, org):
        asked = enumerate(self.of_order("ask"), 1)
        return [number for number, it in asked if it["org"] == org and self.state(number) == OPEN]

    def owner(self, number):
        """Returns the organisation that the number was first given to."""
        return next((it["gives"][number] for it in self.deeds if number in it.get("gives", {})), None)

    def is_held(self, number):
        """Returns whether the number was given, and not returned since."""
        told = [number in it.get("gives", {}) for it in self.deeds if number in it.get("gives", {}) or number == it.get("returns")]
        return bool(told) and told[-1]

    def is_fixed(self, number):
        spans = (span.split("-") for span in self.founding["fixed"])
        return number[0] == self.founder and any(int(span[0], 16) <= number[1] <= int(span[-1], 16) for span in spans)

    def is_ordered(self, number):
        """Returns whether an order reserved the number, and none released it since."""
        orders = self.of_order("reserve", "release")
        told = [it["order"] for it in orders if it["vid"] == number[0] and int(it["first"], 16) <= number[1] <= int(it["last"], 16)]
        return bool(told) and told[-1] == "reserve"

    def is_reserved(self, number):
        return self.is_fixed(number) or self.is_ordered(number)

    def least_free(self, vid):
        numbers = ((vid, pid) for pid in range(1, 0x10000))
        return next((it for it in numbers if not self.is_reserved(it) and self.owner(it) is None), None)

    # The reply to a request.

    def answer(self, request):
        """Returns the reply to a request, and adds an accepted one to the history."""
        try:
            deed = self.judged(request)
        except Refused as refused:
            number, detail = refused.args
            return {"name": REFUSALS[number], "refused": number} | ({"detail": detail} if detail else {})
        if deed not in self.deeds:
            self.deeds.append(deed)
        return {"done": deed["reply"]}

    def judged(self, request):
        """Returns the effect of the request, or that of its first time. Raises the first check that fails."""
        order, form = request["order"], self.canonical(request)
        for deed in self.deeds:
            if (deed["caller"], deed["key"]) == (request["caller"], request["key"]):
                check(deed["form"] == form, 1)
                return deed
        if order in CURATORS_ORDERS:
            check(request["caller"] in self.founding["curators"], 2)
        deed = {**request, "form": form, "vid": self.vendor(request)}
        return deed | getattr(self, order.replace("-", "_"))(request, deed["vid"])

    def canonical(self, request):
        """Returns the order's canonical form, as in the table `kept`."""
        texts = [request["order"]]
        for field in FIELDS[request["order"]]:
            if field == "list":
                texts += [f"{pid:04x}={title}" for pid, title in items(request["list"])]
            elif field in OPTIONAL.get(request["order"], ()):
                texts.append(request.get(field) or "-")
            elif field not in ("vendor", "reason") or request.get(field):
                texts.append(str(request[field]))
        return "\t".join(texts)

    def shown(self, number, pid=None):
        """Returns the text of a number, with its vendor if that is not the founding one."""
        digits = f"{number[1]:04x}" if pid is None else pid
        return digits if number[0] == self.founder else f"{number[0]:04x}:{digits}"

    def enrol(self, request, _):
        check(self.keeper(request["org"]) is None, 5)
        check(len(self.of_order("enrol")) < 65_536, 18)
        return {"reply": f"enrolled {request['org']}"}

    def check_keeper(self, request, org):
        self.check_org(org)
        check(self.keeper(org) == request["caller"], 3)

    def amend_org(self, request, _):
        self.check_keeper(request, request["org"])
        return {"reply": f"amended organisation {request['org']}"}

    def check_org(self, org):
        check(self.keeper(org) is not None, 4)

    def hand_over(self, request, _):
        self.check_org(request["org"])
        check(request["caller"] in (self.keeper(request["org"]), *self.founding["curators"]), 3)
        return {"reply": f"handed {request['org']} over to {request['keeper']}"}

    def correct_org(self, request, _):
        self.check_org(request["org"])
        return {"reply": f"corrected organisation {request['org']}"}

    def check_given(self, number, org):
        """Checks that the organisation may get the number."""
        owner = self.owner(number)
        check(not self.is_reserved(number), 8)
        check(owner in (None, org), 9, owner)
        check(not self.is_held(number), 10)

    def ask(self, request, vid):
        self.check_keeper(request, request["org"])
        check(vid in self.vendors(), 34)
        check(request["licence"] in self.licences(), 13)
        check(len(self.open_petitions(request["org"])) < MOST_OPEN, 14)
        check(len(self.of_order("ask")) < 1_000_000, 18)
        if request.get("number"):
            self.check_given((vid, int(request["number"], 16)), request["org"])
        return {"reply": f"petition {len(self.of_order('ask')) + 1}"}

    def check_open(self, request):
        check(self.petition(request["petition"]) is not None, 6)
        check(self.state(request["petition"]) == OPEN, 7)

    def grant(self, request, _):
        self.check_open(request)
        petition = self.petition(request["petition"])
        named = hexadecimal(request.get("number")) or hexadecimal(petition.get("number"))
        number = (petition["vid"], named) if named else self.least_free(petition["vid"])
        check(number is not None, 12)
        self.check_given(number, petition["org"])
        reply = f"granted {self.shown(number)} to {petition['org']} by petition {request['petition']}"
        return {"reply": reply, "gives": {number: petition["org"]}, "granted": number[1]}

    def decline(self, request, _):
        self.check_open(request)
        return {"reply": f"declined petition {request['petition']}"}

    def withdraw(self, request, _):
        petition = self.petition(request["petition"])
        check(petition is not None, 6)
        check(self.keeper(petition["org"]) == request["caller"], 3)
        check(self.state(request["petition"]) == OPEN, 7)
        return {"reply": f"withdrawn petition {request['petition']}"}

    def check_held(self, request, number):
        check(self.is_held(number), 11)
        check(self.keeper(self.owner(number)) == request["caller"], 3)

    def amend(self, request, vid):
        number = (vid, int(request["number"], 16))
        self.check_held(request, number)
        check(request["licence"] in self.licences(), 13)
        return {"reply": f"amended {self.shown(number)}", "amends": number}

    def return_(self, request, vid):
        number = (vid, int(request["number"], 16))
        self.check_held(request, number)
        return {"reply": f"returned {self.shown(number)}", "returns": number}

    def correct(self, request, vid):
        number = (vid, int(request["number"], 16))
        check(self.owner(number) is not None, 11)
        check(request["licence"] in self.licences(), 13)
        return {"reply": f"corrected {self.shown(number)}", "amends": number}

    def revoke(self, request, vid):
        number = (vid, int(request["number"], 16))
        check(self.is_held(number), 11)
        return {"reply": f"revoked {self.shown(number)}", "returns": number}

    def numbers(self, request, vid):
        """Returns the numbers of a span of a vendor, and checks that none is fixed."""
        check(vid in self.vendors(), 34)
        span = [(vid, pid) for pid in range(int(request["first"], 16), int(request["last"], 16) + 1)]
        check(not any(map(self.is_fixed, span)), 16)
        return span

    def reserve(self, request, vid):
        owned = next(filter(self.owner, self.numbers(request, vid)), None)
        check(owned is None, 15, owned and self.shown(owned))
        return {"reply": f"reserved {self.shown((vid, 0), request['first'] + '-' + request['last'])}"}

    def release(self, request, vid):
        check(all(map(self.is_ordered, self.numbers(request, vid))), 17)
        return {"reply": f"released {self.shown((vid, 0), request['first'] + '-' + request['last'])}"}

    def import_(self, request, vid):
        self.check_org(request["org"])
        check(vid in self.vendors(), 34)
        listed = items(request["list"])
        check(len(listed) <= 8192, 19)
        counts = dict.fromkeys(("fresh", "owned", "reserved", "doubled", "untitled", "zero"), 0)
        seen, fresh = set(), {}
        for pid, title in listed:
            number = (vid, pid)
            kind = (
                "zero" if pid == 0 else "untitled" if not title else "doubled" if pid in seen
                else "reserved" if self.is_reserved(number) else "owned" if self.owner(number) else "fresh"
            )
            counts[kind] += 1
            if kind == "fresh":
                fresh[number] = title
            if pid and title:
                seen.add(pid)
        reply = "imported " + ", ".join(f"{kind} {count}" for kind, count in counts.items())
        return {"reply": reply, "gives": dict.fromkeys(fresh, request["org"]), "titles": fresh}

    def add_vendor(self, request, vid):
        check(vid not in self.vendors(), 33)
        check(len(self.vendors()) < 256, 18)
        return {"reply": f"added vendor {request['vendor']}"}

    def add_licence(self, request, _):
        check(request["licence"] not in self.licences(), 35)
        check(len(self.licences()) < 1024, 18)
        return {"reply": f"added licence {request['licence']}"}

    # The list.

    def owned(self):
        """Returns the numbers with an owner, ascending."""
        return sorted({number for deed in self.deeds for number in deed.get("gives", {})})

    def titles(self):
        """Returns the title of each held number."""
        return {it: self.card(it)[0] for it in self.owned() if self.is_held(it)}

    def list_lines(self):
        """Returns the lines of the list: each vendor with its held numbers."""
        titles, lines = self.titles(), ["# List of USB numbers in the syntax of usb.ids", ""]
        for vid, name in sorted(self.vendors().items()):
            lines.append(f"{vid:04x}  {name}")
            lines += [f"\t{it[1]:04x}  {title}" for it, title in titles.items() if it[0] == vid]
        return lines

    # The record, and its digests.

    def founding_line(self):
        """Returns the line of the founding: its arrays ascend, and each span has both ends."""
        spans = ["-".join([it.split("-")[0], it.split("-")[-1]]) for it in self.founding["fixed"]]
        sets = {"curators": self.founding["curators"], "licences": self.founding["licences"], "fixed": spans}
        return line(self.founding | {"vendor": self.founding["vendor"].lower()} | {it: sorted(sets[it]) for it in sets})

    def accepted_line(self, deed):
        """Returns the line of an accepted request, which names its time if it has one."""
        names = (*FIELDS[deed["order"]], "caller", "key", "order", "at")
        told = {it: deed[it] for it in names if deed.get(it) is not None and it != "list"}
        if deed["order"] == "import":
            told["items"] = [[f"{pid:04x}", title or None] for pid, title in items(deed["list"])]
        return line(told | {"done": deed["reply"]})

    def record(self):
        """Returns the lines of the record."""
        return [self.founding_line(), *map(self.accepted_line, self.deeds)]

    def head(self):
        """Returns what is told of the end of the record."""
        number, time, digest = self.digests()[-1]
        return {"digest": digest, "requests": number} | ({"time": time} if time else {})

    def digests(self):
        """Returns the ID, the time and the digest of each line: of the digest before it, and the line with its line feed."""
        rows, digest = [], ""
        for number, (told, time) in enumerate(zip(self.record(), [None, *(it.get("at") for it in self.deeds)], strict=True)):
            digest = sha256(f"{digest}{told}\n".encode()).hexdigest()
            rows.append((number, time, digest))
        return rows

    # The tables.

    def kept(self):
        """Returns the rows of the accepted requests, in the order in which they came."""
        return [(it["caller"], it["key"], it["form"].encode(), it["reply"]) for it in self.deeds]

    def card(self, number):
        """Returns title, licence, site and source of an owned number, as they were given or amended last."""
        last = None
        for deed in self.deeds:
            if number in deed.get("titles", {}):
                last = (deed["titles"][number], None, None, None)
            elif number in deed.get("gives", {}):
                last = tuple(self.petition(deed["petition"])[field] for field in TERMS)
            elif number == deed.get("amends"):
                last = tuple(deed[field] for field in TERMS)
        return last

    def described(self, org):
        last = [it for it in self.of_order("enrol", "amend-org", "correct-org") if it["org"] == org][-1]
        return org, last["title"], last["site"], self.keeper(org)

    def petition_row(self, number, asked):
        granted = next((it["granted"] for it in self.of_order("grant") if it["petition"] == number), None)
        want, state = hexadecimal(asked.get("number")), self.state(number)
        return number, asked["vid"], asked["org"], want, *(asked[field] for field in TERMS), state, granted

    def reserved_spans(self):
        """Returns the maximal spans of numbers that orders reserved."""
        touched = {(it["vid"], pid) for it in self.of_order("reserve") for pid in range(int(it["first"], 16), int(it["last"], 16) + 1)}
        spans = []
        for vid, pid in sorted(filter(self.is_ordered, touched)):
            if spans and (spans[-1][0], spans[-1][2] + 1) == (vid, pid):
                spans[-1][2] = pid
            else:
                spans.append([vid, pid, pid])
        return list(map(tuple, spans))

    def tables(self):
        """Returns the rows of each table, ascending."""
        return {
            "meta": [(1, 5, self.founder, self.founding["name"])],
            "curators": sorted((it,) for it in self.founding["curators"]),
            "licences": sorted((it,) for it in self.licences()),
            "fixed": sorted((int(it.split("-")[0], 16), int(it.split("-")[-1], 16)) for it in self.founding["fixed"]),
            "orgs": sorted(self.described(it["org"]) for it in self.of_order("enrol")),
            "vendors": sorted(self.vendors().items()),
            "spans3": self.reserved_spans(),
            "entries3": [(*it, self.owner(it), int(self.is_held(it)), *self.card(it)) for it in self.owned()],
            "petitions3": [self.petition_row(*it) for it in enumerate(self.of_order("ask"), 1)],
            "digests4": self.digests(),
            "reasons4": [(it["petition"], it["reason"]) for it in self.of_order("decline") if it.get("reason")],
            "opened5": [(number, it["at"]) for number, it in enumerate(self.of_order("ask"), 1) if it.get("at")],
            "closed5": sorted((it["petition"], it["at"]) for it in self.of_order(*STATES) if it.get("at")),
            "kept": sorted(self.kept()),
            **{older: [] for older in ("petitions", "entries", "reserved", "spans")},
        }


setattr(History, "return", History.return_)
setattr(History, "import", History.import_)


def line(reply):
    """Returns a reply as the program prints it."""
    return json.dumps(reply, sort_keys=True, separators=(",", ":"), ensure_ascii=False)
