"""What the scripts ask of a registry: requests of a few people, those of a file, the cases in `cases/`, and random
ones.

A case is a file of request lines and a file of reply lines. A line whose order is `import` has a list in place of
items: the command `import` takes it."""

import glob
import json
import os
import random

from lib import plain_history
from lib.usbreg import TOP, content

LINK = "http://a.example/"


def request(caller, key, order, **fields):
    return {"caller": caller, "key": key, "order": order, **fields}


def line(caller, key, order, **fields):
    """Returns a request as a line of a file."""
    return json.dumps(request(caller, key, order, **fields)) + "\n"


def enrol(org):
    return request("ann", f"enrol-{org}", "enrol", org=org, title="Acme", site=LINK)


def ask(key, **fields):
    return request("ann", key, "ask", org="acme", title="Lamp", licence="MIT", site=LINK, source=LINK, **fields)


def requests_in(path):
    return [json.loads(line) for line in content(path).splitlines()]


def most_open():
    """Returns requests of an organisation with the most open petitions, one of which it withdraws, and the replies."""
    most, refused = plain_history.MOST_OPEN, '{"name":"TooManyOpen","refused":14}'
    asked = [ask(f"k{number}") for number in range(1, most + 2)]
    opened = [f'{{"done":"petition {number}"}}' for number in range(1, most + 2)]
    requests = [enrol("acme"), *asked, request("ann", "w", "withdraw", petition=5), asked[-1]]
    return requests, ['{"done":"enrolled acme"}', *opened[:-1], refused, '{"done":"withdrawn petition 5"}', opened[-1]]


def all_cases():
    """Returns the name and the requests of each case, and the replies that were written down for it, if any."""
    for path in sorted(glob.glob(f"{TOP}/cases/*.requests")):
        given = path.replace(".requests", ".replies")
        replies = content(given).decode().splitlines() if os.path.exists(given) else None
        yield os.path.splitext(os.path.basename(path))[0], requests_in(path), replies
    yield "most_open", *most_open()


class Chance:
    """Random requests of a few callers, keys, organisations, vendors and numbers, so that they clash."""

    def __init__(self, seed):
        self.dice = random.Random(seed)

    def one_of(self, *values):
        return self.dice.choice(values)

    def number(self):
        return f"{self.dice.randint(1, 9):04x}"

    def vendor(self):
        """Returns a vendor that the registry has, one that it may have, or one that it never has."""
        return self.one_of("1209", *["cafe"] * 3, "beef")

    def keeper(self):
        return self.one_of("ann", "bob", "cora")

    def org(self):
        return self.one_of("acme", "bolt", "coil")

    def title(self):
        return self.one_of("MIT", "Apache-2.0", "CERN-OHL-S-2.0", "Blinker")

    def licence(self):
        return self.one_of("Zlib", *["MIT"] * 8, self.title())

    def site(self):
        return LINK

    source = site

    def petition(self):
        return self.dice.randint(1, 40)

    def time(self):
        """Returns a time of any year. Each month has 31 days."""
        parts = [self.dice.randint(*it) for it in ((0, 9999), (1, 12), (1, 31), (0, 23), (0, 59), (0, 59))]
        return "{:04}-{:02}-{:02}T{:02}:{:02}:{:02}Z".format(*parts)

    def list(self):
        lines = [f"\t{self.dice.randint(0, 13):04x}  {self.one_of('', self.title(), self.title())}\n" for _ in range(self.dice.randint(0, 3))]
        return "{}  Vendor\n" + "".join(lines)

    def value(self, field):
        """Returns a value of the field of an order. A field that is not named here is a title."""
        return getattr(self, field, self.title)()

    def span(self):
        first = self.dice.randint(1, 9)
        return {"first": f"{first:04x}", "last": f"{first + self.dice.randint(0, 2):04x}"}

    def fields(self, order):
        """Returns the fields of an order, and leaves some of the optional ones out."""
        named = [it for it in plain_history.FIELDS[order] if not plain_history.is_optional(order, it) or self.one_of(True, False, False)]
        return {it: self.value(it) for it in named}

    def request(self):
        """Returns a request. Some have a time, but no import, to which `usbreg import` gives none."""
        # Petitions are asked for and granted more often than other orders come.
        order = self.one_of(*plain_history.FIELDS, *["ask"] * 3, *["grant"] * 2)
        fields = self.fields(order)
        if "first" in fields:
            fields |= self.span()
        if "list" in fields:
            fields["list"] = fields["list"].format(fields.get("vendor", "1209"))
        if order != "import" and self.one_of(True, False, False):
            fields["at"] = self.time()
        # Ann, who is the curator, comes twice as often as each of the others.
        return request(self.one_of("ann", "ann", "bob", "cora"), f"k{self.dice.randint(0, 999)}", order, **fields)

    def again(self, sent):
        """Returns one of these requests, at times with another time, which is no part of it."""
        other = self.one_of(*sent)
        return other | {"at": self.time()} if other["order"] != "import" and self.one_of(True, False) else other
