"""The registry that a record makes, which is what `usbreg history` prints: its numbers and organisations, and under which keys each of
them changed."""

import json
import re
import sys

TERMS = ("title", "licence", "site", "source")
GRANTED = re.compile(r"granted (?:[0-9a-f]{4}:)?([0-9a-f]{4}) to ")
# The key of a request that comes from a page: its kind, and at its end digits of what it says.
MOVED = re.compile(r"(?:enrol|org|list|ask|grant|amend|return|revoke|hand|reserve|release)-.*[0-9a-f]{12}")


class BadRecord(Exception):
    """A line that is not the next one of a record."""


class Registry:
    """The registry that a record makes. A number is a pair of vendor ID and product ID. `keys` has the keys of the requests that
    changed a number or an organisation, oldest first."""

    def __init__(self, founding):
        self.vendor = founding["vendor"].lower()
        spans = [it.partition("-") for it in founding.get("fixed", [])]
        self.fixed = [(int(first, 16), int(last or first, 16)) for first, _, last in spans]
        self.curators, self.licences, self.vendors = founding["curators"], set(founding["licences"]), {self.vendor}
        self.orgs, self.entries, self.asked, self.reserved, self.keys = {}, {}, [], [], {}

    def act(self, line):
        """Does what the line's order did. Returns the numbers and the organisation that it changed."""
        doing = {
            "enrol": self.put_org, "amend-org": self.put_org, "correct-org": self.put_org, "hand-over": self.hand_over,
            "ask": self.ask, "grant": self.grant, "amend": self.amend, "correct": self.amend,
            "return": self.give_back, "revoke": self.give_back, "reserve": self.reserve, "release": self.reserve,
            "import": self.take_list, "add-vendor": self.add, "add-licence": self.add, "decline": self.nothing, "withdraw": self.nothing,
        }
        changed = doing[line["order"]](line) or []
        for it in changed:
            self.keys.setdefault(it, []).append(line["key"])
        return changed

    def nothing(self, line):
        """A petition that is closed changes no number."""

    def number(self, line, digits):
        return line.get("vendor", self.vendor).lower(), int(digits, 16)

    def put_org(self, line):
        known = self.orgs.setdefault(line["org"], {"keeper": line["caller"]})
        known.update((name, line[name]) for name in ("title", "site"))
        return [line["org"]]

    def hand_over(self, line):
        self.orgs[line["org"]]["keeper"] = line["keeper"]
        return [line["org"]]

    def ask(self, line):
        self.asked.append(line)

    def grant(self, line):
        asked, said = self.asked[line["petition"] - 1], GRANTED.match(line["done"])
        if not said:
            raise BadRecord(f"the reply {line['done']} is not that of a grant")
        number = self.number(asked, said[1])
        self.entries[number] = {"org": asked["org"], "held": True} | {name: asked[name] for name in TERMS}
        self.keys.setdefault(number, []).append(asked["key"])
        return [number]

    def amend(self, line):
        number = self.number(line, line["number"])
        self.entries[number].update((name, line[name]) for name in TERMS)
        return [number]

    def give_back(self, line):
        number = self.number(line, line["number"])
        self.entries[number]["held"] = False
        return [number]

    def reserve(self, line):
        first, last = self.number(line, line["first"]), self.number(line, line["last"])
        self.reserved.append((line["order"] == "reserve", first, last, line["key"]))

    def add(self, line):
        if line["order"] == "add-licence":
            self.licences.add(line["licence"])
        else:
            self.vendors.add(line["vendor"].lower())

    def reservation(self, number):
        """Returns the key of the request that reserved a number, or None if it is not reserved; that of a fixed one is empty."""
        if number[0] == self.vendor and any(first <= number[1] <= last for first, last in self.fixed):
            return ""
        told = [(key if reserves else None) for reserves, first, last, key in self.reserved if first <= number <= last]
        return told[-1] if told else None

    def turns(self, number):
        """Returns how often a number was reserved or released."""
        return sum(first <= number <= last for _, first, last, _ in self.reserved)

    def is_reserved(self, number):
        return self.reservation(number) is not None

    def take_list(self, line):
        """Gives an organisation the numbers of a list that have a title and are free."""
        fresh = {}
        for digits, title in line["items"]:
            number = self.number(line, digits)
            if number[1] and title is not None and number not in self.entries and number not in fresh and not self.is_reserved(number):
                fresh[number] = {"org": line["org"], "held": True, "title": title}
        if not line["done"].startswith(f"imported fresh {len(fresh)}, "):
            raise BadRecord(f"{len(fresh)} numbers are fresh, and the reply is {line['done']}")
        self.entries.update(fresh)
        return list(fresh)

    def was_moved(self, subject):
        """Returns whether the last request about a number or an organisation was one of a move."""
        return bool(self.keys.get(subject)) and MOVED.fullmatch(self.keys[subject][-1]) is not None

    def says(self, subject, digits):
        """Returns whether a request of a move with these digits was about it."""
        return any(key.endswith(f"-{digits}") for key in self.keys.get(subject, ()))


def lines_of(lines):
    """Yields the lines of a record with their numbers, and the registry after each, with what it changed. Ends the script at one
    that is not the next one of a record."""
    registry = None
    for at, text in enumerate(lines, 1):
        if not text.strip():
            continue
        try:
            line = json.loads(text)
            if registry:
                yield at, line, registry, registry.act(line)
            else:
                registry = Registry(line)
                yield at, line, registry, []
        except (ValueError, KeyError, IndexError, AttributeError, TypeError, BadRecord) as fault:
            sys.exit(f"line {at} is not the next one of a record: {fault!r}")
    if not registry:
        sys.exit("the record is empty")


def registry_of(lines):
    """Returns the registry that a record makes."""
    registry = None
    for _, _, registry, _ in lines_of(lines):
        pass
    return registry


def registry_in(path):
    """Returns the registry of a record in a file, or on the standard input if the path is `-`."""
    with open(0 if path == "-" else path, encoding="utf-8") as file:
        return registry_of(file)
