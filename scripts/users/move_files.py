"""The files of a move: the input of `usbreg`, the replies to expect, and the tables that a curator reviews."""

import json
import os
import sys

from links import line_of
from move_orders import key_of
from move_report import write_table


class Move:
    """What is written of a repository: requests with their replies, in the three parts of a move."""

    def __init__(self, given, beside, history, orders, reserved):
        self.given, self.beside, self.history, self.orders, self.reserved = given, beside, history, orders, reserved
        self.there, self.registry = beside.there, beside.registry
        self.first, self.lists, self.last = [], [], []

    def prepare(self):
        """Makes all requests."""
        self.beside.asked.sort(key=lambda it: (self.place(it.page), it.code))
        self.beside.enrolled.sort(key=lambda it: self.place(it.page))
        listed = {(self.there.vendor, int(it.code, 16)) for numbers in self.beside.lists.values() for it in numbers}
        self.first = list(self.first_requests(listed))
        self.lists = [self.list_of(slug, numbers) for slug, numbers in sorted(self.beside.lists.items())]
        self.last = list(self.last_requests())

    def place(self, page):
        """Returns the place of a page in the order of the merges. One that Git does not know comes after them."""
        merge = self.history and self.history.merges.get(page)
        return merge.place if merge else sys.maxsize

    def keeper(self, number):
        return self.beside.keeper(self.there.orgs[number.owner])

    def reserve(self, number, kind="reserve"):
        return self.orders.reserve(number, self.there.vendor, self.registry.turns(number), kind)

    def first_requests(self, listed):
        """Yields what comes first: other vendors, what stays reserved, new licences, what lists need, and the organisations."""
        for vendor, name in self.given.also:
            if vendor not in self.registry.vendors:
                yield self.orders.add_vendor(vendor, name)
        yield from (self.reserve(it) for it in self.reserved)
        if self.given.record:
            for licence in sorted({it.licence for it in self.beside.asked + self.beside.amended} - self.registry.licences):
                yield self.orders.add_licence(licence)
        yield from (self.reserve(it, "release") for it in sorted(self.beside.released & listed))
        yield from (self.orders.enrol(it) for it in self.beside.enrolled)
        yield from (self.orders.amend_org(it, self.beside.keeper(it)) for it in self.beside.amended_orgs)

    def list_of(self, slug, numbers):
        """Returns the slug of a list, its key, and its text, and the reply to it."""
        devices = [(it.code, it.title) for it in numbers]
        text = f"{self.given.vendor}  {self.given.name}\n" + "".join(f"\t{code}  {title}\n" for code, title in devices)
        return slug, key_of("list", slug, devices), text, f"imported fresh {len(devices)}, owned 0, reserved 0, doubled 0, untitled 0, zero 0"

    def last_requests(self):
        """Yields the requests for each number."""
        for it in self.beside.asked:
            subject = (self.there.vendor, int(it.code, 16))
            if subject in self.beside.released:
                yield self.reserve(subject, "release")
            yield from self.orders.ask(it, self.there.orgs[it.owner], self.keeper(it))
        for it in self.beside.amended:
            yield self.orders.amend(it, self.keeper(it))
        for it in self.beside.back:
            yield self.orders.revoke(it)

    def lines(self):
        return [line_of(request) for request, _ in self.first + self.last]

    def founding(self):
        licences = sorted({it.licence for it in self.beside.asked}) or ["MIT"]
        curators = [*self.given.curator, *(it.curator for it in (self.history.people.values() if self.history else ()) if it.curator)]
        told = {"vendor": self.given.vendor, "name": self.given.name, "curators": list(dict.fromkeys(curators)), "licences": licences, "fixed": self.given.fixed}
        return "".join(f"{name} = {json.dumps(value, ensure_ascii=False)}\n" for name, value in told.items())

    def write(self, name, lines):
        with open(f"{self.given.folder}/{name}", "w", encoding="utf-8", newline="\n") as file:
            file.writelines(lines)

    def write_all(self):
        """Writes all files, prints the counts, and returns them."""
        counts = self.counts()
        os.makedirs(f"{self.given.folder}/lists")
        if not self.given.record:
            self.write("founding.toml", [self.founding()])
        for asked, replied, both in (("enrolments", "enrolled", self.first), ("requests", "replies", self.last)):
            self.write(f"{asked}.jsonl", (line_of(it) for it, _ in both))
            self.write(f"{replied}.jsonl", (line_of({"done": it}) for _, it in both))
        for slug, _, text, _ in self.lists:
            self.write(f"lists/{slug}.ids", [text])
        self.write("lists.txt", (f"{slug} {key}\n" for slug, key, _, _ in self.lists))
        self.write("imported.jsonl", (line_of({"done": reply}) for *_, reply in self.lists))
        self.write_tables()
        self.write("counts.json", [line_of(counts)])
        print(line_of(counts), end="")
        return counts

    def write_tables(self):
        names = sorted((it.slug, self.beside.keeper(it), name) for name, it in self.there.orgs.items())
        licences = ((written, meant or "", count) for (written, meant), count in self.there.written.most_common())
        numbers = ((it.code, it.page.split("/")[1]) for _, it in sorted(self.there.numbers.items()))
        tables = {
            "names.tsv": [("slug", "keeper", "name"), *names],
            "licences.tsv": [("written", "taken as", "pages"), *licences],
            "numbers.tsv": [("number", "folder"), *numbers],
            "report.tsv": self.there.report.table(),
        }
        if self.history:
            merges = sorted(self.history.merges.items(), key=lambda it: (it[1].place, it[0]))
            tables["history.tsv"] = [("page", "commit", "merged", "merged by", "written by"), *((path, it.commit, it.time, it.merger, it.author) for path, it in merges)]
            tables["people.tsv"] = [("address", "name", "curator", "keeper"), *self.history.table()]
        for name, rows in tables.items():
            write_table(f"{self.given.folder}/{name}", rows)

    def counts(self):
        """Returns how many pages there are and what becomes of them. Ends the script if the two do not agree."""
        there, vendor = self.there, self.there.vendor
        refused = {path.split("/")[1]: outcome for path, outcome, *_ in there.report.lines if outcome in ("reserved", "left out") and path.startswith(f"{vendor}/")}
        taken = {it.page.split("/")[1] for it in there.numbers.values()}
        entries = there.entries(vendor)
        outcomes = [refused.get(it) for it in entries if it not in taken]
        listed = sum(not it.withdrawn for numbers in self.beside.lists.values() for it in numbers)
        pages = {
            "pages": len(entries), "granted": len(self.beside.asked), "imported": listed, "amended": len(self.beside.amended), "returned": len(self.beside.back),
            "as before": len(taken) - len(self.beside.asked) - listed - len(self.beside.amended) - len(self.beside.back),
            "reserved": outcomes.count("reserved"), "left out": outcomes.count("left out"),
        }
        own = sum(it.has_page for it in there.orgs.values())
        orgs = {"pages": len(there.entries("org")), "taken": own, "left out": sum(it.page.startswith("org/") for it in there.refused)}
        if any(first != sum(others) for first, *others in (pages.values(), orgs.values())) or pages["as before"] < 0:
            sys.exit(f"pages got lost, which is a mistake of this script: {pages} {orgs}")
        return {"numbers": pages, "organisations": orgs | {"enrolled": len(self.beside.enrolled)}}
