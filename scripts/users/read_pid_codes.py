"""The organisations and the numbers of a repository in the layout of pid.codes, as they are read from its pages."""

import collections
import dataclasses
import os
import re

from links import candidates
from page_text import Page, read
from pid_codes import can_be_folder, is_no, numbers_in, numbers_named, plain_of, title_of

FIELDS = {"org": ("layout", "title", "site"), "pid": ("layout", "title", "owner", "license", "site", "source", "redirect_from")}
# The fields of a page that name a number otherwise than its folder does, and those that say that its number is in use no more.
NAMING, WITHDRAWN = ("pid", "permalink"), ("withdrawn", "revoked", "returned")
PAGES = (".md", ".markdown", ".html", ".htm", ".textile")


@dataclasses.dataclass
class Organisation:
    """An organisation: its page, or the first one that names it as an owner, and its values. `site` is None until its slug is
    known, if no link can be taken, and `why` says why none can."""

    page: str
    title: str
    site: str | None = None
    why: str = ""
    slug: str = ""
    keeper: str = ""
    has_page: bool = True


@dataclasses.dataclass
class Number:
    """A number: its page, its four digits, the name of its owner, and its terms. If it comes by a list the terms are lost. A number
    that is withdrawn says why, and comes by a list."""

    page: str
    code: str
    title: str
    owner: str
    licence: str | None = None
    site: str | None = None
    source: str | None = None
    by_list: bool = False
    withdrawn: str | None = None

    def terms(self):
        return {"licence": self.licence, "site": self.site, "source": self.source}


@dataclasses.dataclass
class Refused:
    """A page that is not taken: the numbers that it names, each with its vendor, and why, as a kind in move_report.REFUSALS."""

    page: str
    numbers: set
    kind: str
    details: dict


class Repository:
    """What is in a repository: organisations by name, numbers by product ID, what is not taken, and how often each licence is
    written."""

    def __init__(self, top, vendor, spans, licences, links, report):
        self.top, self.vendor, self.spans, self.known, self.links, self.report = top, vendor, spans, licences, links, report
        self.unknown = None
        self.orgs, self.numbers, self.written, self.refused, self.old_addresses = {}, {}, collections.Counter(), [], []

    def read(self):
        """Reads all pages. The links in them are judged first, all at once."""
        orgs, numbers = list(self.pages("org")), list(self.pages(self.vendor))
        fields = [it.lists.get(name, ()) for _, _, it in orgs + numbers if isinstance(it, Page) for name in ("site", "source")]
        self.links.learn(link for texts in fields for link in candidates(texts))
        for name, path, page in orgs:
            self.read_organisation(name, path, page)
        for name, path, page in numbers:
            self.read_number(name, path, page)
        for vendor in sorted(os.listdir(self.top)):
            if re.fullmatch("[0-9a-fA-F]{4}", vendor) and vendor.lower() != self.vendor and os.path.isdir(f"{self.top}/{vendor}"):
                self.read_vendor(vendor)

    def entries(self, folder):
        """Returns the names in a folder, but for a page of the folder itself."""
        names = os.listdir(f"{self.top}/{folder}")
        return sorted((it for it in names if not it.startswith("index.")), key=lambda it: (it.lower(), it))

    def pages(self, folder):
        """Yields the name, the path and the page of each folder. In the place of a page that cannot be read is why."""
        for name in self.entries(folder):
            path = f"{folder}/{name}"
            here, page = f"{self.top}/{path}", f"{self.top}/{path}/index.md"
            if os.path.islink(here) or os.path.islink(page):
                yield name, path, ("symlink", {})
            elif not os.path.isdir(here):
                yield name, path, ("no folder", {})
            elif os.path.isfile(page):
                yield name, f"{path}/index.md", Page(read(page))
            else:
                others = [it for it in sorted(os.listdir(here)) if it.startswith("index.")]
                yield name, path, ("other index", {"names": ", ".join(others)}) if others else ("no index", {})

    def refuse(self, path, numbers, kind, **details):
        self.refused.append(Refused(path, set(numbers), kind, details))

    def tell_losses(self, path, page, layout):
        """Reports what is wrong with a page that is taken, and what the registry has no place for."""
        for kind, details in page.wrong:
            self.report.tell(path, kind, **details)
        # what is made of several links or licences is told where they are read
        for field in ("title", "owner"):
            if len(page.lists.get(field, ())) > 1:
                self.report.tell(path, "list", field=field, text=page.fields[field])
        if page.text:
            self.report.tell(path, "text", size=len(page.text.encode()))
        if others := sorted(set(os.listdir(os.path.dirname(f"{self.top}/{path}"))) - {"index.md"}):
            self.report.tell(path, "files", names=", ".join(others))
        said = withdrawn_by(page.fields) if layout == "pid" else None
        for field in sorted(set(page.fields) - {*FIELDS[layout], said}):
            self.report.tell(path, "field", field=field)

    def title(self, path, text):
        title = title_of(text)
        if title and title != text:
            self.report.tell(path, "title", written=text, size=len(text.encode()), title=title)
        return title

    def read_organisation(self, name, path, page):
        if not isinstance(page, Page) or page.fault:
            kind, details = page if isinstance(page, tuple) else page.fault
            self.refuse(path, (), kind, **details)
            return
        self.tell_losses(path, page, "org")
        if page.fields.get("layout") != "org":
            self.report.tell(path, "org layout", layout=page.fields.get("layout", "none"))
        title = self.title(path, page.fields.get("title", ""))
        if not title:
            self.report.tell(path, "no title")
        site, why, told = self.link(page, "site")
        for kind, details in told:
            self.report.tell(path, kind, **details)
        self.orgs[name] = Organisation(path, title or title_of(name), site, why)

    def read_number(self, name, path, page):
        """Reads what is in a folder or a file below that of the vendor."""
        here = {(self.vendor, it) for it in numbers_named(os.path.splitext(name)[0])}
        number = int(name, 16) if re.fullmatch(r"[0-9a-fA-F]{4}", name) else 0
        readable = isinstance(page, Page)
        if readable:
            here |= {one for field in (*NAMING, "redirect_to") for one in numbers_in(field, page.fields.get(field, ""), self.vendor)}
        refusal = self.refusal(number, page)
        if refusal:
            self.refuse(path, here, refusal[0], **refusal[1])
        else:
            self.numbers[number] = self.number(f"{number:04x}", path, page)
        if readable and "redirect_from" in page.fields:
            old = numbers_in("redirect_from", page.fields["redirect_from"], self.vendor) - {(self.vendor, number)}
            self.old_addresses.append((path, "redirect_from", old))
        if os.path.isdir(f"{self.top}/{self.vendor}/{name}"):
            self.read_nested(f"{self.vendor}/{name}", self.vendor)

    def read_nested(self, path, vendor):
        """Reads the pages below a folder: none of them is taken."""
        for where, _, files in sorted(os.walk(f"{self.top}/{path}")):
            inner = os.path.relpath(where, f"{self.top}/{path}")
            for name in sorted(files):
                stem, ending = os.path.splitext(name)
                named = {it for part in [*inner.split("/"), stem] for it in numbers_named(part)}
                if ending in PAGES and (inner != "." or named) and not (inner == "." and stem == "index"):
                    self.refuse(os.path.normpath(f"{path}/{inner}/{name}"), {(vendor, it) for it in named}, "nested")

    def read_vendor(self, folder):
        """Reads the folder of another vendor, if it has pages of numbers: none of them is taken."""
        for name in self.entries(folder):
            named = {(folder.lower(), it) for it in numbers_named(os.path.splitext(name)[0])}
            if named:
                self.refuse(f"{folder}/{name}", named, "vendor", vendor=folder.lower())

    def refusal(self, number, page):
        """Returns why a page is not the one of a number, or None if it is."""
        if not isinstance(page, Page):
            return page
        if not number:
            return "no number", {}
        if any(low <= number <= high for low, high in self.spans):
            return "fixed", {}
        if page.fault:
            return page.fault
        fields = page.fields
        if is_no(fields.get("published", "")):
            return "unpublished", {}
        if "redirect_to" in fields:
            return "redirect", {"to": fields["redirect_to"]}
        for field in NAMING:
            if others := numbers_in(field, fields.get(field, ""), self.vendor) - {(self.vendor, number)}:
                return "other number", {"field": field, "names": numbers_text(others)}
        if fields.get("layout") != "pid":
            return "layout", {"layout": fields.get("layout", "none")}
        if missing := [it for it in ("owner", "title") if not title_of(fields.get(it, ""))]:
            return "missing", {"field": " and no ".join(missing)}
        if number in self.numbers:
            return "twice", {"other": self.numbers[number].page}
        return None

    def number(self, code, path, page):
        """Returns the number of a page, and reports what is changed and lost."""
        self.tell_losses(path, page, "pid")
        taken = Number(path, code, self.title(path, page.fields["title"]), self.owner(path, page.fields["owner"]))
        if field := withdrawn_by(page.fields):
            taken.withdrawn, taken.by_list = title_of(page.fields[field]) or field, True
            self.report.tell(path, "withdrawn", field=field, why=page.fields[field])
            return taken
        told = self.give_terms(taken, page)
        # what would be said of terms that are lost says nothing
        for kind, details in told[-1:] if taken.by_list else told:
            self.report.tell(path, kind, **details)
        return taken

    def give_terms(self, taken, page):
        """Gives a number its licence and its links, or has it come by a list. Returns what is to be told, and last why it does."""
        written = page.fields.get("license", "")
        taken.licence, told = self.licence(written)
        self.written[written, taken.licence] += 1
        taken.source, why, said = self.link(page, "source")
        taken.by_list = not (taken.licence and taken.source)
        if not taken.licence:
            return told
        if not taken.source:
            return [("terms", {"why": why})]
        told += said
        taken.site, why, said = self.link(page, "site")
        told += said
        if not taken.site:
            taken.site = taken.source
            told.append(("source", {"why": why}))
        return told

    def licence(self, written):
        """Returns the licence that is meant, or None, and what is to be told."""
        meant, unknown = self.known.meant(written)
        if not meant and self.unknown:
            return self.unknown, [("stand-in", {"written": written or "(none)", "meant": self.unknown})]
        if not written:
            return None, [("terms", {"why": "it has no licence"})]
        if not meant:
            part = f"the licence {written}" if unknown in ([], [written]) else f"{', '.join(unknown)} of the licence {written}"
            return None, [("unknown", {"part": part}) if unknown else ("long licence", {})]
        told = [("licence", {"written": written, "meant": meant})] if meant != written else []
        return meant, told + ([("alternative", {"written": written, "parts": ", ".join(unknown)})] if unknown else [])

    def owner(self, path, written):
        """Returns the name of the organisation that a page names, which is made if it has no page."""
        owner = " ".join(plain_of(written).split())
        name = owner if owner in self.orgs else next((it for it in self.orgs if it.lower() == owner.lower()), owner)
        able = can_be_folder(owner)
        if name != written:
            self.report.tell(path, "other owner" if able and owner == written else "other owner, no folder", owner=written, name=name)
        if name not in self.orgs:
            self.report.tell(path, "no page" if able else "no page, no folder", owner=owner)
            self.orgs[name] = Organisation(path, title_of(name), has_page=False)
        return name

    def link(self, page, field):
        """Returns the link of a field as the registry keeps it, or None; why there is none; and what is to be told of it."""
        if field not in page.fields:
            return None, f"it has no {field}", []
        written, found = page.fields[field], candidates(page.lists[field])
        kept = [(it, self.links.kept(it)) for it in found]
        taken = next((it for it in kept if it[1]), None)
        if not taken:
            return None, f"usbreg does not take its {field} {written} as a link" if found else f"its {field} {written} is no link", []
        others = [it for it in found if it != taken[0]] + [it for it in page.lists[field] if not candidates([it])]
        if others:
            return taken[1], "", [("links", {"field": field, "link": taken[1], "others": ", ".join(others)})]
        return taken[1], "", [("link", {"field": field, "written": written, "link": taken[1]})] if taken[1] != written else []

    def settle(self, vendors, owned):
        """Reports what is not taken, and returns the numbers that are to be reserved: all that is named, of these vendors, that is
        not taken and has no owner in the registry."""
        taken = {(self.vendor, it) for it in self.numbers} | set(owned)
        named = set()
        for it in self.refused:
            free = {number for number in it.numbers - taken if number[0] in vendors}
            named |= free
            there = it.kind == "vendor" and it.details["vendor"] in vendors
            self.report.refuse(it.page, bool(free), "vendor there" if there else it.kind, **it.details)
        pages = {it.page for it in self.numbers.values()}
        for path, field, numbers in self.old_addresses:
            if free := {it for it in numbers - taken if it[0] in vendors}:
                named |= free
                self.report.tell(path, "old address", field=field, names=numbers_text(free))
            elif path in pages:
                self.report.tell(path, "field", field=field)
        return sorted(named)


def withdrawn_by(fields):
    """Returns the field by which a page is withdrawn, or None: `false` and `no` say that it is not."""
    return next((it for it in WITHDRAWN if it in fields and not is_no(fields[it])), None)


def numbers_text(numbers):
    return ", ".join(f"{vendor}/{number:04x}" for vendor, number in sorted(numbers))
