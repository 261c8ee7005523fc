"""The pages that a registry has in a site, over those that are there: a page stays to the byte where it says what the registry says."""

import os
import re

from links import Links, candidates
from move_report import Report
from page_text import Page, page_of, read, write
from pid_codes import ALIASES, Licences, can_be_folder, plain_of, title_of
from read_pid_codes import WITHDRAWN, Number, Repository, withdrawn_by

# The fields of a page for those of a number, and the fields that keep a page from being the one of a number.
FIELDS = {"title": "title", "owner": "org", "license": "licence", "site": "site", "source": "source"}
HIDING = ("published", "redirect_to", "permalink", "pid", *WITHDRAWN)


class Names:
    """The names of organisations in a site, and the folders of numbers, as a move found them: the tables names.tsv and numbers.tsv in
    its folder. Without one an organisation has its slug as its name."""

    def __init__(self, moved=None):
        self.by_slug, self.by_name, self.by_letters, self.folders = {}, {}, {}, {}
        if moved:
            table = f"{moved}/names.tsv" if os.path.isdir(moved) else moved
            for slug, _, name in sorted(rows_of(table), key=lambda it: it[2]):
                # one that cannot be that of a folder is no name in a site: the slug is, in the pages of its numbers too
                if can_be_folder(name):
                    self.by_name[name], self.by_slug[slug] = slug, name
                    self.by_letters.setdefault(name.lower(), slug)
            if os.path.exists(f"{moved}/numbers.tsv"):
                self.folders = {int(number, 16): folder for number, folder in rows_of(f"{moved}/numbers.tsv")}

    def name(self, slug):
        return self.by_slug.get(slug, slug)

    def slug(self, name):
        """Returns the slug of a name, which may be written in another case if it is no other name."""
        plain = " ".join(plain_of(name).split())
        return self.by_name.get(plain) or self.by_letters.get(plain.lower(), name)


def rows_of(path):
    with open(path, encoding="utf-8") as file:
        return [line.rstrip("\n").split("\t") for line in file][1:]


class Site:
    """The pages of a site by path. `program` judges the links in them; a site without pages needs none."""

    def __init__(self, top, vendor, names, program=None, aliases=ALIASES):
        self.top, self.names, self.pages = top, names, {}
        self.reader = Repository(top, vendor, [], Licences(aliases), Links(program), Report())
        self.numbers, self.orgs = {}, {}
        if os.path.isdir(top):
            self.read()
        folders = [*(os.path.basename(it) for it in self.numbers.values()), *names.folders.values()]
        self.upper = sum(it != it.lower() for it in folders) > sum(it != it.upper() for it in folders)

    def read(self):
        """Reads the pages of all organisations and numbers, and has the program judge their links."""
        for folder in sorted(os.listdir(self.top)):
            if not re.fullmatch("org|[0-9a-fA-F]{4}", folder) or not os.path.isdir(f"{self.top}/{folder}"):
                continue
            for name in sorted(os.listdir(f"{self.top}/{folder}")):
                path = f"{folder}/{name}"
                here, page = f"{self.top}/{path}", f"{self.top}/{path}/index.md"
                if os.path.isfile(page) and not os.path.islink(here) and not os.path.islink(page):
                    self.pages[path] = read(page)
                    if folder == "org":
                        self.orgs.setdefault(self.names.slug(name), path)
                    elif re.fullmatch("[0-9a-fA-F]{4}", name):
                        self.numbers.setdefault((folder.lower(), int(name, 16)), path)
        pages = [Page(it) for it in self.pages.values()]
        self.reader.links.learn(link for page in pages for name in ("site", "source") for link in candidates(page.lists.get(name, ())))

    def said(self, page):
        """Returns what a page says, as the registry has it: a value is None where only a list takes the page."""
        taken = Number("", "", title_of(page.fields.get("title", "")), "")
        self.reader.give_terms(taken, page)
        terms = dict.fromkeys(taken.terms()) if taken.by_list else taken.terms()
        return {"title": taken.title, "org": self.names.slug(page.fields.get("owner", "")), **terms}

    def hides(self, number, page):
        """Returns whether a page is not the one of its number, though it has its fields."""
        return self.reader.refusal(number, page) is not None or withdrawn_by(page.fields) is not None

    def over(self, path, fields, number, same):
        """Returns the bytes of a page with these fields over the one that is there. `same` returns the fields that say that already.
        `number` is None for an organisation."""
        layout = "org" if number is None else "pid"
        old = self.pages.get(path)
        page = Page(old) if old is not None else None
        if page is None or page.fault:
            below = page.end.partition("\n")[2] if page else ""
            return page_of({"layout": layout, **fields}) + below.encode()
        changed = {name: value for name, value in fields.items() if name not in same(page)}
        if number is not None and self.hides(number, page):
            changed |= {it: None for it in HIDING if it in page.fields} | {"layout": layout}
        return page.changed(changed) if changed else old

    def org(self, slug, known):
        """Returns the path of an organisation's page, and its bytes."""
        path = self.orgs.setdefault(slug, f"org/{self.names.name(slug)}")

        def same(page):
            site = self.reader.link(page, "site")[0]
            title = title_of(page.fields.get("title", "")) or os.path.basename(path)
            # a site that is not in the page stands for none, until it is another than the one below --home
            missing = site is None and known["site"].endswith(f"/org/{slug}/")
            holding = {"title": title == known["title"], "site": site == known["site"] or missing}
            return {name for name, holds in holding.items() if holds}

        return path, self.over(path, {"title": known["title"], "site": known["site"]}, None, same)

    def number(self, number, known):
        """Returns the path of a number's page, and its bytes, or None if there is to be none."""
        vendor, pid = number
        folder = self.names.folders.get(pid) if vendor == self.reader.vendor else None
        digits = f"{pid:04X}" if self.upper else f"{pid:04x}"
        path = self.numbers.setdefault(number, f"{vendor}/{folder or digits}")
        if f"{vendor}/{folder}" in self.pages:
            # of two folders of one number the one that the move took
            path = f"{vendor}/{folder}"
        if not known["held"]:
            old = self.pages.get(path)
            return path, old if old and withdrawn_by(Page(old).fields) else None
        fields = {name: self.names.name(known["org"]) if name == "owner" else known.get(it) for name, it in FIELDS.items()}

        def same(page):
            said = self.said(page)
            return {name for name, it in FIELDS.items() if said[it] == known.get(it)}

        return path, self.over(path, fields, pid, same)

    def changes(self, registry, subjects):
        """Yields the path and the bytes of each page that is another for one of these numbers and organisations, or None if it goes."""
        for it in subjects:
            known = registry.orgs[it] if isinstance(it, str) else registry.entries[it]
            self.reader.links.keep(known.get("site"), known.get("source"))
            path, data = self.org(it, known) if isinstance(it, str) else self.number(it, known)
            if data != self.pages.get(path):
                yield f"{path}/index.md", data
            if data is None:
                self.pages.pop(path, None)
            else:
                self.pages[path] = data

    def write(self, registry):
        """Writes all pages of a registry that are not there as they are to be."""
        for path, data in list(self.changes(registry, [*registry.orgs, *sorted(registry.entries)])):
            if data is None:
                os.remove(f"{self.top}/{path}")
                if not os.listdir(os.path.dirname(f"{self.top}/{path}")):
                    os.rmdir(os.path.dirname(f"{self.top}/{path}"))
            else:
                make_way(f"{self.top}/{path}")
                write(f"{self.top}/{path}", data)


def make_way(page):
    """Removes a symbolic link that stands for a page or for its folder, and a file in the place of the folder. What a link leads to is
    another page."""
    folder = os.path.dirname(page)
    for it in (folder, page):
        if os.path.islink(it) or (it == folder and os.path.isfile(it)):
            os.remove(it)
