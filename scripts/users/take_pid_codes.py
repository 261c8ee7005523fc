#!/usr/bin/python3
"""Turns a repository in the layout of pid.codes into the input of `usbreg`: 1209/XXXX/index.md, a page for each number, and
org/NAME/index.md, one for each organisation. docs/moving.md has the commands that take what it writes:

    founding.toml        for `usbreg found`, if there is no registry yet
    enrolments.jsonl     for `usbreg apply`: what stays reserved, licences that are new, and each organisation enrols
    enrolled.jsonl       the replies to these
    lists/SLUG.ids       for `usbreg import --org SLUG`: the numbers without a licence or without links that can be taken
    lists.txt            the slugs of these and the keys of the imports, one on a line
    imported.jsonl       the replies to these, in the same order
    requests.jsonl       for `usbreg apply`: each organisation asks for its other numbers and is granted them
    replies.jsonl        the replies to these
    names.tsv            slug, keeper and name of each organisation
    people.tsv           who is known to Git, by address: the name there, and the names here as a curator and as a keeper
    history.tsv          the commit of each page, when it was merged, and who merged and who wrote it
    numbers.tsv          the numbers of the pages that are taken, and their folders
    licences.tsv         what is written as a licence, what it is taken as, and on how many pages
    report.tsv           a line for each page that is not taken, loses something or is changed, with what to do
    counts.json          how many pages there are, and what becomes of them

The program itself judges the links, in a registry of its own. With the record of a registry that is there, only what is new beside
it is written. The exit status is 0 if each page is taken, 3 if some are not, 1 with a message if nothing can be written, and 2 if
the arguments are wrong."""

import argparse
import collections
import os
import re
import shutil
import sys

from beside_a_registry import Beside
from links import AT_ONCE, Links
from move_files import Move
from move_orders import Orders
from move_report import Report
from page_history import History, free, has_history, people_in
from page_text import yaml
from pid_codes import ALIASES, SLUG, Licences, cut, letters_of, slug_of
from read_pid_codes import Repository
from read_record import Registry, registry_in

SOME_LEFT_OUT = 3


def is_curators(slug, curators):
    """Returns whether a keeper of this name would be a curator, or have no limit in the proxy as curators have none."""
    return slug in curators or re.fullmatch(r"curator(-.*)?", slug) is not None


class Names:
    """Gives each organisation its slug and its keeper. A name that is a slug keeps it, and the others get theirs by the sequence of the
    names, whichever of them have pages."""

    def __init__(self, curators, report):
        self.curators, self.report, self.used = curators, report, set()

    def give(self, orgs, given, enrolled):
        """Names organisations, those in the given table of names as it says. No other gets a slug that is enrolled, unless that is its
        name."""
        others = {given[it][0] for it in orgs if it in given}
        kept = {it for it in orgs if it not in given and slug_of(it) == it and it not in others and not is_curators(it, self.curators)}
        self.used = {slug for slug, _ in given.values()} | kept | set(enrolled)
        for name, org in sorted(orgs.items(), key=lambda it: (it[0].lower(), it[0])):
            slug = name if name in kept else None
            org.slug, org.keeper = given.get(name) or [slug or self.free_slug(name, org.page)] * 2
            if is_curators(org.keeper, self.curators):
                sys.exit(f"the table of names: the keeper {org.keeper} of {name} would be a curator")
        counted = collections.Counter(it.slug for it in orgs.values())
        if twice := [slug for slug, count in counted.items() if count > 1]:
            sys.exit(f"the table of names has twice: {' '.join(twice)}")

    def free_slug(self, name, page):
        """Returns the slug of a name, or the first free one with a number behind it."""
        plain = slug_of(name)
        start = f"org-{plain}" if is_curators(plain, self.curators) else plain
        slug = free(start, self.used)
        reasons = {
            "the name has no letter that a slug can have": not letters_of(name), f"{plain} is a curator's name": start != plain,
            f"{plain} is that of another": slug != cut(start), f"a slug has at most {SLUG} letters": len(letters_of(name)) > SLUG,
        }
        if why := next((why for why, holds in reasons.items() if holds), None):
            self.report.tell(page, "slug", name=name, slug=slug, why=why)
        return slug


def put_homes(there, home):
    """Gives each organisation without a site that can be taken an address below `home`."""
    addresses = {org.slug: f"{home}org/{org.slug}/" for org in there.orgs.values() if not org.site}
    there.links.learn(addresses.values())
    for org in there.orgs.values():
        if not org.site:
            org.site = there.links.kept(addresses[org.slug])
            if not org.site:
                sys.exit(f"--home: usbreg does not take {addresses[org.slug]} as a link")
            # of an owner without a page this is told already
            if org.has_page:
                there.report.tell(org.page, "home", link=org.site, why=org.why)


def names_in(path):
    """Returns slug and keeper by name, of a table of names, if there is one."""
    if not path:
        return {}
    with open(path, encoding="utf-8") as file:
        rows = [line.rstrip("\n").split("\t") for line in file][1:]
    for row in rows:
        if len(row) != 3 or not all(re.fullmatch(f"[a-z0-9-]{{1,{SLUG}}}", it) for it in row[:2]):
            sys.exit(f"{path}: {row}: a slug, a keeper and a name are wanted")
    return {name: (slug, keeper) for slug, keeper, name in rows}


def span(text):
    if not re.fullmatch("[0-9a-fA-F]{4}(-[0-9a-fA-F]{4})?", text):
        raise argparse.ArgumentTypeError(f"{text} is not NNNN or NNNN-NNNN")
    return text


def vendor_and_name(text):
    vendor, _, name = text.partition("=")
    if not re.fullmatch("[0-9a-fA-F]{4}", vendor) or not name:
        raise argparse.ArgumentTypeError(f"{text} is not VVVV=NAME")
    return vendor.lower(), name


def arguments():
    words = argparse.ArgumentParser(description="Turns a repository in the layout of pid.codes into the input of usbreg.")
    words.add_argument("repository", help="a checkout, with the folders org and that of the vendor")
    words.add_argument("folder", help="where to write; it must not exist")
    words.add_argument("--curator", action="append", help="a curator; the first one grants [default: curator-1]")
    words.add_argument("--vendor", default="1209", help="vendor ID [default: 1209]")
    words.add_argument("--name", default="pid.codes", help="the vendor's name in the list [default: pid.codes]")
    words.add_argument("--also", action="append", type=vendor_and_name, default=[], help="another vendor, as VVVV=NAME, whose numbers in the repository stay reserved")
    words.add_argument("--fixed", action="append", type=span, help="numbers that stay reserved for good [default: 0001-0010]")
    words.add_argument("--home", default="https://pid.codes/", help="address below which org/SLUG/ stands for a missing site [default: https://pid.codes/]")
    words.add_argument("--names", help="a changed names.tsv, with the slugs and the keepers")
    words.add_argument("--people", help="a changed people.tsv, with the names of those that Git knows")
    words.add_argument("--no-history", action="store_true", help="take nothing of the history in Git")
    words.add_argument("--aliases", default=ALIASES, help="a changed licence_aliases.tsv")
    words.add_argument("--unknown", help="a licence under which pages come whose own one is not known, with their links")
    words.add_argument("--record", help="the record of a registry that is there; it needs --names")
    words.add_argument("--program", default=os.environ.get("USBREG", "usbreg"), help="the program [default: usbreg]")
    given = words.parse_args()
    given.curator, given.fixed = given.curator or ["curator-1"], given.fixed or ["0001-0010"]
    for top in ("org", given.vendor):
        if not os.path.isdir(f"{given.repository}/{top}"):
            words.error(f"{given.repository} has no folder {top}")
    if os.path.exists(given.folder):
        words.error(f"{given.folder} is there already")
    if given.record and not given.names:
        words.error("--record needs --names, so that each organisation keeps its slug")
    if not shutil.which(given.program):
        words.error(f"{given.program} is not there: --program names it")
    return given


def registry_there(given):
    """Returns the registry that is there, or the one that is to be founded."""
    if not given.record:
        return Registry({"vendor": given.vendor, "curators": given.curator, "licences": [], "fixed": given.fixed})
    registry = registry_in(given.record)
    if registry.vendor != given.vendor or not set(given.curator) <= set(registry.curators):
        sys.exit(f"{given.record}: the registry has the vendor {registry.vendor} and the curators {' '.join(registry.curators)}")
    return registry


def history_of(given, there):
    """Returns what Git knows of the pages, if that is wanted and there. Numbers whose pages were removed are not taken."""
    if given.no_history or not has_history(given.repository):
        return None
    history = History(given.repository, given.vendor)
    for number, (path, commit) in sorted(history.removed.items()):
        if number not in there.numbers and not os.path.exists(f"{given.repository}/{os.path.dirname(path)}"):
            there.refuse(path, {(given.vendor, number)}, "removed", how=f"by the commit {commit[:10]}" if commit else "and no commit says so yet")
    return history


def name_all(given, there, registry, history):
    """Gives organisations and people their names."""
    names = names_in(given.names)
    Names(registry.curators, there.report).give(there.orgs, names, registry.orgs)
    if not history:
        return
    history.give_names([it.page for it in there.orgs.values()], {it.slug for it in there.orgs.values()}, registry.curators, people_in(given.people))
    curators = {*registry.curators, *(it.curator for it in history.people.values())}
    for name, org in there.orgs.items():
        merge = history.merges.get(org.page)
        keeper = history.people[merge.author].keeper if merge and merge.author else ""
        if name not in names and keeper and not is_curators(keeper, curators):
            org.keeper = keeper
        elif org.keeper in curators:
            sys.exit(f"the table of people: the keeper {org.keeper} of {name} would be a curator")


def main():
    given = arguments()
    yaml()
    registry = registry_there(given)
    there = Repository(given.repository, given.vendor, registry.fixed, Licences(given.aliases), Links(given.program), Report())
    there.unknown = given.unknown
    there.read()
    history = history_of(given, there)
    name_all(given, there, registry, history)
    put_homes(there, given.home)
    beside = Beside(there, registry)
    beside.sort()
    reserved = there.settle(registry.vendors | {vendor for vendor, _ in given.also}, registry.entries)
    merges = history.merges if history else {}
    # the curators of a registry that is there are those of its founding
    mergers = {path: history.people[it.merger].curator for path, it in merges.items() if it.merger} if not given.record else {}
    orders = Orders(given.curator[0], len(registry.asked), merges, mergers)
    move = Move(given, beside, history, orders, [it for it in reserved if not registry.is_reserved(it)])
    move.prepare()
    lines = move.lines()
    for start in range(0, len(lines), AT_ONCE):
        taken, field = there.links.tried(lines[start : start + AT_ONCE])
        if field:
            sys.exit(f"the program refuses the {field} in {lines[start + taken]}")
    counts = move.write_all()
    sys.exit(SOME_LEFT_OUT if any(it["left out"] or it.get("reserved") for it in counts.values()) else 0)


if __name__ == "__main__":
    main()
