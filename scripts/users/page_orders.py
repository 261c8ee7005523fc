#!/usr/bin/python3
"""Prints the requests that a change of pages in the layout of pid.codes means: those of a branch against its base, as in a pull request.

Usage:
    page_orders.py CHECKOUT BASE BRANCH --record RECORD [--names NAMES] [--curator NAME] [--aliases TABLE] [--program PATH]
    page_orders.py --replies REQUESTS REPLIES [--curator NAME]

RECORD is what `usbreg history` prints, and NAMES the table names.tsv of the move. The requests go to `usbreg apply`. Each is made in the
name of the keeper whose page it is, whoever wrote the branch: who runs them answers for that. What no order can say goes to the standard
error, a line for each page, with what to do.

The second form prints the grants of what was asked, by the replies to the requests of the first: it guesses no petition. A curator runs
them, or not. The exit status is 0 if all is said, 3 if some is not, and 1 or 2 with a message if nothing can be printed."""

import argparse
import io
import json
import os
import re
import subprocess
import sys
import tempfile

from beside_a_registry import Beside
from links import Links, line_of
from move_orders import Orders
from move_report import Report, shown
from page_history import Merge, git
from page_text import write, yaml
from pid_codes import ALIASES, Licences
from read_pid_codes import Repository
from read_record import TERMS, registry_in
from take_pid_codes import SOME_LEFT_OUT, Names, names_in, put_homes

HOME = "https://pid.codes/"


class Changed(Beside):
    """What a branch changes. A page may change what the registry says if the page of before says that."""

    def __init__(self, there, registry, before):
        super().__init__(there, registry)
        self.before = before

    def was_said(self, subject, digits):
        return False

    def may_release(self, key):
        return False

    def keep(self, page, kind):
        """Reports that no request says what a page says now."""
        self.there.report.refuse(page, False, "both there" if kind == "both" else "terms needed")

    def may_change(self, subject, page):
        if isinstance(subject, str):
            known, old = self.registry.orgs[subject], next((it for it in self.before.orgs.values() if it.page == page), None)
            return old is not None and old.title == known["title"] and old.site in (known["site"], None)
        known, old = self.registry.entries[subject], self.before.numbers.get(subject[1])
        if old is None:
            return False
        said = {"title": old.title, **(dict.fromkeys(TERMS[1:]) if old.by_list else old.terms())}
        return said == {name: known.get(name) for name in TERMS}


class Difference:
    """The difference of a branch and its base in a checkout: the paths that changed, with A, M or D, and the pages of both."""

    def __init__(self, top, base, branch):
        self.top = top
        self.base = self.said("merge-base", base, branch).strip()
        self.commit = self.said("rev-parse", "--verify", f"{branch}^{{commit}}").strip()
        parts = self.said("diff", "--no-renames", "--name-status", "-z", self.base, self.commit).split("\0")
        self.paths = dict(zip(parts[1::2], parts[::2]))

    def said(self, *words):
        out = git(self.top, *words)
        if out is None:
            sys.exit(f"git {' '.join(words)} in {self.top} failed")
        return out

    def has(self, page):
        """Returns whether a page changed, or in a folder that is none a file that is not removed."""
        return page in self.paths or any(it.startswith(f"{page}/") and status != "D" for it, status in self.paths.items())

    def pages(self, commit, room, vendor):
        """Puts the pages of a commit into a folder, as they are: `git archive` would leave out what a branch says. Returns the folder."""
        for name in ("org", vendor):
            os.makedirs(f"{room}/{name}", exist_ok=True)
        words = ["git", "-C", self.top]
        listed = subprocess.run([*words, "ls-tree", "-r", "-z", commit, "--", "org", vendor], capture_output=True, check=True).stdout
        files = [it.split(b"\t", 1) for it in listed.split(b"\0") if it.startswith(b"100")]
        asked = b"".join(head.split()[2] + b"\n" for head, _ in files)
        said = io.BytesIO(subprocess.run([*words, "cat-file", "--batch"], input=asked, capture_output=True, check=True).stdout)
        for _, path in files:
            size = int(said.readline().split()[2])
            write(os.path.join(os.fsencode(room), path), said.read(size))
            said.read(1)
        return room


class Branch:
    """The requests of a branch."""

    def __init__(self, given, registry):
        self.given, self.registry, self.report = given, registry, Report()
        self.difference = Difference(given.checkout, given.base, given.branch)
        self.links, self.names = Links(given.program), names_in(given.names)

    def read(self, room):
        """Reads the pages of before and of now."""
        licences = Licences(self.given.aliases)
        now, before = (Repository(self.difference.pages(commit, f"{room}/{name}", self.registry.vendor), self.registry.vendor, self.registry.fixed, licences, self.links, report)
                       for commit, name, report in ((self.difference.commit, "now", self.report), (self.difference.base, "before", Report())))
        for it in (before, now):
            it.read()
        Names(self.registry.curators, self.report).give(now.orgs, self.names, self.registry.orgs)
        put_homes(now, HOME)
        return now, before

    def keep_changed(self, now):
        """Drops from what is read what the branch does not change."""
        now.numbers = {number: it for number, it in now.numbers.items() if it.page in self.difference.paths}
        owners = {it.owner for it in now.numbers.values()}
        now.orgs = {name: it for name, it in now.orgs.items() if name in owners or it.page in self.difference.paths}
        for it in now.orgs.values():
            # one that is not changed only owns numbers
            it.has_page = it.has_page and it.page in self.difference.paths
        now.refused = [it for it in now.refused if self.difference.has(it.page)]

    def requests(self, room):
        """Returns the requests of the branch, and tells what is none."""
        now, before = self.read(room)
        everywhere = dict(now.numbers)
        self.keep_changed(now)
        handed, moved = self.handed_over(now, everywhere)
        sorted_out = Changed(now, self.registry, before)
        sorted_out.sort()
        now.settle(self.registry.vendors, self.registry.entries)
        amended = list(sorted_out.amended)
        for subject, it in moved:
            sorted_out.sort_known(subject, it, self.registry.entries[subject], self.registry.entries[subject]["org"])
        # what has no page comes from the same commit, which is not merged: its requests have no time
        orders = Orders(self.given.curator, 0, dict.fromkeys((*self.difference.paths, ""), Merge(0, self.difference.commit)))
        made = [orders.add_licence(it) for it in sorted({it.licence for it in sorted_out.asked + sorted_out.amended} - self.registry.licences)]
        made += [orders.enrol(it) for it in sorted_out.enrolled] + [orders.amend_org(it, sorted_out.keeper(it)) for it in sorted_out.amended_orgs]
        made += [orders.amend(it, sorted_out.keeper(now.orgs[it.owner])) for it in amended]
        made += [orders.ask_alone(it, now.orgs[it.owner], sorted_out.keeper(now.orgs[it.owner])) for it in sorted_out.asked]
        made += self.given_back(orders, sorted_out, everywhere)
        # the keeper of before gives the orders above, and the new one those below
        made += [orders.hand_over(slug, keeper) for slug, keeper in handed.items()]
        made += [orders.amend(it, sorted_out.keeper(now.orgs[it.owner])) for it in sorted_out.amended[len(amended) :]]
        for slug, numbers in sorted_out.lists.items():
            for it in numbers:
                self.report.refuse(it.page, False, "list needed", org=slug)
        return [request for request, _ in made]

    def handed_over(self, now, everywhere):
        """Returns the new keeper of each organisation whose numbers all name another owner now, which is the keeper of that one, and
        those of these numbers whose pages changed, with what these say. They are dropped from what is read: their owner stays."""
        moved, handed, dropped = {}, {}, []
        for number, it in list(now.numbers.items()):
            known = self.registry.entries.get((now.vendor, number))
            if known and known["held"] and known["org"] != now.orgs[it.owner].slug:
                moved.setdefault(known["org"], {}).setdefault(it.owner, []).append(number)
        for slug, owners in sorted(moved.items()):
            own = {number for (vendor, number), it in self.registry.entries.items() if it["org"] == slug and it["held"] and vendor == now.vendor}
            if len(owners) == 1 and own <= {number for number, it in everywhere.items() if it.owner in owners}:
                ((name, numbers),) = owners.items()
                dropped += [((now.vendor, it), now.numbers.pop(it)) for it in numbers]
                org = now.orgs[name]
                handed[slug] = self.registry.orgs[org.slug]["keeper"] if org.slug in self.registry.orgs else org.keeper
        return handed, dropped

    def given_back(self, orders, sorted_out, everywhere):
        """Returns the requests for numbers whose pages were removed or are withdrawn now, and tells of removed organisations."""
        made = [orders.revoke(it) for it in sorted_out.back]
        for path in sorted(it for it, status in self.difference.paths.items() if status == "D"):
            said = re.fullmatch(f"{self.registry.vendor}/([0-9a-fA-F]{{4}})/index.md", path)
            known = said and self.registry.entries.get((self.registry.vendor, int(said[1], 16)))
            if known and known["held"] and int(said[1], 16) not in everywhere:
                code = said[1].lower()
                made.append(orders.request(self.registry.orgs[known["org"]]["keeper"], "return", code, {"order": "return", "number": code}, "", path))
            elif re.fullmatch("org/[^/]+/index.md", path):
                self.report.refuse(path, False, "org removed")
        return made


def grants(requests, replies, curator):
    """Yields the grants of petitions, and returns whether each request that asks has one."""
    pairs = [(json.loads(line), json.loads(reply)) for line, reply in zip(requests, replies, strict=True)]
    for request, reply in pairs:
        said = re.fullmatch(r"petition (\d+)", reply.get("done", ""))
        if request["order"] == "ask" and said:
            yield {"caller": curator, "key": f"grant{request['key'].removeprefix('ask')}", "order": "grant", "petition": int(said[1])}
        elif "refused" in reply:
            print(f"{request['key']}: refused: {reply['name']} {reply.get('detail', '')}".rstrip(), file=sys.stderr)


def arguments():
    words = argparse.ArgumentParser(description="Prints the requests that a change of pages in the layout of pid.codes means.")
    words.add_argument("checkout", nargs="?", help="a checkout of the pages")
    words.add_argument("base", nargs="?", help="the branch that the change is for")
    words.add_argument("branch", nargs="?", help="the branch of the change")
    words.add_argument("--record", help="the record of the registry")
    words.add_argument("--names", help="the table names.tsv of the move")
    words.add_argument("--curator", default="curator-1", help="the curator who adds licences and grants [default: curator-1]")
    words.add_argument("--aliases", default=ALIASES, help="a changed licence_aliases.tsv")
    words.add_argument("--replies", nargs=2, metavar=("REQUESTS", "REPLIES"), help="print the grants of what these requests asked")
    words.add_argument("--program", default=os.environ.get("USBREG", "usbreg"), help="the program [default: usbreg]")
    given = words.parse_args()
    if not given.replies and not (given.branch and given.record):
        words.error("CHECKOUT, BASE, BRANCH and --record are wanted, or --replies")
    return given


def main():
    given = arguments()
    if given.replies:
        with open(given.replies[0], encoding="utf-8") as requests, open(given.replies[1], encoding="utf-8") as replies:
            for it in grants(requests.readlines(), replies.readlines(), given.curator):
                print(line_of(it), end="")
        return
    yaml()
    with tempfile.TemporaryDirectory() as room:
        branch = Branch(given, registry_in(given.record))
        for it in branch.requests(room):
            print(line_of(it), end="")
    # of a page that is taken only what gets lost and what is changed is said, and that changes no status
    for page, outcome, what, to_do in branch.report.table()[1:]:
        if branch.difference.has(page):
            print(shown(f"{page}: {outcome}: {what}. {to_do}"), file=sys.stderr)
    if any(branch.difference.has(page) and outcome in ("left out", "reserved") for page, outcome, *_ in branch.report.lines):
        sys.exit(SOME_LEFT_OUT)


if __name__ == "__main__":
    main()
