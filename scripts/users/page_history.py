"""What Git knows of the pages of a checkout: in which order and when they were merged, who merged and who wrote each, and which were
removed."""

import dataclasses
import os
import re
import subprocess
import sys
import time

from pid_codes import SLUG, cut, letters_of

# The host of the addresses of callers, in the commits that commit_pages.py makes, and what is no person: GitHub, where it merged a page,
# and that script itself.
HOST = "registry.invalid"
MACHINES = ("noreply@github.com", f"usbreg@{HOST}")
MOST_CURATORS = 64
# The first second that has no time in a request: its year has five digits.
TOO_LATE = 253_402_300_800


@dataclasses.dataclass
class Person:
    """Who wrote or merged pages, by the address in Git, and the names here: as a curator and as a keeper, or empty."""

    name: str
    address: str
    curator: str = ""
    keeper: str = ""


@dataclasses.dataclass
class Merge:
    """How a page came: its place in the order of the merges, the commit, its time, the addresses of who merged and who wrote it, and
    when it was changed last. What is not known is empty. The times are those that requests have."""

    place: int
    commit: str
    time: str = ""
    merger: str = ""
    author: str = ""
    changed: str = ""


def git(top, *words):
    """Returns what Git says about a checkout, or None if it fails."""
    ran = subprocess.run(["git", "-C", top, *words], capture_output=True, check=False)
    return ran.stdout.decode("utf-8", "replace") if ran.returncode == 0 else None


def has_history(top):
    """Returns whether a folder is the top of a checkout with all its commits."""
    inside, shallow = git(top, "rev-parse", "--show-prefix"), git(top, "rev-parse", "--is-shallow-repository")
    if inside == "\n" and shallow == "true\n":
        print(f"{top} has only its last commits, so that nothing is taken of its history: git fetch --unshallow", file=sys.stderr)
    return inside == "\n" and shallow == "false\n" and git(top, "rev-parse", "--verify", "-q", "HEAD") is not None


def time_of(seconds):
    """Returns the time of a commit as requests have it, in UTC, or nothing if no request can have it."""
    known = re.fullmatch(r"\d{1,12}", seconds) and int(seconds) < TOO_LATE
    return time.strftime("%Y-%m-%dT%H:%M:%SZ", time.gmtime(int(seconds))) if known else ""


class History:
    """The merges of a checkout by the path of the page, the people by address, and the numbers whose pages were removed, with the path
    and the commit of each."""

    def __init__(self, top, vendor):
        self.top, self.vendor = top, vendor
        self.merges, self.people, self.removed = {}, {}, {}
        authors = self.authors()
        for place, (head, changes) in enumerate(self.commits("--first-parent", "-m", "--name-status")):
            self.follow(place, head, changes)
        for path, merge in self.merges.items():
            merge.author = authors.get(path, "")
        self.forget_changes()

    def commits(self, *words):
        """Yields the head of each commit, oldest first, and the fields that Git prints of its files."""
        form = "--format=%x01%H%x02%P%x02%ct%x02%aN%x02%aE%x02%cN%x02%cE"
        said = git(self.top, "log", "--reverse", "--no-renames", "-z", form, *words, "--", self.vendor, "org") or ""
        for commit in said.split("\x01")[1:]:
            head, _, files = commit.partition("\0")
            yield head.rstrip("\n").split("\x02"), [it.lstrip("\n") for it in files.split("\0") if it.strip("\n")]

    def authors(self):
        """Returns the address of who wrote each page last anew."""
        written = {}
        for head, files in self.commits("--no-merges", "--diff-filter=A", "--name-only"):
            written.update((path, self.person(*head[3:5])) for path in files)
            if head[4].lower() in MACHINES:
                written.update(dict.fromkeys(files, ""))
        return written

    def person(self, name, address):
        address = address.lower()
        self.people[address] = Person(name, address) if address not in self.people else dataclasses.replace(self.people[address], name=name)
        return address

    def follow(self, place, head, changes):
        """Follows the pages of a merge. One that moves to a folder in the other case stays the page that it was."""
        commit, parents, seconds, author, author_at, committer, committer_at = head
        merger = (author, author_at) if " " in parents else (committer, committer_at)
        here = Merge(place, commit, time_of(seconds), "" if merger[1].lower() in MACHINES else self.person(*merger))
        pairs = list(zip(changes[::2], changes[1::2]))
        gone = {self.number(path): self.merges.pop(path, None) for status, path in pairs if status == "D" and self.is_page(path)}
        for status, path in pairs:
            if status == "A" and self.is_page(path):
                number = self.number(path)
                self.merges[path] = (number and gone.pop(number, None)) or dataclasses.replace(here)
                self.removed.pop(number, None)
            if status != "D" and path in self.merges:
                self.merges[path].changed = here.time
        for status, path in pairs:
            if status == "D" and self.number(path) in gone and self.number(path):
                self.removed[self.number(path)] = (path, commit)

    def forget_changes(self):
        """Forgets when the pages were changed that the checkout has otherwise than its last commit: what they say is in no commit. Those
        that it does not have are removed, without a commit."""
        said = git(self.top, "diff", "--name-only", "-z", "HEAD", "--", self.vendor, "org") or ""
        for path in sorted(set(said.split("\0")) & set(self.merges)):
            self.merges[path].changed = ""
            if (number := self.number(path)) and not os.path.lexists(f"{self.top}/{path}"):
                self.removed.setdefault(number, (path, ""))

    def is_page(self, path):
        return re.fullmatch(f"({self.vendor}|org)/[^/]+/index.md", path) is not None

    def number(self, path):
        said = re.fullmatch(f"{self.vendor}/([0-9a-fA-F]{{4}})/index.md", path)
        return int(said[1], 16) if said else 0

    def give_names(self, pages, taken, curators, given):
        """Gives people their names: who merged is a curator, and who wrote one of the pages of organisations a keeper. A table of
        people has its own."""
        used = {*taken, *curators, *(name for pair in given.values() for name in pair)}
        numbers = [it for path, it in self.merges.items() if path.startswith(f"{self.vendor}/") and it.merger]
        merged = dict.fromkeys(it.merger for it in sorted(numbers, key=lambda it: it.place))
        wrote = dict.fromkeys(self.merges[it].author for it in sorted(pages) if it in self.merges and self.merges[it].author)
        # a caller whose request commit_pages.py made into a commit is that caller, but no curator by it
        callers = [it.removesuffix(f"@{HOST}") for it in {*merged, *wrote} if re.fullmatch(rf"[a-z0-9-]{{1,{SLUG}}}@{HOST}", it)]
        given = {f"{it}@{HOST}": (it if it in curators else curators[0], it) for it in callers} | given
        room = MOST_CURATORS - len(curators)
        for at, address in enumerate(merged):
            person = self.people[address]
            named = given[address][0] if address in given else free(f"curator-{letters_of(person.name)}", used)
            person.curator = named if named and at < room else curators[0]
        for address in wrote:
            person = self.people[address]
            plain = letters_of(person.name) or "keeper"
            person.keeper = given[address][1] if address in given else free(f"by-{plain}" if re.match("curator(-|$)", plain) else plain, used)

    def table(self):
        """Returns a line for each person who has a name here."""
        return [(it.address, it.name, it.curator, it.keeper) for it in self.people.values() if it.curator or it.keeper]


def free(start, used):
    """Returns a slug that nobody has, and keeps it."""
    slug, number = cut(start), 1
    while slug in used:
        number += 1
        slug = f"{cut(start, SLUG - 1 - len(str(number)))}-{number}"
    used.add(slug)
    return slug


def people_in(path):
    """Returns the names of people as a curator and as a keeper, by address, of a table of people, if there is one."""
    if not path:
        return {}
    with open(path, encoding="utf-8") as file:
        rows = [line.rstrip("\n").split("\t") for line in file][1:]
    for row in rows:
        if len(row) != 4 or not all(re.fullmatch(f"([a-z0-9-]{{1,{SLUG}}})?", it) for it in row[2:]):
            sys.exit(f"{path}: {row}: an address, a name, a curator and a keeper are wanted")
    return {row[0].lower(): (row[2], row[3]) for row in rows}
