"""Records of which contrib/publish-stories makes its files: what they have, however often it stopped in between, and that nobody
makes one long."""

import json
import os
import subprocess

from lib.upstreams import Upstream, head_of
from lib.usbreg import CONTRIB, content, same, write

FOUNDING = b'{"curators":["cora"],"fixed":[],"licences":["MIT"],"name":"Shared products","vendor":"1209"}\n'
# The most that a file has, in bytes, and the changes of one number, which have more.
MOST, CHANGES = 1 << 18, 1500


def line(order, done, **fields):
    it = {"caller": "ann", "done": done, "key": "k", "order": order} | fields
    return json.dumps(it, separators=(",", ":"), sort_keys=True).encode() + b"\n"


# Requests of each kind, and which of them each file has, by their numbers in the record.
LINES = [
    line("enrol", "enrolled acme", org="acme", site="https://acme.example/", title="Acme"),
    line("ask", "petition 1", org="acme", number="0011", title="One"),
    line("ask", "petition 2", org="acme", vendor="cafe", title="Two"),
    line("ask", "petition 17", org="acme", title="Three"),
    line("grant", "granted 0011 to acme by petition 1", petition=1),
    line("add-licence", "added licence petition 17", licence="petition 17"),
    line("decline", "declined petition 2", petition=2),
    line("amend", "amended 0011", number="0011", title="1"),
    line("import", "imported fresh 2", org="acme", items=[["0011", "1"], ["0012", None], ["00AB", "2"], ["0000", "3"]]),
    line("reserve", "reserved cafe:2000-20ff", first="2000", last="20ff", vendor="cafe"),
    line("revoke", "revoked 0011", number="0011", reason="x"),
    line("ask", "petition 18", org="acme", number="0011", title="Four"),
    line("grant", "granted 0011 to acme by petition 18", petition=18),
]
FILES = {
    "1209/0011": (2, 5, 8, 9, 11, 12, 13), "1209/00ab": (9,), "cafe/spans": (10,), "orgs/acme": (2, 3, 4, 5, 7, 12, 13),
    "petitions/0": (2, 3, 5, 7), "petitions/1": (4, 12, 13), "open": (4,),
}


class Registry(Upstream):
    """A registry that has these lines, or is none."""

    def __init__(self):
        super().__init__(self.answer)
        self.lines, self.founding = [], FOUNDING

    def answer(self, path):
        if path == "/head" and self.lines:
            return [head_of([self.founding, *self.lines[0]])]
        what = path.removeprefix("/history/")
        return self.lines and [self.founding if what == "founding" else b"".join(self.lines[0][int(what) :][:1000])]


class Folder:
    """A folder for the files that a program of contrib/ makes of a registry. It is told these words too."""

    def __init__(self, path, registry, program="publish-stories", *words):
        self.path, self.registry, self.program, self.words = path, registry, program, words

    def beside(self, name):
        return Folder(f"{self.path}-{name}", self.registry, self.program, *self.words)

    def publish(self, *lines):
        """Writes the files of a record of these lines, or if none are given, of no registry. Returns the exit status."""
        self.registry.lines = lines or None
        words = [f"{CONTRIB}/{self.program}", self.registry.url, self.path, *self.words]
        return subprocess.run(words, capture_output=True, check=False, timeout=60).returncode

    def files(self):
        """Returns what each file has, but for the one that says where to go on."""
        there = (os.path.relpath(f"{at}/{it}", self.path) for at, _, names in os.walk(self.path) for it in names)
        return {it: content(f"{self.path}/{it}") for it in sorted(there) if it != "state"}

    def numbers(self, name):
        """Returns the last request that a file leaves out, and those that it has."""
        left, *lines = content(f"{self.path}/{name}").splitlines()
        return int(left), [int(it.split(b" ")[0]) for it in lines]


def publish_stories(room):
    """Writes the files of a record at once and bit by bit, of another one, and after what a power cut leaves."""
    with Registry() as registry:
        whole = Folder(f"{room}/whole", registry)
        same("the files are written", whole.publish(LINES), 0)
        same("the requests of each file", {it: whole.numbers(it) for it in whole.files() if it != "head"}, {it: (0, list(FILES[it])) for it in FILES})
        same("what is counted", whole.files()["head"], b"%d\n" % len(LINES))
        _, *lines = whole.files()["1209/0011"].splitlines()
        same("a line", lines[0], b"2 " + LINES[1].strip())
        one = json.loads(lines[3][2:])
        same("the line of an import", (one["items"], one["of"]), ([["0011", "1"]], 4))
        grown = Folder(f"{room}/grown", registry)
        goes_on(grown, whole, LINES)
        write(f"{grown.path}/orgs/acme", "")
        more = [*LINES, LINES[6].replace(b"petition 2", b"petition 17")]
        same("a file that lost its lines", (grown.publish(more), grown.numbers("orgs/acme"), grown.numbers("open")), (0, (0, [2, 3, 4, 5, 7, 12, 13, 14]), (0, [])))
        is_kept_short(Folder(f"{room}/long", registry))


def goes_on(grown, whole, lines):
    """Checks the files of a record that grows to these lines, and of one that is another."""
    for count in range(len(lines) + 1):
        same(f"{count} requests are written", grown.publish(lines[:count]), 0)
    same("the files of a record that grew", grown.files(), whole.files())
    times = {it: os.stat(f"{grown.path}/{it}").st_mtime_ns for it in (*grown.files(), "state")}
    same("nothing new", (grown.publish(lines), {it: os.stat(f"{grown.path}/{it}").st_mtime_ns for it in times} == times), (0, True))
    first = [lines[0].replace(b"Acme", b"Other"), *lines[1:]]
    others = ("another last line", [*lines[:-1], lines[0]]), ("fewer requests", lines[:6]), ("all again", lines), ("another first line", first), ("the first one again", lines)
    for number, (what, other) in enumerate(others):
        anew = grown.beside(number)
        same(what, (grown.publish(other), anew.publish(other), grown.files()), (0, 0, anew.files()))
    before = grown.files()
    same("a registry that is none", (grown.publish(), grown.files()), (1, before))


def is_kept_short(long):
    """A number that is amended again and again keeps its newest requests, and says which it leaves out."""
    changes = [line("amend", "amended 0011", number="0011", title=f"{it}{'x' * 190}") for it in range(CHANGES)]
    for count in (CHANGES // 3, CHANGES):
        same("changes are written", long.publish(LINES + changes[:count]), 0)
    left, numbers = long.numbers("1209/0011")
    size = len(long.files()["1209/0011"])
    same("the newest requests, as many as fit", (numbers, MOST - 400 < size <= MOST), (list(range(left + 1, len(LINES) + CHANGES + 1)), True))
    same("the file of another number", long.numbers("1209/00ab"), (0, [9]))
