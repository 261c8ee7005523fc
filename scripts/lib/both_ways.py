"""Both ways between a registry and a checkout of its pages: the history in Git that a move keeps, a commit for each request of a record,
and the requests that a branch means."""

import json
import os
import random
import re
import subprocess
import sys
import time

from lib.made_up_pages import VENDOR
from lib.seen_by_sqlite import same as same_lines
from lib.stopping import killed
from lib.usbreg import TOP, apply, content, done, run, same, write, write_requests

USERS = f"{TOP}/scripts/users"
GITHUB = ("GitHub", "noreply@github.com")
ANN, BOB, EVE, CORA, DAN = (("Ann", "ann@a.example"), ("Bob", "bob@b.example"), ("Eve", "eve@e.example"), ("Cora", "cora@c.example"), ("Dan Dell", "dan@d.example"))
DAILY, TAKE, MOVE = "Every day", "What would be taken", "Take it"
UTC = "%Y-%m-%dT%H:%M:%SZ"
# The orders that change what no page says.
ON_NO_PAGE = ("ask", "hand-over")
# Which merge of a page an order has its time of: the first one, or the last one, which changed the page. Others have none.
TIMED = {"enrol": 0, "ask": 0, "grant": 0, "amend": -1, "amend-org": -1, "revoke": -1}
# Times of requests that Git has otherwise, and what Git may have as the time of a commit, with that of a request.
ODD_TIMES = {"2024-02-31T23:00:00Z": "2024-03-02T23:00:00Z", "0000-01-01T00:00:00Z": "1970-01-01T00:00:00Z"}
ODD_SECONDS = {"": "", "-5": "", "0": "1970-01-01T00:00:00Z", "253402300799": "9999-12-31T23:59:59Z", "253402300800": "", "9" * 30: ""}


class Repository:
    """A Git repository in the folder of a mover."""

    def __init__(self, mover, name):
        self.mover, self.top, self.times, self.merges, self.uncommitted = mover, mover.path(name), 1_500_000_000, [], []

    def git(self, *words, author=CORA, committer=None, zone="+0000"):
        committer = committer or author
        self.times += 60
        people = {"AUTHOR": author, "COMMITTER": committer}
        env = {f"GIT_{who}_{what}": of[at] for who, of in people.items() for at, what in enumerate(("NAME", "EMAIL"))}
        # what is merged was written an hour before
        env |= {"GIT_AUTHOR_DATE": f"{self.times - 3600} {zone}", "GIT_COMMITTER_DATE": f"{self.times} {zone}", "TZ": "UTC0"}
        ran = subprocess.run(["git", "-C", self.top, *words], capture_output=True, check=False, env={**self.mover.env, **env})
        same(f"git {' '.join(words)}: {ran.stderr!r}", ran.returncode, 0)
        return ran.stdout.decode()

    def commit(self, text, *paths, author=ANN, committer=None, zone="+0000"):
        """Commits some paths, by default all, and returns the commit."""
        self.git("add", "-A", "--", *(paths or ["."]))
        self.git("commit", "-q", "-m", text, author=author, committer=committer, zone=zone)
        return self.git("rev-parse", "HEAD").strip()

    def put(self, paths, author, merger, way, zone="+0000"):
        """Commits pages, and merges them as a merge, a squash by GitHub, or directly. Keeps what a move has to say of them."""
        if way == "merge":
            self.git("checkout", "-q", "-b", "change")
            self.commit("Add pages", *paths, author=author)
            self.git("checkout", "-q", "main")
            self.git("merge", "-q", "--no-ff", "-m", "Merge pull request", "change", author=merger, committer=GITHUB, zone=zone)
            self.git("branch", "-q", "-d", "change")
        else:
            self.commit("Add pages", *paths, author=author, committer=GITHUB if way == "squash" else merger, zone=zone)
        self.keep(paths, author, None if way == "squash" else merger)

    def put_rest(self, text, author):
        """Commits all that is not committed."""
        self.commit(text, author=author)
        self.keep(self.git("show", "--no-renames", "--name-only", "--format=", "-z").split("\0"), author, author)

    def keep(self, paths, author, merger):
        """Keeps what a move has to say of the pages in the last commit."""
        commit, merged = self.git("log", "-1", "--format=%H %cd", f"--date=format-local:{UTC}").split()
        self.merges.append((set(paths), commit, merged, author, merger))

    def compare(self, made):
        """Compares the requests of a move with the history: their order, who grants, who keeps, and the commit in each key."""
        keys = {(it["order"], it.get("org") if it["order"] == "enrol" else it.get("number")): it for it in self.mover.requests("moved/requests.jsonl") + self.mover.requests("moved/enrolments.jsonl")}
        granted = self.mover.requests("moved/requests.jsonl")
        places, names = [], {name: "curator-" + name.lower().replace(" ", "-") for name, _ in (CORA, DAN)}
        for ask, grant in zip(granted, granted[1:]):
            if ask["order"] == "ask":
                place, commit, _, _, merger = self.merge_of(made.paths[ask["number"]])
                places.append(place)
                same(f"who grants {ask['number']}", grant["caller"], names[merger[0]] if merger else "curator-1")
                same(f"the commit of {ask['number']}", commit[:10] in ask["key"] and commit[:10] in grant["key"], True)
        same("the order of the merges", (len(set(places)) > 3, places), (True, sorted(places)))
        for slug in made.slugs.values():
            if made.paths[slug].startswith("org/") and ("enrol", slug) in keys:
                _, commit, _, author, _ = self.merge_of(made.paths[slug])
                enrolled = keys["enrol", slug]
                same(f"who enrols {slug}", (enrolled["caller"], commit[:10] in enrolled["key"]), (author[0].lower(), True))
        table = [(path, merged) for path, _, merged, *_ in self.mover.table("moved/history.tsv")]
        same_lines("the times in the table", lines_of(table), lines_of((path, self.merge_of(path)[2]) for path, _ in table))

    def merge_of(self, path):
        return next((place, *rest) for place, (paths, *rest) in enumerate(self.merges) if path in paths)

    def compare_times(self, made, record):
        """Compares the times of the requests in lines of a record with those of the merges."""
        told = timed(record)
        wanted = ((order, it, self.time_of(order, made.paths.get(it))) for order, it, _ in told)
        same_lines("the times of requests", lines_of(told), lines_of(wanted))

    def time_of(self, order, page):
        """Returns the time that a request about a page has, or None: what a page says that is not committed so has none."""
        merged = [at for paths, _, at, *_ in self.merges if page in paths]
        which = TIMED.get(order)
        return None if not merged or which is None or (which and page in self.uncommitted) else merged[which]


def timed(record):
    """Returns the order of each request in lines of a record, its number or organisation, and its time."""
    requests = [json.loads(it) for it in record.splitlines()]
    numbers = [it["done"].split()[1] if it["order"] == "grant" else it.get("number", it.get("org")) for it in requests]
    return [(it["order"], number, it.get("at")) for it, number in zip(requests, numbers)]


def lines_of(rows):
    return [" ".join(map(str, it)) for it in rows]


def give_histories(repository, made):
    """Commits made-up pages in some merges, by several people. One page moves to a folder in the other case, and one is removed."""
    repository.git("init", "-q", "-b", "main")
    repository.git("commit", "-q", "--allow-empty", "-m", "Begin")
    pages = [it for it in made.becomes if os.path.exists(f"{repository.top}/{it}")]
    orgs, numbers = (sorted(it for it in pages if it.startswith(f"{top}/")) for top in ("org", VENDOR))
    first = made.path("upper case")
    lower = first.lower()
    numbers.remove(first)
    withdrawn = made.path("withdrawn")
    numbers.remove(withdrawn)
    as_written = content(f"{repository.top}/{withdrawn}")
    made.write(withdrawn, as_written.replace(b"withdrawn: by its maker\n", b""))
    os.rename(f"{repository.top}/{os.path.dirname(first)}", f"{repository.top}/{os.path.dirname(lower)}")
    made.write(f"{VENDOR}/d0e0/index.md", b"---\nlayout: pid\ntitle: Gone\nowner: acme-labs\n---\n")
    size = len(numbers) // 3
    repository.put([*orgs[: len(orgs) // 2], lower, withdrawn, f"{VENDOR}/d0e0/index.md"], ANN, CORA, "merge")
    repository.put(orgs[len(orgs) // 2 :], BOB, DAN, "merge", "-0800")
    repository.put(numbers[:size], EVE, None, "squash", "+0530")
    repository.put(numbers[size : 2 * size], ANN, CORA, "merge")
    os.rename(f"{repository.top}/{os.path.dirname(lower)}", f"{repository.top}/{os.path.dirname(first)}")
    repository.git("rm", "-q", f"{VENDOR}/d0e0/index.md")
    made.write(withdrawn, as_written)
    repository.put([*numbers[2 * size :], withdrawn], DAN, DAN, "direct")
    repository.put_rest("Add the rest, and write a folder otherwise", DAN)
    repository.merges[0][0].add(first)
    gone = repository.git("log", "-1", "--diff-filter=D", "--format=%H", "--", f"{VENDOR}/d0e0/index.md")[:10]
    made.told[f"{VENDOR}/d0e0/index.md"] = [("reserved", f"its page was removed, by the commit {gone}")]
    made.states[VENDOR, 0xD0E0] = "reserved"
    made.paths = {made.numbers[row.case]: path for path, row in made.rows.items() if row.case} | {os.path.basename(os.path.dirname(it)).lower(): it for it in numbers}
    made.paths |= {slug: made.page_of(name) for name, slug in made.slugs.items()}


def history(mover, store):
    """Returns the requests in the record of a store, as text."""
    return done([mover.usbreg, "history", mover.path(store), "--after", "0"]).decode()


def carry_times(mover):
    """Writes a commit for each request of the record into a repository without pages, and moves these pages in: the organisations and
    the numbers come in the same order, at the same times."""
    repository = Repository(mover, "back")
    os.mkdir(repository.top)
    repository.git("init", "-q", "-b", "main")
    repository.git("commit", "-q", "--allow-empty", "-m", "Begin")
    mover.runs("usbreg history numbers.db > record.jsonl; scripts/users/commit_pages.py record.jsonl back moved")
    mover.runs(mover.block(TAKE), pages="back", moved="carried")
    mover.runs(mover.block(MOVE), moved="carried", numbers="carried")
    kept, carried = (timed(history(mover, store)) for store in ("numbers.db", "carried.db"))
    same_lines("the times after both ways", *(lines_of(it for it in rows if it[0] in ("enrol", "grant")) for rows in (carried, kept)))


def commit_each_request(mover, made, count):
    """Writes a commit for each request over a clone, also after kills, and compares the pages with those that are written at once.
    Returns how many there are."""
    block, began = mover.block(DAILY), time.strftime(UTC, time.gmtime())
    same("the first commit", mover.runs(block), "1 commits\n")
    before = int(mover.runs("git -C mirror rev-list --count HEAD"))
    requests, wanted = made_up_requests(mover, made, count)
    apply(mover.usbreg, mover.path("numbers.db"), write_requests(mover.path("more.jsonl"), requests))
    write(mover.path("record.jsonl"), done([mover.usbreg, "history", mover.path("numbers.db")]).decode())
    words = [f"{USERS}/commit_pages.py", mover.path("record.jsonl"), mover.path("mirror"), mover.path("moved")]
    chance = random.Random(1209)
    # a killed run leaves all commits or none
    for at in range(3 if count < 100 else 20):
        killed(words, chance.random() * (at + 1) / 4, env=mover.env, cwd=mover.room, stderr=subprocess.DEVNULL)
        there = int(mover.runs("git -C mirror rev-list --count HEAD")) - before
        same("the commits after a kill", there in (0, wanted), True)
    # git leaves its locks where it is killed
    for it in ("index.lock", "HEAD.lock", "refs/heads/main.lock"):
        write(f"{mover.path('mirror')}/.git/{it}", "")
    status, said, errors = run(words, env=mover.env)
    same("the last run", (status, errors), (0, b""))
    same("the commits at the end", int(mover.runs("git -C mirror rev-list --count HEAD")) - before, wanted)
    same("what is not committed", mover.runs("git -C mirror status --porcelain"), "")
    same("the page of a number that was returned", os.path.exists(mover.path(f"mirror/{made.path('not withdrawn')}")), False)
    said = mover.runs(f"git -C mirror log -{wanted} --reverse --format='%ad %an:%s' --date=format:{UTC}")
    # one without a time has the time of a run
    heads = [it if it < began else it.replace(it.split()[0], "None") for it in said.splitlines()]
    lines = [json.loads(it) for it in history(mover, "numbers.db").splitlines()[-len(requests) :]]
    same_lines("who made the commits, and when", heads, lines_of(head_of(it) for it in lines if it["order"] not in ON_NO_PAGE))
    compare_trees(mover)
    compare_callers(mover)
    same("a run with nothing new", run(words, env=mover.env)[1], b"0 commits\n")
    run_the_unit(mover)
    return wanted


def run_the_unit(mover):
    """Runs the commands of usbreg-pages.service: one more request is committed and pushed. Without a clone nothing is."""
    again = {"caller": "curator-1", "key": "u", "order": "correct-org", "org": "daily", "title": "Each hour", "site": "https://daily.example/"}
    apply(mover.usbreg, mover.path("numbers.db"), write_requests(mover.path("unit.jsonl"), [again]))
    write(mover.path("record.jsonl"), done([mover.usbreg, "history", mover.path("numbers.db")]).decode())
    mover.runs("git init -q --bare pushed.git; git -C mirror remote set-url --push origin ../pushed.git; git -C mirror push -q")
    unit = content(f"{TOP}/contrib/usbreg-pages.service").decode()
    for text, other in (("/usr/local/share/usbreg/", "scripts/"), ("/var/lib/usbreg-record/", "")):
        unit = unit.replace(text, other)
    (condition,), (commit,), (push,) = (re.findall(f"^{it}=(.*)$", unit, re.MULTILINE) for it in ("ExecCondition", "ExecStart", "ExecStartPost"))
    same("a unit without a clone", "names no clone" in mover.runs(f"export PAGES=\n{condition}", 1), True)
    same("a unit with a clone", mover.runs(f"export PAGES=mirror MOVED=moved\n{condition}\n{commit}\n{push}"), "1 commits\n")
    same("what is pushed", mover.runs("git -C pushed.git log -1 --format=%H:%s main"), mover.runs("git -C mirror log -1 --format=%H:%s"))
    same("the last commit", mover.runs("git -C mirror log -1 --format=%s"), "corrected organisation daily\n")


def head_of(line):
    """Returns the time, and the caller and the reply, that the commit of a line of the record has to have."""
    return ODD_TIMES.get(line.get("at"), line.get("at")), f"{line['caller']}:{line['done']}"


def compare_callers(mover):
    """A caller whose request was made into a commit stays that caller in another move, and becomes no curator by it. A commit may have
    a time that no request has."""
    sys.path.insert(0, USERS)
    from page_history import History, time_of

    same("the times of commits", {it: time_of(it) for it in ODD_SECONDS}, ODD_SECONDS)
    history = History(mover.path("mirror"), VENDOR)
    history.give_names([it for it in history.merges if it.startswith("org/")], set(), ["curator-1"], {})
    named = {it.address: (it.curator, it.keeper) for it in history.people.values()}
    same("the names of callers", [named[f"{it}@registry.invalid"] for it in ("daily", "curator-1")], [("", "daily"), ("curator-1", "")])


def compare_trees(mover):
    """Compares the pages of the clone with those that are written over the checkout at once."""
    mover.runs("rm -rf over; git clone -q pages over; scripts/users/write_pages.py record.jsonl over moved --over")
    same("the pages that are committed and those that are written", mover.runs("diff -r -x .git mirror over"), "")


def made_up_requests(mover, made, count):
    """Returns requests about one organisation and its numbers, which are granted, amended, corrected, returned and revoked, one that
    returns a number of before, and how many change a page."""
    keepers = {name: keeper for _, keeper, name in mover.table("moved/names.tsv")}
    petitions = sum(json.loads(it)["order"] == "ask" for it in history(mover, "numbers.db").splitlines())
    site = "https://daily.example/"
    requests = [{"caller": "daily", "key": "e", "order": "enrol", "org": "daily", "title": "Daily", "site": site}]
    terms = {"licence": "MIT", "site": site, "source": site}
    for at in range(count // 3):
        code = f"{0xE000 + at:04x}"
        requests += [
            {"caller": "daily", "key": f"a{at}", "order": "ask", "org": "daily", "number": code, "title": f"Lamp {at}", **terms},
            {"caller": "curator-1", "key": f"g{at}", "order": "grant", "petition": petitions + at + 1},
            {"caller": "daily", "key": f"m{at}", "order": "amend", "number": code, "title": f"Lamp: {at}", **terms},
        ]
        if at % 4 == 1:
            requests.append({"caller": "daily", "key": f"r{at}", "order": "return", "number": code})
        elif at % 4 == 2:
            requests.append({"caller": "curator-1", "key": f"c{at}", "order": "correct", "number": code, "title": f"Lamp; {at}", **terms})
        elif at % 4 == 3:
            requests.append({"caller": "curator-1", "key": f"v{at}", "order": "revoke", "number": code, "reason": "No product uses it"})
    requests += [
        {"caller": "curator-1", "key": "o", "order": "correct-org", "org": "daily", "title": "Every day", "site": site},
        {"caller": "daily", "key": "h", "order": "hand-over", "org": "daily", "keeper": "weekly"},
        {"caller": "weekly", "key": "m", "order": "amend", "number": "e000", "title": "Lamp of every day", **terms},
        {"caller": keepers["Acme_Labs"], "key": "n", "order": "return", "number": made.number("not withdrawn")},
    ]
    for at, it in enumerate(requests):
        # each seventh is handed in without a time
        it |= {"at": time.strftime(UTC, time.gmtime(1_600_000_000 + 5000 * at))} if at % 7 != 6 else {}
    requests[0]["at"], requests[2]["at"] = ODD_TIMES
    return requests, sum(it["order"] not in ON_NO_PAGE for it in requests)


def change_pages(made, repository):
    """Changes pages in a branch: new ones, others that say something else, other owners, and one that goes. Returns the paths of one that
    changes, of the one that goes and of one that changes with its owner, and the commit."""
    repository.git("checkout", "-q", "-b", "change")

    def page(path, **fields):
        made.write(path, ("---\n" + "".join(f"{name}: {value}\n" for name, value in fields.items()) + "---\nBelow.\n").encode())

    page("org/Makers/index.md", layout="org", title="Makers", site="https://makers.example/")
    page("org/NoSite/index.md", layout="org", title="Some site", site="https://some.example/")
    terms = {"license": "EUPL-1.2", "site": "https://makers.example/", "source": "https://makers.example/src"}
    page(f"{VENDOR}/D0D1/index.md", layout="pid", title="Made", owner="Makers", **terms)
    page(f"{VENDOR}/d0d2/index.md", layout="pid", title="Without a licence", owner="Makers")
    page(f"{VENDOR}/d0d3/index.md", layout="pid", title="Of nobody")
    plain, other, gone = made.path("a byte order mark"), made.path("a date"), made.path("lines that end as in Windows")
    page(plain, layout="pid", title="Changed", owner="Acme_Labs", **terms)
    page(other, layout="pid", title="Taken", owner="Works0", **terms)
    repository.git("rm", "-q", gone)
    paths = sorted(f"{VENDOR}/{it}/index.md" for it in os.listdir(f"{repository.top}/{VENDOR}"))
    handed = [it for it in paths if os.path.exists(f"{repository.top}/{it}") and b"\nowner: Works1\n" in content(f"{repository.top}/{it}")]
    for path in handed:
        made.write(path, content(f"{repository.top}/{path}").replace(b"\nowner: Works1\n", b"\nowner: Works2\n"))
    page(handed[0], layout="pid", title="Handed over", owner="Works2", **terms)
    page(f"{VENDOR}/d0d4/index.md", layout="pid", title="One more", owner="Works1", **terms)
    return plain, gone, handed[0], repository.commit("Change pages", author=EVE)[:10]


def say_a_branch(mover, made, repository):
    """Has the requests that a branch means printed, and acts on them: each is accepted. Returns how many there are."""
    mover.runs("git -C pages pull -q ../mirror main")
    keepers = {slug: keeper for slug, keeper, _ in mover.table("moved/names.tsv")}
    plain, gone, handed, commit = change_pages(made, repository)
    ask, grant = mover.block(DAILY, 1).split("\nusbreg apply", 1)
    same("what is printed besides", mover.runs(ask, 3, (b"no owner that can be taken", b"its number comes by `usbreg import` alone", b"its number belongs to acme-labs-2")), "")
    requests = mover.requests("orders.jsonl")
    numbers = {it: os.path.basename(os.path.dirname(it)).lower() for it in (plain, gone, handed)}
    wanted = [
        ("curator-1", "add-licence", "EUPL-1.2"), ("makers", "enrol", "makers"), (keepers["nosite"], "amend-org", "nosite"),
        (keepers["acme-labs-2"], "amend", numbers[plain]), ("makers", "ask", "d0d1"), (keepers["works1"], "ask", "d0d4"), (keepers["acme-labs-2"], "return", numbers[gone]),
        ("curator-1", "hand-over", "works1"), (keepers["works2"], "amend", numbers[handed]),
    ]
    same("the requests of a branch", [(it["caller"], it["order"], it.get("number", it.get("org", it.get("licence")))) for it in requests], wanted)
    same("the commit in their keys", all(commit in it["key"] for it in requests), True)
    mover.runs(f"usbreg apply{grant}")
    replies = mover.requests("replies.jsonl")
    same("the orders of a branch that are refused", [it for it in replies if "done" not in it], [])
    same("the organisation with another keeper", [it["done"] for it in replies if it["done"].startswith("handed ")], [f"handed works1 over to {keepers['works2']}"])
    states = mover.states("numbers.db")
    same("the states after the branch", [states.get((VENDOR, int(it, 16))) for it in ("d0d1", "d0d2", "d0d4", *numbers.values())], ["held", None, "held", "held", "returned", "held"])
    return len(requests)
