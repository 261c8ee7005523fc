#!/usr/bin/env python3
"""Moves a made-up repository in the layout of pid.codes into a registry, by the commands in docs/moving.md as they are written and in
their order, and out again.

The repository has a page for each row of cases/moving.tsv. The report has to say what the row says, and nothing of other pages; what
becomes of each number is compared with the store, where no number that a page or a folder names is free. The replies are those that the
script for the move said. The pages that are written of the record are those of before, but for what the report says. Written with names,
and moved in again, they make the same rows and slugs. After mending, over the store that is there, what is new is taken; the pages that
are written over the checkout keep their bytes where they say the same. The order, the people, the commits
and the times of the history in Git are in the record, and the times are the same after both ways; a commit for each request, at its time,
also after kills, and the requests of a branch are those that scripts/lib/both_ways.py makes.

Usage: scripts/move_pid_codes.py [PROGRAM [ENTRIES]] [--all], by default the one that `make` builds, and 200. With --all both ways go for
a thousand commits, with kills. If Debian's python3-yaml or git is not installed it says so and skips all. The exit status is 0 if all of
this holds."""

import json
import os
import re
import shutil
import sys
import time

from lib.both_ways import CORA, Repository, carry_times, commit_each_request, give_histories, history, say_a_branch
from lib.made_up_pages import HOME, VENDOR, MadeUp
from lib.moving import PYTHON, Mover, compare_fields, compare_report, pages_in
from lib.usbreg import EXAMPLES, TOP, apply, content, copy, done, folder, found, opened, program, run, same, write, write_requests

USERS = f"{TOP}/scripts/users"
SOME_LEFT_OUT = 3
# Of so many requests with --all, a thousand change a page.
MANY = 1100
TERMS = ("licence", "site", "source")
TAKE, MOVE, NEW, OUT = "What would be taken", "Take it", "Take what is new", "The way out"
ORDERS = [
    {"caller": "ann", "key": "m1", "order": "enrol", "org": "lamps", "title": "yes", "site": "https://lamps.example/"},
    {"caller": "ben", "key": "m2", "order": "ask", "org": "acme", "number": "0013", "title": "Clock: 2", "licence": "MIT", "site": "https://acme.example/", "source": "https://acme.example/"},
    {"caller": "cora", "key": "m3", "order": "grant", "petition": 5},
    {"caller": "ben", "key": "m4", "order": "return", "number": "0013"},
    {"caller": "cora", "key": "m5", "order": "reserve", "first": "0012", "last": "0012"},
]
# Owners without pages, one below the other, and what to do about each.
ODD_OWNERS = {
    "A/b": ["name another owner in the page"], "a/B": ["name the right owner in the page"], ".net": ["name another owner in the page"],
    "index.works": ["name another owner in the page"], "Lamps": ["org/Lamps/index.md"], "LAMPS": ["org/LAMPS/index.md"],
    '"Lamps "': ["name the right owner in the page"],
}
LIST = "1209  Shared\n\t0000  Zero\n\t0010  Fixed\n\t0011  Lamp\n\t0012  Reserved\n\t0013  Owned\n\t0014  \n\t0015  1.10\n\t0015  Doubled\n\tcafe  null\n"


def move_in(mover, made):
    """Moves the pages into a store by the commands of the page, and compares what becomes of each."""
    counts = json.loads(mover.runs(mover.block(TAKE), SOME_LEFT_OUT))
    same("counts.json", json.loads(content(mover.path("moved/counts.json"))), counts)
    compare_report(made, mover, "moved/report.tsv")
    became = {it: sum(page.startswith(VENDOR) and of == it for page, of in made.becomes.items()) for it in ("granted", "imported", "returned")}
    same("the counts", {it: counts["numbers"][it] for it in became}, became)
    same("the slugs", {name: slug for slug, _, name in mover.table("moved/names.tsv")}, made.slugs)
    census = mover.runs(mover.block(MOVE))
    same("the census", f"\nheld  {became['granted'] + became['imported']:>10}\n" in census, True)
    states = mover.states("numbers.db")
    same("the states of numbers", {it: states.get(it) for it in made.states}, made.states)
    same("numbers that are not free besides", {it[1] for it in set(states) - set(made.states)}, set(range(1, 0x11)))
    listed = done([mover.usbreg, "export", copy(mover.path("numbers.db"), mover.path("looked.db"))]).decode()
    same("characters of the list that control a terminal", re.findall("[\x80-\x9f\u2028-\u202e\u2066-\u2069]", listed), [])
    # taken again, each request gets its first reply, and nothing changes
    before = mover.rows("numbers.db")
    mover.runs(mover.block(MOVE).split("\n", 2)[2])
    same("the rows after the same commands", mover.rows("numbers.db"), before)
    return counts


def ask_for_any(mover, made):
    """Another organisation asks for any number, again and again: it gets none that a page or a folder names."""
    site = "https://any.example/"
    requests = [{"caller": "any", "key": "e", "order": "enrol", "org": "any", "title": "Any", "site": site}]
    petitions = len([it for it in mover.requests("moved/requests.jsonl") if it["order"] == "ask"])
    for at in range(1, 40):
        requests.append({"caller": "any", "key": f"a{at}", "order": "ask", "org": "any", "title": "Any", "licence": "MIT", "site": site, "source": site})
        requests.append({"caller": "curator-1", "key": f"g{at}", "order": "grant", "petition": petitions + at})
    store = copy(mover.path("numbers.db"), mover.path("any.db"))
    said = [json.loads(it).get("done", "") for it in apply(mover.usbreg, store, write_requests(mover.path("any.jsonl"), requests)).splitlines()]
    granted = {(VENDOR, int(it.split()[1], 16)) for it in said if it.startswith("granted ")}
    same("the numbers that are granted to another", (len(granted), granted & set(made.states)), (39, set()))


def move_out_and_in(mover, made, counts):
    """Writes the pages of the record, and moves them in again, with the names and without any table."""
    mover.runs(mover.block(OUT))
    same("the pages with names", pages_in(mover.path("site")), made.kept)
    differing = compare_fields(mover, "pages", "site", "moved/report.tsv")
    again = json.loads(mover.runs(mover.block(TAKE), pages="site", moved="again"))
    held = {it: counts["numbers"][it] for it in ("granted", "imported")}
    same("the counts of the second time", {it: again["numbers"][it] for it in held}, held)
    told = {what.split(",")[0] for _, _, what, _ in mover.table("again/report.tsv")}
    same("what is reported of the second time", {it for it in told if not it.startswith("the slug of")}, {"it comes without licence"})
    same("the slugs of the second time", sorted((slug, name) for slug, _, name in mover.table("again/names.tsv")), sorted((slug, name) for name, slug in made.slugs.items()))
    mover.runs(mover.block(MOVE), moved="again", numbers="again")
    same("the rows of the second time", mover.rows("again.db"), mover.rows("numbers.db"))
    return differing


def take_with_tables(mover, made):
    """Turns the pages into a folder anew, with other slugs, keepers and licences."""
    names, aliases = mover.path("names.tsv"), mover.path("aliases.tsv")
    given = content(mover.path("moved/names.tsv")).decode().replace("acme-labs-2\tann\t", "other-labs\tlou\t")
    write(names, given)
    table = content(f"{USERS}/licence_aliases.tsv").decode()
    # whatever the report says is not known gets known by what it says to do
    unknown = [written for written, meant, _ in mover.table("moved/licences.tsv") if written and not meant]
    write(aliases, table + "".join(f"{it}\tLicenseRef-{at}\n" for at, it in enumerate(unknown)))
    words = [f"{USERS}/take_pid_codes.py", mover.path("pages"), mover.path("tables"), "--program", mover.usbreg, "--names", names]
    same("moving with tables", run([*words, "--aliases", aliases, "--also", "beef=Beef boards"])[::2], (SOME_LEFT_OUT, b""))
    first = [it for it in mover.requests("tables/enrolments.jsonl") if it.get("vendor") == "beef"]
    same("what is reserved of another vendor", [(it["order"], it.get("first")) for it in first], [("add-vendor", None), ("reserve", made.number("a folder of another vendor that is named"))])
    same("the names that were given", sorted(content(mover.path("tables/names.tsv")).decode().splitlines()), sorted(given.splitlines()))
    (enrolled,) = (it for it in mover.requests("tables/enrolments.jsonl") if it.get("org") == "other-labs")
    same("who enrols it", enrolled["caller"], "lou")
    same("licences that are not known then", [it for it in mover.table("tables/licences.tsv") if it[0] and not it[1]], [])
    same("a folder that is there", run(words)[0], 2)
    shutil.rmtree(mover.path("tables"))
    for bad in ("\tMIT\n", "Beer\t\n", "Beer\n", f"Beer\t{'x' * 201}\n", "MIT\tX11\n"):
        status, _, errors = run([*words, "--aliases", write(aliases, table + bad)])
        same(f"the alias {bad!r}", (status, b"wanted" in errors), (1, True))
    # a word that is dropped from what is written is no alias of what is empty
    same("an empty alias", run([*words, "--aliases", write(aliases, table + "License\tMIT\n")])[0], SOME_LEFT_OUT)
    same("who has no licence", [it[1] for it in mover.table("tables/licences.tsv") if it[0] in ("", "License")], ["", "MIT"])
    shutil.rmtree(mover.path("tables"))
    same("a licence for all", run([*words, "--unknown", "NOASSERTION"])[0], SOME_LEFT_OUT)
    same("what comes by lists then", {what.split(" since ")[1].split(" ")[0] for _, of, what, _ in mover.table("tables/report.tsv") if "it comes without" in what}, {"it", "its", "usbreg"})
    compare_stand_ins(mover, "NOASSERTION")
    shutil.rmtree(mover.path("tables"))
    status, _, errors = run([*words[:-1], write(names, given.replace("\tlou\t", "\tcurator-2\t"))])
    same("a keeper who would be a curator", (status, b"would be a curator" in errors), (1, True))


def compare_stand_ins(mover, licence):
    """A page whose licence, or a part of it, is not known, or that has none, is asked for with this licence and with its links. What is
    asked for without it stays as it is."""
    asked, before = ({it["number"]: [it[name] for name in TERMS] for it in mover.requests(f"{top}/requests.jsonl") if it["order"] == "ask"} for top in ("tables", "moved"))
    fields = mover.fields("pages", VENDOR)
    by_lists = [(os.path.dirname(page), what) for page, _, what, _ in mover.table("moved/report.tsv") if "it comes without" in what]
    unknown = [path for path, what in by_lists if "source" in fields[path] and "licence" in what.split(" since ")[1]]
    wanted = before | {os.path.basename(path).lower(): [licence, fields[path]["site"], fields[path]["source"]] for path in unknown}
    same("what is asked for with a licence for all", (len(unknown) > 5, asked), (True, wanted))


def compare_advice(mover):
    """What the report says to do can be done: no folder is named by an owner with a stroke, and no vendor by --also that was named so."""
    pages = {f"{VENDOR}/{at:04x}": owner for at, owner in enumerate(ODD_OWNERS, 0x100)}
    for path, owner in {**pages, "cafe/0001": "A/b", "beef/0001": "A/b"}.items():
        os.makedirs(mover.path(f"odd/{path}"))
        write(mover.path(f"odd/{path}/index.md"), f"---\nlayout: pid\ntitle: Lamp\nowner: {owner}\n---\n")
    os.makedirs(mover.path("odd/org"))
    words = [f"{USERS}/take_pid_codes.py", mover.path("odd"), mover.path("advised"), "--program", mover.usbreg, "--also", "cafe=Cafe"]
    same("moving odd owners", run(words)[::2], (0, b""))
    told = {(page.removesuffix("/index.md"), what.split(" ")[1]): (outcome, to_do) for page, outcome, what, to_do in mover.table("advised/report.tsv")}
    owners = [told[path, "owner"] for path in pages]
    same("what to do about odd owners", [re.findall("org/.*/index.md|name (?:another|the right) owner in the page", it) for _, it in owners], list(ODD_OWNERS.values()))
    same("what to do about vendors", [(outcome, "--also" in it) for outcome, it in (told["cafe/0001", "vendor,"], told["beef/0001", "vendor,"])], [("reserved", False), ("left out", True)])


def change(path, *changes):
    text = content(path).decode("latin-1")
    for old, new in changes:
        same(f"{path} has {old}", old in text, True)
        text = text.replace(old, new)
    write(path, text)


def mend_and_take(mover, made, repository):
    """Mends pages and writes new ones, while others change the registry, and takes what is new over the store that is there."""
    page = {row.case: f"{mover.path('pages')}/{path}" for path, row in made.rows.items()}
    change(page["a colon"], ("Board: x", '"Board: x"'))
    change(page["Latin-1"], ("Z\xe4hler", "Meter\nlicense: MIT\nsource: https://example.org/l"))
    change(page["no owner"], ("layout: pid\n", "layout: pid\nowner: Works0\n"))
    change(page["no licence"], ("layout: pid\n", "layout: pid\nlicense: MIT\n"))
    # what is written below the fields makes no request
    change(page["text below the fields"], ("Text ", "Words "))
    change(page["a word that means yes"], ("title: yes", "title: yes, changed"))
    change(page["a date"], ("owner: Acme_Labs", "owner: Works0"))
    change(page["no site of an organisation"], ("title: None", "title: None\nsite: https://none.example/"))
    made.write(f"{VENDOR}/d0d0/index.md", f"---\nlayout: pid\ntitle: New\nowner: Newcomers\nlicense: CERN-OHL-W-2.0\nsource: {HOME}/new\n---\n".encode())
    made.write("org/Newcomers/index.md", b"---\nlayout: org\ntitle: New\nsite: https://new.example/\n---\n")
    repository.put_rest("Mend pages", CORA)
    change(page["a number"], ("1.10", "1.11"))
    repository.uncommitted.append(made.path("a number"))
    made.paths |= {"d0d0": f"{VENDOR}/d0d0/index.md", "newcomers": "org/Newcomers/index.md"}
    keepers = {name: keeper for _, keeper, name in mover.table("moved/names.tsv")}
    taken = {name: made.number(row) for name, row in ((it, it) for it in ("a sign within a word", "a word that means yes"))}
    terms = {"licence": "MIT", "site": "https://example.org/", "source": "https://example.org/"}
    amends = [{"caller": keepers["Acme_Labs"], "key": f"own-{code}", "order": "amend", "number": code, "title": f"Own {name}", **terms} for name, code in taken.items()]
    apply(mover.usbreg, mover.path("numbers.db"), write_requests(mover.path("own.jsonl"), amends))
    mover.runs(mover.block(NEW), SOME_LEFT_OUT)
    counts = json.loads(content(mover.path("new/counts.json")))["numbers"]
    same("what is new", {it: counts[it] for it in ("granted", "imported", "amended", "returned")}, {"granted": 4, "imported": 0, "amended": 2, "returned": 0})
    lines = {page: what for page, _, what, _ in mover.table("new/report.tsv")}
    said = {name: lines.get(os.path.relpath(page[name], mover.path("pages"))) for name in (*taken, "a date")}
    same("what is said of pages that the registry has otherwise", [said[it][:24] for it in said], ["the registry says otherw", "it has changed, and so h", "its number belongs to ac"])
    before = len(history(mover, "numbers.db").splitlines())
    mover.runs(mover.block(NEW, 1))
    repository.compare_times(made, "".join(history(mover, "numbers.db").splitlines(True)[before:]))
    states = mover.states("numbers.db")
    made.states |= {(VENDOR, int(made.number(it), 16)): "held" for it in ("a colon", "Latin-1", "no owner")} | {(VENDOR, 0xD0D0): "held"}
    same("the states after mending", {it: states.get(it) for it in made.states}, made.states)
    same("the petitions that are open", done([mover.usbreg, "report", copy(mover.path("numbers.db"), mover.path("looked.db")), "petitions"]), b"")


def write_over(mover, made, repository):
    """Writes the pages over the checkout: those that say what the registry says keep their bytes, and nothing else is touched."""
    repository.commit("Mend one more page")
    mover.runs(mover.block(OUT, 1))
    changed = set(repository.git("diff", "--name-only", "-z").strip("\0").split("\0"))
    wanted = {made.path(it) for it in ("a sign within a word", "a word that means yes", "a date", "a colon in the title of an organisation")}
    same("the pages that change", changed, wanted)
    fresh = {f"{it}/index.md" for it in made.kept if it.startswith(("org/Nobody", "org/Twin Works"))}
    same("the pages that are new", set(repository.git("ls-files", "--others", "-z").strip("\0").split("\0")), fresh)
    for name in ("1209/index.html", "org/index.html", made.path("text below the fields"), made.path("other files")):
        same(f"{name} is there", os.path.exists(mover.path(f"pages/{name}")), True)
    # a page whose number says something else keeps what is below its fields, its other fields and its folder
    path = made.path("other fields")
    change(mover.path(f"pages/{path}"), ("title: Device", "title: Gadget"), ("---\n", "---\r\n"))
    mover.runs(mover.block(OUT, 1))
    text = content(mover.path(f"pages/{path}")).decode()
    same("a page that is written over", ("title: Device" in text and "date: 2020-02-02" in text and "{home: there}" in text), True)
    repository.git("checkout", "-q", ".")
    repository.git("clean", "-f", "-d", "-q")


def compare_with_tables(mover):
    """Writes the pages of a registry with each kind of order and a list, and compares them with its tables."""
    usbreg = mover.usbreg
    store = found(usbreg, mover.path("orders.db"))
    apply(usbreg, store, f"{EXAMPLES}/orders.jsonl")
    apply(usbreg, store, write_requests(mover.path("orders.jsonl"), ORDERS))
    for key, vendor in (("i1", "1209"), ("i2", "cafe")):
        listed = write(f"{mover.room}/{key}.ids", LIST.replace("1209", vendor))
        done([usbreg, "import", store, listed, "--caller", "cora", "--key", key, "--org", "lamps", "--vendor", vendor])
    record = write(mover.path("of-orders.jsonl"), done([usbreg, "history", store]).decode())
    done([f"{USERS}/write_pages.py", record, mover.path("of-orders")])
    wanted = {}
    with opened(copy(store, mover.path("looked.db"))) as tables:
        for slug, title, site in tables.execute("SELECT slug, title, site FROM orgs"):
            wanted[f"org/{slug}"] = {"layout": "org", "title": title, "site": site}
        for vid, pid, *values in tables.execute("SELECT vid, pid, title, org, licence, site, source FROM entries3 WHERE held"):
            fields = dict(zip(("layout", "title", "owner", "license", "site", "source"), ("pid", *values)))
            wanted[f"{vid:04x}/{pid:04x}"] = {name: value for name, value in fields.items() if value is not None}
    same("the pages of each kind of order", pages_in(mover.path("of-orders")), wanted)
    # a record whose list had another reply is none
    wrong = content(record).replace(b"imported fresh ", b"imported fresh 1")
    status, _, errors = run([f"{USERS}/write_pages.py", "-", mover.path("none")], wrong)
    same("pages of a wrong record", (status, b"is not the next one of a record" in errors, os.path.exists(mover.path("none"))), (1, True, False))


def main():
    words = [it for it in sys.argv[1:] if it != "--all"]
    usbreg, entries = program(*words[:1]), int(words[1]) if len(words) > 1 else 200
    if not os.path.exists(PYTHON) or run([PYTHON, "-c", "import yaml"])[0] or not shutil.which("git"):
        print("SKIPPED: no repository of pages was moved: python3-yaml or git is not installed")
        return
    began = time.monotonic()
    with folder() as room:
        mover = Mover(usbreg, room)
        made = MadeUp(f"{room}/pages", entries)
        repository = Repository(mover, "pages")
        give_histories(repository, made)
        counts = move_in(mover, made)
        repository.compare(made)
        repository.compare_times(made, history(mover, "numbers.db"))
        carry_times(mover)
        ask_for_any(mover, made)
        differing = move_out_and_in(mover, made, counts)
        take_with_tables(mover, made)
        mend_and_take(mover, made, repository)
        write_over(mover, made, repository)
        commits = commit_each_request(mover, made, MANY if "--all" in sys.argv else 20)
        said = say_a_branch(mover, made, repository)
        compare_with_tables(mover)
        compare_advice(mover)
    print(
        f"docs/moving.md: {counts['numbers']['pages']} pages moved in, out and in again, {differing} fields that differ are named, "
        f"{commits} commits, {said} requests of a branch, in {time.monotonic() - began:.0f} s"
    )


if __name__ == "__main__":
    main()
