"""The commands of docs/moving.md, run as they are written in a folder that has the program and the scripts, and what they write."""

import json
import os
import re
import subprocess
import sys

from lib.made_up_pages import VENDOR
from lib.pages import block
from lib.usbreg import TOP, content, copy, opened, run, same

PAGE = "docs/moving.md"
PYTHON = "/usr/bin/python3"
# Prints the fields of each page below some folders as the library reads them, by path, or nothing if it cannot.
READER = """
import json, os, re, sys, yaml
pages = {}
for top in sys.argv[2:]:
    for where, _, files in os.walk(f"{sys.argv[1]}/{top}"):
        if "index.md" in files:
            path = os.path.relpath(where, sys.argv[1])
            try:
                text = open(f"{where}/index.md", "rb").read().decode("utf-8-sig")
                node = yaml.compose(re.match(r"---\\s*\\n(.*?)^(?:---|\\.\\.\\.)", text, re.DOTALL | re.MULTILINE)[1], yaml.BaseLoader)
                values = {name.value: value.value for name, value in node.value if name.value in ("title", "owner", "license", "site", "source")}
                pages[path] = {name: value if isinstance(value, str) else ", ".join(it.value for it in value) for name, value in values.items()}
            except Exception:
                pages[path] = None
print(json.dumps(pages))
"""
ROWS = "SELECT vid, pid, title, org, licence, site, source FROM entries3 WHERE held ORDER BY vid, pid", "SELECT slug, title, site FROM orgs ORDER BY slug", "SELECT name FROM licences ORDER BY name"


class Mover:
    """A folder in which the commands of the page run, as at the top of a checkout."""

    def __init__(self, usbreg, room):
        self.room, self.usbreg = room, usbreg
        os.mkdir(f"{room}/bin")
        os.symlink(usbreg, f"{room}/bin/usbreg")
        os.symlink(f"{TOP}/scripts", f"{room}/scripts")
        self.env = {**os.environ, "PATH": f"{room}/bin:{os.environ['PATH']}", "USBREG": "usbreg", "GIT_CONFIG_GLOBAL": "/dev/null", "GIT_CONFIG_SYSTEM": "/dev/null"}
        # a machine in another zone than UTC
        self.env["TZ"] = "HERE-5:30"

    def runs(self, commands, status=0, said=(), **names):
        """Returns the output of commands, in which words are replaced by others. What they print besides has all that is `said`."""
        for name, other in names.items():
            commands = re.sub(rf"\b{name}\b", other, commands)
        ran = subprocess.run(["sh", "-ec", commands], cwd=self.room, env=self.env, capture_output=True, check=False, timeout=1200)
        if ran.returncode != status or not all(it in ran.stderr for it in said) or (ran.stderr and not said):
            sys.exit(f"{commands}\nended with status {ran.returncode}: {ran.stdout!r} {ran.stderr.decode()}")
        return ran.stdout.decode()

    def block(self, title, at=0):
        """Returns the commands below a title of the page."""
        return block(title, at, [PAGE])

    def path(self, name):
        return f"{self.room}/{name}"

    def table(self, name):
        """Returns the rows of a table below its heading."""
        return [line.split("\t") for line in content(self.path(name)).decode().splitlines()][1:]

    def requests(self, name):
        return [json.loads(it) for it in content(self.path(name)).decode().splitlines()]

    def rows(self, store):
        with opened(copy(self.path(store), self.path("looked.db"))) as tables:
            return [tables.execute(it).fetchall() for it in ROWS]

    def states(self, store):
        """Returns the state of each number that is not free, by its vendor and itself."""
        status, said, _ = run([self.usbreg, "report", copy(self.path(store), self.path("looked.db")), "numbers"])
        same("the report of numbers", status, 0)
        return {(line[:4], int(line[6:10], 16)): line[12:20].strip() for line in said.decode().splitlines()}

    def fields(self, top, *folders):
        status, said, errors = run([PYTHON, "-c", READER, self.path(top), *folders])
        same(f"reading the pages in {top}: {errors!r}", status, 0)
        return json.loads(said)


def pages_in(top):
    """Returns the fields of each page that was written, by folder. A value is plain, or a text of JSON."""
    pages = {}
    for where, _, files in os.walk(top):
        for name in files:
            lines = content(f"{where}/{name}").decode().split("\n")
            same(f"{where}: lines of hyphens", (name, lines[0], lines[-2:]), ("index.md", "---", ["---", ""]))
            pairs = (line.split(": ", 1) for line in lines[1:-2])
            pages[os.path.relpath(where, top)] = {field: json.loads(value) if value.startswith('"') else value for field, value in pairs}
    return pages


def compare_report(made, mover, name):
    """Compares a report with what is to be told of each page: each line has its outcome and a part of it, and there are no others."""
    lines = {}
    for page, outcome, what, to_do in mover.table(name):
        owner = page if page in made.becomes or page in made.told else next((it for it in made.becomes if it.startswith(f"{page}/")), page)
        lines.setdefault(owner, []).append((outcome, what))
        if not to_do.endswith("."):
            sys.exit(f"{name}: {page}: {what}: there is nothing to do")
        if re.search("[\x00-\x08\x0b-\x1f\x7f-\x9f\u202a-\u202e\u2066-\u2069]", page + what):
            sys.exit(f"{name}: {page}: {what!r} controls a terminal")
    same("pages that are reported and are not to be, or the other way round", sorted(set(lines) ^ set(made.told)), [])
    for page, told in made.told.items():
        if len(lines[page]) != len(told) or not all(any(outcome == of and it in what for of, what in lines[page]) for outcome, it in told):
            sys.exit(f"{name}: {page}: {lines[page]}, where {told} is to be told")


def compare_fields(mover, pages, site, report):
    """Compares the fields of pages with those of the same pages afterwards: the report has to name each that differs."""
    before, after = (mover.fields(it, VENDOR, "org") for it in (pages, site))
    told = {}
    for page, _, what, _ in mover.table(report):
        told[page.removesuffix("/index.md")] = told.get(page.removesuffix("/index.md"), "") + what
    words = {"license": "licence", "owner": "owner", "title": "title", "site": "site", "source": "source"}
    count = 0
    for path, fields in before.items():
        kept = after.get(path)
        if kept is None or fields is None:
            same(f"{path} is not there afterwards or was not read, and the report has it", any(it in told for it in (path, os.path.dirname(path))), True)
            continue
        for name in words:
            was, now = fields.get(name), kept.get(name)
            # a value that is nothing is none
            if was != now and not (now is None and was == "~"):
                count += 1
                same(f"{path}: {name} was {was!r} and is {now!r}, and the report says {told.get(path)}", words[name] in told.get(path, ""), True)
    return count
