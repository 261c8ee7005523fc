#!/usr/bin/python3
"""Writes a commit for each request of a record that changes a page, over a checkout of pages in the layout of pid.codes, and goes on
where the last such commit ended.

Usage: commit_pages.py RECORD CHECKOUT [MOVED] [--start]. RECORD is what `usbreg history` prints, or - for the standard input. CHECKOUT is a clone
that nobody else changes: what is not committed in it gets lost. MOVED is the folder of the move to `usbreg`, or its table names.tsv.
USBREG names the program, which reads the links in these pages, by default `usbreg`. With --start a checkout that has no such commit yet
gets one for all that is in the record, and from then on one for each request; without it, also for those.

The caller of a request is the author of its commit, with an address at a host that does not exist, and its time that of the commit. If
it has none, that is the time of the run. The commits come all at once or not at all: run it again after a stop. The exit status is 0 if
the checkout says what the record says."""

import calendar
import glob
import os
import re
import subprocess
import sys
import time

from page_history import HOST
from page_text import yaml
from read_record import lines_of
from site_pages import Names, Site

DONE = "Registry-Request"


def git(top, *words, **given):
    ran = subprocess.run(["git", "-C", top, *words], capture_output=True, check=False, **given)
    if ran.returncode:
        sys.exit(f"git {words[0]} in {top} ended with status {ran.returncode}: {ran.stderr.decode(errors='replace')}")
    return ran.stdout.decode(errors="replace").strip()


def unlock(top):
    """Removes the locks that a stopped run left in a clone."""
    where = git(top, "rev-parse", "--absolute-git-dir")
    for it in (*glob.glob(f"{where}/*.lock"), *glob.glob(f"{where}/refs/heads/**/*.lock", recursive=True)):
        os.remove(it)


def requests_done(top):
    """Returns the number of the last request that has a commit, or 0."""
    said = re.findall(rf"^{DONE}: (\d+)$", git(top, "log", "-1", f"--grep=^{DONE}: ", "--format=%B"), re.MULTILINE)
    return int(said[-1]) if said else 0


def seconds_of(line):
    """Returns the time of a request, if its line has one, and else the time of now. A registry takes days that their months do not
    have, which are counted on from the last one, and years before 1970, which Git does not."""
    if not line.get("at"):
        return int(time.time())
    parts = [int(it) for it in re.findall(r"\d+", line["at"])]
    return calendar.timegm(parts) if parts[0] >= 1970 else 0


def data_of(data):
    return b"data %d\n%s\n" % (len(data), data)


def commit_of(line, at, branch, start, changes):
    """Returns a commit in the form that `git fast-import` reads."""
    person = f"{line['caller']} <{line['caller']}@{HOST}> {seconds_of(line)} +0000"
    text = f"{line['done']}\n\n{DONE}: {at}\nRegistry-Key: {line['key']}\n"
    head = f"commit {branch}\nauthor {person}\ncommitter {person}\n".encode() + data_of(text.encode())
    if start:
        head += f"from {start}\n".encode()
    return head + b"".join(change_of(path, data) for path, data in changes)


def change_of(path, data):
    quoted = '"' + path.replace("\\", "\\\\").replace('"', '\\"') + '"'
    return f"D {quoted}\n".encode() if data is None else f"M 100644 inline {quoted}\n".encode() + data_of(data)


def stream(record, top, names, program, at_once):
    """Yields the commits of the requests that have none yet."""
    done, branch, start, site, at = requests_done(top), git(top, "symbolic-ref", "HEAD"), git(top, "rev-parse", "HEAD"), None, 0
    at_once = at_once and not done
    for _, line, registry, subjects in lines_of(record):
        site = site or Site(top, registry.vendor, names, program)
        at += "order" in line
        if at > done and "order" in line and not at_once and (changes := list(site.changes(registry, subjects))):
            yield commit_of(line, at, branch, start, changes)
            start = None
    if at < done:
        sys.exit(f"the record has {at} requests, and {top} has a commit of request {done}")
    if at_once and at:
        line = {"caller": "usbreg", "done": "what was before", "key": line["key"]}
        yield commit_of(line, at, branch, start, list(site.changes(registry, [*registry.orgs, *sorted(registry.entries)])))


def main():
    words = [it for it in sys.argv[1:] if it != "--start"]
    if len(words) not in (2, 3):
        sys.exit(__doc__)
    record, top = words[:2]
    yaml()
    unlock(top)
    git(top, "reset", "-q", "--hard")
    with open(0 if record == "-" else record, encoding="utf-8") as file:
        commits = list(stream(file, top, Names(*words[2:]), os.environ.get("USBREG", "usbreg"), "--start" in sys.argv))
    if commits:
        git(top, "fast-import", "--quiet", "--done", input=b"".join([*commits, b"done\n"]))
        git(top, "reset", "-q", "--hard")
    print(f"{len(commits)} commits")


if __name__ == "__main__":
    main()
