#!/usr/bin/env python3
"""Runs what the pages show as it is written: the tour of README.md, the examples of docs/http.md, the request lines of
docs/requests.md, which get the replies in its table, and the example in the help of each command. The commands begin in a
new folder that has `examples/` of the repository, and run in order, in one shell.

Each link of a page leads to a file of the repository, and to a heading there. Each command of a page must print what the page shows below it, and end with status 0 if that is no fault and no failed check. Of a run that
`head` stops the fault may be missing, as the page says. Each line of a help must end with status 0, and print nothing on its
standard error. A server gets a free port, and is waited for.

Usage: scripts/run_page_examples.py [PROGRAM [README]], by default the program that `make` builds, and the README of the
repository. What a page needs and is not installed is said, and the page is skipped. The exit status is 0 if all ran."""

import glob
import json
import os
import shutil
import sys

from lib.pages import Shell, blocks, broken_links, orders, page, section, shown
from lib.usbreg import TOP, content, done, folder, program, run, same

# The programs that a page needs beside `usbreg`.
NEEDED = {"README.md": ("curl", "sqlite3"), "docs/http.md": ("curl",)}
# `usbreg serve` does not end, and a log needs etcd, so the examples in the help leave these out.
LEFT_OUT = ("usbreg serve ", "usbreg share ", "usbreg replay other.db --log ")
STOPPED = "fault: file\n"


def is_shown(words, status, output, wanted):
    """Whether a command did what the page shows."""
    if "| head " in words:
        output, wanted = (it.removesuffix(STOPPED) for it in (output, wanted))
    return output == wanted and (status == 0) == (not any(it in output for it in ("fault: ", "no fresh number")))


def run_page(usbreg, name, text):
    """Runs the commands of a page in order, and returns how many there were."""
    count = 0
    with folder() as room, Shell(usbreg, room) as shell:
        for words, wanted in shown(text):
            status, output = shell.run(words)
            if not is_shown(words, status, output, wanted):
                sys.exit(f"{name}: {words}status {status}, printed\n{output}where it shows\n{wanted}")
            count += 1
    if not count:
        sys.exit(f"{name}: there is no command")
    return count


def run_requests(usbreg):
    """Acts on the request lines below the table of orders in docs/requests.md, and returns how many there are. Each is
    accepted, each order of the table is there, and so is each reply."""
    table = [(order, reply) for order, _, reply in orders()]
    lines = blocks(page("docs/requests.md"), "")[0]
    status, said, errors = run([usbreg, "trial"], lines.encode())
    same("the status of the requests in docs/requests.md", (status, errors), (0, b""))
    given, replies = ([json.loads(it).get(name) for it in those.splitlines()] for name, those in (("order", lines), ("done", said.decode())))
    same("the orders of docs/requests.md", set(given), {order for order, _ in table})
    same("the replies of docs/requests.md", [it for it in table if it not in zip(given, replies)], [])
    same("requests of docs/requests.md that are refused", replies.count(None), 0)
    return len(given)


def run_helps(usbreg):
    """Runs the example in the help of each command, and returns how many lines these have."""
    count = 0
    for command in section(done([usbreg, "--help"]).decode(), "Commands"):
        if command == "help":
            continue
        example = done([usbreg, command, "--help"]).decode().partition("\nExample:\n")[2]
        lines = [it.strip() for it in example.splitlines() if it.startswith("  ")]
        if not any(it.startswith(f"usbreg {command} ") for it in lines):
            sys.exit(f"usbreg {command} --help: there is no example of it in {lines}")
        with folder() as room, Shell(usbreg, room) as shell:
            for line in lines:
                if not line.startswith(LEFT_OUT) and (ended := shell.run(f"{{ {line}; }} > /dev/null")) != (0, ""):
                    sys.exit(f"usbreg {command} --help: {line}: {ended}")
            count += len(lines)
    return count


def main():
    usbreg = program(*sys.argv[1:2])
    pages = ["README.md", "CONTRIBUTING.md", "CHANGELOG.md", *(os.path.relpath(it, TOP) for it in glob.glob(f"{TOP}/docs/*.md"))]
    same("links that lead nowhere", list(broken_links(pages)), [])
    readme = content(sys.argv[2]).decode() if len(sys.argv) > 2 else page("README.md")
    for name, text in (("README.md", readme.partition("\n## A tour\n")[2]), ("docs/http.md", page("docs/http.md"))):
        if lacking := [it for it in NEEDED[name] if not shutil.which(it)]:
            print(f"SKIPPED: not installed: {', '.join(lacking)}; so the commands of {name} were not run")
        else:
            print(f"{name}: {run_page(usbreg, name, text)} commands ran as they are written")
    print(f"docs/requests.md: {run_requests(usbreg)} requests get the replies of the table")
    print(f"the helps of the commands: {run_helps(usbreg)} lines ran as they are written")


if __name__ == "__main__":
    main()
