#!/usr/bin/env python3
"""Compares man/usbreg.1 with the help of `usbreg`.

The page must have exactly the version and the commands of `usbreg --help`, and for each command the usage lines, the
arguments and the options with their values of its own help. Its forms of requests must be those of docs/requests.md,
and its requests, their replies and its founding file those of the examples. `usbreg --version` must name the logic of
the kit.

Usage: scripts/compare_man_page.py [PROGRAM [PAGE]], by default the program that `make` builds, and man/usbreg.1.
The exit status is 0 if they agree.
"""

import re
import shutil
import sys

from lib.pages import orders, section
from lib.usbreg import EXAMPLES, TOP, content, done, program, run

# What each command's help has, and the page has once.
COMMON = {"-h, --help", "--verbose", "-V, --version"}


def help_of_command(usbreg, command):
    """Returns its usage lines, and its arguments and options. The page has STORE for the help's <STORE>, RECORD for an
    argument [RECORD], and usbreg for the name of the file that was run."""
    text = re.sub(r"<(\w+)>|(?<=^  )\[(\w+)\]", r"\1\2", done([usbreg, command, "--help"]).decode(), flags=re.MULTILINE)
    usages = re.search(r"^Usage: (.*(?:\n {7}.*)*)", text, re.MULTILINE)[1].splitlines()
    usages = [re.sub(r"^\S+", "usbreg", it.strip()) for it in usages]
    return usages, {*section(text, "Arguments"), *section(text, "Options")} - COMMON


def helped(usbreg):
    """Returns the help of each command, and of the program under no name."""
    whole = done([usbreg, "--help"]).decode()
    told = {"": ([], COMMON | set(section(whole, "Options")))}
    for command in section(whole, "Commands"):
        told[command] = (["usbreg help [COMMAND]"], set()) if command == "help" else help_of_command(usbreg, command)
    return told


def plain(line):
    """Returns a line of roff without its macro, its quotes and its escapes."""
    return re.sub(r"^\.\w+ ", "", line).replace('"', "").replace("\\-", "-").replace("  ", " ").strip()


def documented(page):
    """Returns the same for the man page: a command is a heading for each usage, and an argument or option a tag below them."""
    told, command = {}, None
    lines = page.splitlines()
    for line, below in zip(lines, lines[1:]):
        if line.startswith(".SS "):
            command = plain(line).split()[1]
            told.setdefault(command, ([], set()))[0].append(plain(line))
        elif line.startswith(".SH "):
            command = "" if line == ".SH OPTIONS" else None
            if command == "":
                told[command] = ([], set())
        elif line == ".TP" and command is not None:
            told[command][1].add(plain(below).replace(" ,", ","))
    return told


def blocks(page):
    """Returns the texts that the page shows as they are."""
    return [it.replace("\\-", "-") for it in re.findall(r"^\.nf\n\.RS\n(.*?)^\.RE\n\.fi$", page, re.MULTILINE | re.DOTALL)]


def forms():
    """Returns the fields of each order in the first table of docs/requests.md, as the page shows them."""
    told = "".join(f"{order:<12} {fields}\n" for order, fields, _ in orders())
    return re.sub(r"(\w+)[?]", r"[\1]", told)


def main():
    usbreg = program(*sys.argv[1:2])
    page = content(sys.argv[2] if len(sys.argv) > 2 else f"{TOP}/man/usbreg.1").decode()
    version = done([usbreg, "--version"]).decode().strip()
    if f'"{" ".join(version.split()[:2])}"' not in page:
        sys.exit(f"the page is not of the version {version}")
    logic = version[version.rindex("logic") :].rstrip(")")
    if shutil.which("rt") and logic not in done(["rt", "version"]).decode():
        sys.exit(f"the program names another {logic} than `rt version`")
    wanted, there = helped(usbreg), documented(page)
    for command in [*wanted, *there]:
        if wanted.get(command) != there.get(command):
            sys.exit(f"usbreg {command}: the page has {there.get(command)}, the help {wanted.get(command)}")
    first = content(f"{EXAMPLES}/first.jsonl")
    for shown in (forms(), first.decode(), run([usbreg, "trial"], first)[1].decode(), content(f"{EXAMPLES}/founding.toml").decode()):
        if shown not in blocks(page):
            sys.exit(f"the page does not show\n{shown}")
    print(f"the man page has the version, the {len(wanted) - 1} commands, and their arguments and options")


if __name__ == "__main__":
    main()
