#!/usr/bin/env python3
"""Makes docs/index.md: each definition in `specs/`, with the first sentence of its comment if it has one.

Usage: scripts/index_definitions.py [--write]. Without the option it writes nothing, and the exit status is 0 if the page is
what it would write, and if no two files define one name. A definition is `abbrev pub NAME`, `unfoldable pub NAME`,
`pub record NAME`, `pub data NAME` or, at the start of a line, `pub NAME`. Its comment stands right above it, and that of a
file is its first lines."""

import collections
import glob
import re
import sys

from lib.usbreg import TOP, content, write

PAGE = f"{TOP}/docs/index.md"
DEFINITION = re.compile(r" *(?:(?:abbrev|unfoldable) pub|pub (?:record|data)) (\S+)|pub (?!mod )(\S+)")
COMMENT = re.compile(r" *-- ?(.*)")
HEAD = """# The definitions, by crate and file

`scripts/index_definitions.py --write` makes this page of the comments in `specs/`, and `make test` compares the two. Each
line gives a definition and the first sentence of its comment; the file has the definition and the rest of the comment.
[definitions.md](definitions.md) has the main ones, in the order in which a newcomer should meet them.
"""


def first_sentence(lines):
    """Returns the first sentence of a comment, without its full stop."""
    return re.split(r"\.(?= [A-Z])|\.$", " ".join(" ".join(lines).split()))[0]


def comment_above(lines, at):
    """Returns the lines of the comment that ends right above a line."""
    begin = at
    while begin and COMMENT.fullmatch(lines[begin - 1]):
        begin -= 1
    return [COMMENT.fullmatch(line)[1] for line in lines[begin:at]]


def definitions(lines):
    """Yields the name of each definition, and the first sentence of its comment."""
    for at, line in enumerate(lines):
        named = DEFINITION.match(line)
        if named:
            yield named[1] or named[2], first_sentence(comment_above(lines, at))


def opening(lines):
    """Returns the first sentence of the comment that opens a file, if it has one."""
    end = next((at for at, line in enumerate(lines) if not COMMENT.fullmatch(line)), len(lines))
    return first_sentence(comment_above(lines, end))


def crates():
    """Returns the names of the crates, the lowest first."""
    return re.findall(r"^(\w+):", content(f"{TOP}/crates.txt").decode(), re.MULTILINE)


def page():
    parts = [HEAD]
    for crate in crates():
        for path in sorted(glob.glob(f"{TOP}/crates/{crate}/specs/**/*.antt", recursive=True)):
            lines = content(path).decode().split("\n")
            found = [f"- `{name}`: {said}\n" if said else f"- `{name}`\n" for name, said in definitions(lines)]
            if found:
                parts += [f"\n## `{path.removeprefix(f'{TOP}/crates/')}`\n\n", f"{opening(lines)}.\n\n", *found]
    return "".join(parts)


def doubled(text):
    """Returns the names that more than one file defines, by what the page says, without operators."""
    files = [set(re.findall(r"^- `([\w-]+)`", it, re.MULTILINE)) for it in text.split("\n## ")]
    return sorted(name for name, count in collections.Counter(it for names in files for it in names).items() if count > 1)


def main():
    text = page()
    if sys.argv[1:] == ["--write"]:
        write(PAGE, text)
        return
    if content(PAGE).decode() != text:
        sys.exit("docs/index.md is not that of the comments in specs/; scripts/index_definitions.py --write makes it")
    if doubled(text):
        sys.exit(f"more than one file in specs/ defines {', '.join(doubled(text))}")


if __name__ == "__main__":
    main()
