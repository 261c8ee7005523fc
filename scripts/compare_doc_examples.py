#!/usr/bin/env python3
"""Compares the examples in the docstrings of the crates and in the pages with the code that runs them, since Rattle has no
doc tests.

An example of a docstring is a ``` block below `# Examples`. A file of a tests crate has the same lines, one after the
other and all indented by the same, so the example runs there. An example of a page is a ```rust block. The page names the
file that has these lines, as code or in a docstring, below the block or just above it, with the functions in which they
stand or run; each file that it names is there and has each function that is named just before it.

Usage: scripts/compare_doc_examples.py. The status is 0 where this holds for each example, and there are at least 4 of
docstrings and 4 of pages."""

import glob
import itertools
import os
import re
import sys
import textwrap

from lib.usbreg import TOP, content

LEAST = 4
FENCE = "```"


def lines_of(path):
    return content(path).decode().splitlines()


def docstring(line):
    """The text of a line of a docstring, and None of any other line."""
    there = re.fullmatch(r"\s*///(?: (.*))?", line)
    return there and (there[1] or "")


def examples(lines):
    """Each example: the number of the line that opens it, and its lines. The end of the docstring closes it too."""
    below, block = False, None
    for number, line in enumerate([*lines, ""], 1):
        text = docstring(line)
        if block and text in (None, FENCE):
            yield block
            block = None
        elif block:
            block[1].append(text)
        elif below and text and text.startswith(FENCE):
            block = (number, [])
        if text is None or not block and text.startswith("# "):
            below = text == "# Examples"


def stands_in(example, lines):
    """Whether the file has the lines of the example, one after the other and all indented by the same."""
    wanted, count = "\n".join(example), len(example)
    return any(textwrap.dedent("\n".join(lines[at:at + count])) == wanted for at in range(len(lines)))


def pages():
    """Each example of a page: the page, the number of its line, its lines, and the paragraphs above and below it."""
    for path in sorted(glob.glob(f"{TOP}/docs/*.md")):
        lines = lines_of(path)
        for number in [at for at, line in enumerate(lines) if line == f"{FENCE}rust"]:
            end = lines.index(FENCE, number)
            below = itertools.takewhile(bool, lines[end + 2:])
            above = itertools.takewhile(bool, reversed(lines[: number - 1]))
            yield path, number + 1, lines[number + 1 : end], " ".join([*reversed(list(above)), *below])


def defines(path, name):
    """Whether a file of Rattle has a function or a struct of this name."""
    return re.search(rf"\b(fn|struct) {name}\b", content(path).decode())


def wrong_in_page(example, text):
    """Returns what is wrong with an example of a page, whose paragraphs name files, and functions in them."""
    named = [(name, f"{TOP}/{path}") for name, path in re.findall(r"(?:`(\w+)` in )?`(crates/[\w/]+\.rt)`", text)]
    named += [(name, f"{TOP}/crates/{crate}/src/examples.rt") for name, crate in re.findall(r"`(\w+)` of `(\w+_tests)`", text)]
    for name, path in named:
        if not os.path.exists(path) or name and not defines(path, name):
            return f"there is no {name or 'file'} in {os.path.relpath(path, TOP)}"
    sources = [lines_of(path) for _, path in named]
    sources += [[docstring(line) or "" for line in lines] for lines in sources]
    wanted = textwrap.dedent("\n".join(example)).split("\n")
    return None if any(stands_in(wanted, lines) for lines in sources) else "no file that it names has its lines"


def main():
    tests = [lines_of(it) for it in sorted(glob.glob(f"{TOP}/crates/*_tests/src/*.rt"))]
    count, failed = 0, []
    for path in sorted(glob.glob(f"{TOP}/crates/*/src/*.rt")):
        for number, example in examples(lines_of(path)):
            count += 1
            if not example or not any(stands_in(example, lines) for lines in tests):
                failed.append(f"{path.removeprefix(f'{TOP}/')}:{number}: no test has the lines of this example")
    if count < LEAST:
        failed.append(f"the docstrings have {count} examples, and should have {LEAST} or more")
    shown = 0
    for path, number, example, text in pages():
        shown += 1
        if wrong := wrong_in_page(example, text):
            failed.append(f"{path.removeprefix(f'{TOP}/')}:{number}: {wrong}")
    if shown < LEAST:
        failed.append(f"the pages have {shown} examples, and should have {LEAST} or more")
    for line in failed:
        print(f"FAILED: {line}")
    if not failed:
        print(f"the tests have the lines of the {count} examples in the docstrings, and the files those of the {shown} in the pages")
    return 1 if failed else 0


if __name__ == "__main__":
    sys.exit(main())
