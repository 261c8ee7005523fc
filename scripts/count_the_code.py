#!/usr/bin/env python3
"""Counts what makes a change of the code long: the enums and structs for how a call ended, the arms that only pass such a value on
or convert it, by crate, the files that name one order or one column, by part of the repository, the names that specs define
twice, the lines of proof for each line of code, the crates, and the lines of the page of contracts. Not part of the gate: a
change of structure shows what it gains by it, before and after.

Usage: scripts/count_the_code.py [FOLDER] [--order NAME] [--column NAME] [--list], by default this repository, `revoke` and
`keeper`. With --list it also names what it counted."""

import argparse
import collections
import re
import subprocess
from pathlib import Path

# A type that stands as the error of a result, wherever a signature names it.
ERROR = re.compile(r"Result<(?:[^<>]|<(?:[^<>]|<(?:[^<>]|<[^<>]*>)*>)*>)*,\s*(?:\()?(?:crate::\w+::)?([A-Z]\w+)")
ENUM = re.compile(r"^(?:pub(?:\(crate\))? )?(enum|struct) (\w+)", re.M)
# An arm whose pattern is an error or a variant, and whose body is another error or variant with at most the same names in it.
PATTERN = r"(?:Err\((?:\w+(?:::\w+)*|_)(?:\((?:\w+|_)\))?\)|\w+::\w+(?:\((?:\w+|_)\))?(?: \{ [\w, :]+ \})?)"
BODY = r"(?:return )?(?:Err\()?(?:\w+::)+\w+(?:\((?:\w+)?\))?\)?|(?:return )?Err\(\w+(?:\((?:\w+)\))?\)"
ARM = re.compile(rf"^\s*(?:{PATTERN}(?: \| {PATTERN})*) => (?:{BODY}),?$", re.M)
# A definition in specs/: an abbreviation or a record, also in a module, or another one at the margin, but no field of a record.
DECLARED = re.compile(r"^(?: *(?:(?:abbrev|unfoldable) pub|pub (?:abbrev|data|record|unfoldable)) |pub (?!mod |use |abbrev |data |record |unfoldable ))([\w-]+)", re.M)
# The parts of the repository in which files are counted.
PARTS = ("src", "specs", "proofs", "tests", "mutants", "cases and examples", "web", "scripts", "pages", "others")
PART_OF = {"bench": "scripts", "contrib": "scripts", "cases": "cases and examples", "examples": "cases and examples", "docs": "pages", "man": "pages"} | {it: it for it in PARTS}
# The crates of tests.
TESTS = re.compile(r"_tests$|^example_|^row_|^store_visits$|_bench$")


def sources(top, folder):
    """Yields each file of a folder of the crates of the product with its text, without those of tests."""
    for crate in sorted(Path(top, "crates").iterdir()):
        if not TESTS.search(crate.name):
            for path in sorted(Path(crate, folder).rglob("*")):
                if path.suffix in (".rt", ".antt"):
                    yield path, path.read_text("utf-8")


def ends(top):
    """Returns the types that stand as an error in a result, and that the repository defines: each name with its kind."""
    defined = {name: kind for _, text in sources(top, "src") for kind, name in ENUM.findall(text)}
    named = {name for _, text in sources(top, "src") for name in ERROR.findall(text)}
    return sorted((defined[name], name) for name in defined.keys() & named)


def arms(top):
    """Returns the arms that only pass on or rename, by crate."""
    found = collections.defaultdict(list)
    for path, text in sources(top, "src"):
        for arm in ARM.findall(text):
            found[path.relative_to(top).parts[1]].append(f"{path.relative_to(top)}: {arm.strip()}")
    return found


def naming(top, pattern):
    """Returns the files that git has and in which something fits this pattern."""
    found = ["git", "-C", top, "grep", "-lE", pattern]
    return subprocess.run(found, stdout=subprocess.PIPE, text=True, check=False).stdout.split()


def order_named(name):
    """Returns what names an order: its name, also as that of a type or a function, or as a part of these."""
    words = re.split("[-_]", name)
    return "|".join({name, "_".join(words), "".join(it.capitalize() for it in words)})


def part_of(path):
    """Returns the part of the repository to which a file belongs."""
    top, *rest = path.split("/")
    if top == "crates":
        part = "tests" if TESTS.search(rest[0]) else rest[1]
        return "mutants" if "must-fail" in rest else part if part in PARTS else "others"
    return PART_OF.get(top, "pages" if path.endswith(".md") else "others")


def told(files):
    """Returns how many files there are, and how many of them in each part."""
    parts = collections.Counter(map(part_of, files))
    return f"{len(files)}: " + ", ".join(f"{it} {parts[it]}" for it in PARTS if parts[it])


def doubled(top):
    """Returns the names that more than one file in specs/ defines."""
    files = collections.defaultdict(set)
    for path, text in sources(top, "specs"):
        for name in DECLARED.findall(text):
            files[name].add(path)
    return sorted(name for name, where in files.items() if len(where) > 1)


def lines(top, folder, crate):
    """Returns the number of lines of a folder of a crate."""
    return sum(it.read_text("utf-8").count("\n") for it in Path(top, "crates", crate, folder).rglob("*") if it.suffix in (".rt", ".antt"))


def main():
    options = argparse.ArgumentParser(usage=__doc__)
    options.add_argument("folder", nargs="?", default=str(Path(__file__).resolve().parent.parent))
    options.add_argument("--order", default="revoke")
    options.add_argument("--column", default="keeper")
    options.add_argument("--list", action="store_true")
    given = options.parse_args()
    top = given.folder
    types, passed, twice = ends(top), arms(top), doubled(top)
    kinds = collections.Counter(kind for kind, _ in types)
    crates = sorted(it.name for it in Path(top, "crates").iterdir())
    print(f"types for how a call ended: {len(types)}, of which {kinds['enum']} enums and {kinds['struct']} structs")
    print(f"arms that only pass on or convert: {sum(map(len, passed.values()))}: " + ", ".join(f"{crate} {len(found)}" for crate, found in sorted(passed.items(), key=lambda it: -len(it[1]))))
    named = {f"the order {given.order}": naming(top, order_named(given.order)), f"the column {given.column}": naming(top, rf"\b{given.column}\b")}
    for what, files in named.items():
        print(f"files that name {what}: {told(files)}")
    print(f"names that specs define twice: {len(twice)}")
    print("lines of proof for each line of code: " + ", ".join(f"{it} {lines(top, 'proofs', it) / max(1, lines(top, 'src', it)):.1f}" for it in crates if lines(top, "proofs", it) > 300))
    print(f"crates: {len(crates)}")
    print(f"lines of docs/contracts.md: {Path(top, 'docs/contracts.md').read_text('utf-8').count(chr(10))}")
    if given.list:
        for what, those in (("types", [f"{kind} {name}" for kind, name in types]), ("arms", [it for found in passed.values() for it in found]), *named.items(), ("names twice", twice)):
            print("\n".join(["", f"{what}:", *those]))


if __name__ == "__main__":
    main()
