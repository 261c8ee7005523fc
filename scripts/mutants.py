#!/usr/bin/env python3
"""Tries the wrong bodies mutants/NAME/*.edit of each crate, as many in one check as possible.

`rt ci` tries those of crates/NAME/must-fail/, one by one. A file has the same form in both places: a line
`file: src/x.rt`, then pairs `old: TEXT` and `new: TEXT`, one line each; the old text stands in that file exactly once.
A wrong body breaks goals of its own function alone, since all others see only its contract. So bodies of different
functions go into one check, and each counts as refused if a goal of its function fails. A call of an unproved function
does not count, nor does a proof that names what the edit removed. An edit outside of functions, for example of a
constant, goes alone and is judged by the functions that name what it changes. An edit is bad if its text is gone, if it
changes a contract, or if the compiler or the borrow checker refuses its form; the others are tried again without it.
What is not refused beside others is tried again alone.

Usage: scripts/mutants.py [--read] [--jobs N] [--edits FOLDER] [NAME | NAME/EDIT ..], by default all of mutants/, or of FOLDER.
Run `rt ci` on the same files first: the script takes it that each crate is proved as it stands, and checks over the
libraries that the run left. The first check of a crate proves what its edits leave, unless `rt check` kept that. Each
later check begins with what the last one kept, and checks the functions of its edits alone. The last line counts the
edits, and the exit status is 0 if all were refused. With --self-test it tries edits of a small crate that it writes. With
--read it checks nothing, and only looks whether each edit fits the text of its crate, as the gate does."""

import argparse
import concurrent.futures
import contextlib
import os
import re
import shutil
import subprocess
import sys
import tempfile
import threading
import time
from pathlib import Path

from lib.edits import Edit, rounds_of
from lib.ropes import ANSWERS, EDITS, SOURCE

TOP = os.path.dirname(os.path.dirname(os.path.abspath(__file__)))
KIT = os.path.dirname(subprocess.run(["rt", "doc"], stdout=subprocess.PIPE, text=True, check=True).stdout.strip())
HEARD = {"stdin": subprocess.DEVNULL, "stdout": subprocess.PIPE, "stderr": subprocess.STDOUT, "errors": "replace"}

# What a check prints: its end, what it says of a function, a goal that failed, an error in the proof of a function
# (which goes on in further lines), and an error of the front end.
ENDED = re.compile(r"^(?:logic=|only=|rattle: no verdict)", re.M)
VERDICT = re.compile(r"^fn \w+::(\S+): (.*)$", re.M)
GOAL = re.compile(r"^note: (?:\./)?((src/\S+?):(\d+):\d+: it is not proved that .*)$", re.M)
PROOF = re.compile(r"^(?:\./)?(proofs/(\S+)/(?:Answers|Invariants|Proof)\.antt:\d\S* error: .*(?:\n  .*)*)$", re.M)
REJECTED = re.compile(r"^(?:\./)?((src/\S+?):(\d+):\d+: error\b.*)$", re.M)
# The verdict on a body for which an answer fails, and no goal that the check proves by itself: another answer might do.
BY_PROOF = "refused by its old proof"
# Errors of a proof that follow from another declaration, or from a name that the edited body no longer has.
FOLLOWS = re.compile(r"has no field|has no `|is not in scope|is no name|was not admitted|depends? on")


class Crate:
    """A crate: its source files, and the libraries that crates.txt names, the repository's own and those of the kit."""

    def __init__(self, top, name):
        self.name, self.folder = name, f"{top}/crates/{name}"
        self.own, self.of_kit = [], ["std"]
        self.kept, self.lock = f"{self.folder}/out/incremental", threading.Lock()
        self.checked = []  # the functions that its first check named
        files = sorted(Path(self.folder, "src").rglob("*.rt"))
        self.texts = {str(it.relative_to(self.folder)): it.read_text("utf-8") for it in files}

    def keep(self, folder):
        """Takes what a check proved, in this folder, in the place of what was kept."""
        with self.lock:
            if os.path.isdir(folder):
                shutil.rmtree(self.kept, ignore_errors=True)
                shutil.move(folder, self.kept)

    def below(self):
        """Returns the repository's libraries below it, by name."""
        found = {it.name: it for it in self.own}
        for library in self.own:
            found.update(library.below())
        return found

    def flags(self):
        """Returns the flags that `rt check` passes to the prover, as a list of the running processes shows."""
        root = "main" if os.path.isfile(f"{self.folder}/src/main.rt") else "lib"
        words = ["--crate-name", self.name, f"src/{root}.rt", "--links", f"{self.name}=", "--jobs", "1"]
        words += ["--antt-project", f"{KIT}/rattle/logic/antt-project.json", "--logic-built", f"{KIT}/logic_built"]
        libraries = [f"{it}={KIT}/rlibs/{it}.rlib" for it in self.of_kit]
        libraries += [f"{it.name}={it.folder}/out/rlib/{it.name}.rlib" for it in self.own]
        folders = [f"{KIT}/rlibs", *(f"{it.folder}/out/rlib" for it in self.below().values())]
        words += [word for it in libraries for word in ("--extern", it)]
        return words + [word for it in folders for word in ("-L", f"dependency={it}")]


def crates_of(top):
    """Returns the crates of a repository, by name."""
    lines = Path(top, "crates.txt").read_text("utf-8").split("\n")
    lines = [line.partition("#")[0].partition(":") for line in lines]
    named = {head.split()[0]: libraries.split() for head, colon, libraries in lines if colon}
    found = {it: Crate(top, it) for it in named}
    for name, libraries in named.items():
        found[name].own = [found[it] for it in libraries if it in found]
        found[name].of_kit += [it for it in libraries if it not in found]
    return found


def link(one, other):
    """Links what was proved, since a check replaces such a file and changes none, and copies other files."""
    with contextlib.suppress(OSError):
        if one.endswith(".oantt"):
            return os.link(one, other)
    return shutil.copy2(one, other)


def only(crate, edits):
    """Returns the flags for a check of the functions of these edits alone, or none if a name of theirs is not known."""
    named = [[it for it in crate.checked if one.owns(it.split("::"))] for edit in edits for one in edit.functions]
    return [word for names in named for it in names for word in ("--only", it)] if all(named) else []


def check(crate, edits):
    """Returns what a check of a copy of the crate with these edits prints, over what an earlier check kept, if any did."""
    with tempfile.TemporaryDirectory(prefix="mutants-") as room:
        for part in ("src", "specs", "proofs"):
            if os.path.isdir(f"{crate.folder}/{part}"):
                shutil.copytree(f"{crate.folder}/{part}", f"{room}/{part}")
        with crate.lock:
            if os.path.isdir(crate.kept):
                shutil.copytree(crate.kept, f"{room}/kept", copy_function=link)
        changed = {place: text for edit in edits for place, text in edit.lines.items()}
        for path in {path for path, _ in changed}:
            lines = enumerate(crate.texts[path].split("\n"), 1)
            Path(room, path).write_text("\n".join(changed.get((path, at), text) for at, text in lines), "utf-8")
        words = [f"{KIT}/bin/rattle", "check", *crate.flags(), "--incremental", f"{room}/kept", *only(crate, edits)]
        said = subprocess.run(words, cwd=room, check=False, **HEARD).stdout
        if ENDED.search(said):
            crate.checked = crate.checked or [name for name, _ in VERDICT.findall(said)]
            crate.keep(f"{room}/kept")
        return said


def judge(said, edit):
    """Returns whether what a check printed shows a bad edit, a refused one, also by its old proof alone, or none of these, and
    the words for it."""
    for it in edit.functions:
        stands = [words for name, words in VERDICT.findall(said) if it.owns(name.split("::"))]
        wrong = [words for words, *at in REJECTED.findall(said) if (at[0], int(at[1])) in edit.lines or it.has(*at)]
        wrong += [words for words in stands if "the borrow checker does not cover this function" in words]
        goals = [words for words, *at in GOAL.findall(said) if it.has(*at)]
        goals += [words for words in stands if "`search` did not prove" in words]
        proofs = [words for words, folder in PROOF.findall(said) if it.owns(folder.split("/"))]
        proofs = [words for words in proofs if not FOLLOWS.search(words)]
        if wrong or goals or proofs:
            return ("a bad edit", wrong[0]) if wrong else ("refused", goals[0]) if goals else (BY_PROOF, proofs[0])
    is_cut = not ENDED.search(said)
    return ("not tried", f"its check did not end: {said[-400:]}") if is_cut else ("not refused", "; ".join(stands))


def try_round(crate, edits):
    """Tries edits in one check, and in others what it does not decide. Returns by name why each failed, None for one that is
    refused, or nothing for one that its old proof alone refuses."""
    begun, said = time.monotonic(), check(crate, edits)
    print(f"{crate.name}: {len(edits)} in one check, {time.monotonic() - begun:.0f} s", flush=True)
    judged = {it: judge(said, it) for it in edits}
    again = [[it] for it in edits if judged[it][0] == "not refused"]
    if not ENDED.search(said):
        good = [it for it in edits if judged[it][0] != "a bad edit"]
        again = [good] if len(good) < len(edits) else [edits[: len(edits) // 2], edits[len(edits) // 2 :]]
    again = [it for it in again if it] if len(edits) > 1 else []
    found = {}
    for it in (it for it in edits if not any(it in others for others in again)):
        verdict, words = judged[it]
        found[it.name] = {"refused": None, BY_PROOF: ""}.get(verdict, f"{verdict}: {words}")
        print(f"{it.name}: {verdict}: {words.partition(chr(10))[0][:160]}", flush=True)
    for others in again:
        found.update(try_round(crate, others))
    return found


def asked(top, edits, names):
    """Returns the files of the edits to try by their names, NAME/EDIT, by the name of their crate."""
    found = {}
    for name in names or sorted(os.listdir(edits)):
        crate, _, edit = name.rstrip("/").partition("/")
        files = {f"{crate}/{it.stem}": it for it in sorted(Path(edits, crate).glob("*")) if edit in ("", it.stem)}
        if not files or not os.path.isdir(f"{top}/crates/{crate}"):
            sys.exit(f"there is no edit {edits}/{name}, or no crate {crate}")
        found.setdefault(crate, {}).update(files)
    return found


def read(crate, files):
    """Returns the edits in these files, by name, and by name why each other is bad by its text alone."""
    good, bad = [], {}
    for name, file in files.items():
        try:
            good.append(Edit(name, file.read_text("utf-8"), crate))
        except ValueError as why:
            bad[name] = f"a bad edit: {why}"
    return good, bad


def read_all(top, edits, names):
    """Reads edits of the crates of a repository. Returns by name why each is bad, or None."""
    crates, found = crates_of(top), {}
    for crate, files in asked(top, edits, names).items():
        found.update(dict.fromkeys(files), **read(crates[crate], files)[1])
    return found


def try_all(top, edits, names, jobs):
    """Tries edits of the crates of a repository. Returns by name why each failed, or None."""
    crates, work = crates_of(top), asked(top, edits, names)
    found, first, later = {}, {}, []
    with tempfile.TemporaryDirectory(prefix="mutants-") as room, concurrent.futures.ThreadPoolExecutor(jobs) as pool:
        for crate in sorted(map(crates.get, work), key=lambda it: -sum(map(len, it.texts.values()))):
            good, bad = read(crate, work[crate.name])
            found.update(bad)
            kept, crate.kept = crate.kept, f"{room}/{crate.name}"
            if os.path.isdir(kept):
                shutil.copytree(kept, crate.kept, copy_function=link)
            if good:
                rounds = rounds_of(good)
                first[pool.submit(try_round, crate, rounds[0])] = crate, rounds[1:]
        for it in concurrent.futures.as_completed(first):
            found.update(it.result())
            crate, rounds = first[it]
            later += [pool.submit(try_round, crate, others) for others in rounds]
        for it in later:
            found.update(it.result())
    return found


def self_test(jobs):
    """Tries the edits of the small crate, and compares each verdict."""
    files = {"crates.txt": "ropes:\n", "crates/ropes/src/lib.rt": SOURCE, "crates/ropes/proofs/Lib.antt": ""}
    files["crates/ropes/proofs/shorter/Answers.antt"] = ANSWERS
    edits, wanted = {}, {}
    edits.update({f"ropes/{name}": edit for name, edit in EDITS.items()})
    for name, (old, new, wanted[name]) in edits.items():
        files[f"mutants/{name}.edit"] = f"file: src/lib.rt\nold: {old}\nnew: {new}\n"
    with tempfile.TemporaryDirectory() as top:
        for name, text in files.items():
            Path(top, name).parent.mkdir(parents=True, exist_ok=True)
            Path(top, name).write_text(text, "utf-8")
        found = try_all(top, f"{top}/mutants", [], jobs)
    told = {it: {None: "refused", "": BY_PROOF}.get(found.get(it, "missing"), found.get(it)) for it in wanted}
    is_right = lambda it: re.match(rf"(a bad edit: .*)?{wanted[it]}", told[it]) and (wanted[it] == "refused") == (told[it] == "refused")
    wrong = [f"FAILED: {it}: {told[it]}, and not: {wanted[it]}" for it in wanted if not is_right(it)]
    print("\n".join([*wrong, f"{len(wanted) - len(wrong)} passed, {len(wrong)} failed"]))
    return 1 if wrong else 0


def main():
    # a check takes 3 GB at most
    fit = int(re.search(r"MemAvailable:\s+(\d+)", Path("/proc/meminfo").read_text("ascii"))[1]) // 3_000_000
    given = argparse.ArgumentParser()
    given.add_argument("--jobs", type=int, default=max(1, min(len(os.sched_getaffinity(0)), fit)))
    given.add_argument("--edits", metavar="FOLDER", default=f"{TOP}/mutants")
    given.add_argument("--self-test", action="store_true")
    given.add_argument("--read", action="store_true")
    given.add_argument("names", nargs="*", metavar="NAME | NAME/EDIT")
    given = given.parse_args()
    if given.self_test:
        return self_test(given.jobs)
    found = read_all(TOP, given.edits, given.names) if given.read else try_all(TOP, given.edits, given.names, given.jobs)
    failed = {it: why for it, why in found.items() if why}
    option = "" if given.edits == f"{TOP}/mutants" else f"--edits {given.edits} "
    for name, why in failed.items():
        print(f"FAILED: {name}: {' '.join(why.split())[:300]}; alone: scripts/mutants.py {option}{name}")
    if not given.read:
        by_proof = sorted(it for it, why in found.items() if why == "")
        print("".join(f"{BY_PROOF} alone: {it}\n" for it in by_proof), end="")
        print(f"{list(found.values()).count(None)} refused by a goal, {len(by_proof)} by their old proofs alone")
    print(f"{len(found) - len(failed)} passed, {len(failed)} failed")
    return 1 if failed else 0


if __name__ == "__main__":
    sys.exit(main())
