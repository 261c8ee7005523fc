#!/usr/bin/env python3
"""Opens stores that are nearly registries with each command of `usbreg`, and compares what it says and leaves of them.

SQLite makes the stores, in schemas 1 to 5, with and without checksums: the registry of examples/one_vendor.requests
with one change. Some have another table, column, view or index, others a row that no history has. Each command that opens
a registry runs over a copy of its own. The results must be those in cases/nearly_registries.txt, whose head says what its
words mean. The script ends at once at a result that no word there stands for, such as a crash.

Usage: scripts/nearly_registries.py [--write] [PROGRAM], by default the program that `make` builds. With --write it writes
the table anew. The exit status is 0 if the results are those of the table."""

import argparse
import collections
import contextlib
import difflib
import os
import sqlite3
import subprocess
import sys

from lib.nearly import Plan, nearly
from lib.older_stores import COUNTS, in_schema
from lib.plain_history import History
from lib.refusing import each
from lib.requests import requests_in
from lib.seen_by_sqlite import documented_texts
from lib.serving import exchange, get, serving
from lib.usbreg import EXAMPLES, FOUNDING, TOP, content, copy, done, folder, opened, program, run, write, write_requests

TABLE = f"{TOP}/cases/nearly_registries.txt"
FAULTS = {f"fault: {it}\n".encode(): it for it in ("file", "foreign", "memory", "spent", "store", "taken")}
LINK = "https://acme.example/"
SCHEMAS = (*COUNTS, 5)
# A log that holds no commit has at most its header and the beginning of a frame.
EMPTY_LOG = 41
# The commands over stores without checksums.
BRIEF = ("export", "found")
HEAD = """\
What the commands do over stores that are nearly registries. scripts/nearly_registries.py makes the stores, compares the
results with this table, and writes it with --write.

Below a change to a sound store is its result in schemas 1 to 5, each with and without checksums: the same, unless it
says so. The commands are export, report (petitions and numbers), history, head, apply (an ask, a grant and an enrol), import,
replay (the record of the sound store), serve (GET /history/0 and then GET /petitions/3) and found.

opens        what export does with the sound store; so do the others, but those that are named after it
foreign      export prints `fault: foreign`, with status 1; so do all others but found and those that are named after it
store        the same with `fault: store`
(in N)       the store then has schema N, and the rows that were there. Without this its file keeps its bytes, and its log
             holds no commit. After `opens` this is said only if the sound store is left otherwise
lost T       rows or values of T were there before the command, and not after it. A value of another type counts as lost
other        another text, reply or response, at status 0, or a refusal
begins, F    a beginning of the text or a response 503, and then `fault: F`
line N       the message of replay for this line
-            the schema has no such table
"""


def base(version):
    """Returns the plan of a sound store: the rows of the plain history in a schema, and the documented texts."""
    history = History(FOUNDING)
    for request in requests_in(f"{EXAMPLES}/one_vendor.requests"):
        history.answer(request)
    tables = history.tables() | {"kept": history.kept()}
    rows = in_schema(version, tables) if version in COUNTS else tables
    texts = [it[1:-1].replace("''", "'") for it in documented_texts()][: COUNTS.get(version)]
    return Plan(version, {it.split(" ")[2]: it for it in texts}, {name: [list(row) for row in rows[name]] for name in rows})


class Inputs:
    """The files that the commands read: request lines, a list and a record."""

    def __init__(self, usbreg, made, sound):
        fields = {"title": "Lamp", "site": LINK}
        ask = {"caller": "ann", "key": "n1", "order": "ask", "org": "acme", "licence": "MIT", "source": LINK, **fields}
        requests = [ask, {"caller": "cora", "key": "n2", "order": "grant", "petition": 7}, {"caller": "ann", "key": "n3", "order": "enrol", "org": "cube", **fields}]
        self.lines = write_requests(f"{made}/lines.jsonl", requests)
        self.listed = write(f"{made}/list.ids", "1209  Shared products\n\t0500  Probe 3\n")
        self.record = write(f"{made}/record.jsonl", done([usbreg, "history", sound]).decode())


def served(usbreg, store):
    """Returns the status, the responses and the errors of two connections, or of an end before them."""
    with serving(usbreg, store, 2) as server:
        responses = b""
        for path in ("/history/0", "/petitions/3"):
            # A fault of the first ends it.
            if server.is_up():
                with contextlib.suppress(ConnectionError):
                    responses += exchange(server.port, get(path))
        status, _, errors = server.ended()
    return status, responses, errors


def reported(usbreg, store):
    """Returns the end of the first report that fails, or that of the last, with the texts of all."""
    texts = []
    for name in ("petitions", "numbers"):
        status, text, errors = run([usbreg, "report", store, name])
        texts.append(text)
        if status or errors:
            break
    return status, b"".join(texts), errors


def commands(usbreg, inputs):
    """Returns what runs each command over a store."""
    imported = ["--caller", "cora", "--key", "n4", "--org", "bolt"]
    return {
        "export": lambda store: run([usbreg, "export", store]),
        "report": lambda store: reported(usbreg, store),
        "history": lambda store: run([usbreg, "history", store]),
        "head": lambda store: run([usbreg, "head", store]),
        "apply": lambda store: run([usbreg, "apply", store, inputs.lines]),
        "import": lambda store: run([usbreg, "import", store, inputs.listed, *imported]),
        "replay": lambda store: run([usbreg, "replay", store, inputs.record]),
        "serve": lambda store: served(usbreg, store),
        "found": lambda store: run([usbreg, "found", store, FOUNDING]),
    }


def answer(what, ended, wanted):
    """Returns a word for the end of a command, in place of the one that is wanted."""
    status, output, errors = ended
    if ended == wanted:
        return "opens"
    if status == 1 and errors in FAULTS:
        return f"begins, {FAULTS[errors]}" if output else FAULTS[errors]
    if status == 0 and not errors:
        return "other"
    if status == 2 and errors.startswith(b"line ") and not output:
        return errors.decode().partition(":")[0]
    if status == 2 and output.endswith(b"}\n") and not errors:
        return "other"
    sys.exit(f"{what}: {ended}, which no word stands for")


def rows_of(store):
    """Returns the schema by the tables that are there, and the rows of each table as pairs of columns and values, those
    of older schemas in the table of the newest. A closed store is read without its log."""
    with contextlib.closing(sqlite3.connect(f"file:{store}?immutable=1", uri=True)) as connection:
        connection.text_factory = bytes
        names = [it.decode() for (it,) in connection.execute("SELECT name FROM sqlite_schema WHERE type = 'table' AND sql NOT LIKE 'CREATE VIRTUAL%'")]
        rows = collections.Counter()
        for name in names:
            shown = connection.execute(f"SELECT * FROM {name}")
            columns = [it[0] for it in shown.description]
            for row in shown:
                rows.update(moved(name, dict(zip(columns, row, strict=True))))
    last = {"closed5": 5, "reasons4": 4, "petitions3": 3, "spans": 2}
    return next((last[it] for it in last if it in names), 1), rows


def moved(name, row):
    """Yields a row as a table and its values, by the names of the newest schema and without vendor."""
    table = name.rstrip("345")
    if name == "meta":
        row = {it: row[it] for it in row if it != "version"}
    if table == "spans" and isinstance(row.get("hi"), int):
        for pid in range(row["lo"], min(row["hi"], 70000) + 1):
            yield "reserved", (("pid", pid),)
        more = tuple((it, row[it]) for it in row if it not in ("vid", "lo", "hi"))
        if more:
            yield "spans", more
    else:
        yield table, tuple(sorted((it, value) for it, value in row.items() if value is not None and it != "vid"))


def left(store, before, rows, seen):
    """Returns what a command left of the file: '' if its bytes are those before and the log has no commit, else the
    schema that it then has, and the tables with rows that are gone. What was seen is kept by the bytes of the file."""
    log, there = f"{store}-wal", content(store)
    is_whole = not os.path.exists(log) or os.path.getsize(log) <= EMPTY_LOG
    if there == before and is_whole:
        return ""
    if not is_whole:
        # SQLite takes the log into the file as it closes this copy.
        store = copy(store, f"{store}.looked")
        with opened(store) as connection:
            connection.execute("SELECT name FROM sqlite_schema").fetchall()
        there = content(store)
    if there not in seen:
        version, found = rows_of(store)
        lost = sorted({table for table, _ in rows - found})
        seen[there] = f"in {version}" + (f", lost {' '.join(lost)}" if lost else "")
    return seen[there]


class Sound:
    """The sound store of a schema: how the commands end over it, and what they leave of it."""

    def __init__(self, runs, plan, with_sums, room):
        self.plan, self.store = plan, plan.make(f"{room}/sound{plan.version}{with_sums}.db", with_sums)
        self.wanted, self.left = {}, {}
        before, rows, seen = content(self.store), rows_of(self.store)[1], {}
        for name, act in runs.items():
            used = copy(self.store, f"{room}/used.db")
            self.wanted[name] = act(used)
            if self.wanted[name][0] != (1 if name == "found" else 0):
                sys.exit(f"{name} of a sound store of schema {plan.version} ends with {self.wanted[name]}")
            self.left[name] = left(used, before, rows, seen)

    def near(self, plan, with_sums, path):
        """Makes the store of a plan, from a copy of this one if the tables are the same."""
        return plan.finish(copy(self.store, path)) if plan.is_as(self.plan) else plan.make(path, with_sums)


def shown(pair):
    word, there = pair
    return f"{word} ({there})" if there else word


def told(results, sound):
    """Returns one text for the results of the commands: that of export, and then those of the others that differ."""
    usual = {name: ("opens", sound.left[name]) for name in results}
    opening = {results[name] for name in results if name != "found"}
    first = ("opens", "")
    if results["export"][0] in FAULTS.values() or len(opening) == 1:
        first = results["export"] if results["export"] != usual["export"] else first
        usual = {name: results["export"] if name != "found" else usual[name] for name in results}
    others = {}
    for name in results:
        if results[name] != usual[name]:
            word, there = results[name]
            others.setdefault(shown((word, "" if there == usual[name][1] else there or "kept")), []).append(name)
    return "; ".join([shown(first), *(f"{' '.join(names)}: {word}" for word, names in others.items())])


def ended(runs, plan, sound, with_sums, room):
    """Returns what each command answers over a store that is made by this plan, and what it leaves of it."""
    store = sound.near(plan, with_sums, f"{room}/near.db")
    before, rows, results, seen = content(store), rows_of(store)[1], {}, {}
    for name, act in runs.items():
        used = copy(store, f"{room}/used.db")
        what = f"{name} over schema {plan.version}, {'with' if with_sums else 'without'} checksums, after {plan.after}"
        try:
            word = answer(what, act(used), sound.wanted[name])
        except subprocess.TimeoutExpired:
            sys.exit(f"{what}: it doesn't end")
        results[name] = (word, left(used, before, rows, seen))
    return results


def result(runs, plan, sounds, room):
    """Returns the text for the stores that are made by this plan, with checksums and without. Those without are opened by
    some commands."""
    with_sums, without = (ended(some, plan, sounds[plan.version, sums], sums, room) for some, sums in ((runs, True), ({it: runs[it] for it in BRIEF}, False)))
    text = told(with_sums, sounds[plan.version, True])
    if {it: with_sums[it] for it in BRIEF} != without:
        text += f" / without checksums: {told(without, sounds[plan.version, False])}"
    return text


def lines_of(results):
    """Returns the lines of the table: for each kind of change, the items with the same results, and these."""
    kinds = {}
    for (kind, item), texts in results.items():
        cells = tuple(texts.get(version, "-") for version in SCHEMAS)
        kinds.setdefault(kind, {}).setdefault(cells, []).append(item)
    lines = []
    for kind, groups in kinds.items():
        lines += ["", kind]
        for cells, items in groups.items():
            lines += [f"  {it}" for it in items] if any(" " in it and not it.startswith("older ") for it in items) else [f"  {', '.join(items)}"]
            for cell in dict.fromkeys(cells):
                numbers = [str(version) for version in SCHEMAS if cells[version - 1] == cell]
                lines.append(f"      {' '.join(numbers):<9}  {cell}")
    return lines


def main():
    parser = argparse.ArgumentParser()
    parser.add_argument("--write", action="store_true")
    parser.add_argument("program", nargs="?")
    asked = parser.parse_args()
    usbreg = program(asked.program)
    with folder() as made:
        plans = {version: base(version) for version in SCHEMAS}
        runs = commands(usbreg, Inputs(usbreg, made, plans[SCHEMAS[-1]].make(f"{made}/first.db", True)))
        sounds = {(version, sums): Sound(runs, plan, sums, made) for version, plan in plans.items() for sums in (True, False)}
        tried = [(kind, item, plan) for version in plans for kind, item, plan in nearly(plans[version])]
        texts = each(tried, made, lambda near, room: result(runs, near[2], sounds, room))
    results = {}
    for (kind, item, plan), text in zip(tried, texts, strict=True):
        results.setdefault((kind, item), {})[plan.version] = text
    table = "\n".join([HEAD.rstrip("\n"), *lines_of(results), ""])
    if asked.write:
        write(TABLE, table)
    wanted = content(TABLE).decode()
    if table != wanted:
        sys.exit("\n".join(difflib.unified_diff(wanted.splitlines(), table.splitlines(), TABLE, "there", lineterm="")))
    print(f"{len(tried)} stores that are nearly registries, each with checksums and without: the commands answer and leave what {os.path.relpath(TABLE, TOP)} says")


if __name__ == "__main__":
    main()
