#!/usr/bin/env python3
"""Runs `usbreg` over stores in files, case by case, and compares what it prints, its exit status and the tables.

Usage: scripts/apply_in_files.py [PROGRAM], by default the one that `make` builds. The exit status is 0 if every case
passes."""

import json
import os
import shutil
import subprocess
import sys

from lib.cases import Room
from lib.usbreg import EXAMPLES, FOUNDING, content, folder, opened, program, run, seal, tables

TEN = f"{EXAMPLES}/ten.jsonl"
REPLIES = [f'{{"done":"enrolled o{number}"}}\n' for number in range(1, 11)]


def change_from_outside(store, change):
    """Changes a store by another program."""
    with opened(store) as connection:
        connection.execute("PRAGMA journal_mode = WAL")
        connection.execute(change)
        connection.commit()
    seal(store)


def same_tables(what, store, other):
    if tables(store) != tables(other):
        sys.exit(f"{what}: the tables are not as they should be")


def ten_enrolments(room):
    """Applies a file whole, and from the first unanswered request on."""
    whole, empty = room.founded("whole"), room.founded("empty")
    room.case(["apply", whole, TEN], output="".join(REPLIES))
    requests = content(TEN).decode().splitlines(keepends=True)
    for answered in (0, 6, 10):
        store = room.founded(f"after{answered}")
        first = room.file(f"first{answered}.jsonl", "".join(requests[:answered]))
        room.case(["apply", store, first], output="".join(REPLIES[:answered]))
        room.case(["apply", store, TEN, "--answered", str(answered)], output="".join(REPLIES[answered:]))
        same_tables(f"going on after {answered}", store, whole)
    room.case(["apply", empty, TEN, "--answered", "11"], 2, errors="answered exceeds requests\n")
    same_tables("more answered than there are", empty, room.founded("founded"))
    room.case(["apply", whole, TEN], output="".join(REPLIES))
    same_tables("the ten a second time", whole, f"{room.folder}/after10.db")


def what_is_not_acted_on(room):
    """Tries a bad line, a missing input or store, and a store that holds no registry."""
    store, untouched = room.founded("standing"), room.founded("untouched")
    bad = room.file("bad.jsonl", content(TEN).decode().splitlines()[0] + "\n\n[]\n")
    room.case(["apply", store, bad], 2, errors='line 3: {"name":"BadJson","refused":27}\n')
    room.case(["apply", store, f"{room.folder}/none.jsonl"], 1, errors="fault: file\n")
    room.case(["found", store, FOUNDING], 1, errors="fault: taken\n")
    same_tables("nothing was acted on", store, untouched)

    missing = f"{room.folder}/missing.db"
    room.case(["apply", missing, TEN], 1, errors="fault: file\n")
    if os.path.exists(missing):
        sys.exit("a store was made by apply")
    empty = room.file("empty.db", "")
    room.case(["apply", empty, TEN], 1, errors="fault: foreign\n")
    room.case(["found", empty, FOUNDING])
    room.case(["apply", empty, TEN], output="".join(REPLIES))
    changed = room.founded("changed")
    for store, change in (
        (f"{room.folder}/other.db", "CREATE TABLE songs (title TEXT NOT NULL) STRICT"),
        (changed, "UPDATE meta SET version = 6"),
    ):
        change_from_outside(store, change)
        before = tables(store)
        room.case(["apply", store, TEN], 1, errors="fault: foreign\n")
        if tables(store) != before:
            sys.exit(f"a store was changed that is foreign: {change}")
    room.case(["found", changed, FOUNDING], 1, errors="fault: taken\n")


def logs_of_others(room):
    """A database of another program with a log: its file keeps its bytes, and so does all that the log had."""
    made, store = f"{room.folder}/songs.db", f"{room.folder}/copied.db"
    with opened(made) as connection:
        connection.execute("PRAGMA journal_mode = WAL")
        connection.execute("CREATE TABLE songs (title TEXT NOT NULL) STRICT")
        connection.execute("INSERT INTO songs VALUES ('Blinker')")
        connection.commit()
        for ending in ("", "-wal"):
            shutil.copy(f"{made}{ending}", f"{store}{ending}")
    file, log = content(store), content(f"{store}-wal")
    for words in (["apply", store, TEN], ["export", store], ["report", store, "census"]):
        room.case(words, 1, errors="fault: foreign\n")
        if content(store) != file or not content(f"{store}-wal").startswith(log):
            sys.exit(f"{words[0]} changed a database of another program")
    with opened(store) as connection:
        if connection.execute("SELECT title FROM songs").fetchall() != [("Blinker",)]:
            sys.exit("a database of another program lost a row")


def outputs_that_fail(room):
    """Tries a reader that is gone, and a device that is full."""
    store, full = room.founded("piped"), room.founded("full")
    reader, writer = os.pipe()
    os.close(reader)
    ran = subprocess.run([room.program, "apply", store, TEN], stdout=writer, stderr=subprocess.PIPE, check=False)
    os.close(writer)
    if (ran.returncode, ran.stderr) != (1, b"fault: file\n"):
        sys.exit(f"nobody reads the replies: status {ran.returncode}, {ran.stderr!r}")
    with open("/dev/full", "wb") as device:
        ran = subprocess.run([room.program, "apply", full, TEN], stdout=device, stderr=subprocess.PIPE, check=False)
    if (ran.returncode, ran.stderr) != (1, b"fault: file\n"):
        sys.exit(f"a full device: status {ran.returncode}, {ran.stderr!r}")
    for it in (store, full):
        room.case(["apply", it, TEN, "--answered", "0"], output="".join(REPLIES))
        same_tables("going on after an output that failed", it, f"{room.folder}/whole.db")
        room.seen += 1


def bad_inputs(room):
    """The message for an input names the first line that is not a request, by its number; that for a founding file names
    the key. Nothing is acted on."""
    enrol = content(TEN).decode().splitlines()[0]
    reserve = '{"caller":"ann","key":"k1","order":"reserve","first":"0020","last":"0010"}'
    imported = '{"caller":"ann","key":"k1","order":"import"}'
    bad_json, field = '{"name":"BadJson","refused":27}', '{"detail":"%s","name":"BadField","refused":28}'
    for lines, number, refusal in (
        ("[]", 1, bad_json),
        ("\n \t\r\n[]\n", 3, bad_json),
        ("{}\n[]", 1, field % "caller"),
        (f"{enrol}\n{{}}\n[]", 2, field % "caller"),
        (f"{enrol}\n \t\r\n\n{{}}\n[]", 4, field % "caller"),
        (f"\n{enrol} x", 2, bad_json),
        (reserve, 1, field % "last"),
        (f"\n\n{imported}", 3, field % "order"),
    ):
        room.case(["trial"], 2, errors=f"line {number}: {refusal}\n", lines=lines.encode())
    for lines, replies in (("", 0), ("\n \t\r\n", 0), (enrol, 1), (f"\r\n{enrol}\r\n\n{enrol}\n", 2), (f"{enrol}\n\n{enrol}\n \n{enrol}", 3)):
        room.case(["trial"], output=REPLIES[0] * replies, lines=lines.encode())
    for text, key in (("=", "toml"), ('vendor = "0000"\n', "vendor")):
        bad, store = room.file("bad.toml", text), f"{room.folder}/bad.db"
        room.case(["found", store, bad], 2, errors=f'{{"detail":"{key}","name":"BadFounding","refused":32}}\n')


def repeats(room):
    """Repeats, refusals and a second founding write nothing: the file keeps its bytes."""
    store = room.founded("repeats")
    room.case(["apply", store, TEN], output="".join(REPLIES))
    before = content(store)
    taken = json.dumps(json.loads(content(TEN).splitlines()[0]) | {"key": "other"}) + "\n"
    again = room.file("again.jsonl", content(TEN).decode() + taken)
    room.case(["apply", store, again], output="".join(REPLIES) + '{"name":"OrgTaken","refused":5}\n')
    room.case(["found", store, FOUNDING], 1, errors="fault: taken\n")
    if content(store) != before:
        sys.exit("a repeat wrote to the store")


def words(room):
    """Without arguments the program runs a trial. An option may stand before the arguments, and have = before its value,
    which may begin with -."""
    lines = content(f"{EXAMPLES}/first.jsonl")
    replies = '{"done":"enrolled acme"}\n{"done":"petition 1"}\n{"done":"granted 0011 to acme by petition 1"}\n'
    for said in ([], ["trial"]):
        room.case(said, output=replies, lines=lines)
    store = room.founded("words")
    room.case(["apply", "--answered=6", store, TEN], output="".join(REPLIES[6:]))
    room.case(["apply", store, "-"], output="".join(REPLIES), lines=content(TEN))
    room.case(["apply", store, "-", "--answered", "10"], lines=content(TEN))
    room.case(["apply", store, f"{room.folder}/-"], 1, errors="fault: file\n", lines=content(TEN))
    listed = room.file("words.ids", "1209  x\n\t0011  Lamp\n")
    said = ["import", store, listed, "--org=-x", "--caller", "cora", "--key=k", "--vendor", "1209"]
    room.case(said, 2, output='{"name":"NoOrg","refused":4}\n')
    said = ["import", store, "-", "--org", "o1", "--caller", "cora", "--key", "k"]
    done = '{"done":"imported fresh 1, owned 0, reserved 0, doubled 0, untitled 0, zero 0"}\n'
    room.case(said, output=done, lines=content(listed))


# Arguments, a part of what they print, and the exit status.
TOLD = (
    (["--help"], "usbreg [COMMAND]", 0),
    (["--help"], "lookup   Print the name of a device in a list", 0),
    (["--help"], "`found`, `apply`, `import`, `replay` and `serve` change a registry", 0),
    (["--version"], "usbreg 0.1.0 (checkout, rattle logic dac8208d650f15bf)", 0),
    (["apply", "--help"], "usbreg apply numbers.db examples/first.jsonl --answered 3", 0),
    (["help", "found"], "usbreg found [OPTIONS] <STORE> <FOUNDING>", 0),
    (["grant"], "unrecognized subcommand 'grant'", 2),
    (["apply", "numbers.db"], "<FILE>", 2),
    (["apply", "s", "f", "--answered", "x"], "invalid value 'x' for '--answered <N>'", 2),
    (["serve", "s", "--port", "65536"], "65536 is not in 1..=65535", 2),
    (["export", "s", "s"], "unexpected argument 's' found", 2),
)


def help_and_faults(room):
    """Help and the version are printed to the output, and why arguments are refused to the error output."""
    usbreg = f"{room.folder}/usbreg"
    os.symlink(room.program, usbreg)
    for said, part, status in TOLD:
        ended, *printed = run([usbreg, *said])
        told, other = reversed(printed) if status else printed
        if ended != status or other or part not in told.decode():
            sys.exit(f"usbreg {' '.join(said)}: status {ended}, printed {printed!r}, where {part!r} is expected")
        room.seen += 1


def main():
    with folder() as made:
        room = Room(program(*sys.argv[1:2]), made)
        for cases in (ten_enrolments, what_is_not_acted_on, logs_of_others, outputs_that_fail, bad_inputs, repeats, words, help_and_faults):
            cases(room)
        print(f"stores in files: {room.seen} cases are as they should be")


if __name__ == "__main__":
    main()
