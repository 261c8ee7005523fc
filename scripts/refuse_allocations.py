#!/usr/bin/env python3
"""Refuses each allocation of `usbreg` in turn, and checks what it replies.

It runs trials of examples/first.jsonl and of examples/orders.jsonl, which has all orders of request lines, and applies
the first of these to a store in a file: each run prints the whole replies, or a prefix of them and `fault: memory` or
`fault: store` with status 1. Then a store is opened again, the run goes on with `--answered`, and the replies and the
tables are those of a run without a refused allocation. A store is founded in the same way: if that fails it can be founded
again, or was founded already, and is whole. The commands that show something print the whole of it or a prefix, and change
nothing; an import that failed is done under its key again, with the same reply and the same tables. A store of an older
schema opens again as the same history. Over HTTP an order, an import and a query each get the right response, or refusal
31 and the next one is served, or refusal 30 or 31 and the program ends with its fault; sent again to the store that is
opened anew they get the responses, and leave the tables, of a run without a refused allocation.

It does the same with `usbids_bench` and a list that it reads, writes and reads again: it succeeds, or says that memory ran
out, and never counts other entries or names a fault of a line.

Usage: scripts/refuse_allocations.py [--only PART] [--every N] [PROGRAM [BENCH]], by default all parts with the program
that `make` builds and the one that `rt run` builds in crates/usbids_bench. PART is trial, which is part of `make test`, or
found, apply, show, import, serve, open or list; --every N refuses only every N-th allocation. Needs cc. The exit status is
0 if all of this holds."""

import argparse
import collections
import functools
import os
import re
import sys

from lib.older_stores import COUNTS
from lib.refusing import asked_in, each, refusal, refusing, run_refused
from lib.serving import command, exchange, free_port, get, post, refused, serving
from lib.usbreg import EXAMPLES, FOUNDING, REPORTS, apply, content, copy, done, found, older, program, remove, run, tables, write

FAULTS = {b"fault: memory\n", b"fault: store\n"}
# One allocation of this many is refused.
EVERY = 1
LIST = """# a list
1209  Shared products
\t0011  Blinker
\t\t07  Port
\t0012
C 00  (Defined at Interface level)
HID 21  HID
BIAS 0  Not Applicable
L 0001  Arabic
"""


def look(what, ran, wanted):
    """Returns the whole reply lines of a run that was refused an allocation, or that did without it, and how it ended."""
    status, output, errors = ran
    is_whole = (status, output, errors) == (0, wanted, b"")
    is_cut = status == 1 and wanted.startswith(output) and errors in FAULTS
    if not is_whole and not is_cut:
        sys.exit(f"{what}: status {status}, printed {output!r} and {errors!r}")
    return output.count(b"\n"), errors.decode().strip() or "did without it"


def refuse_in_turn(what, count, room, attempt):
    """Refuses the given number of allocations in turn, and prints how the attempts ended."""
    numbers = range(1, count + 1, EVERY)
    ended = collections.Counter(each(numbers, room, attempt))
    said = ", ".join(f"{number} {how}" for how, number in sorted(ended.items()))
    print(f"{what}: {len(numbers)} of {count} allocations refused: {said}", flush=True)


def refuse_each(what, words, room, shim, attempt, lines=os.devnull):
    """Refuses the allocations of a command in turn. The arguments name files that may change."""
    refuse_in_turn(what, asked_in(words, shim, room, lines), room, attempt)


def trials(usbreg, shim, room, lines):
    words = [usbreg, "trial"]
    _, wanted, _ = run(words, content(lines))

    def attempt(number, _):
        return look(f"a trial without allocation {number}", run_refused(words, shim, number, lines), wanted)[1]

    refuse_each(f"trial of {os.path.basename(lines)}", words, room, shim, attempt, lines)


def stores(usbreg, shim, room, lines):
    founded, other = (found(usbreg, f"{room}/{it}.db") for it in ("founded", "other"))
    wanted = apply(usbreg, other, lines)
    replies, end = wanted.splitlines(), tables(other)

    def attempt(number, folder):
        words = [usbreg, "apply", copy(founded, f"{folder}/store.db"), lines]
        answered, ended = look(f"apply without allocation {number}", run_refused(words, shim, number), wanted)
        status, rest, errors = run([*words, "--answered", str(answered)])
        if (status, rest.splitlines(), errors) != (0, replies[answered:], b"") or tables(words[2]) != end:
            sys.exit(f"apply after allocation {number} was refused does not go on as it should: {errors!r}")
        return ended

    refuse_each("apply", [usbreg, "apply", copy(founded, f"{room}/counted.db"), lines], room, shim, attempt)


def views(usbreg, shim, room, lines):
    store = found(usbreg, f"{room}/viewed.db")
    apply(usbreg, store, lines)
    end, listed = tables(store), write(f"{room}/viewed.ids", done([usbreg, "export", store]).decode())
    shows = *([it, store] for it in ("export", "history", "head")), *(["report", store, it] for it in REPORTS), ["lookup", listed, "1209", "0011"]
    for words in ([usbreg, *it] for it in shows):
        wanted = done(words)

        def attempt(number, folder, words=words, wanted=wanted):
            own = [copy(store, f"{folder}/store.db") if it == store else it for it in words]
            ended = look(f"{words[1]} without allocation {number}", run_refused(own, shim, number), wanted)[1]
            if run(own) != (0, wanted, b"") or (store in words and tables(own[2]) != end):
                sys.exit(f"{words[1]} after allocation {number} was refused is not what it was")
            return ended

        refuse_each(" ".join(words[1:2] + words[3:]), words, room, shim, attempt)


def older_stores(usbreg, shim, room, version):
    """Tries the first opening of a store of an older schema. Opened again it holds the same history."""
    store = older(f"{room}/older{version}.db", version)
    other = [usbreg, "report", copy(store, f"{room}/raised.db"), "census"]
    wanted = done(other)
    end = tables(other[2])

    def attempt(number, folder):
        words = [usbreg, "report", copy(store, f"{folder}/store.db"), "census"]
        ended = look(f"opening schema {version} without allocation {number}", run_refused(words, shim, number), wanted)[1]
        if run(words) != (0, wanted, b"") or tables(words[2]) != end:
            sys.exit(f"a store of schema {version} does not open as it should after allocation {number} was refused")
        return ended

    refuse_each(f"opening schema {version}", [usbreg, "report", copy(store, f"{room}/counted.db"), "census"], room, shim, attempt)


def imports(usbreg, shim, room, lines):
    before, other = (found(usbreg, f"{room}/{it}.db") for it in ("before", "imported"))
    for store in (before, other):
        apply(usbreg, store, lines)
    listed = write(f"{room}/imported.ids", "1209  x\n\t0001  Fixed\n\t0011  Taken\n\t0012  New board\n\t0013\n")
    asked = [listed, "--caller", "cora", "--key", "i1", "--org", "acme"]
    wanted = done([usbreg, "import", other, *asked])
    end = tables(other)

    def attempt(number, folder):
        words = [usbreg, "import", copy(before, f"{folder}/store.db"), *asked]
        ended = look(f"import without allocation {number}", run_refused(words, shim, number), wanted)[1]
        if run(words) != (0, wanted, b"") or tables(words[2]) != end:
            sys.exit(f"an import after allocation {number} was refused does not end as it should")
        return ended

    refuse_each("import", [usbreg, "import", copy(before, f"{room}/counted.db"), *asked], room, shim, attempt)


def foundings(usbreg, shim, room, lines):
    other = found(usbreg, f"{room}/whole.db")
    wanted = apply(usbreg, other, lines)
    end = tables(other)

    def attempt(number, folder):
        store = f"{folder}/new.db"
        remove(store)
        words = [usbreg, "found", store, FOUNDING]
        _, ended = look(f"found without allocation {number}", run_refused(words, shim, number), b"")
        again = run(words)
        if again not in ((0, b"", b""), (1, b"", b"fault: taken\n")):
            sys.exit(f"found again after allocation {number} was refused: {again}")
        if run([usbreg, "apply", store, lines]) != (0, wanted, b"") or tables(store) != end:
            sys.exit(f"what was founded after allocation {number} was refused is not whole")
        return ended

    refuse_each("found", [usbreg, "found", f"{room}/counted.db", FOUNDING], room, shim, attempt)


# One port per folder of attempts, which run one after another.
port_of = functools.cache(lambda _: free_port())


def served(server, messages):
    """Returns the responses to the messages, up to the first without one, and how the program ended."""
    responses = []
    if server.is_up():
        for message in messages:
            try:
                responses.append(exchange(server.port, message))
            except OSError:
                break
    return responses, server.ended()


def look_served(what, responses, ended, wanted):
    """Returns how a run ended. Its responses must be the wanted ones, or refusals 30 and 31, the last one of a fault."""
    status, output, errors = ended
    faults = [it for it in responses if it in (refused(30), refused(31))]
    strange = [(it, other) for it, other in zip(responses, wanted) if it != other and it not in faults]
    is_whole = (status, output, errors) == (0, b"", b"") and len(responses) == len(wanted) and refused(30) not in faults
    is_cut = status == 1 and output == b"" and errors in FAULTS and (responses == [] or responses[-1] in faults)
    if strange or not is_whole and not is_cut:
        sys.exit(f"{what}: {responses}, status {status}, {errors!r}")
    return errors.decode().strip() or ("got 31 and went on" if faults else "did without it")


def in_any_order(store):
    """Returns the tables without the digests, in the order of their texts: an order that was refused memory may come after the
    import."""
    return sorted(re.sub(r"^(INSERT INTO \"digests4\" VALUES\(\d+,).*", r"\1", it) for it in tables(store))


def connections(usbreg, shim, room, lines):
    """Tries an order, an import and a query over HTTP. None gets another response if one before it was not acted on."""
    before, other = (found(usbreg, f"{room}/{it}.db") for it in ("unserved", "served"))
    for store in (before, other):
        apply(usbreg, store, lines)
    ask = {"order": "ask", "org": "acme", "title": "Lamp", "licence": "MIT", "site": "https://acme.example/", "source": "https://acme.example/"}
    listed = b"1209  x\n\t0001  Fixed\n\t0011  Taken\n\t0012  New board\n\t0013\n"
    messages = [command({"caller": "ann", "key": "k4"} | ask), post("cora", "i1", listed, "/imports/acme"), get("/numbers/0011")]
    with serving(usbreg, other, count=3) as server:
        wanted, _ = served(server, messages)
    end, counted = in_any_order(other), f"{room}/counted"
    with serving(usbreg, copy(before, f"{room}/counted.db"), count=3, env=refusing(shim, 0, counted)) as server:
        served(server, messages)

    def attempt(number, folder):
        what, store = f"served without allocation {number}", copy(before, f"{folder}/store.db")
        with serving(usbreg, store, count=3, port=port_of(folder), env=refusing(shim, number)) as server:
            ended = look_served(what, *served(server, messages), wanted)
        with serving(usbreg, store, count=3, port=port_of(folder)) as server:
            again = served(server, messages)
        if again != (wanted, (0, b"", b"")) or in_any_order(store) != end:
            sys.exit(f"{what}: sent again the responses are {again}, or the tables are not those of a run without it")
        return ended

    refuse_in_turn("serve", int(content(counted)), room, attempt)


def lists(bench, shim, room):
    words = [bench, write(f"{room}/usb.ids", LIST)]
    wanted = run(words)
    counts = wanted[1].splitlines(keepends=True)[0]
    cut = {(0, b"out of memory\n"), (0, counts + b"written and read again: another\n"), (1, b""), (1, counts)}

    def attempt(number, _):
        ran = run_refused(words, shim, number)
        if ran != wanted and ran[:2] not in cut:
            sys.exit(f"a list without allocation {number}: {ran}")
        return "did without it" if ran == wanted else "said so"

    refuse_each("a list", words, room, shim, attempt)


PARTS = ("trial", "found", "apply", "show", "import", "serve", "open", "list")


def main():
    global EVERY
    parser = argparse.ArgumentParser()
    parser.add_argument("--only", choices=PARTS)
    parser.add_argument("--every", type=int, default=1)
    parser.add_argument("programs", nargs="*")
    given = parser.parse_args()
    parts, EVERY = {given.only} if given.only else set(PARTS), given.every
    usbreg = program(*given.programs[:1])
    first, orders = (f"{EXAMPLES}/{it}.jsonl" for it in ("first", "orders"))
    with refusal() as (room, shim):
        if "trial" in parts:
            trials(usbreg, shim, room, first)
            trials(usbreg, shim, room, orders)
        for part, refuse in (("found", foundings), ("apply", stores), ("show", views), ("import", imports), ("serve", connections)):
            if part in parts:
                refuse(usbreg, shim, room, first)
        for version in COUNTS if "open" in parts else ():
            older_stores(usbreg, shim, room, version)
        if "list" in parts:
            lists(program(*given.programs[1:2], crate="usbids_bench"), shim, room)


if __name__ == "__main__":
    main()
