#!/usr/bin/env python3
"""Runs tests of the crates again and again, each time with another allocation refused, and checks what they print.

The tests of the lower crates are programs that read rows and show a result for each. They run here on the rows of one kind
at a time. A row that is refused memory shows what it always shows, because it did without, or it says that memory ran out.

A test of the other crates that is refused memory passes, because it did without, or it fails and says so: by an out-of-memory
error, or because a call returned nothing where a result was expected. A test that compares another result than the right one
fails here: running out of memory has changed a result.

For rows or a test that ask for many allocations it refuses some hundred, evenly spread, except for two tests that make the
tables and each statement on them once; with --all it refuses each allocation.

Of the tests of the store it tries the one on memory, which checks by itself which results are right when memory runs out.

Usage: scripts/refuse_in_tests.py [--all] [PROGRAM..], by default the test programs that `rt test`, `rt run` or `rt ci` has
built. Needs cc. The exit status is 0 if all of this holds."""

import itertools
import os
import re
import sys

from lib.refusing import asked_in, each, refusal, run_refused
from lib.usbreg import TOP, content, program, run, write

# The crates of tests that are programs over rows, and the others.
ROWS = ["usbids_text_tests", "registry_rules_tests", "registry_reports_tests", "registry_wire_tests", "registry_http_tests"]
CRATES = ["example_tests", "registry_tables_tests", "registry_reopening_tests"]
MOST = 650
WHOLE = {"lists::a_store_has_what_was_put_in", "lookups::a_request_finds_what_it_needs"}

# In these rows the writer that a call is given runs out of memory, and then has a prefix.
LEFT_OUT = {"room", "short", "brim"}

# The tests of reopening. The others compare what files hold, and treat a disk without memory as one that stops.
STORE = "registry_reopening_tests_tests"
OF_STORE = "memory::"

# How a test or a program ends that was refused memory: by an error, also one of its own values (a sink that cannot gather its
# bytes is broken), by an `expect` of memory, or by a comparison.
ENDS = re.compile(r'^((error|memory|a founding|a request): (NoMemory|AllocError|AllocFailed \{ \.\. \}|Broken|"memory")|Error: Kind\(OutOfMemory\))$', re.MULTILINE)
SIDES = re.compile(r"^  left: (.*)\n right: (.*)$", re.MULTILINE)
NOTHING = {"None", '""'}
# A disk in memory fails when memory runs out.
SHORT = re.compile(r"NoMemory|Err\(Store\)")
# What a row shows that ran out of memory. For a response it may be the response that needs none, behind the failures of its
# source so far.
ROW_ENDS = re.compile(r'out of memory|(\d+ )?HTTP/1\.1 503 Service Unavailable.*"name":"NoMemory","refused":31.*')


def says_so(errors):
    """Returns whether a failed test says that memory ran out; if it compares two texts, in the first line that differs."""
    sides = SIDES.search(errors)
    if not sides:
        return bool(ENDS.search(errors))
    # the lines of a text that is shown in quotes
    left, right = (it.split(r"\n") for it in sides.groups())
    first = next((it for it, wanted in itertools.zip_longest(left, right, fillvalue="") if it != wanted), "")
    return first in NOTHING or bool(SHORT.search(first))


def tests_of(tests):
    listed = run([tests, "--list"])[1].decode().splitlines()
    named = [it.removesuffix(": test") for it in listed if it.endswith(": test")]
    return [it for it in named if os.path.basename(tests) != STORE or it.startswith(OF_STORE)]


def try_test(tests, test, shim, room, most):
    words = [tests, test]
    count = asked_in(words, shim, room)
    apart = 1 if test in WHOLE else max(1, count // most)

    def attempt(number, _):
        status, output, errors = run_refused(words, shim, number)
        if status and not says_so(errors.decode(errors="replace")):
            sys.exit(f"{tests} {test} without allocation {number}: status {status}, {output[-200:]!r} and {errors[:600]!r}")
        return not status

    passed = each(range(1, count + 1, apart), room, attempt)
    print(f"{test}: {len(passed)} of {count} allocations refused; {sum(passed)} runs did without it, the others said so", flush=True)


def rows_of(crate):
    """Returns the rows and what they show, by kind."""
    given, wanted = (content(f"{TOP}/crates/{crate}/{name}").decode().splitlines() for name in ("stdin", "stdout"))
    kinds = {}
    for line, shown in zip(given, wanted, strict=True):
        kinds.setdefault(line.partition(" ")[0], []).append((line, shown))
    return {kind: rows for kind, rows in kinds.items() if kind not in LEFT_OUT | {"#"}}


def shows_less(given, rows, ended_well):
    """Returns whether each line is what its row shows, or says that memory ran out. A run may end before all lines only if
    it says so."""
    return all(line == shown or ROW_ENDS.fullmatch(line) for line, (_, shown) in zip(given, rows)) and (
        len(given) == len(rows) if ended_well else len(given) <= len(rows)
    )


def try_rows(tests, kind, rows, shim, room, most):
    path = write(f"{room}/rows", "".join(f"{line}\n" for line, _ in rows))
    count = asked_in([tests], shim, room, path)

    def attempt(number, _):
        status, output, errors = run_refused([tests], shim, number, path)
        given = output.decode().splitlines()
        if not shows_less(given, rows, not status) or (status and not ENDS.search(errors.decode(errors="replace"))):
            sys.exit(f"{tests}, rows of {kind} without allocation {number}: status {status}, {output[-600:]!r} and {errors[:600]!r}")
        return given == [shown for _, shown in rows]

    passed = each(range(1, count + 1, max(1, count // most)), room, attempt)
    print(f"{kind}: {len(passed)} of {count} allocations refused; {sum(passed)} runs did without it, the others said so", flush=True)


def try_program(tests, shim, room, most):
    crate = os.path.basename(tests)
    if crate in ROWS:
        for kind, rows in rows_of(crate).items():
            try_rows(tests, kind, rows, shim, room, most)
    else:
        for test in tests_of(tests):
            try_test(tests, test, shim, room, most)


def main():
    given = [it for it in sys.argv[1:] if it != "--all"]
    programs = [f"{TOP}/crates/{it}/out/{it}" for it in ROWS] + [f"{TOP}/crates/{it}/out/{it}_tests" for it in CRATES]
    built = [program(it) for it in given] or [it for it in programs if os.path.exists(it)]
    if not given and len(built) < len(programs):
        print(f"SKIPPED: {len(programs) - len(built)} programs of tests without memory, which `make test` builds")
    most = sys.maxsize if "--all" in sys.argv else MOST
    with refusal() as (room, shim):
        for tests in built:
            try_program(tests, shim, room, most)


if __name__ == "__main__":
    main()
