#!/usr/bin/env python3
"""Makes each cause of a fault, and compares what `usbreg` says of it.

Each case is run twice. Without `--verbose` the standard error has the fault alone; with it, one more line, which names
the argument or the stream and the cause. The status, the output and the files are the same. That line comes without
`--verbose` too if the standard error is a terminal. A founding file that is missing or bad leaves no store; one with
unknown keys founds a registry, and the line names them. The causes in stores are in `lib/causes_of_stores.py`, those in what
is read in `lib/causes_of_inputs.py`.

Usage: scripts/say_what_failed.py [PROGRAM], by default the one that `make` builds. Needs a C compiler. The exit status
is 0 if all of this holds."""

import os
import socket
import sys

from lib.causes import FILE, STORE, Cases, named
from lib.causes_of_inputs import INPUTS
from lib.causes_of_stores import STORES
from lib.serving import serving
from lib.terminal import through_terminal
from lib.usbreg import folder, found, program, run


def try_arguments(cases):
    """Arguments that `clap` would mislead about: a line more than its text."""
    for words, line in (
        (["--verbose"], "--verbose follows a command, as in usbreg trial --verbose"),
        (["help", "--help"], "usbreg help COMMAND prints the help of a command, and usbreg --help that of the program"),
    ):
        status, _, errors = run([cases.usbreg, *words])
        if status != 2 or not errors.decode().endswith(f"'--help'.\nusbreg: {line}\n"):
            sys.exit(f"usbreg {' '.join(words)}: status {status} and {errors!r}")
        cases.count += 1


def try_others(cases):
    """Another process that has the store, or the port."""
    with socket.create_server(("127.0.0.1", 0)) as taken:
        port = taken.getsockname()[1]
        cases.case(["serve", "CASE/numbers.db", "--port", str(port)], 1, "fault: socket\n", f"port {port}: in use by another process")
    store = found(cases.usbreg, f"{cases.room}/served.db")
    with serving(cases.usbreg, store, port=port).up():
        cases.case(["export", store], 1, STORE, f"{store}: in use by another process")


def try_terminals(cases):
    """A terminal has the causes unasked, and a trial that reads one says so."""
    missing = f"{cases.room}/none.db"
    *_, said = through_terminal([cases.usbreg, "export", missing])
    if said != named(FILE, f"{missing}: no such file"):
        sys.exit(f"to a terminal: {said!r}")
    asks = "usbreg: request lines are read from the terminal; Ctrl-D ends them"
    *_, said = through_terminal([cases.usbreg, "trial"], asks.encode())
    if f"{asks}\n" not in said:
        sys.exit(f"a trial from a terminal: {said!r}")
    cases.count += 2


def main():
    usbreg = program(*sys.argv[1:])
    with folder() as room:
        os.chmod(room, 0o755)
        cases = Cases(usbreg, room)
        for part in (*STORES, *INPUTS, try_arguments, try_others, try_terminals):
            part(cases)
    print(f"{cases.count} causes of faults are said as they are")


if __name__ == "__main__":
    main()
