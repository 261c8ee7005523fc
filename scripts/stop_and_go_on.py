#!/usr/bin/env python3
"""Kills `usbreg apply` at random moments, and checks what is left each time.

Each time it counts the printed reply lines, and opens a copy of the store: the kept orders must be the first of the
requests, with each printed reply as it was printed, and at most one more. Then the run goes on with `--answered`. In the
end replies and tables must be those of a run that was never stopped.

Usage: scripts/stop_and_go_on.py [STOPS [PROGRAM]], by default 100 stops of the program that `make` builds.
The exit status is 0 if all of this holds.
"""

import random
import sys
import tempfile
import time

from lib.stopping import killed, stopped
from lib.usbreg import folder, found, program, rounds, tables, write_requests

ENROLMENTS = 1500


def apply_until(usbreg, store, lines, answered, seconds=None):
    """Returns the whole reply lines of a run that is killed after the given seconds, and whether it was."""
    words = [usbreg, "apply", store, lines, "--answered", str(answered)]
    with tempfile.TemporaryFile() as printed:
        was_killed = killed(words, seconds, stdout=printed)
        printed.seek(0)
        whole = printed.read().split(b"\n")[:-1]
    return whole, was_killed


def main():
    stops = int(sys.argv[1]) if len(sys.argv) > 1 else 100
    usbreg = program(*sys.argv[2:3])
    seed = int(time.time())
    random.seed(seed)
    with folder() as room:
        asked = list(rounds(1, ENROLMENTS))
        lines = write_requests(f"{room}/requests.jsonl", asked)
        store, other = (found(usbreg, f"{room}/{it}.db") for it in ("store", "other"))
        began = time.monotonic()
        wanted, _ = apply_until(usbreg, other, lines, 0)
        whole = time.monotonic() - began
        # from the start, before anything is acted on, to a few dozen requests later
        longest = 0.2 + 2 * whole / max(1, stops)
        replies, count, between = stopped(stops, longest, store, room, asked, lambda *at: apply_until(usbreg, store, lines, *at))
        if replies != wanted:
            sys.exit("the replies are not those of a run without stops")
        if tables(store) != tables(other):
            sys.exit("the tables are not those of a run without stops")
    print(f"{count} stops in {len(asked)} requests, {between} of them between a commit and its reply: each printed reply was kept, and the end is that of a run without stops (seed {seed})")


if __name__ == "__main__":
    main()
