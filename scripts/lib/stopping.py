"""How scripts kill processes, and what those share that kill the program at random moments: the stops, and what must be left of
the requests."""

import json
import os
import random
import signal
import subprocess
import sys

from lib.usbreg import copy, opened


def kill(*processes):
    """Kills processes as `kill -9` does, also those that are stopped or have ended, and waits for their ends."""
    for it in processes:
        it.kill()
    for it in processes:
        it.wait()


def killed(words, seconds=None, **how):
    """Runs a command, and kills it with all that it started after the given seconds, if some are given. Returns whether it
    was killed. Ends the script if it ended by itself and failed."""
    with subprocess.Popen(words, **{"stdout": subprocess.DEVNULL, **how}, start_new_session=True) as ran:
        try:
            status, allowed = ran.wait(seconds), {0}
        except subprocess.TimeoutExpired:
            os.killpg(ran.pid, signal.SIGKILL)
            status, allowed = ran.wait(), {0, -signal.SIGKILL}
    if status not in allowed:
        sys.exit(f"{words} ended with status {status}")
    return status != 0


def kept(store, room):
    """Returns the caller, the key and the reply of each order that a copy of the store keeps, in the order of commits."""
    with opened(copy(store, f"{room}/copy.db")) as connection:
        if connection.execute("PRAGMA integrity_check").fetchone() != ("ok",):
            sys.exit("the store that a stop left is not sound")
        return {(caller, key): reply for caller, key, reply in connection.execute("SELECT caller, request_key, reply FROM kept")}


def look(store, room, asked, replies):
    """Ends the script if the store is not right after these replies."""
    there = kept(store, room)
    if len(there) not in (len(replies), len(replies) + 1):
        sys.exit(f"{len(replies)} replies were printed, and {len(there)} orders are kept")
    for request, reply in zip(asked, replies):
        if there.get((request["caller"], request["key"])) != json.loads(reply)["done"]:
            sys.exit(f"the printed reply to {request} was not kept")
    more = asked[: len(there)]
    if any((it["caller"], it["key"]) not in there for it in more):
        sys.exit("the orders that are kept are not the first of the requests")


def stopped(stops, longest, store, room, asked, go_on):
    """Kills a program the given number of times while it acts on the requests, and looks each time at what is left. `go_on` lets
    it act on those after the first so many: it is killed after the given seconds, at most the longest, and not if None is given.
    It returns the replies, and whether it was killed. Returns all replies, how many stops there were, and how many of these came
    between a commit and its reply."""
    replies, count, between = [], 0, 0
    while count < stops:
        more, was_killed = go_on(len(replies), random.uniform(0, longest))
        replies += more
        if not was_killed:
            break
        count += 1
        look(store, room, asked, replies)
        between += len(kept(store, room)) > len(replies)
    return replies + go_on(len(replies), None)[0], count, between
