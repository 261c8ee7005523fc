#!/usr/bin/env python3
"""Explores every state of machines that share one log of accepted requests, and shows that wrong protocols fail.

The log keeps one line for a number, and the store of each machine is a beginning of it. A machine that gets a message

  follows   reads the lines that its store lacks, and acts on them;
  answers   a query, a repeat or a refusal, by its store; and else
  appends   the request as the next line, on condition that the log has none there and has the one before;
  commits   the request, and
  replies.

If another line is there, the machine begins again; if the line there is this very request, an earlier try put it there,
and the machine goes on. It may give up at any time, since nothing comes back: it then commits nothing, and the log may take
the line still, at any later time, or never. A machine may crash between any two steps and loses all but its store. A client
that got no reply sends its request again, to any machine.

Looked at in each state, and at each step from it:

  acknowledged   a request that was answered as accepted is in the log;
  one holder     no number is granted twice in the log;
  beginning      the store of each machine is a beginning of the log;
  growing        the log only gets longer;
  fresh          an answer says only what every answer before it allows: a request that was answered as accepted counts.

The five wrong protocols at the end of this file leave one step out, or take it too early. Each has to break the promise
that stands beside it.

There are two machines and three requests, two of which want the same number.

Usage: scripts/explore_the_log.py [--whole]. It explores one crash, and two sends of each of those two requests and one of the
third, in some seconds; with --whole two crashes and two sends of each, which are 308,670 states, in minutes. It needs no
program. The last line counts the states, and the exit status is 0 if the protocol keeps every promise and each wrong one
breaks its own."""

import sys
from collections import deque
from typing import NamedTuple

MACHINES = (0, 1)
SOME, WHOLE = ((2, 2, 1), 1), ((2, 2, 2), 2)  # how often each client may send its request, and the crashes


class Request(NamedTuple):
    """A request for a number. Its name stands for its caller, its key and its organisation."""

    name: str
    number: int


REQUESTS = (Request("ann", 1), Request("bob", 1), Request("cat", 2))


class Append(NamedTuple):
    """An append that was sent and that the log has not decided."""

    machine: int
    place: int
    request: Request


class State(NamedTuple):
    """What is there at one instant."""

    log: tuple = ()
    stores: tuple = tuple(() for _ in MACHINES)
    work: tuple = tuple(None for _ in MACHINES)  # what a machine is at: None, or a step and what it is about
    sent: frozenset = frozenset()
    acknowledged: frozenset = frozenset()
    sends: tuple = SOME[0]  # how often each client may still send its request
    crashes: int = SOME[1]  # how many there may still be


class Stale(Exception):
    """An answer that an earlier one forbids."""


def at(row, index, value):
    """Returns the row with this value at the index."""
    return row[:index] + (value,) + row[index + 1 :]


class Protocol:
    """The protocol. A wrong one overrides a part."""

    breaks = None

    def caught_up(self, state, machine):
        """Returns the store after the machine followed the log."""
        store = state.stores[machine]
        return state.log if state.log[: len(store)] == store else store

    def takes(self, log, append):
        """Returns whether the log takes the append as its next line."""
        return len(log) == append.place

    def is_own(self, log, append):
        """Returns whether a line that is there already is the machine's own."""
        return log[append.place : append.place + 1] == (append.request,)

    def begun(self, state, append, store):
        """Returns the state after the append was sent, from a store that follows the log."""
        return state._replace(
            stores=at(state.stores, append.machine, store),
            work=at(state.work, append.machine, ("waits", append)),
            sent=state.sent | {append},
        )

    def committed(self, state, machine, request):
        """Returns the state after the commit."""
        store = state.stores[machine] + (request,)
        return state._replace(stores=at(state.stores, machine, store), work=at(state.work, machine, ("replies", request)))


def verdict(store, request):
    """Returns what the registry with these requests says to the request."""
    if request in store:
        return "kept"
    return "refused" if any(other.number == request.number for other in store) else "new"


def answered(state, machine, store, index):
    """Returns the state after an answer by the store, without the sends of the client that has it."""
    request = REQUESTS[index]
    if any(other.number == request.number and other not in store for other in state.acknowledged):
        raise Stale
    if verdict(store, request) == "kept":
        state = state._replace(acknowledged=state.acknowledged | {request})
    return state._replace(stores=at(state.stores, machine, store))


def messages(protocol, state, machine):
    """The states after an idle machine gets a message."""
    store = protocol.caught_up(state, machine)
    for number in {request.number for request in REQUESTS}:
        held = any(request.number == number for request in store)
        if not held and any(request.number == number for request in state.acknowledged):
            raise Stale  # a query for the number is told that it is free
    for index, request in enumerate(REQUESTS):
        if not state.sends[index] or request in state.acknowledged:
            continue
        sent = state._replace(sends=at(state.sends, index, state.sends[index] - 1))
        if verdict(store, request) == "new":
            yield protocol.begun(sent, Append(machine, len(store), request), store)
        else:
            yield answered(sent, machine, store, index)


def steps_of(protocol, state, machine):
    """The states after the next step of a machine."""
    if state.work[machine] is None:
        yield from messages(protocol, state, machine)
        return
    idle = state._replace(work=at(state.work, machine, None))
    step, subject = state.work[machine]
    if step == "waits":
        yield idle  # it gives up
    elif step == "commits":
        yield protocol.committed(state, machine, subject.request)
    else:
        yield idle._replace(acknowledged=state.acknowledged | {subject})
    if state.crashes:
        yield idle._replace(crashes=state.crashes - 1)


def decided(protocol, state, append):
    """The state after the log decides an append."""
    taken = protocol.takes(state.log, append)
    own = taken or protocol.is_own(state.log, append)
    log = state.log + (append.request,) if taken else state.log
    after = state._replace(log=log, sent=state.sent - {append})
    if state.work[append.machine] != ("waits", append):
        return after
    return after._replace(work=at(state.work, append.machine, ("commits", append) if own else None))


def steps(protocol, state):
    """The states after one step of a machine or of the log."""
    for machine in MACHINES:
        yield from steps_of(protocol, state, machine)
    for append in state.sent:
        yield decided(protocol, state, append)


def broken(before, state):
    """Returns the promise that the step to this state breaks, if it breaks one."""
    if state.log[: len(before.log)] != before.log:
        return "growing"
    if not state.acknowledged <= set(state.log):
        return "acknowledged"
    if len({request.number for request in state.log}) != len(state.log):
        return "one holder"
    if any(store != state.log[: len(store)] for store in state.stores):
        return "beginning"
    return None


def explore(protocol, sends, crashes):
    """Returns how many states were seen, and the promise that was broken, if one was."""
    first = State(sends=sends, crashes=crashes)
    seen, next_ones = {first}, deque([first])
    while next_ones:
        state = next_ones.popleft()
        try:
            for after in steps(protocol, state):
                fault = broken(state, after)
                if fault:
                    return len(seen), fault
                if after not in seen:
                    seen.add(after)
                    next_ones.append(after)
        except Stale:
            return len(seen), "fresh"
    return len(seen), None


class CommitsFirst(Protocol):
    """Commits before it appends."""

    breaks = "beginning"

    def begun(self, state, append, store):
        return super().begun(state, append, store + (append.request,))

    def committed(self, state, machine, request):
        return state._replace(work=at(state.work, machine, ("replies", request)))


class RepliesFirst(Protocol):
    """Replies before it appends."""

    breaks = "acknowledged"

    def begun(self, state, append, store):
        begun = super().begun(state, append, store)
        return begun._replace(acknowledged=state.acknowledged | {append.request})


class NeverFollows(Protocol):
    """Answers by the store as it is."""

    breaks = "fresh"

    def caught_up(self, state, machine):
        return state.stores[machine]


class AppendsAnyway(Protocol):
    """Appends without the condition."""

    breaks = "one holder"

    def takes(self, log, append):
        return True


class TakesAnyLine(Protocol):
    """Takes whatever line is there for its own."""

    breaks = "beginning"

    def is_own(self, log, append):
        return len(log) > append.place


WRONG = (CommitsFirst, RepliesFirst, NeverFollows, AppendsAnyway, TakesAnyLine)


def main():
    """Explores the protocol and the wrong ones."""
    whole = sys.argv[1:] == ["--whole"]
    if sys.argv[1:] and not whole:
        sys.exit(__doc__)
    states, fault = explore(Protocol(), *(WHOLE if whole else SOME))
    failed = fault is not None
    if failed:
        print(f"FAILED: the protocol breaks `{fault}` after {states} states")
    for wrong in WRONG:
        tried, found = explore(wrong(), *SOME)
        if found != wrong.breaks:
            failed = True
            print(f"FAILED: {wrong.__doc__} It breaks {found} after {tried} states, and not `{wrong.breaks}`")
    print(f"{states} states of the protocol, {len(WRONG)} wrong protocols")
    sys.exit(failed)


if __name__ == "__main__":
    main()
