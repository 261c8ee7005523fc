#!/usr/bin/env python3
"""Runs three machines that share one registry, while eight clients send orders and ask, and the machines fail.

Each machine is a network namespace with etcd, `usbreg serve --log` and nginx, and a small disk. Clients send each order to a machine
at random, and one that got no reply again, under its key, to another, until it is accepted or refused; they
ask for what was accepted, and for the head of the record. Meanwhile processes are killed, etcd is stopped for longer than an
election, machines are cut off in both directions or in one, two at once too, a disk is full, a store is deleted, and a machine is
replaced by an empty one.

Looked at, by the times of all messages: no answer is older than one that had come before it was asked for, from whichever
machine, and what was accepted is found from then on. In the end the three stores have the same record, which is the log, and are
sound; the record has each order that was accepted, with its reply; and no number was granted twice.

As a control the same clients send to three machines that share no log: they have to be found out. So have three machines that
answer an order before the log has its line: a program between each of them and its etcd says too early that it was appended.

Usage: scripts/share_three_machines.py [--seconds N] [--seed N] [PATH/TO/USBREG]. N is 300 if it is not given; a seed gives the same
faults in the same order. Without root or one of the programs that it needs it says that it was skipped. The last line counts what
was done, and the exit status is 0 if all is as it should be."""

import collections
import http.client
import json
import random
import re
import signal
import sys
import threading
import time

from lib.three_machines import DISK, EARLY_LOG, NEEDED, PATIENCE, Machines, in_namespaces
from lib.usbreg import done, folder, program, same

CLIENTS, SECONDS, CONTROL = 8, 300, 12
# The seconds in which a line gets into the log that was sent to it too late.
LATE = 2
# The lines of a log that a new store acts on in a second, at least.
LINES = 100
# The seconds that a client waits for a response, that a fault lasts, and that pass before the next one.
WAIT, LASTS, BETWEEN = 25, (2.0, 5.0), (0.5, 2.0)
SITE = "https://acme.example/"
LOST = "orders that were accepted and are not in the record"
Answer = collections.namedtuple("Answer", "begun ended count")


class Book:
    """What the clients have heard, with times."""

    def __init__(self):
        self.guard = threading.Lock()
        self.accepted, self.orgs, self.answers, self.wrong = {}, [], [], []
        self.refused = self.sent = self.asked = self.unknown = 0
        self.wanted = 0

    def number(self):
        """Returns a number to ask for: each one is asked for twice, mostly by two clients."""
        with self.guard:
            self.wanted += 1
            return f"{0x1000 + self.wanted // 2:04x}"


def ask(machine, method, target, body=None, fields=None):
    """Returns the status and the body of a response, or None."""
    connection = http.client.HTTPConnection(machine.address, 80, timeout=WAIT)
    try:
        connection.request(method, target, body, fields or {})
        response = connection.getresponse()
        return response.status, response.read().decode()
    except (OSError, http.client.HTTPException):
        return None
    finally:
        connection.close()


class Client(threading.Thread):
    """Sends one order after another, and asks in between."""

    def __init__(self, index, machines, book, ends):
        super().__init__(daemon=True)
        self.name, self.machines, self.book, self.ends = f"maker{index}", machines, book, ends
        self.own, self.count = None, 0

    def run(self):
        while not self.ends.is_set():
            self.count += 1
            org = f"{self.name}-{self.count}"
            if self.order(self.name, {"order": "enrol", "org": org, "title": org, "site": SITE}):
                self.own = org
                with self.book.guard:
                    self.book.orgs.append(org)
            else:
                # A registry has room for 65,536 organisations. An hour may fill it.
                self.order(self.name, {"order": "amend-org", "org": self.own, "title": org, "site": SITE})
            self.look()
            number = self.book.number()
            petition = self.order(self.name, {"order": "ask", "org": self.own, "number": number, "title": org, "licence": "MIT", "site": SITE, "source": SITE})
            if petition:
                self.order("cora", {"order": "grant", "petition": int(petition.split()[1])})
            self.look()

    def order(self, caller, order):
        """Sends an order until it is accepted or refused. Returns what was done, if it was accepted."""
        self.count += 1
        key, body = f"{self.name}-{self.count}", json.dumps(order)
        while not self.ends.is_set():
            self.book.sent += 1
            response = ask(random.choice(self.machines), "POST", "/commands", body, {"registry-caller": caller, "registry-key": key})
            if response is None or response[0] >= 500:
                self.book.unknown += 1
                time.sleep(0.2)
                continue
            if response[0] == 200:
                reply = json.loads(response[1])["done"]
                with self.book.guard:
                    self.book.accepted[caller, key] = reply
                return reply
            self.book.refused += 1
            return None
        return None

    def look(self):
        """Asks for something that was accepted, and for the head of the record."""
        with self.book.guard:
            org = random.choice(self.book.orgs) if self.book.orgs else None
        if org:
            response = ask(random.choice(self.machines), "GET", f"/orgs/{org}")
            if response and response[0] < 500 and response[0] != 200:
                self.book.wrong.append(f"{org} was accepted, and then {response}")
        begun = time.monotonic()
        response = ask(random.choice(self.machines), "GET", "/head")
        if response and response[0] == 200:
            with self.book.guard:
                self.book.asked += 1
                self.book.answers.append(Answer(begun, time.monotonic(), json.loads(response[1])["requests"]))


def older_answers(answers):
    """Returns the answers that had fewer requests than one that had come before they were asked for."""
    by_end, most, wrong = sorted(answers, key=lambda it: it.ended), 0, []
    ended = collections.deque(by_end)
    for answer in sorted(answers):
        while ended and ended[0].ended < answer.begun:
            most = max(most, ended.popleft().count)
        if answer.count < most:
            wrong.append((answer, most))
    return wrong


# ---- faults, each of which lasts as long as the call

def killed(machine, *_):
    """Kills all processes of a machine at once."""
    machine.kill("usbreg", "etcd", "nginx")


def server_killed(machine, *_):
    machine.kill("usbreg")


def log_killed(machine, *_):
    machine.kill("etcd")


def stopped(machine, _, lasts):
    """Stops etcd of a machine for longer than an election."""
    machine.signal("etcd", signal.SIGSTOP)
    time.sleep(lasts)
    machine.signal("etcd", signal.SIGCONT)


def server_stopped(machine, _, lasts):
    machine.signal("usbreg", signal.SIGSTOP)
    time.sleep(lasts)
    machine.signal("usbreg", signal.SIGCONT)


def cut_off(machine, _, lasts):
    machine.wire("down")
    time.sleep(lasts)
    machine.wire("up")


def two_cut_off(machine, others, lasts):
    """No two machines can speak: there is no quorum."""
    for it in (machine, others[0]):
        it.wire("down")
    time.sleep(lasts)
    for it in (machine, others[0]):
        it.wire("up")


def dumb(machine, _, lasts):
    machine.deafen("output")
    time.sleep(lasts)
    machine.hear()


def deaf(machine, _, lasts):
    machine.deafen("input")
    time.sleep(lasts)
    machine.hear()


def full(machine, _, lasts):
    machine.fill()
    time.sleep(lasts)
    machine.empty()


def forgotten(machine, *_):
    machine.forget()


def replaced(machine, others, _):
    machine.replace(others[0])


FAULTS = (killed, server_killed, log_killed, stopped, server_stopped, cut_off, two_cut_off, dumb, deaf, full, forgotten, replaced)


def fail_in_turn(machines, seconds, chance):
    """Lets the machines fail, each fault once before one comes twice. Returns how often each was made."""
    made, until, left = collections.Counter(), time.monotonic() + seconds, []
    while time.monotonic() < until:
        left = left or chance.sample(FAULTS, len(FAULTS))
        fault, machine = left.pop(), chance.choice(machines)
        others = [it for it in machines if it is not machine]
        # A machine is replaced while the others have a quorum, and not while it is itself still coming back.
        if fault is replaced:
            wait_for_all(machines)
        fault(machine, chance.sample(others, len(others)), chance.uniform(*LASTS))
        made[fault.__name__] += 1
        time.sleep(chance.uniform(*BETWEEN))
    return made


def wait_for_all(machines):
    """Waits until each machine's own server answers. One may have to act on all lines of the log before."""
    begun = time.monotonic()
    for machine in machines:
        while machine.curl("/head") is None:
            taken = time.monotonic() - begun
            if taken > PATIENCE and taken > PATIENCE + max(it.count() for it in machines) / LINES:
                sys.exit(f"FAILED: the machine {machine.address} does not answer: {machine.said()}")
            time.sleep(0.3)


def granted_twice(record):
    """Returns the numbers that the record grants more than once."""
    numbers = collections.Counter(it[1] for line in record if (it := re.match(r"granted ([0-9a-f]{4}) to ", json.loads(line).get("done", ""))))
    return [number for number, count in numbers.items() if count > 1]


def wrong_answers(book):
    """Returns what is wrong with the answers, under its name."""
    return {"answers that are older than earlier ones": older_answers(book.answers)[:3], "answers without what was accepted": book.wrong[:3]}


def wrong_records(usbreg, machines, book):
    """Ends the servers, and compares stores, log and replies. Returns the number of requests, and what is wrong, under its name."""
    lines = machines[0].lines()
    for machine in machines:
        machine.down = {"usbreg", "nginx"}
        machine.kill("usbreg", "nginx")
    # (a check replays the record in memory, which takes a long one minutes)
    records = {it.address: done([usbreg, "history", it.store], seconds=3600).decode().splitlines() for it in machines}
    for machine in machines:
        done([usbreg, "check", machine.store], seconds=3600)
    kept = {(it["caller"], it["key"]): it["done"] for it in map(json.loads, lines[1:])}
    return len(lines) - 1, {
        f"stores whose record is not the log of {len(lines)} lines": [(at, len(record)) for at, record in records.items() if record != lines],
        LOST: [it for it, reply in book.accepted.items() if kept.get(it) != reply],
        "numbers that were granted twice": granted_twice(lines[1:]),
    }


def nothing_is(wrong, said):
    """Ends the script if something is wrong."""
    for name, found in wrong.items():
        same(f"{name} ({said})", found, [])


def with_clients(machines, book, during):
    """Lets clients send and ask during a call, and returns what that returned."""
    ends = threading.Event()
    clients = [Client(index, machines, book, ends) for index in range(CLIENTS)]
    for it in clients:
        it.start()
    found = during()
    ends.set()
    for it in clients:
        it.join(3 * WAIT)
        if it.is_alive():
            sys.exit("FAILED: a client got neither a response nor an error")
    return found


def control(usbreg, room):
    """Three machines that share no log have to be found out."""
    book = Book()
    with Machines(usbreg, room, log=None) as machines:
        wait_for_all(machines)
        with_clients(machines, book, lambda: time.sleep(CONTROL))
    if not book.wrong or not older_answers(book.answers):
        sys.exit("FAILED: machines that share no log were not found out")


def early_control(usbreg, room):
    """Three machines that answer an order before the log has its line have to be found out."""
    book = Book()
    with Machines(usbreg, room, log=EARLY_LOG) as machines:
        wait_for_all(machines)
        with_clients(machines, book, lambda: time.sleep(CONTROL))
        time.sleep(LATE)
        # A machine that still serves acts on the whole log now.
        for it in machines:
            it.curl("/head")
        wrong = wrong_records(usbreg, machines, book)[1]
    if not wrong[LOST]:
        sys.exit("FAILED: machines that answer before the log has the line were not found out")


def main(seconds=SECONDS, seed=None, given=None):
    """Runs the machines."""
    usbreg = program(given)
    if not in_namespaces():
        print(f"SKIPPED: no machines were run; that needs root and {', '.join(NEEDED)}")
        return
    seed = random.randrange(1 << 32) if seed is None else seed
    for it in (control, early_control):
        with folder() as room:
            it(usbreg, room)
    book = Book()
    with folder() as room, Machines(usbreg, room, disk=DISK + seconds // 10) as machines:
        wait_for_all(machines)
        made = with_clients(machines, book, lambda: fail_in_turn(machines, seconds, random.Random(seed)))
        said = f"seed {seed}, {sum(made.values())} faults"
        nothing_is(wrong_answers(book), said)
        wait_for_all(machines)
        count, wrong = wrong_records(usbreg, machines, book)
        nothing_is(wrong, said)
    print(f"{said} of {len(made)} kinds; {book.sent} orders sent, {len(book.accepted)} accepted, {book.refused} refused, {book.unknown} without a reply; {book.asked} heads; {count} lines")


def arguments(words):
    """Returns the arguments of `main`."""
    named = {}
    while words and words[0].startswith("--"):
        named[words[0][2:]] = int(words[1])
        words = words[2:]
    return {**named, **({"given": words[0]} if words else {})}


if __name__ == "__main__":
    main(**arguments(sys.argv[1:]))
