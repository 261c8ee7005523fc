"""What the floods of `floods.py` meet: a registry with many numbers, the other user whose orders must come soon, and logs that
must not grow."""

import sys
import time

from lib.proxy import FEW, Gate, connected, signed, told
from lib.serving import command, read_to_end, serving
from lib.usbreg import kept_rows, put_rows, same

# The least number of the registry; how many accepted requests it has, and the canonical form of each.
FIRST, ACCEPTED, AMENDED = 0x2000, 10_000, b"amend-org\tfull\tFull\thttps://full.example/"
# The seconds in which another user's order must come, and those of a storm.
SOON, STORM = 0.5, 2
# A record of TLS with a message that ends too soon.
HELLO = bytes.fromhex("160301000501000001fc")


class Missed(Exception):
    """What a flood did that it should not do, in words."""


def need(holds, what):
    if not holds:
        raise Missed(what)


def filled(store, numbers):
    """Puts an organisation with so many numbers, and some accepted requests, into a closed store, and returns its path."""
    return put_rows(store, (
        ("INSERT INTO orgs VALUES (?, 'Full', 'https://full.example/', 'mallory')", [("full",)]),
        ("INSERT INTO entries3 VALUES (0x1209, ?, 'full', 1, ?, NULL, NULL, NULL)", ((it, f"Device {it}") for it in range(FIRST, FIRST + numbers))),
        *kept_rows(("mallory", f"a{it}", AMENDED, "amended organisation full") for it in range(ACCEPTED)),
    ))


def enrol(org, **others):
    return {"caller": "", "key": org, "order": "enrol", "org": org, "title": "Bob", "site": "https://bob.example/"} | others


class Others:
    """The orders of another user, which must come soon whatever goes on, and his queries. He comes from several addresses, so
    that he meets no limit of his own."""

    def __init__(self):
        self.gate, self.count = None, 0

    def address(self):
        self.count += 1
        return f"127.0.6.{self.count % 200 + 1}"

    def order(self, what):
        """Returns the seconds that an order takes."""
        address, org = self.address(), f"bobs{self.count}"
        began = time.monotonic()
        got = self.gate.ask(signed("bob", command(enrol(org))), address)[:2]
        took = time.monotonic() - began
        need(got == (200, told(f"enrolled {org}")), f"an order beside {what} gets {got}")
        need(took <= SOON, f"beside {what} another user's order takes {took:.2f} s")
        return took

    def meanwhile(self, what, seconds=STORM, also=lambda: None):
        """Sends orders for so many seconds, and does something else after each. Returns how long one takes at most."""
        until, took = time.monotonic() + seconds, 0
        while time.monotonic() < until:
            took = max(took, self.order(what))
            also()
            time.sleep(0.2)
        return took


class Stage:
    """What a flood meets, for a `with`: a client's gate, the proxy, the server over a store, and the other user."""

    def __init__(self, usbreg, store, recipe, port):
        self.usbreg, self.store, self.recipe, self.port = usbreg, store, recipe, port
        self.gate, self.others = Gate(recipe.port), Others()
        self.others.gate = self.gate

    def start(self):
        self.server = serving(self.usbreg, self.store, port=self.port)
        self.server.up()

    def __enter__(self):
        self.start()
        return self

    def __exit__(self, *_):
        self.server.__exit__()


def half_messages(recipe):
    """Half handshakes, and more clients than there are connections that stop in the middle of one: the logs get nothing. A
    control has the level of errors that nginx logs otherwise."""
    def grown():
        before = recipe.logged()
        for number in range(20):
            with connected(recipe.port, f"127.0.16.{number + 1}") as it:
                it.sendall(HELLO)
                read_to_end(it)
        some = recipe.logged() - before
        held = []
        for number in range(3 * FEW):
            held.append(connected(recipe.port, f"127.0.16.{number % 200 + 1}"))
            held[-1].sendall(HELLO[:3])
            time.sleep(0.002)
        time.sleep(0.5)
        for it in held:
            it.close()
        return some, recipe.logged() - before - some

    same("bytes of logs for half handshakes, and for half messages", grown(), (0, 0))
    recipe.__exit__()
    recipe.change("error.log emerg", "error.log crit")
    recipe.__enter__()
    handshakes, halves = grown()
    if not handshakes or not halves:
        sys.exit(f"with the level of critical errors the logs grow by {handshakes} and {halves} bytes")
