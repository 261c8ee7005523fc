"""What stands behind the page while `use_the_page.py` uses it: a store, its server, a relay that loses responses, the proxy
of the recipe, and the page as `make install` puts it."""

import contextlib
import json
import shutil
import signal
import socket
import subprocess
import sys
import threading

from lib.proxy import by_proxy
from lib.serving import HOST, free_port, serving
from lib.usbreg import CONTRIB, TOP, apply, content, copy, found, same, write

CURATOR, OTHER = "curator-1", "curator-2"
FOUNDING = f'vendor = "1209"\nname = "Shared products"\ncurators = ["{CURATOR}", "{OTHER}"]\nlicences = ["GPL-3.0-only", "MIT"]\nfixed = ["0001-0010", "0f00-0fff"]\n'
# What is there before: another organisation, with a number and an open petition, and a second vendor.
BEFORE = f"""\
{{"caller":"bob","key":"b1","order":"enrol","org":"bobs-boards","title":"Bob's boards","site":"https://bob.example/"}}
{{"caller":"bob","key":"b2","order":"ask","org":"bobs-boards","number":"0033","title":"Serial adapter","licence":"MIT","site":"https://bob.example/s","source":"https://bob.example/src"}}
{{"caller":"{CURATOR}","key":"c1","order":"grant","petition":1}}
{{"caller":"bob","key":"b3","order":"ask","org":"bobs-boards","number":"beef","title":"Thermometer","licence":"MIT","site":"https://bob.example/t","source":"https://bob.example/src"}}
{{"caller":"{CURATOR}","key":"c2","order":"add-vendor","vendor":"cafe","name":"Cafe boards"}}
"""


# The time of each order, so that what is shown is the same on each day; where the browser is, it is the next day already.
TIME, DAY = "2026-11-28T20:34:13Z", "29 Nov 2026"


def sent_by_proxy(status, wait=None):
    """Returns the whole response of a refusal by the proxy itself, which passed nothing on."""
    _, body = by_proxy(status)
    after = f"retry-after: {wait}\r\n" if wait else ""
    return f"HTTP/1.1 {status} No\r\ncontent-type: application/json\r\ncontent-length: {len(body)}\r\n{after}connection: close\r\n\r\n".encode() + body


class Relay:
    """Passes connections on to a server. `losses` says what becomes of the next responses to orders: a number of bytes
    after which one is cut, other bytes in its place, or a function that is called before it is dropped. `tries` has the
    key, the body and the response of each order, `callers` the caller of each, and `waiting` counts those that have no
    response yet. Each order gets a time that is always the same. `reads` has the responses to the next questions for a path in place of those of the server."""

    def __init__(self, server_port):
        self.server_port, self.losses, self.tries, self.callers, self.waiting = server_port, [], [], [], 0
        self.reads = {}
        self.listener = socket.create_server((HOST, 0), backlog=128)
        self.port = self.listener.getsockname()[1]
        threading.Thread(target=self.listen, daemon=True).start()

    def listen(self):
        while True:
            connection, _ = self.listener.accept()
            threading.Thread(target=self.passes, args=(connection,), daemon=True).start()

    def passes(self, connection):
        with contextlib.suppress(OSError), connection:
            head, body = whole_message(connection)
            is_order = head.startswith(b"POST /commands ")
            if others := self.reads.get(head.split()[1].decode()):
                return connection.sendall(others.pop(0))
            self.waiting += is_order
            got = b""
            with contextlib.suppress(OSError), socket.create_connection((HOST, self.server_port)) as peer:
                peer.sendall((timed(head) if is_order else head) + b"\r\n\r\n" + body)
                got = b"".join(iter(lambda: peer.recv(1 << 20), b""))
            self.waiting -= is_order
            if is_order:
                got = self.order(head, body, got)
            connection.sendall(got)

    def order(self, head, body, got):
        key, caller = (next(it for it in head.decode().split("\r\n") if it.lower().startswith(name)).split(": ")[1] for name in ("registry-key", "registry-caller"))
        self.tries.append((key, body.decode(), got.partition(b"\r\n\r\n")[2].decode()))
        self.callers.append(caller)
        loss = self.losses.pop(0) if self.losses else None
        if callable(loss):
            loss()
            return b""
        if isinstance(loss, bytes):
            return loss
        return got if loss is None else got[:loss]


def timed(head):
    """Returns the head of an order with the time of all orders."""
    lines = [it for it in head.split(b"\r\n") if not it.lower().startswith(b"registry-time:")]
    return b"\r\n".join([*lines, f"registry-time: {TIME}".encode()])


def whole_message(connection):
    """Returns the head and the body of a message."""
    sent = b""
    while b"\r\n\r\n" not in sent:
        sent += received(connection)
    head, _, body = sent.partition(b"\r\n\r\n")
    length = next((int(it[15:]) for it in head.lower().split(b"\r\n") if it.startswith(b"content-length:")), 0)
    while len(body) < length:
        body += received(connection)
    return head, body


def received(connection):
    got = connection.recv(65536)
    if not got:
        raise OSError("the message ends early")
    return got


class Stage:
    """All that stands behind the page, for a `with`: a store in which the requests of `before` were acted on, its server, the
    relay, a proxy that `recipe` makes of a folder and a server, and the installed page. `edits` are changes to the files of
    the page, or to usbreg.conf: the file, what it has, and what it gets instead. With `store` it begins with a copy of that."""

    def __init__(self, usbreg, room, recipe, edits=(), before=BEFORE, store=None):
        self.usbreg, self.room, self.port, self.store = usbreg, room, free_port(), f"{room}/store.db"
        if store:
            copy(store, self.store)
        else:
            found(usbreg, self.store, write(f"{room}/founding.toml", FOUNDING))
            apply(usbreg, self.store, write(f"{room}/before.jsonl", before))
        self.relay = Relay(self.port)
        self.recipe = recipe(room, self.relay)
        for it in ("web", "man"):
            shutil.copytree(f"{TOP}/{it}", f"{room}/source/{it}")
        self.edit("usbreg.conf", f"{CONTRIB}/..", f"{room}/installed/usr/local/share/usbreg")
        self.install(edits)

    def install(self, edits=()):
        """Installs the page with these changes too, as an upgrade does."""
        for it in edits:
            self.edit(*it)
        words = ["make", "-s", "-C", f"{self.room}/source", "-f", f"{TOP}/Makefile", "install", f"PROGRAM={self.usbreg}", f"DESTDIR={self.room}/installed"]
        subprocess.run([*words, "PREFIX=/usr/local"], check=True)

    def edit(self, name, old, new):
        path = f"{self.recipe.folder}/{name}" if name == "usbreg.conf" else f"{self.room}/source/web/{name}"
        text = content(path).decode()
        if old not in text:
            sys.exit(f"{path} has no {old!r}")
        write(path, text.replace(old, new))

    def start(self):
        self.server = serving(self.usbreg, self.store, port=self.port).up()

    def kill(self):
        self.server.kill()

    def stop(self, is_stopped):
        """Stops the server in the middle of all that it does, or lets it go on."""
        self.server.process.send_signal(signal.SIGSTOP if is_stopped else signal.SIGCONT)

    def orders(self, caller, key, order):
        """Gives an order as somebody does who does not use this page."""
        body = json.dumps(order)
        named = {"registry-caller": caller, "registry-key": key, "registry-time": TIME, "content-length": len(body)}
        head = "POST /commands HTTP/1.1\r\n" + "".join(f"{name}: {value}\r\n" for name, value in named.items()) + "\r\n"
        with socket.create_connection((HOST, self.port)) as peer:
            peer.sendall(f"{head}{body}".encode())
            got = b"".join(iter(lambda: peer.recv(65536), b""))
        if not got.startswith(b"HTTP/1.1 200 "):
            sys.exit(f"{order} of {caller} got {got!r}")

    def publish(self):
        """Writes the reports, what the record says of each thing, and the feeds to files, as the timer does."""
        at, server = f"{self.recipe.folder}/usbreg-list", f"http://{HOST}:{self.port}"
        subprocess.run([f"{CONTRIB}/publish-reports", f"{server}/reports", f"{at}/reports"], check=True)
        subprocess.run([f"{CONTRIB}/publish-stories", server, f"{at}/stories"], check=True)
        subprocess.run([f"{CONTRIB}/publish-feed", server, f"{at}/feeds", f"http://{HOST}:{self.recipe.port}"], check=True)

    def unpublish(self):
        for name in ("reports", "stories", "feeds"):
            shutil.rmtree(f"{self.recipe.folder}/usbreg-list/{name}")

    def password(self, name, password):
        users = f"{self.recipe.folder}/usbreg.users"
        lines = [it for it in content(users).decode().splitlines() if not it.startswith(f"{name}:")]
        write(users, "".join(f"{it}\n" for it in [*lines, f"{name}:{{PLAIN}}{password}"]))

    def tried(self, what, page, act, replies):
        """Checks the responses that an order gets, all under one key and with one body, and returns both."""
        before = len(self.relay.tries)
        act()
        page.until(lambda: len(self.relay.tries) >= before + len(replies), f"{what}: {len(replies)} tries")
        tries = self.relay.tries[before:]
        same(f"{what}: keys and bodies", len({it[:2] for it in tries}), 1)
        same(what, [reply.strip() for _, _, reply in tries], replies)
        return tries[0][:2]

    def __enter__(self):
        self.start()
        self.recipe.__enter__()
        return self

    def __exit__(self, *_):
        self.recipe.__exit__()
        self.server.__exit__()


def done(text):
    return f'{{"done":"{text}"}}'
