#!/usr/bin/env python3
"""Talks HTTP to `usbreg serve`, as real clients do, and compares the responses to the byte.

Each refusal that docs/requests.md lists with a status is met (`lib/desk_refusals.py`). A client of its own sends each byte
alone, sends half of a message and closes, sends nothing, stops reading, sends a message and more after it, sends 5 MB that are
refused unread, and makes 200 connections one after another. A port that is taken, a count of connections, a store that is already
open and a file that can grow no more end the program as docs/requests.md says. A record that begins with the founding's line
can be replayed, the head is that of the record, and the list and the reports are those after the orders so far. The script also kills the program as
`kill -9` does, in the middle of commands: each command whose response came was acted on, at most one more was, and in the
end the tables are those of a run without stops.

Usage: scripts/talk_to_the_desk.py [STOPS [PROGRAM]], by default 20 stops of the program that `make` builds. If curl is not
installed it says so and skips only what needs it. The exit status is 0 if all of this holds."""

import hashlib
import json
import resource
import shutil
import signal
import socket
import sys
import threading
import time

from lib.desk_orders import ENROL, ENROLLED, LINK, ask, asked
from lib.desk_refusals import TIME, Desk, each_refusal, fields
from lib.plain_history import History
from lib.serving import HOST, TEXT, command, connected, done, exchange, free_port, get, message, post, read_to_end, refused, response, serving
from lib.stopping import stopped
from lib.terminal import through_terminal
from lib.usbreg import FOUNDING, REPORTS, apply, done as printed, folder, found, program, rounds, run, same, tables, write, write_requests

# The most lines of a page of the record.
PAGE = 1000
# The number of connections made one after another, and of organisations that enrol, ask and are granted during the kills.
MANY, ROUNDS = 200, 100


# A client of its own.


def slowly(port, sent):
    """Returns the response if each byte is sent alone."""
    with connected(port) as connection:
        for byte in sent:
            connection.send(bytes([byte]))
        return read_to_end(connection)


def cut(port):
    """Sends messages that end early, at some places of the head and the body, or never begin. No order is acted on."""
    whole = command(ENROL)
    head = whole.index(b"\r\n\r\n") + 4
    for length in (0, 1, 16, head - 1, head, head + 1, len(whole) - 1):
        same(f"{length} bytes and no more", exchange(port, whole[:length], last=True), refused(20 if length < head else 23))
    for length in (0, 16, head, len(whole) - 1):
        with connected(port) as connection:
            connection.sendall(whole[:length])
    same("after messages that were cut", exchange(port, get("/orgs/acme")), refused(4))


def silent(port):
    """Checks that a peer that sends nothing, or stops in the middle, gets no response, and that the next one is served."""
    for sent in (b"", command(ENROL)[:-1]):
        began = time.monotonic()
        with connected(port) as connection:
            connection.sendall(sent)
            same("a peer that stops", read_to_end(connection), b"")
        if not 9 < time.monotonic() - began < 13:
            sys.exit(f"a peer that stops was let go after {time.monotonic() - began:.1f} seconds")
    same("after peers that stopped", exchange(port, get("/orgs/acme")), refused(4))


def unread(usbreg, room):
    """Checks that a client that stops reading a list of 6 MB is let go, and that the next one is served then. Less may fit
    into the buffers of the system."""
    with serving(usbreg, found(usbreg, f"{room}/unread.db")).up() as server, socket.socket() as client:
        same("an organisation", exchange(server.port, command(ENROL)), ENROLLED)
        for first in range(0x2000, 0xA000, 0x2000):
            lines = b"1209  x\n" + b"".join(b"\t%04x  %s\n" % (it, b"x" * 180) for it in range(first, first + 0x2000))
            same("an import", exchange(server.port, post("cora", f"l{first}", lines, "/imports/acme"))[:15], b"HTTP/1.1 200 OK")
        client.setsockopt(socket.SOL_SOCKET, socket.SO_RCVBUF, 4096)
        client.connect((HOST, server.port))
        client.sendall(get("/list"))
        began = time.monotonic()
        same("after a client that stops reading", exchange(server.port, get("/orgs/other")), refused(4))
        if not 9 < time.monotonic() - began < 55:
            sys.exit(f"a client that stops reading was let go after {time.monotonic() - began:.1f} seconds")


def early(desk):
    """Sends 5 MB that are refused unread, all before it reads: it gets the whole response."""
    large = b"x" * 5_000_000
    same("5 MB", exchange(desk.port, post("ann", "k9", large)), refused(22))
    same("5 MB to no path", exchange(desk.port, post("ann", "k9", large, "/none")), refused(24))
    with connected(desk.port) as connection:
        head, end, body = post("ann", "k9", large).partition(b"\r\n\r\n")
        connection.sendall(head + end)
        time.sleep(0.5)
        connection.sendall(body)
        same("5 MB after a while", read_to_end(connection), refused(22))
    if desk.has_curl:
        path = write(f"{desk.room}/large", large.decode())
        for expect in ("expect:", "expect: 100-continue"):
            same("5 MB by curl", desk.curl("-H", expect, *fields("ann", "k9"), "--data-binary", f"@{path}", "/commands"), refused(22))


FOUNDED = {
    "curators": ["cora"], "fixed": ["0001-0010"], "licences": ["GPL-3.0-only", "MIT"], "name": "Shared products", "vendor": "1209",
    "vendors": [{"name": "Shared products", "vendor": "1209"}],
}


def record_line(request, reply):
    """Returns the line of an accepted request in a record."""
    return compact({**request, "done": reply}) + b"\n"


def first_of_record():
    """Returns the line of the founding in a record."""
    return compact({name: it for name, it in FOUNDED.items() if name != "vendors"}) + b"\n"


def compact(fields):
    return json.dumps(fields, sort_keys=True, separators=(",", ":"), ensure_ascii=False).encode()


def digests_of(lines):
    """Returns the digest after each line of a record."""
    digests = [""]
    for line in lines:
        digests.append(hashlib.sha256(digests[-1].encode() + line).hexdigest())
    return digests[1:]


def record(port):
    """Asks for the founding and for pages of the record: as many lines as fit, from a place on, and from behind its end. Each
    has the digest that it continues, if the record has as many lines."""
    same("the founding", exchange(port, get("/founding")), response(compact(FOUNDED) + b"\n"))
    lines = [record_line(ENROL, "enrolled acme")]
    for number in range(1, PAGE + 10):
        request = asked(f"h{number}", "amend-org", org="acme", title="Acme", site=LINK)
        same(f"amendment {number}", exchange(port, command(request)), done("amended organisation acme"))
        lines.append(record_line(request, "amended organisation acme"))
    digests = digests_of([first_of_record(), *lines])
    for after in (0, 1, 63, 64, 65, 10, 11, len(lines) - 1, len(lines), len(lines) + 1, 10**6, 2**32 - 1):
        page, digest = b"".join(lines[after : after + PAGE]), digests[after] if after <= len(lines) else None
        same(f"the record after {after}", exchange(port, get(f"/history/{after}")), response(page, kind=TEXT, digest=digest))


def first_line(usbreg, room):
    """Asks for the founding of the record before and after a licence was added, and after a refused order. A record that
    begins with it is the one that `usbreg history` prints, and can be replayed."""
    store = found(usbreg, f"{room}/first.db")
    line = first_of_record()
    with serving(usbreg, store).up() as server:
        port = server.port
        same("the first line", exchange(port, get("/history/founding")), response(line, kind=TEXT))
        same("a new licence", exchange(port, command(asked("l1", "add-licence", "cora", licence="0BSD"))), done("added licence 0BSD"))
        same("an old licence", exchange(port, command(asked("l2", "add-licence", "cora", licence="MIT"))), refused(35))
        now = compact({**FOUNDED, "licences": ["0BSD", *FOUNDED["licences"]]}) + b"\n"
        same("the founding with the new licence", exchange(port, get("/founding")), response(now))
        same("the first line after it", exchange(port, get("/history/founding")), response(line, kind=TEXT))
        rest = exchange(port, get("/history/0")).partition(b"\r\n\r\n")[2]
    same("the record", printed([usbreg, "history", store]), line + rest)
    printed([usbreg, "replay", f"{room}/second.db", write(f"{room}/record.jsonl", (line + rest).decode())])
    same("the tables of the record", tables(f"{room}/second.db"), tables(store))


def heads(usbreg, room):
    """Asks for the head after each order, some with a time: it is that of a plain history, and stays the same after repeats,
    also at another time, and after refused orders. A petition has the reason for which it was declined, and the times at which
    it was opened and closed, if there were any."""
    history, store = History(FOUNDING), found(usbreg, f"{room}/heads.db")
    listed = "1209  Shared products\n\t0012  Clock\n"
    orders = [
        ENROL | {"at": TIME}, ask("k2"), ask("k3") | {"at": "2026-11-29T00:00:00Z"}, asked("d1", "decline", "cora", petition=1, reason="No files at the link") | {"at": TIME},
        asked("d2", "decline", "cora", petition=2), asked("d3", "decline", "cora", petition=2, reason="Late"), asked("i1", "import", "cora", org="acme", list=listed) | {"at": TIME},
        asked("d1", "decline", "cora", petition=1, reason="Another") | {"at": TIME}, ENROL | {"at": "2027-01-01T00:00:00Z"}, ENROL,
        *(ask(it) | {"at": "2026-11-29T00:00:01Z"} for it in ("k4", "k5", "k6")), asked("g1", "grant", "cora", petition=3) | {"at": "2026-11-29T00:00:02Z"},
        asked("g1", "grant", "cora", petition=3) | {"at": TIME}, asked("w1", "withdraw", petition=4) | {"at": "2026-11-29T00:00:03Z"},
    ]
    with serving(usbreg, store).up() as server:
        for it in (None, *orders):
            if it:
                same(f"{it}", exchange(server.port, command(it)).partition(b"\r\n\r\n")[2], compact(history.answer(it)) + b"\n")
            same(f"the head after {it}", exchange(server.port, get("/head")), response(compact(history.head()) + b"\n"))
        card = {"licence": "MIT", "org": "acme", "site": LINK, "source": LINK, "state": "declined", "title": "Lamp"}
        shown = {
            1: {"reason": "No files at the link", "closed": TIME},
            2: {"opened": "2026-11-29T00:00:00Z"},
            3: {"state": "granted", "granted": "0011", "opened": "2026-11-29T00:00:01Z", "closed": "2026-11-29T00:00:02Z"},
            4: {"state": "withdrawn", "opened": "2026-11-29T00:00:01Z", "closed": "2026-11-29T00:00:03Z"},
            5: {"state": "open", "opened": "2026-11-29T00:00:01Z"},
        }
        for number, more in shown.items():
            same(f"petition {number}", exchange(server.port, get(f"/petitions/{number}")), response(compact(card | {"id": number} | more) + b"\n"))
    same("the record", printed([usbreg, "history", store]), "".join(f"{it}\n" for it in history.record()).encode())


def texts(usbreg, room):
    """Asks for the list and the reports before and after a refused order, a repeated and a new one: each shows what the
    orders so far made."""
    with serving(usbreg, found(usbreg, f"{room}/texts.db")).up() as server:
        port = server.port
        grant = asked("g1", "grant", "cora", petition=1)
        for request in (ENROL, ask("k2"), ask("k3")):
            exchange(port, command(request))

        def all_texts():
            return [exchange(port, get(path)) for path in ("/list", *(f"/reports/{it}" for it in REPORTS))]

        before = all_texts()
        same("the kept texts", all_texts(), before)
        same("a refused order", exchange(port, command(asked("g2", "grant", "cora", petition=9))), refused(6))
        same("the texts after it", all_texts(), before)
        same("an order", exchange(port, command(grant))[:15], b"HTTP/1.1 200 OK")
        after = all_texts()
        same("the texts that differ", [one != other for one, other in zip(before, after)], [True, True, True, True, True, False])
        same("the order once more", exchange(port, command(grant))[:15], b"HTTP/1.1 200 OK")
        same("the texts after that", all_texts(), after)


def own_client(usbreg, room):
    """Sends messages in many pieces, cut, early, late and many."""
    store = found(usbreg, f"{room}/pieces.db")
    with serving(usbreg, store).up() as server:
        port = server.port
        cut(port)
        silent(port)
        early(Desk(server, room))
        same("single bytes", slowly(port, command(ENROL)), ENROLLED)
        same("a message and more after it", exchange(port, command(ENROL) + command(ask("k2")) + b"x" * 100_000), ENROLLED)
        same("an order once more", exchange(port, command(ENROL)), ENROLLED)
        same("a query with a body", exchange(port, message("GET", "/petitions/1", b"x" * 100)), refused(6))
        same("no petition", exchange(port, get("/reports/petitions?x=1")), response(b"", kind=TEXT))
        record(port)
        for number in range(1, MANY + 1):
            same(f"connection {number}", exchange(port, command(asked(f"m{number}", "enrol", org=f"m{number}", title="Many", site=LINK))), done(f"enrolled m{number}"))
    with serving(usbreg, store, count=1).up() as server:
        same("the list", exchange(server.port, get("/list")), response(LISTED, kind=TEXT))
        same("the end", server.ended(), (0, b"", b""))
    same("the list", printed([usbreg, "export", store]), LISTED)


LISTED = b"# List of USB numbers in the syntax of usb.ids\n\n1209  Shared products\n"


# How it ends.


def no_growth():
    """Makes a process whose files can grow no more: its writes fail, and no signal ends it."""
    signal.signal(signal.SIGXFSZ, signal.SIG_IGN)
    resource.setrlimit(resource.RLIMIT_FSIZE, (1 << 17, 1 << 17))


def full(usbreg, room):
    """Tries a store that fails: its fault is the response and ends the program, and what got a response is kept."""
    store = found(usbreg, f"{room}/full.db")
    answered = []
    with serving(usbreg, store, limit=no_growth).up() as server:
        for request in rounds(1, 10_000):
            sent = exchange(server.port, command(request))
            if sent == refused(30):
                break
            same(f"{request}", sent[:15], b"HTTP/1.1 200 OK")
            answered.append((request, sent))
        else:
            sys.exit("no write of a file that grows no more failed")
        same("a store that failed", server.ended(), (1, b"", b"fault: store\n"))
    with serving(usbreg, store).up() as server:
        for request, sent in answered:
            same(f"{request}, after the store had failed", exchange(server.port, command(request)), sent)
    return len(answered)


def ends(usbreg, room):
    """Tries a count of 0, a port that is taken, a store that is already open or does not exist, and a terminal."""
    store, other = (found(usbreg, f"{room}/{name}.db") for name in ("store", "other"))
    before = tables(store)
    with serving(usbreg, store, count=0) as server:
        same("no connection", server.ended(), (0, b"", b""))
    with serving(usbreg, store).up() as server:
        words = [usbreg, "serve", other, "--port", str(server.port)]
        same("a port that is taken", run(words), (1, b"", b"fault: socket\n"))
        for words in ([usbreg, "export", store], [usbreg, "serve", store, "--port", str(server.port)]):
            same("a store that is open", run(words), (1, b"", b"fault: store\n"))
        server.process.terminate()
        same("the end", server.ended()[1:], (b"", b""))
    words = [usbreg, "serve", f"{room}/none.db", "--port", "8080"]
    same("no store", run(words), (1, b"", b"fault: file\n"))
    port = str(free_port())
    ended = through_terminal([usbreg, "serve", store, "--port", port, "--count", "0"])
    same("at a terminal", ended, (0, b"", f"listening on 127.0.0.1:{port}\n"))
    if tables(store) != before:
        sys.exit("a server that acted on nothing changed its store")


def bodies(server, requests):
    """Returns the bodies of the responses to commands that are acted on, up to the first that doesn't come whole."""
    for request in requests:
        try:
            head, _, body = exchange(server.port, command(request)).partition(b"\r\n\r\n")
        except OSError:
            return
        if not body.endswith(b"\n"):
            return
        same(f"{request}", head[:15], b"HTTP/1.1 200 OK")
        yield body


def unstopped(usbreg, room, requests):
    """Returns the bodies of all responses, the seconds that they took, and the store then: that of the same lines."""
    store, other = (found(usbreg, f"{room}/{name}.db") for name in ("unstopped", "applied"))
    with serving(usbreg, store, count=len(requests)).up() as server:
        began = time.monotonic()
        replies = list(bodies(server, requests))
        seconds = time.monotonic() - began
        same("the end", server.ended(), (0, b"", b""))
    same("replies over HTTP", b"".join(replies), apply(usbreg, other, write_requests(f"{room}/requests.jsonl", requests)))
    same("tables over HTTP", tables(store), tables(other))
    return replies, seconds, store


def killed(usbreg, room, stops):
    """Kills it the given number of times, opens the store again each time, and goes on from the first command without a
    response."""
    requests = list(rounds(1, ROUNDS))
    wanted, seconds, other = unstopped(usbreg, room, requests)
    store = found(usbreg, f"{room}/killed.db")

    def go_on(answered, after):
        with serving(usbreg, store).up() as server:
            killer = threading.Timer(after, server.kill) if after is not None else None
            if killer:
                killer.start()
            replies = list(bodies(server, requests[answered:]))
            if killer:
                killer.join()
        return replies, killer is not None

    replies, _, between = stopped(stops, 2 * seconds / max(1, stops), store, room, requests, go_on)
    if replies != wanted or tables(store) != tables(other):
        sys.exit("replies or tables are not those of a run without stops")
    return f"{stops} stops in {len(requests)} commands, {between} of them between a commit and its response"


def main():
    stops = int(sys.argv[1]) if len(sys.argv) > 1 else 20
    usbreg = program(*sys.argv[2:3])
    with folder() as room:
        if not shutil.which("curl"):
            print("SKIPPED: curl is not installed, so no message was sent by it")
        print(f"{each_refusal(usbreg, room)} refusals")
        own_client(usbreg, room)
        unread(usbreg, room)
        first_line(usbreg, room)
        heads(usbreg, room)
        texts(usbreg, room)
        ends(usbreg, room)
        print(f"a store that failed after {full(usbreg, room)} commands")
        print(f"{killed(usbreg, room, stops)}: each one whose response came was kept, and the end is that of a run without stops")


if __name__ == "__main__":
    main()
