#!/usr/bin/env python3
"""Runs the proxy of contrib/nginx.conf in front of `usbreg serve`, by the commands at the top of contrib/nginx-trial.conf.

Only the ports are others. The server gets the name that nginx has authenticated, whatever name the client sends, and the time
in UTC, whatever time the client sends and in whatever zone the machine is; no
order passes without one, nor one of a name that is no slug, nor a list of who is no curator. Bodies of the greatest sizes
pass, and greater ones do not. Clients that stop in the middle, even 600 of them, keep nobody waiting, and of 240 clients at
once all are served or refused at once. A maker or a curator that floods the registry, and an address that does, are refused,
and the orders of others pass; who doesn't know a password uses up nobody's orders, and the addresses of one network of IPv6
count as one.

Then, with 56,000 numbers and 10,000 accepted requests, another user's order takes at most half a second beside each flood of
`lib/floods.py`: 60 refused orders over all numbers, 60 refused imports, 65 long queries, pages of the record without end, an
address that asks for the files of the record without end, a curator's 400 orders and 20 lists from 80 addresses, 5,000
passwords from 100 addresses, and a storm of refused messages. Of 25 orders none is refused beside 120 reads of a busy server,
and another reader gets his pages and fresh reports. A line of the log has at most 260 bytes; refusals, half handshakes and half
messages add none. 300,000 wrong passwords are counted to the last one, in at most 10,000 bytes, and right ones are not, and
`watch` says so (`lib/wrong_passwords.py`). 40 messages wait for a server that is down for a moment.

contrib/follow and contrib/publish-list take nothing of 20 kinds of bad records and 8 bad lists (`lib/upstreams.py`).
contrib/publish-stories writes the same files of a record at once and bit by bit, begins anew after another history or a lost
file, and keeps each file short (`lib/stories.py`). contrib/publish-feed does so with feeds that can be read as XML, whatever
people write, and the proxy serves them with a tag (`lib/feeds.py`).

The proxy has the list as a file and a compressed one, by contrib/publish-list, and before that it keeps it as it does
the reports, also while the server is down. Its log has the name and the key of each order, and keeps them by
contrib/usbreg.logrotate (`lib/proxy_keeps.py`). What it refuses itself is JSON, also without TLS where there is TLS. The
history can be kept to some addresses. With the configuration of Debian's package around it, it serves the same.

Usage: scripts/serve_behind_nginx.py [--planted] [PROGRAM [NUMBERS]], by default the one that `make` builds, and 56000 numbers.
With --planted it takes the limit of each flood out of the configuration, one by one, and checks that this is noticed. If
nginx is not installed it says that it was skipped, and likewise for what needs `logrotate` or `openssl`. As root it lets the
system schedule the proxy, the server and the other user before all else while a flood runs, so that it may run beside other
work. The exit status is 0 if all of this holds."""

import calendar
import collections
import concurrent.futures
import json
import os
import shutil
import sys
import time
from types import SimpleNamespace

from lib.attackers import Sending
from lib.desk_orders import ENROL, LIST, ORDER, ask, asked
from lib.feeds import feeds_as_files, publish_feeds
from lib.flooded import Stage, filled, half_messages
from lib.floods import FLOODS, READS, is_noticed, least
from lib.proxy import CURATOR, DEBIAN, NO_CURATOR, NO_SLUG, ByField, Gate, Guarded, Packaged, Recipe, Small, by_proxy, closing, connected, refusal, signed, told
from lib.proxy_keeps import a_list_as_a_file, logged, rotated, what_is_kept
from lib.serving import HOST, command, free_port, get, message, post, serving
from lib.stories import publish_stories
from lib.upstreams import follow_bad_registries, publish_bad_lists
from lib.usbreg import folder, found, program, same, write

FOUNDING = f'vendor = "1209"\nname = "Shared products"\ncurators = ["{CURATOR}"]\nlicences = ["MIT"]\nfixed = ["0001-0010"]\n'
# The clients that stop in the middle of a head, and those that ask at once, each from one of several addresses.
HALF, MANY = 600, 240
# The passwords that an address sends at once, of which so many are checked or wait.
GUESSES, CHECKED = 60, 31
# The numbers of the registry that is flooded.
NUMBERS = 56000


# What clients get.


def names(gate):
    """Checks which caller the server sees."""
    gate.gives("no name", command(ENROL), *by_proxy(401))
    gate.gives("a wrong password", signed("ann", command(ENROL), "bob"), *by_proxy(401))
    gate.gives("no name for a list", post(CURATOR, "i1", b"1209  x\n", "/imports/acme"), *by_proxy(401))
    for name in ("Zoe", "anna_b"):
        gate.gives(f"the name {name}", signed(name, command(ENROL)), *by_proxy(403, NO_SLUG))
    for name in ("ann", "Zoe"):
        gate.gives(f"a list of {name}", signed(name, post("", "i1", b"1209  x\n", "/imports/acme")), *by_proxy(403, NO_CURATOR))
    # Only the head is sent: the body is not waited for.
    for path, name, password, refused in (
        ("/imports/acme", "ann", None, by_proxy(403, NO_CURATOR)), ("/imports/acme", CURATOR, "ann", by_proxy(401)), ("/commands", "Zoe", None, by_proxy(403, NO_SLUG)),
    ):
        gate.gives(f"the head of a body of {name}", signed(name, message("POST", path, registry_key="i1", content_length=10_000), password), *refused)
    gate.gives("nothing passed", get("/orgs/acme"), *refusal(4))
    gate.gives("another's name", signed("ann", command(ENROL | {"caller": CURATOR})), 200, told("enrolled acme"))
    gate.gives("the keeper", get("/orgs/acme"), 200, b'{"keeper":"ann","org":"acme","site":"https://acme.example/","title":"Acme Tools"}\n')
    gate.gives("an order", signed("ann", command(ask("k2", number="0011"))), 200, told("petition 1"))
    grant = command(asked("g1", "grant", CURATOR, petition=1))
    gate.gives("a curator's name", signed("ann", grant), *refusal(2))
    twice = grant.replace(b"registry-caller", b"Registry-Caller: curator-1\r\nREGISTRY-CALLER")
    gate.gives("a curator's name twice", signed("ann", twice), *refusal(2))
    gate.gives("no caller", signed(CURATOR, grant.replace(b"registry-caller: curator-1\r\n", b"")), 200, told("granted 0011 to acme by petition 1"))
    line = b'{"curators":["curator-1"],"fixed":["0001-0010"],"licences":["MIT"],"name":"Shared products","vendor":"1209"}\n'
    gate.gives("the first line of the record", get("/history/founding"), 200, line)
    gate.gives("another path", signed(CURATOR, post(CURATOR, "k1", b"{}", "/commands/")), *refusal(24))
    gate.gives("another path to the same", signed(CURATOR, post(CURATOR, "k1", b"{}", "//commands")), *refusal(24))
    if "www-authenticate: basic realm=\"usbreg\"" not in gate.ask(command(ENROL))[2]:
        sys.exit("no password is asked for")


def sizes(gate):
    """Checks that the greatest bodies reach the server, and no greater ones; a body in chunks arrives with its length."""
    body = command(ENROL).partition(b"\r\n\r\n")[2]
    gate.gives("the longest order", signed("ann", post("", "k1", body.ljust(ORDER))), 200, told("enrolled acme"))
    gate.gives("a longer order", signed("ann", post("", "k1", body.ljust(ORDER + 1))), *by_proxy(413))
    chunks = b"%x\r\n%s\r\n0\r\n\r\n" % (len(body), body)
    gate.gives("an order in chunks", signed("ann", message("POST", "/commands", registry_key="k1", transfer_encoding="chunked") + chunks), 200, told("enrolled acme"))
    longest = (b"# \n" * LIST)[:LIST]
    none = told("imported fresh 0, owned 0, reserved 0, doubled 0, untitled 0, zero 0")
    gate.gives("the longest list", signed(CURATOR, post("", "i1", longest, "/imports/acme")), 200, none)
    gate.gives("a longer list", signed(CURATOR, post("", "i2", longest + b"#", "/imports/acme")), *by_proxy(413))
    gate.gives("no message", b"nonsense\r\n\r\n", *by_proxy(400))
    gate.gives("a long head", message("GET", "/list", x="a" * 40_000), *by_proxy(400))


def slow_clients(gate):
    """Checks that clients that stop in the middle of an order or a head do not delay another one."""
    half = signed("ann", command(ask("k3")))[:-10]
    stopped = []
    for sent in [half] * 20 + [get("/list")[:-2]] * HALF:
        stopped.append(connected(gate.port, "127.0.0.3"))
        stopped[-1].sendall(sent)
        # nginx has to read it before the next one comes: it may close connections that have sent nothing
        time.sleep(0.004)
    began = time.monotonic()
    gate.gives("beside slow clients", get("/numbers/0012"), 200, b'{"number":"0012","state":"free"}\n')
    if time.monotonic() - began > 5:
        sys.exit("a client was kept waiting by others that are slow")
    for connection in stopped:
        connection.close()


def many_clients(gate):
    """Checks that clients that ask at once are served, or told at once that there are too many."""
    def asks(number):
        return gate.ask(get("/numbers/0012"), f"127.0.1.{number % 16 + 1}")[0]

    with concurrent.futures.ThreadPoolExecutor(MANY) as pool:
        statuses = collections.Counter(pool.map(asks, range(MANY)))
    if not statuses[200] >= READS or set(statuses) - {200, 503}:
        sys.exit(f"{MANY} clients at once get {statuses}")


def odd_messages(gate):
    """Checks that what nginx refuses by itself is refused in JSON, and that a path without its end has no page of nginx."""
    head = get("/numbers/0012")
    for what, sent, status in (
        ("an unknown coding", head.replace(b"\r\nhost", b"\r\ntransfer-encoding: xchunked\r\nhost"), 501), ("a long path", get("/" + "a" * 9000), 414),
        ("another version", head.replace(b"HTTP/1.1", b"HTTP/3.0"), 505), ("a trace", message("TRACE", "/list"), 405), ("no host", head.replace(b"\r\nhost", b"\r\nx"), 400),
        ("a page that changed", message("GET", "/web/index.html", if_match='"x"'), 412), ("an order to the page", message("POST", "/web/index.html", b""), 405),
        ("a path above all", get("/../x"), 400),
    ):
        gate.gives(what, sent, *by_proxy(status), has=("content-type: application/json",))
    for path in ("/imports", "/reports", "/history", "/web"):
        gate.gives(path, get(path), *refusal(24))


def own_rules(gate, recipe):
    """Checks that the registry's own rules are served as a text, if there are some."""
    gate.gives("no rules", get("/rules"), 204, b"")
    write(f"{recipe.folder}/rules.md", "# <b>Rules</b>\n")
    gate.gives("rules", get("/rules"), 200, b"# <b>Rules</b>\n", has=("content-type: text/plain; charset=utf-8", "x-content-type-options: nosniff"))
    gate.gives("another path of the rules", get("/rules/rules.md"), *refusal(24))
    gate.gives("an order to the rules", message("POST", "/rules", b""), *by_proxy(405))


def tried_at_once(gate, sent, address):
    """Sends a message many times at once from an address, and returns how often each status comes within a second, 0 for those
    that still wait."""
    sending, until = Sending(gate.port), time.monotonic() + 1
    for _ in range(GUESSES):
        sending.begin(address, closing(sent))
    while time.monotonic() < until:
        sending.go_on()
    return sending.close()


def has_few_guesses(what, statuses):
    """Checks that of the passwords of an address some were checked, some wait, and the others are refused."""
    if set(statuses) - {0, 401, 429} or not 0 < statuses[401] <= CHECKED or statuses[429] < GUESSES - CHECKED - 2:
        sys.exit(f"{what} get {statuses}")


def orders_without_end(gate):
    """Checks that a maker and an address that send many orders are refused, that others are not, and that who doesn't
    know a password uses up nobody's orders."""
    def enrol(name, number, address, password=None):
        sent = command({"caller": name, "key": f"f{number}", "order": "enrol", "org": f"{name}{number}", "title": "Flood", "site": "https://flood.example/"})
        return gate.ask(signed(name, sent, password), address)[:2]

    def waits(what, name, address, seconds):
        status, _, lines = gate.ask(signed(name, command(ask("w"))), address)
        same(what, (status, f"retry-after: {seconds}" in lines), (429, True))

    replies = [enrol("mallory", number, f"127.0.2.{number + 1}") for number in range(120)]
    accepted = sum(status == 200 for status, _ in replies)
    if {*replies[accepted:]} != {by_proxy(429)} or not 60 <= accepted <= 62:
        sys.exit(f"of 120 orders of one maker {accepted} were accepted, then {replies[accepted:][:3]}")
    waits("the time of a maker", "mallory", HOST, 60)
    # a field that the second server reads
    for _ in range(100):
        gate.ask(get("/numbers/0012").replace(b"\r\n", b"\r\nusbreg-maker: bob\r\n", 1), "127.0.0.8")
    wrong = signed("bob", command(ENROL), "wrong")
    has_few_guesses("wrong passwords of one address", tried_at_once(gate, wrong, "127.0.0.4"))
    with concurrent.futures.ThreadPoolExecutor(GUESSES) as pool:
        answers = list(pool.map(lambda _: gate.ask(wrong, "127.0.0.4"), range(GUESSES)))
    same("an address that has sent too many", {it[:2] for it in answers if "retry-after: 1" in it[2]}, {by_proxy(429)})
    same("another maker's order", enrol("bob", 1, HOST), (200, told("enrolled bob1")))
    grants = [gate.ask(signed(CURATOR, command(asked(f"c{it}", "grant", CURATOR, petition=99))), f"127.0.9.{it + 1}") for it in range(220)]
    passed = sum(it[:2] == refusal(6) for it in grants)
    if {it[:2] for it in grants[passed:]} != {by_proxy(429)} or not 201 <= passed <= 215 or "retry-after: 6" not in grants[-1][2]:
        sys.exit(f"of 220 orders of a curator {passed} were passed on, then {grants[passed:][:3]}")
    lists = [gate.ask(signed(CURATOR, post("", f"l{it}", b"1209  x\n", "/imports/acme")), f"127.0.10.{it + 1}") for it in range(6)]
    same("lists of a curator", ([it[0] for it in lists], "retry-after: 60" in lists[-1][2]), ([200] * 4 + [429] * 2, True))


def networks(gate):
    """Checks that all addresses of a client of IPv6 count as one, and those of another network do not."""
    def guess(address):
        return signed("bob", command(ENROL), "wrong").replace(b"\r\n", f"\r\nx-address: {address}\r\n".encode(), 1)

    sending, until = Sending(gate.port), time.monotonic() + 1
    for number in range(GUESSES):
        sending.begin(HOST, closing(guess(f"2001:db8:1:2:{number + 1:x}::1")))
    while time.monotonic() < until:
        sending.go_on()
    has_few_guesses("guesses of one network", sending.close())
    for other in ("2001:db8:1:3::1", "2001:db8:1::1", "127.0.0.5"):
        same(f"a guess of {other}", gate.ask(guess(other))[0], 401)


def guarded(recipe):
    """Checks a proxy with TLS that keeps the history to some addresses."""
    gate = Gate(recipe.port, has_tls=True)
    gate.gives("over TLS", get("/numbers/0012"), 200, b'{"number":"0012","state":"free"}\n')
    Gate(recipe.port).gives("without TLS", get("/numbers/0012"), *by_proxy(400))
    for path in ("/history/0", "/history/founding", "/stories/head", "/feeds/all.xml", "/%68istory/0", "//history/0", "/orgs/../history/0"):
        gate.gives(f"{path} from elsewhere", get(path), *by_proxy(403), address="127.0.0.9")
        if gate.ask(get(path))[1] == by_proxy(403)[1]:
            sys.exit(f"{path}: the history is refused to all")
    gate.gives("a number from elsewhere", get("/numbers/0012"), 200, address="127.0.0.9")


def in_debians(recipe):
    """Checks that the proxy serves within Debian's configuration, where it is in another zone."""
    gate = Gate(recipe.port)
    gate.gives("in Debian's configuration", signed("ann", command(ask("k2", number="0011"))), 200, told("petition 1"))
    logged(recipe)
    times(gate)


def times(gate):
    """Checks that an order has the time of now, in UTC, whatever time the client sends, and that a repeat does not change it."""
    order = asked("t9", "amend-org", org="acme", title="Acme", site="https://acme.example/")
    listed = signed(CURATOR, post("", "t9", b"1209  x\n", "/imports/acme"))
    false = {"at": "1999-12-31T23:59:59Z"}
    twice = signed("ann", command(order | false)).replace(b"registry-time", b"Registry-Time: 2000-01-01T00:00:00Z\r\nREGISTRY-TIME")
    began = time.time()
    for sent in (signed("ann", command(order)), listed, signed("ann", command(order | false)), twice):
        same("the status of an order", gate.ask(sent)[0], 200)
    ended, head = time.time(), json.loads(gate.ask(get("/head"))[1])
    lines = [json.loads(it) for it in gate.ask(get(f"/history/{head['requests'] - 2}"))[1].splitlines()]
    same("the orders in the record", [it["key"] for it in lines], ["t9", "t9"])
    for it in lines:
        at = calendar.timegm(time.strptime(it["at"], "%Y-%m-%dT%H:%M:%SZ"))
        # nginx keeps the time of a moment ago
        if not began - 2 <= at <= ended + 1:
            sys.exit(f"an order of {time.strftime('%FT%TZ', time.gmtime(began))} has the time {it['at']}")
    same("the time of the head", head["time"], lines[-1]["at"])


def floods(stage):
    """Returns the figures of all floods, in words."""
    return ";\n".join(f"  {least(it, stage)}" for it in FLOODS)


def planted(stage):
    """Checks that each flood is noticed if its limit is taken away."""
    for it in FLOODS:
        if it.planted:
            noticed = is_noticed(it, stage)
            print(f"{it.run.__name__}: {noticed or 'NOT NOTICED'}", flush=True)
            if not noticed:
                sys.exit(1)


def main():
    words = [it for it in sys.argv[1:] if it != "--planted"]
    usbreg = program(*words[:1])
    numbers = int(words[1]) if len(words) > 1 else NUMBERS
    if not shutil.which("nginx"):
        print("SKIPPED: nginx is not installed, so contrib/nginx.conf was not run")
        return
    with folder() as room:
        store = found(usbreg, f"{room}/store.db", write(f"{room}/founding.toml", FOUNDING))
        full = filled(found(usbreg, f"{room}/full.db", f"{room}/founding.toml"), numbers)
        if "--planted" in sys.argv:
            server = SimpleNamespace(port=free_port())
            with Stage(usbreg, full, Recipe(room, server), server.port) as stage:
                planted(stage)
            return
        with serving(usbreg, store).up() as server, Recipe(room, server) as recipe:
            gate = Gate(recipe.port)
            began, census = time.monotonic(), gate.ask(get("/reports/census"))[1]
            for cases in (names, sizes, odd_messages, slow_clients, many_clients):
                cases(gate)
            own_rules(gate, recipe)
            logged(recipe)
            rotated(gate, recipe)
            what_is_kept(gate, server, census, began)
        with serving(usbreg, store, port=server.port).up() as server, recipe:
            feeds_as_files(gate, recipe, server)
            a_list_as_a_file(gate, recipe, server)
        with serving(usbreg, store, port=server.port).up(), recipe:
            orders_without_end(gate)
        with Stage(usbreg, full, recipe, server.port) as stage:
            flooded = floods(stage)
        for kind, cases in ((ByField, lambda proxy: networks(Gate(proxy.port))), (Guarded, guarded), (Small, half_messages), (Packaged, in_debians)):
            shutil.rmtree(recipe.folder)
            if issubclass(kind, Guarded) and not shutil.which("openssl"):
                print("SKIPPED: openssl is not installed, so contrib/nginx.conf was not run with TLS")
            elif kind is not Packaged or os.path.exists(DEBIAN):
                with serving(usbreg, store).up() as server, kind(room, server) as recipe:
                    cases(recipe)
        for it in ("curl", "gzip"):
            if not shutil.which(it):
                sys.exit(f"{it} is not installed")
        publish_bad_lists(room)
        publish_stories(room)
        publish_feeds(room)
        refused = follow_bad_registries(usbreg, room)
    print("contrib/nginx.conf: names, sizes, slow and many clients, the list, the reports and the log are as they should be; another")
    print(f"user's order takes at most, and more of each flood:\n{flooded};\n{refused} registries that are none were not followed")


if __name__ == "__main__":
    main()
