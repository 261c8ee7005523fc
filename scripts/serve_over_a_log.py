#!/usr/bin/env python3
"""Serves two stores over one log in etcd, as two machines do, and compares what they answer and keep.

The first store puts its record into the log (`usbreg share`), and the second one is made from that (`usbreg replay --log`). Eight
clients send orders to both at once, and ask the other machine for what was accepted: an answer that is older than that
ends the script. Then etcd is stopped for longer than a call waits: each message gets 503, and both servers go on once etcd does,
with a repeat of the order under its key. Then `usbreg apply` and `usbreg import` act over the log with stores of their own: what
they acknowledge is in the log, a repeat gets its reply, and while etcd stands they fail before they act. In the end all stores
have the same record as the log, also one that `usbreg replay --log` makes of it, and replaying it again changes nothing.

Further it tries a log without a line, of which no store is made, a store with another record, a store that is ahead of its log, an address where nobody listens and one that is
none, each with the exit status and the line of its cause, and sharing a record a second time. At last etcd asks for a name and a
password: an order is accepted with the right ones alone, and an import of a list that has nothing of its vendor says which one that is.

Usage: scripts/serve_over_a_log.py [PATH/TO/USBREG]. If etcd is not installed, it says that it was skipped. The exit status is 0
if all is as it should be."""

import json
import os
import shutil
import sys
import threading

from lib.etcd import Members
from lib.serving import HOST, Serving, command, exchange, free_port, get
from lib.usbreg import FOUNDING, done, folder, program, run, same, write

NAME = "numbers"
CLIENTS, ORDERS = 8, 12
# It has what separates the parts of an address.
PASSWORD = "s:e@cret"
OTHER = 'vendor = "1209"\nname = "Other products"\ncurators = ["cora"]\nlicences = ["MIT"]\nfixed = ["0001-0010"]\n'


def parts(response):
    """Returns the status of a response and its body."""
    head, body = response.split(b"\r\n\r\n", 1)
    return int(head.split(b" ", 2)[1]), body.decode()


def enrol(index):
    """Returns an order and what asks for what it makes."""
    org = f"org{index}"
    order = {"caller": "ann", "key": f"k{index}", "order": "enrol", "org": org, "title": f"Maker {index}", "site": "https://acme.example/"}
    return order, f"/orgs/{org}"


def served(usbreg, store, address):
    """Returns a server of a store over a log."""
    port = free_port()
    return Serving([usbreg, "serve", store, "--port", str(port), "--log", address], port)


def client(ports, first, wrong):
    """Sends orders to one machine and asks the other, in turns."""
    for index in range(first, first + ORDERS):
        order, target = enrol(index)
        here, there = ports[index % 2], ports[(index + 1) % 2]
        told = parts(exchange(here, command(order)))
        asked = parts(exchange(there, get(target)))
        if told[0] != 200 or asked[0] != 200 or f'"title":"Maker {index}"' not in asked[1]:
            wrong.append((index, told, asked))


def beside_each_other(ports):
    """Sends orders to both machines at once."""
    wrong = []
    threads = [threading.Thread(target=client, args=(ports, at * ORDERS, wrong)) for at in range(CLIENTS)]
    for it in threads:
        it.start()
    for it in threads:
        it.join()
    same("orders and answers that are not as they should be", wrong, [])


def same_number(ports):
    """Lets two machines reserve one number at the same time, for an import each. One of them gets it."""
    replies = []

    def ask(port, org):
        order = {"caller": "cora", "key": org, "order": "import", "org": org, "list": "1209  Shared products\n\t2000  Lamp\n"}
        replies.append(parts(exchange(port, command(order)))[1])

    threads = [threading.Thread(target=ask, args=(port, f"org{index}")) for index, port in enumerate(ports)]
    for it in threads:
        it.start()
    for it in threads:
        it.join()
    fresh = sorted(json.loads(reply)["done"].split(",")[0] for reply in replies)
    same("imports of one number at two machines", fresh, ["imported fresh 0", "imported fresh 1"])


def without_etcd(ports, members):
    """Stops etcd, and lets it go on."""
    order, target = enrol(CLIENTS * ORDERS)
    members.stop(0)
    for port in ports:
        same("an order while etcd stands", parts(exchange(port, command(order)))[0], 503)
        same("a query while etcd stands", parts(exchange(port, get(target)))[0], 503)
    members.go_on(0)
    members.wait(0)
    for port in ports:
        same("the order once etcd goes on", parts(exchange(port, command(order))), (200, f'{{"done":"enrolled org{CLIENTS * ORDERS}"}}\n'))


def fails(words, status, told):
    """Runs a command that has to fail so."""
    same(" ".join(words[1:]), run(words), (status, b"", told.encode()))


def act_alone(usbreg, room, members, stores):
    """Acts on request lines and on a list over the log, each with another store."""
    address = members.address(0, NAME)
    more = [enrol(CLIENTS * ORDERS + at)[0] for at in (1, 2, 2)]
    lines = write(f"{room}/more.jsonl", "".join(f"{json.dumps(it)}\n" for it in more))
    listed = write(f"{room}/more.ids", "1209  Shared products\n\t2001  Lantern\n")
    asked = ["--caller", "cora", "--key", "more", "--org", "org0", "--log", address]
    replies = "".join(f'{{"done":"enrolled {it["org"]}"}}\n' for it in more)
    apply = [usbreg, "apply", stores[0], lines, "--log", address]
    members.stop(0)
    fails([*apply, "--verbose"], 1, f"fault: log\nusbreg: {address}: gives no answer in time\n")
    members.go_on(0)
    members.wait(0)
    same("request lines over the log", done(apply).decode(), replies)
    same("the same lines again, but for the first", done([*apply, "--answered", "1"]).decode(), replies[replies.index("\n") + 1 :])
    imported = '{"done":"imported fresh 1, owned 0, reserved 0, doubled 0, untitled 0, zero 0"}\n'
    same("a list over the log", done([usbreg, "import", stores[1], listed, *asked]).decode(), imported)
    same("the same list with the other store", done([usbreg, "import", stores[0], listed, *asked]).decode(), imported)
    same("a list of one who is no curator", run([usbreg, "import", stores[1], listed, *asked[2:], "--caller", "ann"])[0], 2)


def replay_it(usbreg, room, members, record):
    """Makes a store from the log, and tries stores that do not go on with it."""
    address = members.address(0, NAME)
    replay = [usbreg, "replay", f"{room}/made.db", "--log", address]
    for again in range(2):
        same(f"replaying the log, {again} times before", done(replay), b"")
        same("the record of the store that was made", done([usbreg, "history", f"{room}/made.db"]).decode(), record)
    done([usbreg, "check", f"{room}/made.db"])
    short = members.address(0, "short")
    done([usbreg, "found", f"{room}/short.db", FOUNDING])
    done([usbreg, "share", f"{room}/short.db", "--log", short])
    fails([usbreg, "replay", f"{room}/made.db", "--log", short, "--verbose"], 1, f"fault: log\nusbreg: {short}: has fewer lines than the record of the store\n")
    done([usbreg, "found", f"{room}/other.db", write(f"{room}/other.toml", OTHER)])
    fails([usbreg, "replay", f"{room}/other.db", "--log", address, "--verbose"], 1, f"fault: log\nusbreg: {address}: has another record than the store, from line 0 on\n")
    same("the record of a store that is refused", done([usbreg, "history", f"{room}/other.db"]).count(b"\n"), 1)
    done([usbreg, "replay", f"{room}/short.db", "--log", address])
    same("the record of a store that was brought up to date", done([usbreg, "history", f"{room}/short.db"]).decode(), record)


def with_a_password(usbreg, room, members, stores):
    """Lets etcd ask for a name and a password, and acts with the right ones, with others and without."""
    address = members.address(0, NAME)
    members.ask_for_logins(NAME, "reg", PASSWORD)
    order = write(f"{room}/last.jsonl", json.dumps(enrol(CLIENTS * ORDERS + 3)[0]) + "\n")

    def apply(user):
        return [usbreg, "apply", stores[0], order, "--log", address.replace("//", f"//{user}"), "--verbose"]

    refused = "the name or the password is refused"
    for user, why in (("", "refuses the message, and may ask for a name and a password"), ("reg:other@", refused), (f"nobody:{PASSWORD}@", refused)):
        fails(apply(user), 1, f"fault: log\nusbreg: {address}: {why}\n")
    same("an order with the password", done(apply(f"reg:{PASSWORD}@")).decode(), f'{{"done":"enrolled org{CLIENTS * ORDERS + 3}"}}\n')
    log = ["--log", address.replace("//", f"//reg:{PASSWORD}@"), "--verbose"]
    added = write(f"{room}/vendor.jsonl", '{"caller":"cora","key":"cafe","order":"add-vendor","vendor":"cafe","name":"Cafe"}\n')
    done([usbreg, "apply", stores[0], added, *log])
    listed = write(f"{room}/other.ids", "1209  Shared products\n\t2002  Lamp\n")
    nothing = [usbreg, "import", stores[0], listed, "--caller", "cora", "--key", "nothing", "--org", "org0", "--vendor", "cafe", *log]
    same("a list of another vendor", run(nothing)[::2], (0, f"usbreg: {listed}: no line of vendor cafe; vendors in the list: 1, devices: 1\n".encode()))


def main():
    """Serves two stores."""
    usbreg = program(*sys.argv[1:])
    if not shutil.which("etcd"):
        print("SKIPPED: etcd is not installed, so no store was served over a log")
        return
    with folder() as room, Members(room, 1) as members:
        members.wait(0)
        address = members.address(0, NAME)
        stores = [f"{room}/{name}.db" for name in ("a", "b")]
        fails([usbreg, "replay", stores[1], "--log", address, "--verbose"], 1, f"fault: log\nusbreg: {address}: has no line\n")
        same("a store of a log without a line", os.path.exists(stores[1]), False)
        done([usbreg, "found", stores[0], FOUNDING])
        same("sharing", done([usbreg, "share", stores[0], "--log", address]), b"")
        same("replaying", done([usbreg, "replay", stores[1], "--log", address]), b"")
        with served(usbreg, stores[0], address) as one, served(usbreg, stores[1], address) as two:
            ports = [one.up().port, two.up().port]
            beside_each_other(ports)
            same_number(ports)
            without_etcd(ports, members)
            one.kill()
            two.kill()
        act_alone(usbreg, room, members, stores)
        for store in stores:
            same("sharing again", done([usbreg, "share", store, "--log", address]), b"")
        records = [done([usbreg, "history", store]).decode() for store in stores]
        same("the record of the second store", records[1], records[0])
        same("the lines of the log", "".join(f"{line}\n" for line in members.lines(0, NAME)), records[0])
        same("the requests of the record", records[0].count("\n"), CLIENTS * ORDERS + 7)
        replay_it(usbreg, room, members, records[0])
        other = f"{room}/other.db"
        fails([usbreg, "share", other, "--log", address, "--verbose"], 1, f"fault: log\nusbreg: {address}: has another record than the store, from line 0 on\n")
        fails([usbreg, "serve", other, "--port", str(free_port()), "--log", address], 1, "fault: log\n")
        empty = members.address(0, "none")
        fails([usbreg, "serve", stores[0], "--port", str(free_port()), "--log", empty, "--verbose"], 1, f"fault: log\nusbreg: {empty}: has fewer lines than the record of the store\n")
        nobody = f"http://{HOST}:{free_port()}/{NAME}"
        # (what a service says is kept in a journal, so it leaves out a user's name and password)
        for said in (nobody, nobody.replace("//", "//reg:se@cret@")):
            fails([usbreg, "share", other, "--log", said, "--verbose"], 1, f"fault: log\nusbreg: {nobody}: takes no connection\n")
        hint = "usbreg: the address of a log is http://HOST:PORT/NAME, where NAME is a slug\n"
        fails([usbreg, "share", other, "--log", f"{HOST}/{NAME}", "--verbose"], 2, f"bad word: log\n{hint}")
        with_a_password(usbreg, room, members, stores)
    print(f"{CLIENTS * ORDERS + 3} orders at two machines over one log, and 6 by commands")


if __name__ == "__main__":
    main()
