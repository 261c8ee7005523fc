#!/usr/bin/env python3
"""Walks docs/sharing.md on machines of its own with systemd as their first process, and runs the commands as they are written, but
for the names and addresses of each machine: three machines from nothing, with etcd, the service, nginx and the list on each.

Each machine takes orders. While a server is down, or its etcd, its nginx passes queries and orders on to another machine, once, and
only to one that has the certificate of the registry. Nobody but root, the service and etcd reaches the log.

A store is deleted, and its service makes it from the log. Then, while two clients send orders under keys, a machine is lost and its
disk thrown away; a new one takes its place. Later two of three are lost, the third goes on alone, and two new ones come; and all are
lost, and new ones begin from a copy of the record. Each time all machines have the same record in the end, by their
stores too; it has each order that was accepted, with its reply, and grants no number twice. In the end one machine goes on without
the log.

Usage: scripts/walk_sharing.py [PROGRAM [PACKAGE]], by default the program that `make` builds, and a package that is made of it.
Where no such machine can be booted, as without root, or etcd is not installed, it says so and skips all. The exit status is 0 if
all of this holds."""

import collections
import concurrent.futures
import contextlib
import json
import re
import shutil
import sys
import time

from lib.booted import join, missing
from lib.packaged import made
from lib.pages import OPERATING, block
from lib.sharers import ADDRESSES, HOST, NAME, PAGE, Clients, Sharer, ask, enrol
from lib.usbreg import folder, program, same

IMPORTED = '{"done":"imported fresh 1, owned 0, reserved 0, doubled 0, untitled 0, zero 0"}\n'
# The seconds during which clients send orders before a machine is lost, and after a new one is there.
BEFORE, AFTER = 5, 5


def at_once(calls):
    """Returns the results of calls that are made at the same time."""
    with concurrent.futures.ThreadPoolExecutor(len(calls)) as pool:
        return [it.result() for it in [pool.submit(call) for call in calls]]


def authority(machine, room):
    """Makes the certificates of the page on a machine, and one of the registry, and copies them."""
    machine.step("Certificates")
    names = f"-subj /CN={HOST} -addext subjectAltName=DNS:{HOST}"
    machine.must_run(f"openssl req -x509 -newkey rsa:2048 -nodes -days 30 {names} -keyout key.pem -out certificate.pem 2> /dev/null")
    for it in ("ca.crt", "certificate.pem", "key.pem", *(f"{name}.{ending}" for name in ADDRESSES for ending in ("crt", "key"))):
        machine.take(f"/root/{it}", f"{room}/{it}")


def from_nothing(machines, room, package, record=None):
    """Walks the page down to the list, or from a copy of the record. Returns the password of the curator, and whether there is a firewall."""
    one, two, three = machines
    for first, second in ((one, two), (one, three), (two, three)):
        join(first, second)
    at_once([lambda it=it: it.install(package) for it in machines])
    authority(one, room)
    for it in machines:
        it.certify()
    same("the health of etcd", ["is healthy" in it for it in at_once([lambda it=it: it.step("etcd", 1) for it in machines])], [True] * 3)
    for it in machines:
        it.step("The store and the log")
    one.begin(record)
    at_once([it.serve for it in machines])
    password = re.search(rf"^{NAME} (\S+)$", one.step("The proxies"), re.MULTILINE)[1]
    one.take("/etc/nginx/usbreg.users", f"{room}/usbreg.users")
    for it in (two, three):
        it.users()
    for it in machines:
        it.front()
    return password, {it.publish() for it in machines} == {True}


def orders_on_each(machines, password, accepted):
    """Sends an order to each machine, and asks the others."""
    one, two, three = machines
    orders = ((one, enrol("lamps"), "enrolled lamps"), (two, ask("lamps", "0050"), "petition 1"), (three, {"order": "grant", "petition": 1}, "granted 0050 to lamps by petition 1"))
    for machine, order, wanted in orders:
        key = f"each-{machine.name}"
        for it in (machine, *machines):
            same(f"{key} at {it.name}", it.sends(password, it.address, key, order), (200, json.dumps({"done": wanted}, separators=(",", ":")) + "\n"))
        accepted[key] = wanted
    for it in machines:
        same(f"a number at {it.name}", '"state":"held"' in it.asks("/numbers/0050")[1], True)
        it.must_run("systemctl start usbreg-list.service")
        same(f"the list of {it.name}", "\t0050  Blinker" in it.asks("/list")[1], True)
    three.must_run(block("Backup", 0, OPERATING))
    same("the list of a backup", "\t0050  Blinker" in three.must_run("cat /var/backups/usbreg/*.ids"), True)


def passed_on(machines, password, accepted):
    """Stops what a machine has, and looks whether its nginx passes on what it should."""
    one, two, _ = machines
    for what in ("usbreg", "etcd"):
        one.must_run(f"systemctl stop {what}")
        same(f"a query without {what}", one.asks("/numbers/0050")[0], 200)
        for again in range(2):
            said = one.sends(password, one.address, f"without-{what}", enrol(f"no-{what}"))
            same(f"an order without {what}, {again} times before", said, (200, f'{{"done":"enrolled no-{what}"}}\n'))
        accepted[f"without-{what}"] = f"enrolled no-{what}"
        same("the other machine has it", two.asks(f"/orgs/no-{what}")[0], 200)
        same(f"what was passed on once, without {what}", one.sends(password, one.address, "twice", enrol("twice"), "-H", "usbreg-passed: 1")[0], 503)
        if what == "usbreg":
            same("a report without usbreg", one.asks("/reports/holders")[0], 200)
            same("a list without usbreg", one.sends(password, one.address, "list", "1209  x\n\t0051  Lamp\n", to="/imports/lamps"), (200, IMPORTED))
            accepted["list"] = json.loads(IMPORTED)["done"]
            only_to_the_registry(one)
            only_to_readers(machines)
        one.must_run(f"systemctl start {what}")
        one.says("/head")


def only_to_the_registry(machine):
    """Checks that nothing is passed on to machines whose certificate nobody trusts."""
    trusted = "/etc/ssl/certs/ca-certificates.crt"
    machine.must_run(f"cp {trusted} kept; cp ca.crt {trusted}; systemctl restart nginx")
    same("other machines whose certificate nobody trusts", machine.asks("/numbers/0050")[0], 502)
    machine.must_run(f"cp kept {trusted}; systemctl restart nginx")
    same("other machines whose certificate is trusted", machine.asks("/numbers/0050")[0], 200)


def only_to_readers(machines):
    """Checks that who may read the record of one machine gets it from another one too."""
    one, two, _ = machines
    for it in (one, two):
        it.must_run("cp /etc/usbreg/settings kept; sed -i 's|^READERS=.*|READERS=127.0.0.1|' /etc/usbreg/settings; /usr/lib/usbreg/write-site")
    same("the record for a reader", one.asks("/history/0")[0], 200)
    same("the record for others", one.asks("/history/0", one.address)[0], 403)
    for it in (one, two):
        it.must_run("cp kept /etc/usbreg/settings; /usr/lib/usbreg/write-site")
    # names and passwords are passed on over TLS alone
    one.must_run("sed -i 's|^CERTIFICATE=.*|CERTIFICATE=|' /etc/usbreg/settings")
    same("the proxy of several machines without TLS", one.runs("/usr/lib/usbreg/write-site")[0], 1)
    one.must_run("cp kept /etc/usbreg/settings")


def same_record(machines, accepted):
    """Checks that the stores of all machines have one record with all that was accepted, and that all are served again."""
    heads = {it.says("/head") for it in machines}
    same("the heads of the machines", len(heads), 1)
    records = at_once([it.record for it in machines])
    same("the records of the machines", [it == records[0] for it in records], [True] * len(machines))
    lines = [json.loads(it) for it in records[0].splitlines()[1:]]
    kept = {it["key"]: it["done"] for it in lines}
    same("orders that were accepted and are not in the record", {key: it for key, it in accepted.items() if kept.get(key) != it}, {})
    granted = collections.Counter(it[1] for line in lines if (it := re.match(r"granted ([0-9a-f]{4}) to ", line["done"])))
    same("numbers that were granted twice", [it for it, count in granted.items() if count > 1], [])
    return len(lines), len(granted)


def lose(*machines):
    """Ends machines like a power cut, and throws their disks away."""
    for it in machines:
        it.__exit__()
        shutil.rmtree(it.top)


def begin_anew(stack, room, name, package, others, add):
    """Sets up a new machine in the place of a lost one. `add` makes it a member of etcd, and returns the members to write down."""
    machine = stack.enter_context(Sharer(room, name))
    for it in others:
        join(it, machine)
    machine.install(package)
    machine.certify()
    members = add()
    machine.step("Replace a machine", 1)
    if members:
        machine.must_run(f"sed -i 's|^ETCD_INITIAL_CLUSTER=.*|{members}|' /etc/default/etcd")
    same("the health of etcd", "is healthy" in machine.step("etcd", 1), True)
    machine.step("The store and the log")
    machine.serve()
    machine.users()
    machine.front()
    machine.publish()
    return machine


def member(machine, name):
    """Returns the ID of a member of etcd, as the page says to find it."""
    return re.search(rf"^([0-9a-f]+), \w+, {name},", machine.must_run("etcdctl member list"), re.MULTILINE)[1]


def replaced(machine):
    """Puts a new member in the place of a lost one. In the first seconds after a member came back etcd refuses that."""
    remove, add = block("Replace a machine", 0, PAGE).splitlines()
    machine.waits("a member that is removed", remove.replace(" ID", f" {member(machine, 'two')}"))
    machine.waits("a member that is added", add)


def added(machine, name):
    """Adds a member, and returns the line of the members that etcd says."""
    commands = block("Two of three are lost", 1, PAGE).replace("two", name).replace(ADDRESSES["two"], ADDRESSES[name])
    told = re.search('^(ETCD_INITIAL_CLUSTER=)"(.*)"$', machine.waits("a member that is added", commands), re.MULTILINE)
    return told[1] + told[2]


def one_is_lost(stack, machines, room, package, password, accepted):
    """Loses a machine while clients send orders, and replaces it. Returns the machines, and how often orders were sent again."""
    one, two, three = machines
    with Clients(1, three, password, accepted) as clients:
        time.sleep(BEFORE)
        count = len(accepted)
        lose(two)
        new = begin_anew(stack, room, "two", package, (one, three), lambda: replaced(one))
        time.sleep(AFTER)
    same("orders while a machine is lost", len(accepted) > count + 5, True)
    same("numbers that two clients wanted", sum(it.refused for it in clients.all) > 0, True)
    again = sum(it.again for it in clients.all)
    same("orders that were sent again", again > 0, True)
    return [one, new, three], again


def two_are_lost(stack, machines, room, package, password, accepted):
    """Loses two machines, lets the third one go on alone, and adds two new ones while clients send orders."""
    one, *others = machines
    # Its log has all that was answered, once it was asked: an order may be answered when it is in the logs of the two others.
    one.says("/head")
    lose(*others)
    same("an order without a quorum", one.sends(password, one.address, "alone", enrol("alone"))[0], 503)
    one.step("Two of three are lost")
    one.says("/head")
    same("an order once etcd goes on", one.sends(password, one.address, "alone", enrol("alone")), (200, '{"done":"enrolled alone"}\n'))
    accepted["alone"] = "enrolled alone"
    same("what the next start of etcd is told", one.must_run("grep -c FORCE /etc/default/etcd || true"), "0\n")
    all_of_them = [one]
    with Clients(2, one, password, accepted):
        for name in ("two", "three"):
            all_of_them.append(begin_anew(stack, room, name, package, all_of_them, lambda it=name: added(one, it)))
        time.sleep(AFTER)
    return all_of_them


def all_are_lost(stack, machines, room, package):
    """Loses all machines, and begins anew from a copy of the record. Returns new ones, and the password of the curator."""
    with open(f"{room}/record.jsonl", "w", encoding="utf-8") as out:
        out.write(machines[0].record())
    lose(*machines)
    new = at_once([lambda it=it: stack.enter_context(Sharer(room, it)) for it in ADDRESSES])
    return new, from_nothing(new, room, package, f"{room}/record.jsonl")[0]


def store_is_gone(machine):
    """Deletes the store of a machine. Its service makes it from the log."""
    machine.must_run("systemctl stop usbreg; rm /var/lib/usbreg/numbers.db*; systemctl start usbreg")
    same("the store that was made", machine.must_run("ls /var/lib/usbreg"), "numbers.db\nnumbers.db-wal\n")


def back_to_one(machines, password, accepted):
    """Lets one machine go on without the log."""
    heads = [json.loads(it.step("Back to one machine"))["requests"] for it in machines]
    one = machines[heads.index(max(heads))]
    one.step("Back to one machine", 1)
    same("an order of one machine", one.sends(password, one.address, "back", enrol("back")), (200, '{"done":"enrolled back"}\n'))
    accepted["back"] = "enrolled back"
    same("etcd", one.runs("systemctl is-active etcd")[1], "inactive\n")
    same("the service of one machine", "--log" in one.must_run("systemctl show -p ExecStart usbreg"), False)
    same_record([one], accepted)


def main():
    usbreg = program(*sys.argv[1:2])
    why = missing()
    if lacking := [it for it in ("etcd", "etcdctl") if not shutil.which(it)]:
        why = f"{lacking[0]} is not installed"
    if why:
        print(f"SKIPPED: the page on several machines was not walked: {why}")
        return
    accepted = {}
    with folder() as room, contextlib.ExitStack() as stack:
        package = sys.argv[2] if len(sys.argv) > 2 else made(usbreg, room, "0.1.0+walk")
        machines = at_once([lambda it=it: stack.enter_context(Sharer(room, it)) for it in ADDRESSES])
        password, has_rules = from_nothing(machines, room, package)
        orders_on_each(machines, password, accepted)
        passed_on(machines, password, accepted)
        store_is_gone(machines[2])
        machines, again = one_is_lost(stack, machines, room, package, password, accepted)
        same_record(machines, accepted)
        machines = two_are_lost(stack, machines, room, package, password, accepted)
        same_record(machines, accepted)
        machines, password = all_are_lost(stack, machines, room, package)
        requests, granted = same_record(machines, accepted)
        back_to_one(machines, password, accepted)
    print(f"docs/sharing.md was walked on three machines, all of which were lost in the end; {len(accepted)} orders were accepted, {again} times one was sent again; "
          f"{requests} requests, {granted} numbers{'' if has_rules else '; this machine knows no rules of a firewall'}")


if __name__ == "__main__":
    main()
