#!/usr/bin/env python3
"""Walks the pages for operators, docs/operating.md, limits.md, backup.md and faults.md, on machines of its own with systemd as
their first process, and runs the commands as they are written, but for the day of a backup and `make`: from the package to a
registry with TLS, names, the list, a backup and an archive; a second machine that follows; the loss of the first one, after
which the second takes over; another machine from the archive; an installation from a checkout, over which the package comes.

An order that was acknowledged before the first machine is lost gets its first reply from the second, and from the machine that
the archive makes. The service is active only once it answers, and not without a store. After a disk that was full it comes back
by itself, and a store that was stopped has all in its file. `watch` says NO to what is wrong, and ok else.

Usage: scripts/walk_the_pages.py [PROGRAM [PACKAGE]], by default the program that `make` builds, and a package that is made of it.
Where no such machine can be booted, as without root, it says so and skips all. The exit status is 0 if all of this holds."""

import json
import re
import sys
import time

from lib.booted import Booted, missing, wire
from lib.packaged import made
from lib.pages import block
from lib.usbreg import TOP, done, folder, program, same

HOST = "https://registry.example"
LINK = "https://acme.example/"
SMALL_DISK = "mount -t tmpfs -o size=4m,mode=700,uid=usbreg,gid=usbreg tmpfs /var/lib/usbreg"
ENROL = {"order": "enrol", "org": "acme", "title": "Acme", "site": LINK}
ASK = {"order": "ask", "org": "acme", "number": "0011", "title": "Blinker", "licence": "MIT", "site": LINK, "source": LINK}


def day_of(commands):
    """Returns commands with the day of today."""
    return re.sub(r"^day=\d{4}-\d\d-\d\d$", "day=$(date +%F)", commands, flags=re.MULTILINE)


class Registry(Booted):
    """A machine on which a registry runs, as the pages set it up."""

    def install(self, package):
        self.put(package, "/root/usbreg_of_this_walk.deb")
        self.must_run(block("The package"))

    def step(self, title, at=0, where="/usr/share/usbreg"):
        """Runs the commands below a title."""
        return self.must_run(day_of(block(title, at)), where)

    def order(self, name, password, key, order, address=HOST, again=5):
        """Returns the reply to an order that a name sends through the proxy, again if no response comes, or 503."""
        words = f"curl -sS --retry {again} --retry-all-errors -u '{name}:{password}' -H 'registry-key: {key}' -d '{json.dumps(order)}' {address}/commands"
        return self.must_run(words).splitlines()[-1] + "\n"

    def watched(self):
        """Returns which of the things that are watched are ok."""
        status, output = self.runs("/usr/lib/usbreg/watch")
        told = {name: word == "ok" for word, name in re.findall(r"^(ok|NO)  (\S+)", output, re.MULTILINE)}
        same(f"{self.name}: the status of watch, which says\n{output}\n", status, 0 if all(told.values()) else 1)
        return told

    def waits(self, what, commands, seconds=300):
        """Waits until commands succeed."""
        until = time.monotonic() + seconds
        while self.runs(commands)[0]:
            if time.monotonic() > until:
                sys.exit(f"{self.name}: {what}: {self.runs('journalctl -n 30 --no-pager -o cat')[1]}")
            time.sleep(0.5)


def passwords(output):
    """Returns the password of each name that `names` printed."""
    return dict(re.findall(r"^([a-z0-9-]+) ([A-Za-z0-9+/]{20})$", output, re.MULTILINE))


def certified(machine, room):
    """Gives a machine a certificate of registry.example, which all trust that know the file."""
    names = "-subj /CN=registry.example -addext subjectAltName=DNS:registry.example"
    machine.must_run(f"openssl req -x509 -newkey rsa:2048 -nodes -days 30 {names} -keyout /etc/usbreg/key.pem -out /etc/usbreg/certificate.pem 2> /dev/null")
    machine.take("/etc/usbreg/certificate.pem", f"{room}/certificate.pem")


def trusts(machine, room):
    machine.put(f"{room}/certificate.pem", "/root/certificate.pem")
    machine.must_run("cat certificate.pem >> /etc/ssl/certs/ca-certificates.crt")


def set_up(first, room, package):
    """Walks docs/operating.md up to the list. Returns the password of each name."""
    first.install(package)
    status, output = first.runs("systemctl start usbreg")
    same("a service without a store", (status != 0, first.runs("systemctl is-active usbreg")[1] == "active\n"), (True, False))
    first.must_run("systemctl stop usbreg")
    for at in (0, 1):
        said = first.step("The registry", at)
        same("what the founding says", said.splitlines()[-1:], ["serves 0 requests on port 8080"] if at == 0 else [])
    same("the service", first.must_run("systemctl is-active usbreg"), "active\n")
    same("orders of a file", first.step("Other commands").count("enrolled"), 10)
    same("the requests in the journal", "serves 10 requests on port 8080" in first.must_run("journalctl -u usbreg -o cat"), True)
    said = first.step("The proxy in front")
    same("the list of the proxy", said.count("# List of USB numbers"), 1)
    given = passwords(said)
    same("an order without TLS", first.order("ann", given["ann"], "walk-1", ENROL, "http://127.0.0.1:8000"), '{"done":"enrolled acme"}\n')
    certified(first, room)
    trusts(first, room)
    first.knows(first, "registry.example")
    first.step("TLS")
    first.step("Another port")
    same("an order with TLS", first.order("ann", given["ann"], "walk-2", ASK), '{"done":"petition 1"}\n')
    same("a grant", first.order("curator-1", given["curator-1"], "walk-3", {"order": "grant", "petition": 1}), '{"done":"granted 0011 to acme by petition 1"}\n')
    same("the list as a file", first.step("The list").lower().count("content-encoding: gzip"), 1)
    first.step("The reports")
    same("the feed of all", first.step("Feeds").count("<title>1209:0011 granted to acme: Blinker</title>"), 1)
    *_, digest, head = first.step("Times and digests", where="/root").splitlines()
    same("the digest by hand", json.loads(head)["digest"], digest)
    same("the day of the last order", json.loads(head)["time"][:10] in first.must_run("date -u +%F; date -u -d '10 minutes ago' +%F").split(), True)
    same("the rules", first.step("The rules").splitlines()[:1], ["# Who gets a number"])
    return given


def limit(first, given):
    """Walks docs/limits.md."""
    said = first.step("Names")
    given |= passwords(said)
    same("the names", said.splitlines()[-4:], ["curator-1 open", "curator-2 open", "ann open", "mallory locked"])
    same("a locked name", first.order("mallory", given["mallory"], "walk-1", ENROL), '{"proxy":401}\n')
    # nginx writes what it counts when it begins a new file, or after a minute
    first.waits("the count of wrong passwords", "nginx -s reopen; /usr/lib/usbreg/watch | grep -q '^ok  passwords  *1 were wrong'")
    same("a name that is there", first.runs("/usr/lib/usbreg/names add ann")[0], 1)
    same("the hash of a password", "ann:$2y$" in first.must_run("cat /etc/nginx/usbreg.users"), True)
    given |= passwords(first.step("Curators"))
    same("another password", first.order("curator-1", given["curator-1"], "walk-3", {"order": "grant", "petition": 1}), '{"done":"granted 0011 to acme by petition 1"}\n')
    first.step("The history")
    first.step("What is kept of a person")
    same("the orders of mallory", first.runs(block("Limits")), (1, "0\n"))
    before = first.must_run("cat /etc/nginx/conf.d/usbreg.conf")
    first.must_run("cp /etc/usbreg/settings kept; sed -i 's|^KEY=.*|KEY=/none|' /etc/usbreg/settings")
    same("a file that nginx refuses", first.runs("/usr/lib/usbreg/write-site")[0] != 0, True)
    same("the file before", first.must_run("cat /etc/nginx/conf.d/usbreg.conf"), before)
    first.must_run("cp kept /etc/usbreg/settings")


def keep(first, room):
    """Walks docs/backup.md on the first machine, and what is to be watched."""
    first.must_run("sed -i 's|^READERS=.*|READERS=|' /etc/usbreg/settings; /usr/lib/usbreg/write-site")
    first.step("Backup")
    same("the archive is here alone", first.watched()["archive"], False)
    first.step("A copy of the record")
    signed_head(first)
    # an archive of today with the record
    same("an archive", first.step("An archive, off the machine").count("tar.gz"), 2)
    first.step("Restore")
    first.waits("the port after a restore", "curl -fsS http://127.0.0.1:8090/numbers/0011 | grep -q acme")
    first.must_run("mkdir -p /var/lib/prometheus/node-exporter; systemctl reset-failed; systemctl restart usbreg")
    first.must_run("journalctl --rotate -q; journalctl --vacuum-time=1s -q 2> /dev/null; sleep 1")
    if (wrong := {name for name, is_ok in first.watched().items() if not is_ok}) - {"faults"}:
        sys.exit(f"what is watched and wrong: {wrong}")
    same("what Prometheus reads", first.step("What to watch", 1).count('usbreg_ok{what="server"} 1'), 1)
    first.must_run("touch -d '2 days ago' /var/backups/usbreg/*.ids")
    same("an old backup", first.watched()["backup"], False)
    first.must_run("touch /var/backups/usbreg/*.ids")
    for ending in ("", ".sha256"):
        first.take(f"/mnt/archives/usbreg-{first.must_run('date +%F').strip()}.tar.gz{ending}", f"{room}/archive{ending}")


def signed_head(first):
    """Signs the head of today, and checks the signature, and the record by it."""
    title = "A signed head each day"
    same("the public key", first.step(title).splitlines()[-1][:12], "ssh-ed25519 ")
    same("the signature", first.step(title, 1, "/root").startswith('Good "usbreg-head" signature'), True)
    first.must_run("cp /var/lib/usbreg-record/record.jsonl .")
    same("the record by the signed head", first.step(title, 2, "/root"), "")


def firewall(first):
    """Lets nobody but root and nginx reach the server, if this machine knows such rules."""
    if first.runs("nft list ruleset")[0]:
        return False
    first.step("The firewall")
    same("another user", first.runs("runuser -u nobody -- curl -sS -m 5 http://127.0.0.1:8090/list")[0] != 0, True)
    first.must_run("curl -fsS -m 60 http://127.0.0.1:8090/list")
    return True


def follow(first, second, room, package):
    """Lets a second machine follow the first."""
    wire(first, second)
    second.install(package)
    trusts(second, room)
    second.knows(first, "registry.example")
    second.step("A second machine")
    same("what the second machine watches", {name: is_ok for name, is_ok in second.watched().items() if name.startswith("follower")}, {"follower": True, "follower_agreement": True})
    host = second.step("The names on a host")
    same("a name on a host", "ID_MODEL_FROM_DATABASE=Blinker" in host, True)


def put_archive(machine, room):
    day = machine.must_run("date +%F").strip()
    for ending in ("", ".sha256"):
        machine.put(f"{room}/archive{ending}", f"/root/usbreg-{day}.tar.gz{ending}")


def goes_on(machine, given, what):
    """Checks that a machine has what the first one acknowledged, and takes orders."""
    machine.knows(machine, "registry.example")
    machine.waits(f"{what}: the proxy", f"curl -fsS {HOST}/numbers/0011")
    same(f"{what}: an order of before", machine.order("ann", given["ann"], "walk-2", ASK), '{"done":"petition 1"}\n')
    same(f"{what}: an order of now", machine.order("ann", given["ann"], f"new-{machine.name}", ASK | {"number": "0012"})[:17], '{"done":"petition')


def other_machine(room, package, given):
    """Makes a registry of the archive on a third machine, and fills its disk."""
    with Registry(room, "third", 3) as third:
        third.install(package)
        trusts(third, room)
        put_archive(third, room)
        third.step("Another machine", where="/root")
        goes_on(third, given, "another machine")
        same("an archive over a registry", third.runs(day_of(block("Another machine")))[1].splitlines()[-1:], ["there is a registry"])
        third.must_run("systemctl stop usbreg")
        same("the log of a store that was stopped", third.must_run("stat -c %s /var/lib/usbreg/numbers.db-wal"), "41\n")
        fill_the_disk(third, given)


def fill_the_disk(third, given):
    """Fills the disk under the server. The order after that is refused, reads go on, and orders once there is room."""
    third.must_run(f"mkdir kept; cp -p /var/lib/usbreg/numbers.db* kept/; {SMALL_DISK}; cp -p kept/* /var/lib/usbreg/; chown usbreg: /var/lib/usbreg/*; systemctl start usbreg")
    third.runs("dd if=/dev/zero of=/var/lib/usbreg/filler bs=1k 2> /dev/null")
    same("what is watched of a full disk", {it: third.watched()[it] for it in ("disk", "write")}, {"disk": False, "write": False})
    orders = [ASK | {"number": f"{number:04x}", "title": "x" * 60} for number in range(0x40, 0x48)]
    replies = (third.order("ann", given["ann"], f"full-{it['number']}", it, again=0) for it in orders)
    same("a full disk is met", any("StoreFault" in it for it in replies), True)
    third.waits("reads on a full disk", f"curl -fsS {HOST}/numbers/0011")
    third.must_run("rm /var/lib/usbreg/filler")
    third.waits("orders once there is room", f"systemctl is-active usbreg && curl -fsS {HOST}/numbers/0011")
    for it in orders:
        same("an order once there is room", third.order("ann", given["ann"], f"full-{it['number']}", it)[:17], '{"done":"petition')


def checkout(room, package):
    """Installs from a checkout, founds and serves, and then lets the package come."""
    with Registry(room, "checkout", 4) as machine:
        make = "make() { if [ $# != 0 ]; then command make -s PROGRAM=/root/program \"$@\"; fi; }\n"
        machine.put(program(*sys.argv[1:2]), "/root/program")
        done(["tar", "-C", TOP, "-cf", f"{room}/checkout.tar", "Makefile", "contrib", "man", "package", "scripts", "web"])
        machine.put(f"{room}/checkout.tar", "/root/checkout.tar")
        machine.must_run(f"chmod 755 program; tar -xf checkout.tar\n{make}{block('From a checkout')}")
        commands = block("The registry").replace("/usr/share/usbreg", "/usr/local/share/usbreg")
        machine.must_run(commands)
        machine.must_run(block("An archive, off the machine").partition("systemctl")[0])
        machine.must_run("/usr/local/lib/usbreg/write-site; systemctl enable --now usbreg-backup.timer; systemctl start usbreg-backup.service")
        machine.put(package, "/root/usbreg_of_this_walk.deb")
        said = machine.must_run(block("From a checkout to the package"))
        same("what comes before the package", "comes before" in said, False)
        same("the program of the service", "/usr/bin/usbreg" in machine.must_run("systemctl show -p ExecStart usbreg"), True)
        same("the timer", machine.must_run("systemctl is-active usbreg-backup.timer"), "active\n")
        same("the old program is named", "/usr/local/bin/usbreg comes before" in machine.must_run("cp program /usr/local/bin/usbreg; dpkg -i usbreg_of_this_walk.deb"), True)


def main():
    usbreg = program(*sys.argv[1:2])
    if why := missing():
        print(f"SKIPPED: the pages for operators were not walked: {why}")
        return
    with folder() as room:
        package = sys.argv[2] if len(sys.argv) > 2 else made(usbreg, room, "0.1.0+walk")
        with Registry(room, "second", 2) as second:
            with Registry(room, "first", 1) as first:
                given = set_up(first, room, package)
                limit(first, given)
                keep(first, room)
                has_rules = firewall(first)
                follow(first, second, room, package)
                first.step("Upgrade", where="/root")
            put_archive(second, room)
            second.step("A second machine", 1, "/root")
            goes_on(second, given, "the second machine")
        other_machine(room, package, given)
        checkout(room, package)
    print(f"docs: the pages for operators were walked on four machines{'' if has_rules else '; this one knows no rules of a firewall'}")


if __name__ == "__main__":
    main()
