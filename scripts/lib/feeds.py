"""Records of which contrib/publish-feed makes its feeds: what they have, whatever people write and however often it stopped in
between, and that nobody makes one long; and how the proxy serves them."""

import gzip
import http.client
import json
import os
import re
import shutil
import subprocess
import sys
from xml.etree import ElementTree

from lib import stories
from lib.desk_orders import ask
from lib.proxy import by_proxy, signed
from lib.serving import HOST, PATIENCE, command, get, message
from lib.stories import FOUNDING, Folder, goes_on, line
from lib.usbreg import CONTRIB, content, same, write

ADDRESS = "https://registry.example"
ATOM = "{http://www.w3.org/2005/Atom}"
# What people may write, some of which only another program than `usbreg` takes; and what a feed has of it.
EVIL = "\x01\ufffe]]>&lt;<b>\u202eZ\u0301\u0301\u0301\u0301\u2028\x85\ud800\"'"
SHOWN = "\ufffd\ufffd]]>&lt;<b>\u202eZ\u0301\u0301\u0301\u0301\ufffd\ufffd\ufffd\"'"
# Requests of each kind, and some that have no entry, with times and without; a month has no such day.
LINES = [
    line("enrol", "enrolled acme", org="acme", site="https://acme.example/", title="Acme"),
    line("ask", "petition 1", org="acme", title="Before any time"),
    line("enrol", "enrolled bob", org="bob", site="https://bob.example/", title="Bob", at="2026-11-28T09:00:00Z"),
    line("ask", "petition 2", org="acme", number="00aB", title="Blinker"),
    line("ask", "petition 3", org="bob", vendor="caFE", title=EVIL, at="2026-11-28T10:00:00Z"),
    line("grant", "granted 00ab to acme by petition 2", petition=2, at="2026-11-28T11:00:00Z"),
    line("grant", "granted cafe:0001 to bob by petition 3", petition=3, number="0001", at="2026-11-28T12:00:00Z"),
    line("add-licence", "added licence petition 17", licence="petition 17", at="2026-11-28T13:00:00Z"),
    line("ask", "petition 4", org="bob", vendor="cafe", number="0002", title="Lamp", at="2026-02-31T00:00:00Z"),
    line("amend", "amended 00ab", number="00ab", title="Blinker 2", at="2026-11-28T14:00:00Z"),
    line("decline", "declined petition 1", petition=1, reason=EVIL, at="2026-11-28T15:00:00Z"),
    line("withdraw", "withdrawn petition 4", petition=4, at="2026-11-28T14:30:00Z"),
    line("import", "imported fresh 1", org="acme", items=[["0011", "1"]], at="2026-11-28T16:00:00Z"),
    line("revoke", "revoked 00ab", number="00ab", reason="No product uses it", at="2026-11-28T17:00:00Z"),
    line("return", "returned cafe:0001", number="0001", vendor="cafe", at="2026-11-28T18:00:00Z"),
    line("ask", "petition 5", org="acme", title="Clock", at="2026-11-28T19:00:00Z"),
    line("decline", "declined petition 5", petition=5),
]
WANTED = f"""\
all.xml: Shared products, {ADDRESS}/#/record, {ADDRESS}/feeds/all.xml, 2026-11-28T19:00:00Z
2026-11-28T19:00:00Z Petition 5 of acme declined: Clock, {ADDRESS}/#/petition/5
2026-11-28T19:00:00Z acme asks for any number of 1209: Clock, {ADDRESS}/#/petition/5
2026-11-28T17:00:00Z 1209:00ab of acme revoked, {ADDRESS}/#/number/1209/00ab, No product uses it
2026-11-28T14:30:00Z Petition 4 of bob withdrawn: Lamp, {ADDRESS}/#/petition/4
2026-11-28T15:00:00Z Petition 1 of acme declined: Before any time, {ADDRESS}/#/petition/1, {SHOWN}
2026-11-28T13:00:00Z bob asks for cafe:0002: Lamp, {ADDRESS}/#/petition/4
2026-11-28T12:00:00Z cafe:0001 granted to bob: {SHOWN}, {ADDRESS}/#/number/cafe/0001
2026-11-28T11:00:00Z 1209:00ab granted to acme: Blinker, {ADDRESS}/#/number/1209/00ab
2026-11-28T10:00:00Z bob asks for any number of cafe: {SHOWN}, {ADDRESS}/#/petition/3
2026-11-28T09:00:00Z acme asks for 1209:00ab: Blinker, {ADDRESS}/#/petition/2
orgs/acme.xml: Shared products: acme, {ADDRESS}/#/org/acme, {ADDRESS}/feeds/orgs/acme.xml, 2026-11-28T19:00:00Z
2026-11-28T19:00:00Z Petition 5 of acme declined: Clock, {ADDRESS}/#/petition/5
2026-11-28T19:00:00Z acme asks for any number of 1209: Clock, {ADDRESS}/#/petition/5
2026-11-28T17:00:00Z 1209:00ab of acme revoked, {ADDRESS}/#/number/1209/00ab, No product uses it
2026-11-28T15:00:00Z Petition 1 of acme declined: Before any time, {ADDRESS}/#/petition/1, {SHOWN}
2026-11-28T11:00:00Z 1209:00ab granted to acme: Blinker, {ADDRESS}/#/number/1209/00ab
2026-11-28T09:00:00Z acme asks for 1209:00ab: Blinker, {ADDRESS}/#/petition/2
orgs/bob.xml: Shared products: bob, {ADDRESS}/#/org/bob, {ADDRESS}/feeds/orgs/bob.xml, 2026-11-28T14:30:00Z
2026-11-28T14:30:00Z Petition 4 of bob withdrawn: Lamp, {ADDRESS}/#/petition/4
2026-11-28T13:00:00Z bob asks for cafe:0002: Lamp, {ADDRESS}/#/petition/4
2026-11-28T12:00:00Z cafe:0001 granted to bob: {SHOWN}, {ADDRESS}/#/number/cafe/0001
2026-11-28T10:00:00Z bob asks for any number of cafe: {SHOWN}, {ADDRESS}/#/petition/3
"""
# The whole feed of the first four requests: names have to stay what they are.
FIRST = f"""\
<?xml version="1.0" encoding="utf-8"?>
<feed xmlns="http://www.w3.org/2005/Atom">
<id>urn:uuid:dba4f675-280c-5493-94a8-08303a677f3f</id><updated>2026-11-28T09:00:00Z</updated>
<title>Shared products</title><author><name>Shared products</name></author>
<link href="{ADDRESS}/#/record"/>
<link rel="self" type="application/atom+xml" href="{ADDRESS}/feeds/all.xml"/>
<entry><id>urn:uuid:121b63ab-4186-5af0-8047-200b6c435815</id><updated>2026-11-28T09:00:00Z</updated><title>acme asks for 1209:00ab: Blinker</title>\
<link href="{ADDRESS}/#/petition/2"/></entry>
</feed>
"""
# The petitions of a long record, the entries of its feeds, and the most bytes of one.
MANY, ALL, OWN, MOST = 300, 100, 50, 300_000


class Registry(stories.Registry):
    """The same, which also says whose a petition and a number are."""

    def answer(self, path):
        if petition := re.fullmatch(r"/petitions/(\d+)", path):
            return [it for it in self.lines[0] if json.loads(it)["done"] == f"petition {petition[1]}"]
        if number := re.fullmatch("/numbers/1209/([0-9a-f]{4})", path):
            replies = [json.loads(it)["done"].split() for it in self.lines[0]]
            return [json.dumps({"org": it[3]}).encode() + b"\n" for it in replies if it[:2] == ["granted", number[1]]]
        return super().answer(path)


def read(text):
    """Returns what a feed says of itself, and its entries: for each its name and what it says."""
    def told(it):
        links = [link.get("href") for link in it.findall(f"{ATOM}link")]
        return it.findtext(f"{ATOM}title"), links, it.findtext(f"{ATOM}updated"), it.findtext(f"{ATOM}content")

    feed = ElementTree.fromstring(text)
    same("what a feed is", (feed.tag, feed.findtext(f"{ATOM}author/{ATOM}name")), (f"{ATOM}feed", "Shared products"))
    return feed.findtext(f"{ATOM}id"), told(feed), [(it.findtext(f"{ATOM}id"), told(it)) for it in feed.findall(f"{ATOM}entry")]


def shown(files):
    """Returns what the feeds say, as a text."""
    lines = []
    for path, text in files.items():
        _, (title, links, updated, _), entries = read(text)
        lines.append(f"{path}: {', '.join([title, *links, updated])}\n")
        lines += [f"{updated} {', '.join([title, *links, *([told] if told else [])])}\n" for _, (title, links, updated, told) in entries]
    return "".join(lines)


def names(files):
    """Returns the names of the feeds and of their entries."""
    feeds = [read(it) for it in files.values()]
    return [it for it, _, _ in feeds], {it for _, _, entries in feeds for it, _ in entries}


def publish_feeds(room):
    """Writes the feeds of a record at once and bit by bit, of another one, after a stop, and of a long one."""
    with Registry() as registry:
        whole = Folder(f"{room}/feeds", registry, "publish-feed", ADDRESS)
        same("the feeds are written", whole.publish(LINES), 0)
        same("the feeds", shown(whole.files()), WANTED)
        first = whole.beside("first")
        same("the first feed", (first.publish(LINES[:4]), first.files()["all.xml"].decode()), (0, FIRST))
        grown = whole.beside("grown")
        goes_on(grown, whole, LINES)
        stops(grown, whole)
        same("the feeds at another address", Folder(grown.path, registry, "publish-feed", "https://other.example/").publish(LINES), 0)
        same("their links", shown(grown.files()), WANTED.replace(ADDRESS, "https://other.example"))
        same("their names", names(grown.files()), names(whole.files()))
        are_kept_short(whole.beside("long"))
        registry.founding = FOUNDING.replace(b"MIT", b"ISC")
        other = whole.beside("other")
        same("the feeds of another registry", (other.publish(LINES), shown(other.files())), (0, WANTED))
        (feeds, entries), (others, other_entries) = names(whole.files()), names(other.files())
        same("names that two registries share", (len({*feeds, *others}), entries & other_entries, len(entries)), (6, set(), 10))


def stops(grown, whole):
    """A run after one that stopped before it could say so writes the same feeds, and so does one after a damage."""
    shutil.rmtree(grown.path)
    same("the first requests", grown.publish(LINES[:8]), 0)
    state = content(f"{grown.path}/state").decode()
    same("the other ones", grown.publish(LINES), 0)
    write(f"{grown.path}/state", state)
    same("the feeds after a stop", (grown.publish(LINES), grown.files()), (0, whole.files()))
    write(f"{grown.path}/orgs/bob.xml", "")
    write(f"{grown.path}/state", state)
    same("the feeds after a damage", (grown.publish(LINES), grown.files()), (0, whole.files()))


def are_kept_short(long):
    """The feeds have the newest entries, as many as they may, of whatever length."""
    asks = [line("ask", f"petition {it}", org=f"o{it % 2}", title="'" * 200, at="2026-11-28T09:00:00Z") for it in range(1, MANY + 1)]
    declines = [line("decline", f"declined petition {it}", petition=it, reason="'" * 200) for it in range(1, MANY + 1)]
    for lines in (asks, asks + declines[:100], asks + declines):
        same("a long record", long.publish(lines), 0)
    files = long.files()
    petitions = {path: [int(title.split()[1]) for _, (title, *_) in read(it)[2]] for path, it in files.items()}
    newest = list(range(MANY, 0, -1))
    same("the newest entries", petitions, {"all.xml": newest[:ALL], "orgs/o0.xml": newest[: 2 * OWN : 2], "orgs/o1.xml": newest[1 : 2 * OWN : 2]})
    same("feeds that are too long", {path: len(it) for path, it in files.items() if len(it) > MOST}, {})


def asks(port, path, coding, tag=None):
    """Returns the status, the body and the head of a response, which may come in pieces."""
    connection = http.client.HTTPConnection(HOST, port, timeout=PATIENCE)
    connection.request("GET", path, headers={name: value for name, value in (("accept-encoding", coding or "identity"), ("if-none-match", tag)) if value})
    with connection.getresponse() as response:
        return response.status, response.read(), response.headers


def feeds_as_files(gate, recipe, server):
    """Checks what a reader of feeds gets of the proxy: the feed, compressed too, once; and nothing where there is none."""
    at, path = f"{recipe.folder}/usbreg-list/feeds", "/feeds/all.xml"
    gate.gives("a feed before it is written", get(path), 204, b"")
    # nginx compresses what has 1,000 bytes
    for number in range(3):
        gate.gives("a petition", signed("ann", command(ask(f"feed-{number}"))), 200)
    subprocess.run([f"{CONTRIB}/publish-feed", f"http://{HOST}:{server.port}", at, ADDRESS], check=True)
    listed = content(f"{at}/all.xml")
    if not re.search(r" granted to acme: ", shown({path: listed})):
        sys.exit(f"the feed has no grant: {listed!r}")
    for coding, decoded in ((None, bytes), ("gzip", gzip.decompress)):
        status, body, head = asks(gate.port, path, coding)
        same(f"a feed, {coding}", (status, decoded(body), head["content-type"], head["content-encoding"]), (200, listed, "application/atom+xml", coding))
        same("a feed that is known", asks(gate.port, path, coding, head["etag"])[:2], (304, b""))
    for other, status in (("/feeds/orgs/acme.xml", 200), ("/feeds/orgs/nobody.xml", 204), ("/feeds/state", 404), ("/feeds/orgs/../state", 404), ("/feeds/", 404)):
        same(other, gate.ask(get(other))[0], status)
    gate.gives("the head of a feed", message("HEAD", path), 200, b"")
    gate.gives("an order to a feed", message("POST", path, b""), *by_proxy(405))
    os.remove(f"{at}/state")
