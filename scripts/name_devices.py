#!/usr/bin/env python3
"""Gives the names of a registry's list to a hardware database, as a host does, by contrib/update-names.

`usbreg serve` serves a list with titles of all kinds of characters. The script fetches it, and `systemd-hwdb query` must
give the name of the vendor and of each device; a new title must arrive, and a page that is no list, an address that
doesn't answer or a list that is cut must change nothing. A server that compresses the list and tags it, as the proxy does,
must be asked with the tag of the list that the names are of, and with none if they are gone, or if the database could not be
updated; what becomes too long when it is decompressed must change nothing. Then two readers of usb.ids, with the rules of the one in systemd
(`hwdb.d/ids_parser.py`) and of `lshw` (`usb.cc`), must take the same names from the list.

Usage: scripts/name_devices.py [PROGRAM], by default the one that `make` builds. If curl or systemd-hwdb is not installed
it says that this part was skipped. The exit status is 0 if all of this holds."""

import contextlib
import gzip
import http.server
import os
import re
import shutil
import sys
import threading

from lib.serving import command, exchange, free_port, get, serving
from lib.usbreg import CONTRIB, content, done, folder, found, program, run, write

LINK = "https://acme.example/"
VENDOR, SECOND = "1209", "cafe"
# The most bytes of a list that update-names takes.
LONGEST = 64 * 1024 * 1024
TITLES = {"0011": "Blinker", "0abc": "Lamp = 2; *?[x]", "beef": "Größe \u4e2d # c 01", "ffff": "0013  Clock\\n"}


def orders(titles):
    """Yields requests by which an organisation holds numbers of two vendors with these titles."""
    yield {"caller": "ann", "key": "e", "order": "enrol", "org": "acme", "title": "Acme", "site": LINK}
    yield {"caller": "cora", "key": "v", "order": "add-vendor", "vendor": SECOND, "name": "Second = vendor"}
    for place, (vendor, number) in enumerate(((vendor, number) for vendor in (VENDOR, SECOND) for number in titles), 1):
        asked = {"org": "acme", "vendor": vendor, "number": number, "title": titles[number], "licence": "MIT", "site": LINK, "source": LINK}
        yield {"caller": "ann", "key": f"a{place}", "order": "ask", **asked}
        yield {"caller": "cora", "key": f"g{place}", "order": "grant", "petition": place}


def amended(number, title):
    return {"caller": "ann", "key": "m", "order": "amend", "number": number, "title": title, "licence": "MIT", "site": LINK, "source": LINK}


def send(server, request):
    got = exchange(server.port, command(request))
    if not got.startswith(b"HTTP/1.1 200 "):
        sys.exit(f"{request}: {got!r}")


def named(titles):
    """Returns the names that the list should give: of vendors, and of devices by vendor and number."""
    names = {VENDOR: "Shared products", SECOND: "Second = vendor"}
    return names | {(vendor, number): title for vendor in (VENDOR, SECOND) for number, title in titles.items()}


# Two readers of usb.ids.


def by_systemd(text):
    """Reads a list by the grammar of systemd: comments, a vendor, and its devices after a tab, each with one title."""
    names, vendor = {}, None
    for line in text.splitlines():
        if not line or line.startswith("#"):
            continue
        if not (found_in := re.fullmatch(r"(\t?)([0-9a-fA-F]{4})\s+(\S.*)", line)):
            sys.exit(f"systemd's reader takes no line {line!r}")
        tab, code, title = found_in.groups()
        vendor = vendor if tab else code
        names[(vendor, code) if tab else code] = title
    return names


def by_lshw(text):
    """Reads a list as lshw does: each line that begins with hexadecimal digits, perhaps after spaces."""
    names, vendor = {}, None
    for line in text.splitlines():
        if found_in := re.match(r"\s*([0-9a-fA-F]+)\s*(.*)", line):
            code, title = f"{int(found_in[1], 16):04x}", found_in[2]
            vendor = vendor if line[0].isspace() else code
            names[(vendor, code) if line[0].isspace() else code] = title
    return names


# The host.


class Host:
    """A hardware database in a folder, in place of that of the machine."""

    def __init__(self, room):
        self.room, self.names = room, f"{room}/etc/udev/hwdb.d/30-usbreg.hwdb"
        os.makedirs(f"{room}/bin")
        real = shutil.which("systemd-hwdb")
        os.chmod(write(f"{room}/bin/systemd-hwdb", f'#!/bin/sh\nexec {real} --root={room} "$@"\n'), 0o755)
        self.env = {"PATH": f"{room}/bin:{os.environ['PATH']}", "HWDB": os.path.dirname(self.names)}

    def update(self, address):
        return run([f"{CONTRIB}/update-names", address], env=self.env)

    def must_update(self, port):
        ended = self.update(f"http://127.0.0.1:{port}/list")
        if ended != (0, b"", b""):
            sys.exit(f"update-names ended with {ended}")

    def name(self, key):
        """Returns the name of a vendor or a device in the database."""
        vendor, number, kind = (key, "0001", "VENDOR") if isinstance(key, str) else (*key, "MODEL")
        device = f"usb:v{vendor.upper()}p{number.upper()}d0100dc00dsc00dp00ic03isc01ip01in00"
        said = done([f"{self.room}/bin/systemd-hwdb", "query", device]).decode()
        return dict(line.split("=", 1) for line in said.splitlines()).get(f"ID_{kind}_FROM_DATABASE")

    def has(self, names):
        for key, name in names.items():
            if self.name(key) != name.replace("#", "\uff03"):
                sys.exit(f"{key}: the hardware database has the name {self.name(key)!r}, where {name!r} is listed")


def on_a_host(server, room):
    host = Host(f"{room}/host")
    host.must_update(server.port)
    host.has(named(TITLES))
    if host.name((VENDOR, "0012")):
        sys.exit("a number that is not listed has a name")
    send(server, amended("0011", "Blinker 2"))
    host.must_update(server.port)
    host.has(named(TITLES) | {(VENDOR, "0011"): "Blinker 2"})
    before = content(host.names)
    listed = content_of(server)
    half = write(f"{room}/half", listed.decode()[: len(listed) // 2].removeprefix("#"))
    for address in (f"http://127.0.0.1:{server.port}/reports/census", f"http://127.0.0.1:{free_port()}/list", f"file://{half}"):
        if host.update(address)[0] == 0 or content(host.names) != before:
            sys.exit(f"{address} was taken for a list")
    with Tagged(listed) as tagged:
        by_tag(host, tagged)


class Tagged(contextlib.AbstractContextManager):
    """A server of a list that only has it compressed, tags it by its length, and keeps the statuses that it sent."""

    def __init__(self, listed):
        self.listed, self.sent, outer = listed, [], self

        class Handler(http.server.BaseHTTPRequestHandler):
            def do_GET(self):
                tag = f'"{len(outer.listed):x}"'
                has, reads = self.headers["if-none-match"] == tag, "gzip" in (self.headers["accept-encoding"] or "")
                outer.sent.append(304 if has else 200 if reads else 406)
                self.send_response(outer.sent[-1])
                self.send_header("etag", tag)
                self.send_header("content-encoding", "gzip")
                self.end_headers()
                if outer.sent[-1] == 200:
                    self.wfile.write(gzip.compress(outer.listed))

            def log_message(self, *_):
                pass

        self.server = http.server.HTTPServer(("127.0.0.1", 0), Handler)
        self.port = self.server.server_port
        threading.Thread(target=self.server.serve_forever, daemon=True).start()

    def __exit__(self, *_):
        self.server.shutdown()


def by_tag(host, tagged):
    """Updates from a server that tags its list, and checks when the list itself is sent."""
    def sends(what, status, ended=0):
        got = host.update(f"http://127.0.0.1:{tagged.port}/list")[0]
        if (got, tagged.sent[-1]) != (ended, status):
            sys.exit(f"{what}: update-names ended with {got} and was sent {tagged.sent[-1]}, where {ended} and {status} are wanted")

    sends("the first list with a tag", 200)
    sends("the same list", 304)
    os.remove(host.names)
    sends("a list whose names are gone", 200)
    host.has({(VENDOR, "0011"): "Blinker 2"})
    tagged.listed = tagged.listed.replace(b"Blinker 2", b"Blinker three")
    failing = f"{host.room}/bin/systemd-hwdb"
    working = content(failing).decode()
    write(failing, "#!/bin/sh\nexit 1\n")
    sends("a list that the database does not take", 200, 1)
    write(failing, working)
    sends("the same list after that", 200)
    host.has({(VENDOR, "0011"): "Blinker three"})
    sends("the same list once more", 304)
    names = content(host.names)
    tagged.listed += b"# \n" * (LONGEST // 3)
    sends("a list that is too long", 200, 1)
    if content(host.names) != names:
        sys.exit("a list that is too long was taken")


def content_of(server):
    """Returns the list that is served."""
    return exchange(server.port, get("/list")).partition(b"\r\n\r\n")[2]


def main():
    usbreg = program(*sys.argv[1:2])
    with folder() as room, serving(usbreg, found(usbreg, f"{room}/store.db")).up() as server:
        for request in orders(TITLES):
            send(server, request)
        for reader in (by_systemd, by_lshw):
            if (taken := reader(content_of(server).decode())) != named(TITLES):
                sys.exit(f"{reader.__name__} takes {taken} from the list, where {named(TITLES)} is listed")
        missing = [it for it in ("curl", "systemd-hwdb") if not shutil.which(it)]
        if missing:
            print(f"SKIPPED: {missing[0]} is not installed, so contrib/update-names was not run")
            return
        on_a_host(server, room)
    print(f"the names of {2 * len(TITLES)} devices are in the hardware database, and two readers take them from the list")


if __name__ == "__main__":
    main()
