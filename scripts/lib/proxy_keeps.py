"""What the proxy of contrib/nginx.conf keeps: the list and the reports, also while the server is down, the list as a
file, and the log of the orders."""

import gzip
import os
import re
import shutil
import subprocess
import sys
import time
from email.utils import formatdate

from lib.desk_orders import ask, asked
from lib.proxy import by_proxy, shell, signed, told
from lib.serving import HOST, PATIENCE, command, get, message
from lib.usbreg import CONTRIB, content, same, write
from lib.wrong_passwords import counts_at_least, watched

# The seconds that a report is kept, and one more; and those that a message waits for a server that is down.
KEPT, WAITED = 11, 15


def what_is_kept(gate, server, census, began):
    """Checks that the proxy keeps the list and the reports, also while the server is down and when they are too old; and
    not that of a number."""
    listed = b"# List of USB numbers in the syntax of usb.ids\n\n1209  Shared products\n\t0011  Lamp\n"
    for what in ("miss", "hit"):
        for target, wanted in (("/list", listed), ("/reports/holders", b"acme                                 1     0\n")):
            status, body, lines = gate.ask(get(target))
            if (status, body) != (200, wanted) or f"cache-status: {what}" not in lines:
                sys.exit(f"{target}: status {status}, {lines}, {body!r}, where a {what} is wanted")
    status, body, _ = gate.ask(message("HEAD", "/list"))
    same("the head of the list", (status, body), (200, b""))
    server.kill()
    gate.gives("the list without the server", get("/list"), 200, listed)
    killed = time.monotonic()
    gate.gives("a number without the server", get("/numbers/0011"), *by_proxy(502))
    if not WAITED - 5 < time.monotonic() - killed < WAITED + 10:
        sys.exit(f"a message waits {time.monotonic() - killed:.1f} s for a server that is down")
    time.sleep(max(0, began + KEPT - time.monotonic()))
    status, body, lines = gate.ask(get("/reports/census"))
    if (status, body) != (200, census) or "cache-status: stale" not in lines:
        sys.exit(f"an old report without the server: status {status}, {lines}, {body!r}, where {census!r} is wanted")


def a_list_as_a_file(gate, recipe, server):
    """Checks what hosts get of the list once it is a file, also while the server is down."""
    at = f"{recipe.folder}/usbreg-list"
    os.makedirs(at, exist_ok=True)

    def publish():
        ran = subprocess.run([f"{CONTRIB}/publish-list", f"http://{HOST}:{server.port}/list", at], capture_output=True, check=False, timeout=PATIENCE)
        return ran.returncode

    def asks(*fields):
        return gate.ask(get("/list").replace(b"\r\n", b"".join(f"\r\n{it}".encode() for it in fields) + b"\r\n", 1))

    def both(titles):
        """Returns the tag of the list, which must have these titles, and of the compressed one."""
        listed = b"# List of USB numbers in the syntax of usb.ids\n\n1209  Shared products\n\t0011  %s\n" % titles
        tags = []
        for fields, read in (((), bytes), (("accept-encoding: gzip",), gzip.decompress)):
            status, body, lines = asks(*fields)
            same(f"the list as a file, {fields}", (status, read(body), "content-type: text/plain; charset=utf-8" in lines), (200, listed, True))
            tags += [it.removeprefix("etag: ") for it in lines if it.startswith("etag: ")]
            for known in (f"if-none-match: {tags[-1]}", f"if-modified-since: {formatdate(os.stat(f'{at}/list').st_mtime, usegmt=True)}"):
                same(f"a list that is known by {known}", asks(*fields, known)[:2], (304, b""))
        same("a part of the list", asks("range: bytes=2-5")[:2], (206, listed[2:6]))
        return tags

    same("the list is published", publish(), 0)
    first, times = both(b"Lamp"), [os.stat(f"{at}/{it}").st_mtime_ns for it in ("list", "list.gz")]
    same("the list is published again", publish(), 0)
    same("the times of a list that is as before", [os.stat(f"{at}/{it}").st_mtime_ns for it in ("list", "list.gz")], times)
    gate.gives("the head of the file", message("HEAD", "/list"), 200, b"")
    gate.gives("an order to the list", message("POST", "/list", b""), *by_proxy(405))
    amended = asked("t1", "amend", number="0011", title="Blinker", licence="MIT", site="https://acme.example/", source="https://acme.example/")
    gate.gives("a title", signed("ann", command(amended)), 200, told("amended 0011"))
    same("another list is published", publish(), 0)
    if set(both(b"Blinker")) & set(first):
        sys.exit("another list has the tag of the first")
    server.kill()
    same("the list is not published without the server", publish(), 1)
    both(b"Blinker")


def logged(recipe):
    """Checks that the log says who ordered what, and has nothing else. nginx writes a line once the response is gone."""
    until = time.monotonic() + 5
    while not re.search(r'^\S+T\S+ 127\.0\.0\.1 "ann" "k2" "POST /commands" 200 ', recipe.log(), re.MULTILINE):
        if time.monotonic() > until:
            sys.exit(f"the log has no order of ann: {recipe.log()[:2000]}")
        time.sleep(0.01)
    others = [it for it in recipe.log().splitlines() if not re.search(r'^\S+ \S+ "(ann|bob|curator-1)" "\w+" "(POST /(commands|imports/acme)|-)" ', it) or " 429 " in it]
    same("other lines of the log", others, [])


def rotated(gate, recipe):
    """Checks that the logs go on in new files, by contrib/usbreg.logrotate, and that the old ones stay."""
    if not shutil.which("logrotate"):
        print("SKIPPED: logrotate is not installed, so contrib/usbreg.logrotate was not run")
        return
    order, before = signed("ann", command(ask("k2", number="0011"))), recipe.log()
    wrong, _ = counts_at_least(recipe, 1)
    same("what is watched of wrong passwords", watched(recipe.folder), ([("passwords", True, wrong)], [("usbreg_ok", "1"), ("usbreg_value", str(wrong))]))
    again = recipe.stop.replace("-s stop", "-s reopen")
    stanza = content(f"{CONTRIB}/usbreg.logrotate").decode()
    for text, other in (("/var/log/usbreg", recipe.folder), (" www-data adm", ""), ("invoke-rc.d nginx rotate > /dev/null 2>&1", f'cd "{recipe.folder}" && {again}')):
        if text not in stanza:
            sys.exit(f"contrib/usbreg.logrotate has no {text!r}")
        stanza = stanza.replace(text, other)
    write(f"{recipe.folder}/rotate", stanza)
    os.chmod(f"{recipe.folder}/rotate", 0o644)
    shell("PATH=$PATH:/usr/sbin logrotate --force --state state rotate", recipe.folder)
    until, sent = time.monotonic() + 5, 0
    while not recipe.log():
        gate.gives("an order while the log is rotated", order, 200, told("petition 1"))
        sent += 1
        if time.monotonic() > until:
            sys.exit("the log does not go on in a new file")
        time.sleep(0.1)
    (old,) = (it for it in os.listdir(recipe.folder) if it.startswith("orders.log-"))
    whole = content(f"{recipe.folder}/{old}").decode()
    same("the old log", (whole.startswith(before), (whole + recipe.log()).count("\n")), (True, before.count("\n") + sent))
    gate.gives("a wrong password in the new log", signed("ann", command(ask("k2")), "bob"), *by_proxy(401))
    same("wrong passwords in the new log", counts_at_least(recipe, 1)[0], 1)
    same("the old count is there", len([it for it in os.listdir(recipe.folder) if re.fullmatch(r"wrong-\d{8}\.log\.gz", it)]), 1)
    same("what is watched of both", watched(recipe.folder)[0], [("passwords", True, wrong + 1)])
