"""Each refusal that docs/requests.md lists with a status, over HTTP and to the byte. `curl` gets it, except for those
that need a message that `curl` does not send."""

import itertools
import json
import shutil
import sys

from lib.desk_orders import ENROL, ENROLLED, HEAD, LINK, LIST, ORDER, ask, asked
from lib.plain_history import MOST_OPEN
from lib.serving import command, done, exchange, message, post, refusals, refused, serving
from lib.usbreg import found, run, same, write

# Refusals that no message alone causes: a fault of the store, and out of memory.
OF_RESOURCES = {30, 31}
# A time, and what is none.
TIME = "2026-11-28T20:34:13Z"
NO_TIMES = (
    "", "2026-11-28", "2026-11-28T20:34:13", "2026-11-28T20:34:13+00:00", "2026-11-28t20:34:13Z", "2026-11-28T20:34:13z", "2026-11-28 20:34:13Z", "2026-11-28T20:34:13.5Z",
    "12026-11-28T20:34:13Z", "2026-00-28T20:34:13Z", "2026-13-28T20:34:13Z", "2026-11-00T20:34:13Z", "2026-11-32T20:34:13Z", "2026-11-28T24:00:00Z", "2026-11-28T20:60:00Z", "2026-11-28T20:34:60Z",
)


class Desk:
    """A server, and the refusals that it has sent."""

    def __init__(self, server, room):
        self.port, self.room, self.seen = server.port, room, set()
        self.has_curl = shutil.which("curl")

    def send(self, request, wanted):
        same(f"{request}", exchange(self.port, command(request)), wanted)

    def curl(self, *words):
        """Returns what curl gets, with the head."""
        status, output, errors = run(["curl", "-si", "--max-time", "60", *words[:-1], f"127.0.0.1:{self.port}{words[-1]}"])
        if status or errors:
            sys.exit(f"curl {' '.join(words)}: status {status}, {errors!r}")
        return output

    def refuses(self, number, *words, detail=None, allow=None):
        self.seen.add(number)
        if self.has_curl:
            same(f"curl {' '.join(words)}", self.curl(*words), refused(number, detail, allow))

    def refuses_order(self, number, request, detail=None):
        body = json.dumps({name: value for name, value in request.items() if name not in ("caller", "key")})
        self.refuses(number, *fields(request["caller"], request["key"]), "-d", body, "/commands", detail=detail)

    def refuses_list(self, number, text, *more, caller="cora", path="/imports/acme", detail=None):
        listed = write(f"{self.room}/list.ids", text)
        self.refuses(number, *fields(caller, "list"), *more, "--data-binary", f"@{listed}", path, detail=detail)

    def refuses_bytes(self, number, sent, last=True, detail=None):
        """Sends a message that curl doesn't send, and checks its refusal."""
        self.seen.add(number)
        same(f"{sent[:120]!r}", exchange(self.port, sent, last), refused(number, detail))


def fields(caller, key):
    return "-H", f"registry-caller: {caller}", "-H", f"registry-key: {key}"


def by_rules(desk):
    """Sends orders that the rules refuse, in a sequence in which each refusal can occur."""
    desk.refuses_order(4, ask("k2"))
    desk.send(ENROL, ENROLLED)
    desk.refuses_order(1, asked("k1", "amend-org", org="acme", title="Acme", site=LINK))
    desk.refuses_order(5, asked("k2", "enrol", org="acme", title="Acme", site=LINK))
    desk.refuses_order(3, ask("k2") | {"caller": "bob"})
    desk.refuses_order(34, ask("k2", vendor="cafe"))
    desk.refuses_order(13, ask("k2", licence="BSD"))
    desk.refuses_order(8, ask("k2", number="0010"))
    desk.send(ask("k2", number="0011"), done("petition 1"))
    desk.refuses_order(2, asked("k3", "grant", petition=1))
    desk.refuses_order(6, asked("k3", "grant", "cora", petition=2))
    desk.send(asked("k3", "grant", "cora", petition=1), done("granted 0011 to acme by petition 1"))
    desk.refuses_order(7, asked("k4", "grant", "cora", petition=1))
    desk.refuses_order(10, ask("k4", number="0011"))
    desk.send(asked("k4", "enrol", "bob", org="bolt", title="Bolt", site=LINK), done("enrolled bolt"))
    desk.refuses_order(9, ask("k5", org="bolt", number="0011") | {"caller": "bob"}, "acme")
    desk.refuses_order(11, asked("k5", "return", number="0012"))
    desk.refuses_order(15, asked("k5", "reserve", "cora", first="0011", last="0020"), "0011")
    desk.refuses_order(16, asked("k5", "reserve", "cora", first="0010", last="0020"))
    desk.refuses_order(17, asked("k5", "release", "cora", first="0012", last="0020"))
    desk.refuses_order(35, asked("k5", "add-licence", "cora", licence="MIT"))
    desk.refuses_order(33, asked("k5", "add-vendor", "cora", vendor="1209", name="Other"))
    desk.refuses_list(19, "1209  x\n" + "\t0000  y\n" * 8193)


def by_limits(desk):
    """Tries a vendor without free numbers, the most open petitions, and 256 vendors."""
    desk.send(asked("r1", "reserve", "cora", first="0012", last="ffff"), done("reserved 0012-ffff"))
    for number in range(2, MOST_OPEN + 2):
        desk.send(ask(f"a{number}"), done(f"petition {number}"))
    desk.refuses_order(14, ask("a1"))
    desk.refuses_order(12, asked("g2", "grant", "cora", petition=2))
    for number in range(1, 256):
        desk.send(asked(f"v{number}", "add-vendor", "cora", vendor=f"{number:04x}", name="Other"), done(f"added vendor {number:04x}"))
    desk.refuses_order(18, asked("v256", "add-vendor", "cora", vendor="cafe", name="Other"))


def by_messages(desk):
    """Sends messages that are refused before any rule is checked."""
    enrol = fields("ann", "k9")
    desk.refuses(20, *itertools.chain(*(("-H", f"x-{number}: 1") for number in range(65))), "/list")
    desk.refuses(20, "-H", "x: " + "a" * HEAD, "/list")
    for path in ("/", "/lists", "/list/", "/numbers/12", "/numbers/0000", "/orgs/Acme", "/petitions/0", "/petitions/01", "/reports/all", "/history", "/history/", "/history/01", "/history/-1", "/history/4294967296", "/founding/", "/head/", "/heads", "/history/founding/", "/history/Founding", "/numbers/%30%30%31%31"):
        desk.refuses(24, path)
    desk.refuses(24, "-d", "", "/imports/Acme")
    for method, path, allow in (("DELETE", "/list", "GET"), ("POST", "/head", "GET"), ("POST", "/numbers/0011", "GET"), ("POST", "/history/0", "GET"), ("POST", "/founding", "GET"), ("POST", "/history/founding", "GET"), ("GET", "/commands", "POST"), ("PUT", "/imports/acme", "POST")):
        desk.refuses(25, "-X", method, path, allow=allow)
    desk.refuses(21, *enrol, "-H", "transfer-encoding: chunked", "-d", "{}", "/commands")
    desk.refuses(21, *enrol, "-X", "POST", "/commands")
    for length in ("99999999999", "-1", "+2", ""):
        desk.refuses_bytes(21, message("POST", "/commands", content_length=length))
    desk.refuses_bytes(21, post("ann", "k9", b"{}").replace(b"content-length", b"content-length: 2\r\ncontent-length"))
    large = write(f"{desk.room}/large", "x" * (ORDER + 1))
    desk.refuses(22, *enrol, "--data-binary", f"@{large}", "/commands")
    desk.refuses_bytes(22, message("POST", "/imports/acme", content_length=LIST + 1))
    for words, field in ((("-H", "registry-key: k9"), "caller"), (fields("Ann", "k9"), "caller"), (fields("ann", "k 9"), "key"), (("-H", "registry-caller: ann"), "key")):
        desk.refuses(26, *words, "-d", "{}", "/commands", detail=f"registry-{field}")
    desk.refuses(26, *enrol, *enrol, "-d", "{}", "/commands", detail="registry-caller")
    for it in NO_TIMES:
        desk.refuses_bytes(26, message("POST", "/commands", b"{}", registry_caller="ann", registry_key="k9", registry_time=it), detail="registry-time")
    time = "-H", f"registry-time: {TIME}"
    desk.refuses(26, *enrol, *time, *time, "-d", "{}", "/commands", detail="registry-time")
    desk.refuses_list(26, "1209  x\n", "-H", "registry-time: now", detail="registry-time")
    desk.refuses_bytes(23, command(ENROL)[:-1])
    desk.refuses(27, *enrol, "-d", "[]", "/commands")
    desk.refuses(27, *enrol, "-d", "", "/commands")
    desk.refuses_order(28, asked("k9", "withdraw", petition=0), "petition")
    desk.refuses_order(28, asked("k9", "import"), "order")
    desk.refuses_list(29, "1209  A\n\t\t01  x\n", detail="line 2: NoParent")
    desk.refuses_list(29, "1209  A\n\t11  x", path="/imports/acme/1209", detail="line 2: BadCode")


def each_refusal(usbreg, room):
    with serving(usbreg, found(usbreg, f"{room}/refused.db")).up() as server:
        desk = Desk(server, room)
        for cases in (by_rules, by_messages, by_limits):
            cases(desk)
    missing = set(refusals()) - desk.seen - OF_RESOURCES
    if missing:
        sys.exit(f"docs/http.md has refusals that no message met: {missing}")
    return len(desk.seen)
