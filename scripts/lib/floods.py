"""Floods of messages through the proxy of contrib/nginx.conf to a registry with many numbers: another user's order must come
soon, no limit may be used up for others, and the logs must not grow. Each flood has the lines by which a configuration
without its limit differs, so that `serve_behind_nginx.py --planted` can show that it is noticed."""

import collections
import concurrent.futures
import os
import re
import signal
import time
from typing import NamedTuple

from lib.attackers import BEYOND, Attackers, Sending, first_of_all, once, without_end
from lib.flooded import ACCEPTED, FIRST, STORM, Missed, enrol, need
from lib.proxy import CURATOR, NO_CURATOR, by_proxy, closing, connected, refusal, signed
from lib.serving import command, get, message, post, read_to_end
from lib.usbreg import REPORTS, content, write
from lib.wrong_passwords import BY_FIELD, counted

# The messages at once, and the bytes of a list.
AT_ONCE, LONG = 60, 2_800_000
# The addresses that send passwords at the same time, and how many each sends. An address is let through so many at once, and
# so many more a second.
ADDRESSES, EACH, BURST, RATE = 100, 50, 4, 2
# What a curator may order and import at once, and the addresses that use the name.
ORDERS, LISTS, CURATORS_ADDRESSES = 200, 4, 40
# How often at least a storm sends its messages.
LEAST = 3
# The messages that come while the server is down.
DOWN = 40
# The reads at the same time, and the seconds in which another reader's page of the record must come.
READS, PAGE = 40, 3
# The files of the record that an address gets at once, and in each second; their bytes, and how many it asks for.
FILES, EACH_SECOND, FILE, ASKED = 60, 5, 1 << 18, 500
# The bytes of a line of the log, and how often a flood is tried, since another process may have the machine meanwhile.
LINE, TRIES = 260, 3
SECOND_MACHINE = "127.0.0.10"
MAKERS = ("ann", "bob", "mallory")


def addresses(part, count):
    return [f"127.{part}.{it // 250 + 1}.{it % 250 + 1}" for it in range(count)]


def from_each(places, messages):
    """Returns the messages, each with an address, which take turns."""
    return [(places[at % len(places)], closing(it)) for at, it in enumerate(messages)]


# The floods. Each returns its figure in words.


def alone(stage):
    return f"{min(stage.others.order('nothing') for _ in range(3)):.3f} s"


def refused_spans(stage):
    """Refused orders over all numbers, all at once, and an order of another user right after."""
    sent = [signed("mallory", command({"caller": "", "key": f"r{it}", "order": "reserve", "first": "0011", "last": "ffff"})) for it in range(AT_ONCE)]
    with Attackers(stage.gate.port, once(from_each(addresses(4, 10), sent))) as attackers:
        took = stage.others.meanwhile(f"{AT_ONCE} refused orders over all numbers", 1)
        attackers.wait()
    need(set(attackers.counts) <= {refusal(2)[0], 503} and attackers.counts[refusal(2)[0]] >= AT_ONCE // 6, f"{AT_ONCE} refused orders over all numbers get {attackers.counts}")
    return f"{took:.3f} s beside {AT_ONCE} refused orders"


def refused_lists(stage):
    """Long lists of who may not send one, all at once, and orders of another user meanwhile."""
    lines = b"1209  x\n" + b"".join(b"\t%04x  Device\n" % it for it in range(FIRST, FIRST + 8192, 2))
    long = post("", "l1", lines.ljust(LONG, b"\n"), "/imports/acme")
    sent = [signed("mallory", long), signed(CURATOR, long, "wrong")] * (AT_ONCE // 2)
    with Attackers(stage.gate.port, once(from_each(addresses(5, 4), sent))) as attackers:
        took = stage.others.meanwhile(f"{AT_ONCE} refused lists", 1)
        attackers.wait()
    wanted = {by_proxy(403, NO_CURATOR)[0]: AT_ONCE // 2, by_proxy(401)[0]: AT_ONCE // 2}
    need(attackers.counts == wanted, f"{AT_ONCE} refused lists get {attackers.counts}")
    return f"{took:.3f} s beside {AT_ONCE} refused lists"


def long_queries(stage):
    """Each report and many pages near the end of the record, all at once."""
    paths = [f"/reports/{it}" for it in REPORTS] + [f"/history/{ACCEPTED - 1000 - number}" for number in range(AT_ONCE)]
    with Attackers(stage.gate.port, once(from_each(addresses(7, 20), map(get, paths)))) as attackers:
        took = stage.others.meanwhile(f"{len(paths)} long queries")
    answered = attackers.counts[200]
    need(not set(attackers.counts) - {0, 200, 429} and answered >= len(REPORTS), f"{len(paths)} long queries get {attackers.counts}")
    return f"{took:.3f} s beside {answered} long queries"


def record_for_all(stage):
    """Two addresses ask for pages of the record, first as many as they can at once, and for what has no such path, without end.
    Another reader gets his pages soon, and fresh reports, and the second machine has no limit."""
    gate, slowest, reports = stage.gate, 0, set()
    pages = [f"/history/{it}" for it in range(AT_ONCE)]
    paths = [*pages, *(f"/{it}/x{number}" for it in ("history", "reports", "list") for number in range(AT_ONCE))]
    held = Sending(gate.port)
    for it in from_each(addresses(8, 2), map(get, pages)):
        held.begin(*it)

    def reads():
        nonlocal slowest
        began = time.monotonic()
        status = gate.ask(get("/history/9000"), stage.others.address())[0]
        slowest = max(slowest, time.monotonic() - began)
        need(status == 200 and slowest <= PAGE, f"beside pages without end another reader's page gets {status} after {slowest:.2f} s")
        status, _, lines = gate.ask(get("/reports/holders"), stage.others.address())
        reports.add((status, "cache-status: stale" in lines))

    reads()
    with Attackers(gate.port, without_end(from_each(addresses(8, 2), map(get, paths)), AT_ONCE)):
        took = stage.others.meanwhile("pages without end", STORM, reads)
        began = time.monotonic()
        machine = collections.Counter(gate.ask(get(f"/history/{it}"), SECOND_MACHINE)[0] for it in range(30))
        caught_up = time.monotonic() - began
    held.close()
    need(machine == {200: 30}, f"beside pages without end the second machine gets {machine}")
    need(reports == {(200, False)}, f"beside pages without end reports are (status, stale): {reports}")
    return f"{took:.3f} s beside pages without end (a page for another reader {slowest:.2f} s, 30 for the second machine {caught_up:.2f} s)"


def curators(stage):
    """A curator's name from many addresses: orders, and lists that take numbers."""
    places, began, before = addresses(9, CURATORS_ADDRESSES), time.monotonic(), len(stage.recipe.log())
    orders = [signed(CURATOR, command(enrol(f"bad{it}"))) for it in range(10 * CURATORS_ADDRESSES)]
    lists = [signed(CURATOR, post("", f"bad-list{it}", b"1209  x\n\t%04x  x\n" % (0x100 + it) + b"#\n" * 2_000_000, "/imports/full")) for it in range(CURATORS_ADDRESSES // 2)]
    with Attackers(stage.gate.port, once(from_each(places, orders)), once(from_each(addresses(10, CURATORS_ADDRESSES), lists))) as attackers:
        took = stage.others.meanwhile("a curator's orders and lists")
        attackers.wait()
    more = (time.monotonic() - began) / 6 + 1
    made, taken = (len(re.findall(rf'"{CURATOR}" "[^"]*" "POST /{it}[^"]*" 200 ', stage.recipe.log()[before:])) for it in ("commands", "imports"))
    need(0 < made <= ORDERS + more, f"of {len(orders)} orders of a curator {made} were accepted")
    need(0 < taken <= LISTS + more / 10, f"of {len(lists)} lists of a curator {taken} were taken")
    return f"{took:.3f} s beside a curator's orders and lists from {CURATORS_ADDRESSES} addresses ({made} of {len(orders)} and {taken} of {len(lists)} were accepted)"


def passwords(stage):
    """Wrong and right passwords from many addresses at once."""
    wrong, right = (signed("mallory", command(enrol("x")), it) for it in ("wrong", None))
    # each address has its messages one after another, all wrong ones or all right ones, and half of the addresses come from
    # one process
    sent = sorted(from_each(addresses(11, ADDRESSES), [wrong, right] * (ADDRESSES * EACH // 2)))
    halves = (sent[: len(sent) // 2], sent[len(sent) // 2 :])
    with Attackers(stage.gate.port, *(once(it, STORM, (BURST, RATE)) for it in halves)) as attackers:
        took = stage.others.meanwhile("passwords from many addresses", STORM)
        attackers.wait()
    beyond = attackers.counts.pop(BEYOND, 0)
    checked = sum(attackers.counts[it] for it in attackers.counts if it not in (0, 429, 503))
    need(checked and not beyond, f"of {len(sent)} passwords {checked} were checked, {beyond} more than the limit of an address allows: {attackers.counts}")
    return f"{took:.3f} s beside {len(sent)} passwords from {ADDRESSES} addresses ({checked} were checked)"


def reads_and_orders(stage):
    """More reads at the same time than the server may have, while it is busy, here stopped; then orders."""
    stage.server.process.send_signal(signal.SIGSTOP)
    reads = [connected(stage.gate.port, f"127.0.3.{it + 1}") for it in range(2 * READS + 40)]
    for it in reads:
        it.sendall(closing(get("/numbers/0012")))
    until = time.monotonic() + 5
    refused = 0
    try:
        orders = []
        while refused < READS and time.monotonic() < until:
            time.sleep(0.2)
            refused = sum(is_answered(it) for it in reads)
        for number in range(25):
            orders.append(connected(stage.gate.port, f"127.0.14.{number + 1}"))
            orders[-1].sendall(closing(signed(MAKERS[number % 3], command(enrol(f"beside-reads{number}-{stage.others.count}")))))
        time.sleep(0.5)
    finally:
        stage.server.process.send_signal(signal.SIGCONT)
    got, read = ([int(read_to_end(it).split()[1]) for it in those] for those in (orders, reads))
    stage.others.count += 1
    need(got == [200] * 25, f"beside {len(reads)} reads {got.count(503)} of 25 orders get 503, the reads {collections.Counter(read)}")
    need(collections.Counter(read) == {200: READS, 503: READS + 40}, f"{len(reads)} reads of a busy server get {collections.Counter(read)}")
    return f"0 of 25 orders refused beside {len(reads)} reads"


def is_answered(connection):
    connection.settimeout(0)
    try:
        return bool(connection.recv(1, 2))
    except BlockingIOError:
        return False
    finally:
        connection.settimeout(60)


def files_of_the_record(stage):
    """An address asks for compressed files of what the record says as fast as it can. Another reader gets one at once."""
    line = b"123 " + command(enrol("acme")).partition(b"\r\n\r\n")[2] + b"\n"
    path = f"{stage.recipe.folder}/usbreg-list/stories/1209/{FIRST:04x}"
    os.makedirs(os.path.dirname(path), exist_ok=True)
    write(path, (line * (FILE // len(line))).decode())
    sent = message("GET", f"/stories/1209/{FIRST:04x}", accept_encoding="gzip")

    def asks(port, ended):
        began = time.monotonic()
        with connected(port, "127.0.12.1") as connection:
            connection.sendall(sent * (ASKED - 1) + closing(sent))
            counts = collections.Counter(int(it) for it in re.findall(rb"HTTP/1.1 (\d+)", read_to_end(connection)))
        # one more may pass, since the times of nginx are coarse
        counts[BEYOND] = max(0, counts[200] - int(FILES + 2 + EACH_SECOND * (time.monotonic() - began)))
        return counts

    def reads():
        status = stage.gate.ask(sent, stage.others.address())[0]
        need(status == 200, f"beside files of the record another reader gets {status}")

    with Attackers(stage.gate.port, asks) as attackers:
        took = stage.others.meanwhile("files of the record", STORM, reads)
        attackers.wait()
    counts = attackers.counts
    need(counts[200] > FILES and counts[200] + counts[429] == ASKED and not counts[BEYOND], f"{ASKED} files of the record for an address: {counts[BEYOND]} beyond its limit, {counts}")
    return f"{took:.3f} s beside {ASKED} files of the record for an address ({counts[200]} came)"


def long_words(stage):
    """Orders of a maker with a long key, a long query and a long method."""
    order = command(enrol("x"))
    long = [order.replace(b"/commands", b"/commands?" + b"q" * 3000), order.replace(b"registry-key: x", b"registry-key: " + b"k" * 3000)]
    long += [order.replace(b"POST", b"P" * 1000), order.replace(b"registry-key: x", b'registry-key: " 200 "'), message("GET", "/commands?" + "q" * 3000)]
    before = len(stage.recipe.log())
    statuses = [stage.gate.ask(signed("mallory", it), stage.others.address())[0] for it in long]
    time.sleep(0.3)
    lines = stage.recipe.log()[before:].splitlines()
    need(len(lines) == len(long) - statuses.count(405) * 0, f"{statuses} make {len(lines)} lines of the log")
    longest = max(map(len, lines))
    need(longest <= LINE, f"a line of the log has {longest} bytes")
    need(all(re.fullmatch(r'\S+ \S+ "mallory" "[\w-]+" "(POST /commands|-)" \d+ \d+ [0-9.]+', it) for it in lines), f"the log has {lines}"[:1000])
    return f"at most {longest} bytes of the log for an order"


def storm(stage):
    """Messages without end from an address, most of which a limit refuses: nothing of the refused ones is in the logs."""
    def sends(sent):
        def run(port, ended):
            counts, times = collections.Counter(), 0
            # on a busy machine it may come to its turn only when the others are done
            while not ended.is_set() or times < LEAST:
                times += 1
                with connected(port, "127.0.0.7") as connection:
                    connection.sendall(sent * 200 + closing(sent))
                    counts.update(int(it) for it in re.findall(rb"HTTP/1.1 (\d+)", read_to_end(connection)))
            return counts

        return run

    messages = [get("/numbers/0012"), signed("Zoe", command(enrol("x")))]
    others = once(from_each(["127.0.0.7"], [signed("bob", command(enrol("x")), "wrong"), get("/list")] * 200), 1)
    before, first = stage.recipe.logged(), stage.others.count
    with Attackers(stage.gate.port, others, *map(sends, messages)) as attackers:
        took = stage.others.meanwhile("a storm of refused messages")
    counts, grown = attackers.counts, stage.recipe.logged() - before
    need(grown <= LINE * (stage.others.count - first) and counts[429] > 100, f"a storm of {counts} adds {grown} bytes to the logs, beside {stage.others.count - first} orders")
    told_counts = ", ".join(f"{counts[it]} times {it}" for it in sorted(counts) if it)
    return f"{took:.3f} s beside a storm ({told_counts}; {grown} bytes of logs, those of {stage.others.count - first} orders)"


def restart(stage):
    """Orders and queries while the server is down for a moment: they wait for it, and none is refused."""
    stage.server.kill()
    messages = [signed(MAKERS[it % 3], command(enrol(f"waits{it}-{stage.others.count}"))) if it % 2 else get("/numbers/0012") for it in range(DOWN)]
    stage.others.count += 1

    def waits(at):
        began = time.monotonic()
        status = stage.gate.ask(messages[at], f"127.0.15.{at + 1}")[0]
        return status, time.monotonic() - began

    with concurrent.futures.ThreadPoolExecutor(DOWN) as pool:
        began = time.monotonic()
        asked = [pool.submit(waits, it) for it in range(DOWN)]
        time.sleep(0.7)
        stage.start()
        down = time.monotonic() - began
        statuses, waited = zip(*(it.result() for it in asked))
    need(set(statuses) == {200}, f"{DOWN} messages for a server that is down get {collections.Counter(statuses)}")
    return f"{DOWN} messages waited at most {max(waited):.1f} s for a server that was down for {down:.1f} s"


class Flood(NamedTuple):
    """A flood, and the changes to the configuration without its limit; further changes stand for an operator's."""

    run: object
    planted: tuple = ()
    changed: tuple = ()


FLOODS = (
    Flood(alone),
    Flood(refused_spans),
    Flood(refused_lists),
    Flood(long_queries),
    Flood(record_for_all, (("limit_req zone=usbreg_pages burst=20 delay=3;", "limit_req zone=usbreg_reads burst=100 nodelay;"),), (("#192.0.2.7 1;", f"{SECOND_MACHINE} 1;"),)),
    Flood(curators, (("limit_req zone=usbreg_curators burst=200 nodelay;", ""), ("limit_req zone=usbreg_lists burst=3 nodelay;", ""), ("limit_conn usbreg_lists_now 1;", ""))),
    Flood(passwords, (("limit_req zone=usbreg_orders burst=30 delay=3;", "limit_req zone=usbreg_orders burst=50 nodelay;"),)),
    Flood(counted, (("log_format usbreg_wrong $usbreg_hour;", "log_format usbreg_wrong '$usbreg_hour $request_id';"),), BY_FIELD),
    Flood(reads_and_orders, (("limit_conn usbreg_reads_now 40;", ""),)),
    Flood(files_of_the_record, (("limit_req zone=usbreg_stories burst=60 nodelay;", "limit_req zone=usbreg_reads burst=100 nodelay;"),)),
    Flood(long_words, (('"$usbreg_key" "$usbreg_order"', '"$http_registry_key" "$request"'),)),
    Flood(storm, (("if=$usbreg_logged", ""),)),
    Flood(restart, ((" backup;", " down backup;"),)),
)


def tried(flood, stage, edits):
    """Runs a flood with changes to the configuration, and returns its figure."""
    before = content(stage.recipe.conf).decode()
    try:
        for text, other in (*flood.changed, *edits):
            stage.recipe.change(text, other)
        # the other user and the server are in the session of this process, and the proxy has its own
        with stage.recipe, first_of_all(os.getpid()), first_of_all(stage.recipe.process()):
            return flood.run(stage)
    finally:
        write(stage.recipe.conf, before)


def least(flood, stage):
    """Runs a flood until it misses nothing, and a few times at most: another process may have the machine meanwhile."""
    for last in range(TRIES):
        try:
            return tried(flood, stage, ())
        except Missed:
            if last == TRIES - 1:
                raise
    return None


def is_noticed(flood, stage):
    """Returns what a flood does if its limit is taken away, in words, or None if that is not noticed."""
    try:
        tried(flood, stage, flood.planted)
    except Missed as missed:
        return str(missed)
    return None
