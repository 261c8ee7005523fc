"""What the proxy of contrib/nginx.conf counts of wrong passwords: each of them, in few bytes, and nothing of right ones; and
what contrib/watch says of that."""

import collections
import concurrent.futures
import contextlib
import gzip
import importlib.machinery
import importlib.util
import os
import re
import sys
import time

from lib.flooded import need
from lib.proxy import closing, connected, shell, signed
from lib.serving import PATIENCE, command, get, message, post, read_to_end
from lib.usbreg import CONTRIB

# The wrong passwords; how many of them are sent on a connection, and by an address, which is as many as its limit lets through
# at once; and the most bytes that they leave.
PASSWORDS, ON_ONE, OF_ONE, BYTES = 300_000, 200, 4, 10_000
# The configuration that takes the address of a client from a field of the head, so that a script has as many as it likes.
BY_FIELD = (("backlog=4096;", "backlog=4096; set_real_ip_from 127.0.0.1; real_ip_header x-address;"),)


def counts(recipe):
    """Returns how many lines the log of wrong passwords has, and how many bytes. It has none while its last part is cut off."""
    path = f"{recipe.folder}/wrong.log.gz"
    with gzip.open(path) as file, contextlib.suppress(EOFError):
        return file.read().count(b"\n"), os.path.getsize(path)
    return 0, os.path.getsize(path)


def counts_at_least(recipe, wanted):
    """Returns the same, once the processes of the proxy have written what they counted, and that is as many as wanted."""
    shell(recipe.stop.replace("-s stop", "-s reopen"), recipe.folder)
    until = time.monotonic() + PATIENCE
    while counts(recipe)[0] < wanted and time.monotonic() < until:
        time.sleep(0.1)
    return counts(recipe)


def watched(folder):
    """Returns what contrib/watch says of the logs in a folder: whether it is ok, the number, and the lines for Prometheus."""
    loader = importlib.machinery.SourceFileLoader("watch", f"{CONTRIB}/watch")
    watch = importlib.util.module_from_spec(importlib.util.spec_from_loader("watch", loader))
    sys.dont_write_bytecode = True
    loader.exec_module(watch)
    watch.LOGS = folder
    lines = list(watch.passwords(watch.settings()))
    return [it[:3] for it in lines], re.findall(r"^(\w+)\{what=\"passwords\"\} (\S+)$", watch.metrics(lines), re.MULTILINE)


def sent_at_once(port, first):
    """Sends wrong passwords on one connection, and returns how often each status came."""
    sent = [signed("eve", get("/web/me.json"), "wrong").replace(b"\r\n", b"\r\nx-address: %s\r\n" % address_of(first + it), 1) for it in range(ON_ONE)]
    with connected(port) as connection:
        connection.sendall(b"".join(sent[:-1]) + closing(sent[-1]))
        return collections.Counter(re.findall(rb"HTTP/1.1 (\d+)", read_to_end(connection)))


def address_of(number):
    """Returns the address of a message: the same of as many as pass at once."""
    number //= OF_ONE
    return b"10.%d.%d.%d" % (number >> 16, number >> 8 & 255, number & 255)


def others(gate):
    """Sends wrong passwords of names that are there, and then right ones and none, which are not counted. Returns how many wrong
    ones there were."""
    wrong = [signed("bob", command({"caller": "", "key": "x", "order": "enrol"}), "wrong"), signed("curator-1", post("", "i", b"1209  x\n", "/imports/acme"), "wrong")]
    right = [signed("ann", get("/web/me.json")), signed("bob", get("/web/me.json"))]
    for sent, status in ((wrong, 401), (right, 200), ([get("/web/me.json"), message("POST", "/commands", b"")], 401)):
        for at, it in enumerate(sent):
            got = gate.ask(it, f"127.0.17.{at + 1}")[0]
            need(got == status, f"a password gets {got}, and not {status}")
    return len(wrong)


def counted(stage):
    """Wrong passwords from so many addresses that no limit refuses one: each is counted."""
    recipe, port = stage.recipe, stage.gate.port
    (lines, before), [(_, _, seen)] = counts(recipe), watched(recipe.folder)[0]
    wanted = lines + PASSWORDS + others(stage.gate)
    seen += wanted - lines
    began = time.monotonic()
    with concurrent.futures.ThreadPoolExecutor(8) as pool:
        statuses = sum(pool.map(lambda first: sent_at_once(port, first), range(0, PASSWORDS, ON_ONE)), collections.Counter())
    took = time.monotonic() - began
    need(statuses == {b"401": PASSWORDS}, f"{PASSWORDS} wrong passwords get {statuses}")
    counts_at_least(recipe, wanted)
    # what else was counted is written once the proxy has ended
    recipe.__exit__()
    recipe.__enter__()
    lines, after = counts(recipe)
    need(lines == wanted, f"of {wanted} wrong passwords {lines} are counted")
    need(after - before <= BYTES, f"{PASSWORDS} wrong passwords leave {after - before} bytes")
    told = watched(recipe.folder)
    need(told == ([("passwords", False, seen)], [("usbreg_ok", "0"), ("usbreg_value", str(seen))]), f"watch says {told}, where {seen} is wanted")
    return f"{PASSWORDS} wrong passwords are counted in {after - before} bytes, after {took:.0f} s"
