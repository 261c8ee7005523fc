"""Clients that send as much as they can, in processes of their own that the system schedules after all others, and a way to
let it schedule what they attack before all others: what another user waits is then what the proxy and the server make him wait,
also on a busy machine."""

import collections
import contextlib
import itertools
import multiprocessing
import os
import resource
import selectors
import socket
import time

from lib.serving import HOST, PATIENCE

FORK = multiprocessing.get_context("fork")
# What `counts` has beside statuses: the messages that passed beyond the limit of their address.
BEYOND = "beyond the limit"
# The nice value of a session that comes before others.
FIRST = "-15"


def last_of_all():
    """Lets the system schedule this process after all others: in its session, and that session after others, where the
    system schedules by sessions."""
    os.setsid()
    os.nice(19)
    put_in_order("/proc/self/autogroup", "19")
    most = resource.getrlimit(resource.RLIMIT_NOFILE)[1]
    resource.setrlimit(resource.RLIMIT_NOFILE, (most, most))


@contextlib.contextmanager
def first_of_all(process):
    """Lets the system schedule the session of a process before others while the block runs, where it schedules by sessions and
    root asks it."""
    path, before = f"/proc/{process}/autogroup", None
    with contextlib.suppress(OSError), open(path, encoding="ascii") as file:
        before = next(iter(file.read().split()[-1:]), None)
    if before:
        put_in_order(path, FIRST)
    try:
        yield
    finally:
        if before:
            put_in_order(path, before)


def put_in_order(path, nice):
    with contextlib.suppress(OSError), open(path, "w", encoding="ascii") as file:
        file.write(nice)


def begun(port, address, sent):
    """Opens a connection from an address of this machine, and sends bytes as far as the system takes them."""
    connection = socket.socket()
    connection.setsockopt(socket.SOL_SOCKET, socket.SO_REUSEADDR, 1)
    connection.bind((address, 0))
    connection.settimeout(PATIENCE)
    connection.connect((HOST, port))
    connection.settimeout(0)
    return connection, connection.send(sent)


def status_of(got):
    """Returns the status of a response, or 0 of none."""
    return int(got.split(None, 2)[1]) if got.startswith(b"HTTP/") else 0


class Sending:
    """Messages from addresses, each on its own connection. `counts` has how often each status came, 0 where none came.
    `times` has of each address when its first message was begun, and when each of its responses was there, with the status."""

    def __init__(self, port):
        self.port, self.counts, self.waiting, self.times = port, collections.Counter(), selectors.DefaultSelector(), {}

    def begin(self, address, sent):
        """Opens a connection, and sends as much of a message as the system takes."""
        sent = memoryview(sent)
        self.times.setdefault(address, (time.monotonic(), []))
        try:
            connection, done = begun(self.port, address, sent)
        except OSError:
            self.counts[0] += 1
            return
        events = selectors.EVENT_READ | (selectors.EVENT_WRITE if done < len(sent) else 0)
        self.waiting.register(connection, events, [sent[done:], b"", address])

    def go_on(self, seconds=0.05):
        """Sends and takes what the system lets it for a moment, and returns how many connections have ended."""
        ended = 0
        for key, events in self.waiting.select(seconds):
            with contextlib.suppress(OSError):
                if events & selectors.EVENT_WRITE:
                    key.data[0] = key.data[0][key.fileobj.send(key.data[0]) :]
                    if not key.data[0]:
                        self.waiting.modify(key.fileobj, selectors.EVENT_READ, key.data)
                if not events & selectors.EVENT_READ:
                    continue
                if part := key.fileobj.recv(65536):
                    key.data[1] = key.data[1] or part[:100]
                    continue
            self.end(key)
            ended += 1
        return ended

    def end(self, key):
        _, got, address = key.data
        self.counts[status_of(got)] += 1
        self.times[address][1].append((time.monotonic(), status_of(got)))
        self.waiting.unregister(key.fileobj)
        key.fileobj.close()

    def beyond(self, burst, rate):
        """Returns how many messages passed beyond a limit that lets so many of an address pass at once, and so many more in each
        second. The seconds are those from its first message to the last one that passed: all addresses together take the longer
        the busier the machine is, but each of them is soon done. One more may pass, since the times of nginx are coarse."""
        more = 0
        for began, responses in self.times.values():
            passed = [at for at, status in responses if status not in (0, 429, 503)]
            more += max(0, len(passed) - int(burst + 1 + rate * (max(passed, default=began) - began)))
        return more

    def close(self):
        """Ends what is left, and returns the counts."""
        for key in list(self.waiting.get_map().values()):
            self.end(key)
        self.waiting.close()
        return self.counts


def once(messages, seconds=PATIENCE, limit=None):
    """Returns a function for Attackers, which sends all messages at the same time, and waits at most so many seconds after
    the last. With the limit of an address, which is so many at once and so many more a second, it takes each response as soon
    as it can, and counts what passed beyond that."""
    def sends(port, ended):
        sending = Sending(port)
        for it in messages:
            sending.begin(*it)
            if limit:
                sending.go_on(0)
        until = time.monotonic() + seconds
        while sending.waiting.get_map() and time.monotonic() < until and not ended.is_set():
            sending.go_on()
        counts = sending.close()
        if limit:
            counts[BEYOND] = sending.beyond(*limit)
        return counts

    return sends


def without_end(messages, width):
    """Returns a function for Attackers, which sends the messages again and again, so many at a time."""
    def sends(port, ended):
        sending, next_ones = Sending(port), itertools.cycle(messages)
        for it in itertools.islice(next_ones, width):
            sending.begin(*it)
        while not ended.is_set():
            for it in itertools.islice(next_ones, sending.go_on()):
                sending.begin(*it)
        return sending.close()

    return sends


class Attackers:
    """Processes for a `with`, each of which runs a function of the port and an event until it ends, or until the event is
    set. `counts` has the sum of what they returned, once it is over."""

    def __init__(self, port, *functions):
        self.port, self.functions, self.ended, self.counts = port, functions, FORK.Event(), collections.Counter()

    def _run(self, function, given):
        last_of_all()
        given.send(function(self.port, self.ended))

    def __enter__(self):
        self.ends = []
        for function in self.functions:
            taken, given = FORK.Pipe(duplex=False)
            process = FORK.Process(target=self._run, args=(function, given), daemon=True)
            process.start()
            given.close()
            self.ends.append((process, taken))
        return self

    def wait(self):
        """Waits until all have ended by themselves."""
        for process, _ in self.ends:
            process.join(PATIENCE)

    def __exit__(self, *_):
        self.ended.set()
        for process, taken in self.ends:
            with contextlib.suppress(EOFError):
                self.counts.update(taken.recv() or {})
            process.join(PATIENCE)
            if process.is_alive():
                process.kill()

