"""Registries that give something else than they should: what contrib/follow and contrib/publish-list get of them must change
no file, fill no disk, and end soon, with a word about the cause."""

import hashlib
import http.server
import os
import subprocess
import threading

from lib.serving import HOST
from lib.usbreg import CONTRIB, apply, content, done, found, rounds, same, write, write_requests

# The rounds of requests of the registry, each with three lines; and the lines that a follower has.
ROUNDS, HAS = 4, 5
# The bytes of a response without an end, after which it ends, so that a follower without limits ends too: more than a list has.
ENDLESS = 80_000_000
FIRST_LINE = b"# List of USB numbers in the syntax of usb.ids\n"
LIST = FIRST_LINE + b"\n1209  Shared products\n\t0011  Lamp\n"


class Upstream:
    """A server for a `with` that answers each GET with the parts that a function gives for its path. It tells no length. A path
    without parts is not found."""

    def __init__(self, answer):
        class Handler(http.server.BaseHTTPRequestHandler):
            """Answers a GET."""

            def do_GET(self):
                parts = answer(self.path)
                self.send_response(404 if parts is None else 200)
                self.end_headers()
                try:
                    for it in parts or ():
                        self.wfile.write(it)
                except OSError:
                    pass

            def log_message(self, *_):
                pass

        self.server = http.server.ThreadingHTTPServer((HOST, 0), Handler)
        self.server.daemon_threads = True
        self.url = f"http://{HOST}:{self.server.server_port}"

    def __enter__(self):
        threading.Thread(target=self.server.serve_forever, daemon=True).start()
        return self

    def __exit__(self, *_):
        self.server.shutdown()
        self.server.server_close()


def endless(part, begun=b""):
    yield begun
    for _ in range(ENDLESS // len(part)):
        yield part


def head_of(lines):
    """Returns the head of a record that has these lines."""
    digest = ""
    for line in lines:
        digest = hashlib.sha256(digest.encode() + line).hexdigest()
    return f'{{"digest":"{digest}","requests":{len(lines) - 1}}}\n'.encode()


class Record:
    """The lines of a record, and what a registry with this record answers."""

    def __init__(self, lines):
        self.founding, *self.lines = lines
        self.head = head_of(lines)

    def after(self, count):
        return b"".join(self.lines[count:][:1000])

    def answer(self, path):
        """Returns what an honest registry gives."""
        what = path.removeprefix("/history/")
        return [self.head if what == "/head" else self.founding if what == "founding" else self.after(int(what))]

    def dishonest(self):
        """Yields what a registry does, what is said of it, and a function from a path to its answer."""
        def given(answer, head=self.head):
            return lambda path: [head] if path == "/head" else [self.founding] if path.endswith("/founding") else answer(int(path.rsplit("/", 1)[1]))

        after, lines = self.after, self.lines
        changed = [lines[0].replace(b"o1", b"p1"), *lines[1:]]
        yield "ignores the number", "another history", given(lambda _: [after(0)])
        yield "begins anew after the last line", "another digest", given(lambda n: [lines[n], after(0)])
        yield "gives a line twice", "already", given(lambda n: [lines[n], lines[n + 1], lines[n + 1]])
        yield "gives blank lines", "no requests", given(lambda n: [after(n).replace(b"\n", b"\n\n")])
        yield "gives a founding again", "no requests", given(lambda n: [lines[n], self.founding, after(n + 1)])
        yield "gives a page of HTML", "no requests", given(lambda n: [b"<html>\n"])
        yield "cuts its last line", "without an end", given(lambda n: [after(n)[:-1]])
        yield "gives bytes without end", "too long", given(lambda n: endless(b"x" * 65536))
        yield "gives blanks without end", "too long", given(lambda n: endless(b"\n" * 65536, lines[n]))
        yield "gives lines without end", "too long", given(lambda n: endless(lines[0] * 100, after(n)))
        yield "gives too many lines", "too many", given(lambda n: [lines[n], lines[0] * 1001])
        yield "has an older state", "older state", given(lambda n: [b"".join(lines[n : HAS - 2])])
        yield "has fewer requests by its head", "older state", given(lambda n: [after(n)], head_of([self.founding, *lines[: HAS - 2]]))
        yield "has another history with the same lines here", "another digest", given(lambda n: [after(n)], head_of([self.founding, *changed]))
        yield "has that, and nothing new", "another digest", given(lambda n: [b"".join(lines[n : HAS - 1])], head_of([self.founding, *changed[: HAS - 1]]))
        yield "has no head", "no head", given(lambda n: [after(n)], b"{}\n")
        yield "has a page of HTML for its head", "no head", given(lambda n: [after(n)], b"<html>\n")
        yield "is another one", "founded otherwise", lambda path: [head_of([b"{}\n"])] if path == "/head" else [b"{}\n"] if path.endswith("/founding") else []
        yield "has another history", "another history", given(lambda n: [after(n).replace(b"o2", b"p2")])
        yield "is no registry", "cannot be fetched", lambda _: None


def follow_bad_registries(usbreg, room, follow=f"{CONTRIB}/follow"):
    """Follows registries that are none, with a store and without, and then an honest one, which mends all. Returns how many
    were refused."""
    store = found(usbreg, f"{room}/followed.db")
    apply(usbreg, store, write_requests(f"{room}/followed.jsonl", rounds(1, ROUNDS)))
    whole = Record(done([usbreg, "history", store]).splitlines(keepends=True))
    os.makedirs(f"{room}/follower/bin")
    os.symlink(usbreg, f"{room}/follower/bin/usbreg")
    record, other, count = f"{room}/follower/record", f"{room}/follower/store.db", 0
    env = {**os.environ, "PATH": f"{room}/follower/bin:{os.environ['PATH']}"}

    def follows(url, *words):
        ended = subprocess.run([follow, url, record, *words], env=env, capture_output=True, check=False, timeout=120)
        left = [it for it in os.listdir(f"{room}/follower") if it.startswith("record.")]
        return ended.returncode, ended.stderr.decode(), left

    has = b"".join([whole.founding, *whole.lines[: HAS - 1]]).decode()
    done([usbreg, "replay", other, write(record, has)])
    for what, said, answer in whole.dishonest():
        for words in ((), (other,)):
            write(record, has)
            with Upstream(answer) as upstream:
                status, errors, left = follows(upstream.url, *words)
            # with a store it is the store that has a line already
            causes = (said, "other requests") if said == "already" else (said,)
            if not status or not any(it in errors for it in causes) or left or content(record).decode() != has:
                raise SystemExit(f"a registry that {what}: status {status}, {errors[-500:]!r}, {left}, and {len(content(record))} bytes of the record")
            count += 1
    # a founding alone is compared too
    write(record, whole.founding.decode().replace("Shared", "Other"))
    with Upstream(whole.answer) as upstream:
        same("another founding", follows(upstream.url)[0], 1)
        for begun in (has, whole.founding.decode()):
            for words in ((), (other,)):
                write(record, begun)
                same("an honest registry", follows(upstream.url, *words), (0, "", []))
                same("the record", content(record), whole.founding + b"".join(whole.lines))
    same("the store", done([usbreg, "history", other]), content(record))
    return count + 1


def publish_bad_lists(room):
    """Publishes what is no list, which changes no file."""
    at = f"{room}/published"
    os.makedirs(at)

    def publishes(*parts):
        with Upstream(lambda _: iter(parts[0]) if len(parts) == 1 and not isinstance(parts[0], bytes) else parts) as upstream:
            return subprocess.run([f"{CONTRIB}/publish-list", upstream.url, at], capture_output=True, check=False, timeout=120).returncode

    same("a list", publishes(LIST), 0)
    there = {it: content(f"{at}/{it}") for it in sorted(os.listdir(at))}
    same("the files of a list", sorted(there), ["list", "list.gz"])
    for what, *parts in (
        ("a bare first line", FIRST_LINE), ("nothing", b""), ("a cut line", LIST[:-1]), ("a page of HTML", FIRST_LINE, b"<html>\n"), ("another text", b"# List\n", LIST),
        ("a line that is none", LIST, b"\t001\n"), ("a list without end", endless(b"\t0012  Lamp\n" * 6000, LIST)), ("bytes without end", endless(b"x" * 65536, FIRST_LINE)),
    ):
        same(f"{what} is published", publishes(*parts), 1)
        same(f"the files after {what}", {it: content(f"{at}/{it}") for it in sorted(os.listdir(at))}, there)
