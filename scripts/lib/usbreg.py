"""What the scripts and benchmarks share: the program and its runs, stores, their tables, and made-up requests."""

import contextlib
import json
import os
import shutil
import sqlite3
import struct
import subprocess
import sys
import tempfile

TOP = os.path.dirname(os.path.dirname(os.path.dirname(os.path.abspath(__file__))))
CONTRIB, EXAMPLES = f"{TOP}/contrib", f"{TOP}/examples"
FOUNDING = f"{EXAMPLES}/founding.toml"
# A store is its file, its log while it is open, and the index that other programs make of the log.
ENDINGS = ("", "-wal", "-shm")
# The size of a page of a new store, and the bytes at its end that hold its sum.
PAGE_SIZE, SUM_SIZE = 1024, 8
# The names of the reports.
REPORTS = ("census", "holders", "petitions", "numbers", "organisations")
# Asks SQLite for the texts that made what is in a store, in the order in which they did.
TEXTS = "SELECT sql FROM sqlite_schema WHERE sql IS NOT NULL ORDER BY rowid"


def folder():
    """Returns a folder for a `with`, in memory if possible, since each store is synced many times."""
    return tempfile.TemporaryDirectory(dir="/dev/shm" if os.path.isdir("/dev/shm") else None)


def program(given=None, crate="registry_cli"):
    """Returns the path of the given program, else that in the variable USBREG, else that of the one built in a crate. Ends
    the script if it does not exist."""
    meant = os.environ.get("USBREG") if crate == "registry_cli" else None
    path = os.path.abspath(given or meant or f"{TOP}/crates/{crate}/out/{crate}")
    if not os.path.exists(path):
        sys.exit(f"{path} is not there: `make` builds usbreg, and in the folder of another crate `rt run` or `rt test` builds it")
    return path


def content(path):
    with open(path, "rb") as file:
        return file.read()


def write(path, text):
    """Writes a text to a file, and returns the file's path."""
    with open(path, "w", encoding="utf-8") as file:
        file.write(text)
    return path


def same(what, got, wanted):
    """Ends the script if two values that should be the same are not."""
    if got != wanted:
        sys.exit(f"{what}: {got!r:.1000}, where {wanted!r:.1000} is wanted")


def run(words, given=b"", env=None, seconds=120):
    """Returns status, output and errors of a program that reads the given bytes, and may take so long."""
    ran = subprocess.run(words, input=given, capture_output=True, env={**os.environ, **(env or {})}, check=False, timeout=seconds)
    return ran.returncode, ran.stdout, ran.stderr


def done(words, seconds=120):
    """Returns the output of a program. Ends the script if the program fails or prints to its standard error."""
    status, output, errors = run(words, seconds=seconds)
    if status or errors:
        sys.exit(f"{' '.join(words)} ended with status {status}: {errors!r}")
    return output


def library(room, name):
    """Compiles a C file of this folder into a library to preload before a program, and returns the library's path."""
    if not shutil.which("cc"):
        sys.exit("no C compiler: apt-get install gcc")
    path = f"{room}/{name}.so"
    subprocess.run(["cc", "-O2", "-shared", "-fPIC", "-o", path, f"{TOP}/scripts/lib/{name}.c", "-ldl"], check=True)
    return path


def found(usbreg, store, founding=FOUNDING):
    """Founds a registry in a new file, and returns the file's path."""
    remove(store)
    done([usbreg, "found", store, founding])
    return store


def found_in(usbreg, store, size, reserved):
    """Founds a registry in an empty database with pages of this size and so many reserved bytes, and returns the file's
    path."""
    remove(store)
    with open(store, "wb") as file:
        file.write(blank_page(size, reserved))
    done([usbreg, "found", store, FOUNDING])
    return store


def found_without_sums(usbreg, store):
    """Founds a registry as in new stores before they had sums, and returns the file's path."""
    return found_in(usbreg, store, 4096, 0)


def sum_of(page):
    """Returns the sum of a page, by the rule of SQLite's extension cksumvfs."""
    first = second = 0
    words = struct.unpack(f"<{(len(page) - SUM_SIZE) // 4}I", page[:-SUM_SIZE])
    for one, other in zip(words[::2], words[1::2]):
        first = (first + one + second) & 0xFFFFFFFF
        second = (second + other + first) & 0xFFFFFFFF
    return struct.pack("<II", first, second)


def blank_page(size=PAGE_SIZE, reserved=SUM_SIZE):
    """Returns the only page of an empty database, from "Database File Format" of SQLite,
    https://www.sqlite.org/fileformat2.html: one of a new store, or one of another size, without a sum if none is reserved."""
    page = bytearray(size)
    page[:16] = b"SQLite format 3\0"
    # the page size, the versions of a write-ahead log, the reserved bytes, and the three payload fractions
    struct.pack_into(">H6B", page, 16, size, 2, 2, reserved, 64, 32, 32)
    # the change counter and the number of pages; the schema format; UTF-8; the change counter of the version, and the version
    for at, value in ((24, 1), (28, 1), (44, 4), (56, 1), (92, 1), (96, 3040001)):
        struct.pack_into(">I", page, at, value)
    # an empty leaf of a table: its kind, and where its cells begin
    page[100] = 13
    struct.pack_into(">H", page, 105, size - reserved)
    if reserved == SUM_SIZE:
        page[-SUM_SIZE:] = sum_of(page)
    return bytes(page)


def form(store):
    """Returns the page size of a database file, and the bytes that are reserved at the end of each page."""
    header = content(store)[:21]
    return int.from_bytes(header[16:18], "big"), header[20]


def seal(store):
    """Gives each page of a closed store its sum again, after another program wrote to it."""
    size, reserved = form(store)
    if reserved == SUM_SIZE:
        bytes_there = content(store)
        pages = [bytes_there[at : at + size] for at in range(0, len(bytes_there), size)]
        with open(store, "wb") as file:
            file.write(b"".join(it[:-SUM_SIZE] + sum_of(it) for it in pages))


def kept_rows(rows):
    """Returns statements that put accepted requests into a store that has none, with a digest each. It is none of a record."""
    rows = list(rows)
    return ("INSERT INTO kept VALUES (?, ?, ?, ?)", rows), ("INSERT INTO digests4 VALUES (?, NULL, ?)", ((it, f"{it:064x}") for it in range(1, len(rows) + 1)))


def put_rows(store, statements):
    """Puts rows into a closed store, those that are given with each statement, and returns its path."""
    with opened(store) as connection:
        for statement, rows in statements:
            connection.executemany(statement, rows)
        connection.commit()
        connection.execute("PRAGMA wal_checkpoint(TRUNCATE)")
    remove(f"{store}-wal")
    seal(store)
    return store


def apply(usbreg, store, lines):
    """Returns the reply lines of a run, which must succeed."""
    return done([usbreg, "apply", store, lines])


def remove(store):
    """Removes a store, if it exists, and what a stop of its founding left."""
    for ending in (*ENDINGS, "-new"):
        if os.path.exists(store + ending):
            os.remove(store + ending)


def copy(store, other):
    """Copies the first store over the second."""
    remove(other)
    for ending in ENDINGS:
        if os.path.exists(store + ending):
            shutil.copyfile(store + ending, other + ending)
    return other


def opened(store):
    """Returns another program's connection to the store, for a `with`: it closes at the end, unlike sqlite3's own."""
    return contextlib.closing(sqlite3.connect(store))


def older_text(version):
    """Returns the text that makes a store of an older schema with SQLite."""
    return content(f"{EXAMPLES}/schema{version}.sql").decode()


def older(store, version):
    """Makes the example store of an older schema in a new file, and returns the file's path."""
    remove(store)
    with opened(store) as connection:
        connection.executescript(older_text(version))
    return store


def tables(store):
    """Returns all tables and rows, as statements."""
    with opened(store) as connection:
        return list(connection.iterdump())


def rounds(first, last, others=0):
    """Returns requests of organisations that each enrol, ask for a number and are granted the least free one: the rounds
    from the first to the last, over a store that has all earlier rounds and `others` more petitions."""
    for number in range(first, last + 1):
        org, site = f"o{number}", f"https://o{number}.example/"
        yield {"caller": "ann", "key": f"e{number}", "order": "enrol", "org": org, "title": f"Workshop {number}", "site": site}
        yield {"caller": "ann", "key": f"a{number}", "order": "ask", "org": org, "title": "Lamp", "licence": "MIT", "site": site, "source": site}
        yield {"caller": "cora", "key": f"g{number}", "order": "grant", "petition": number + others}


def declined(before, count):
    """Returns requests for `count` declined petitions of the first organisation, over a store that has `before` petitions."""
    site = "https://o1.example/"
    for number in range(before + 1, before + count + 1):
        yield {"caller": "ann", "key": f"p{number}", "order": "ask", "org": "o1", "title": "Lamp", "licence": "MIT", "site": site, "source": site}
        yield {"caller": "cora", "key": f"d{number}", "order": "decline", "petition": number}


def write_requests(path, requests):
    """Writes the requests to a file, one per line, and returns the file's path."""
    return write(path, "".join(json.dumps(it, separators=(",", ":")) + "\n" for it in requests))
