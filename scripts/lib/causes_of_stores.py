"""What `usbreg` says of a store that is not there, is something else or is damaged, and of errors of the system: a part of
`say_what_failed.py`."""

import contextlib
import errno
import os
import sqlite3
import sys

from lib.causes import APPLY, FILE, ORDERS, STORE, remove_store
from lib.usbreg import ENDINGS, FOUNDING, PAGE_SIZE, blank_page, content, copy, opened, run, seal, write

FOREIGN = "fault: foreign\n"
LONG = "n" * 300


def only(make):
    """Returns the change that makes something in place of the store."""

    def change(cases):
        remove_store(cases)
        make(cases.path("numbers.db"))

    return change


def damage(cases):
    """Changes one bit of the third page."""
    with open(cases.path("numbers.db"), "r+b") as file:
        file.seek(2 * PAGE_SIZE + 100)
        byte = file.read(1)[0]
        file.seek(-1, os.SEEK_CUR)
        file.write(bytes([byte ^ 1]))


def changed(statement):
    """Returns the change of a store by another program that leaves the sums of its pages right."""

    def change(cases):
        with opened(cases.path("numbers.db")) as connection:
            connection.execute("PRAGMA journal_mode = WAL")
            connection.execute(statement)
            connection.commit()
        seal(cases.path("numbers.db"))

    return change


def resized(change_of):
    """Returns the change of a store's file, which is given as its bytes."""

    def change(cases):
        path = cases.path("numbers.db")
        before = content(path)
        with open(path, "wb") as file:
            file.write(change_of(before))

    return change


def other_database(path):
    with contextlib.closing(sqlite3.connect(path)) as connection:
        connection.execute("CREATE TABLE other (x)")
        connection.commit()


def log_alone(cases):
    """Leaves a log that may hold commits, and no store."""
    remove_store(cases)
    with open(cases.path("numbers.db-wal"), "wb") as file:
        file.write(b"\x37\x7f\x06\x82" + bytes(2000))


def try_stores(cases):
    """A store that is not there, or is something else."""
    cases.case(APPLY, 1, FILE, "CASE/numbers.db: no such file", change=remove_store)
    cases.case(["export", "CASE/none/numbers.db"], 1, FILE, "CASE/none/numbers.db: no such file")
    cases.case(["found", "CASE/none/new.db", FOUNDING], 1, STORE, "CASE/none/new.db: its folder does not exist")
    cases.case(["found", f"CASE/{LONG}", FOUNDING], 1, STORE, f"CASE/{LONG}: its path or a name in it is too long")
    cases.case(["export", f"CASE/{LONG}"], 1, FILE, f"CASE/{LONG}: its path or a name in it is too long")
    cases.case(["export", "CASE/numbers.db/more"], 1, FILE, "CASE/numbers.db/more: a part of its path is not a folder")
    cases.case(APPLY, 1, STORE, "CASE/numbers.db: is a folder", change=only(os.mkdir))
    cases.case(APPLY, 1, STORE, "CASE/numbers.db: is a FIFO", change=only(os.mkfifo))
    link = only(lambda path: os.symlink("nowhere", path))
    cases.case(APPLY, 1, FILE, "CASE/numbers.db: a link that leads nowhere", change=link)
    cases.case(["found", "CASE/numbers.db", FOUNDING], 1, STORE, "CASE/numbers.db: a link that leads nowhere", change=link)
    cases.case(APPLY, 1, STORE, "CASE/numbers.db: has more than one name, by hard links", change=lambda cases: os.link(cases.path("numbers.db"), cases.path("other.db")))
    cases.case(APPLY, 1, STORE, "CASE/numbers.db: not a database", change=only(lambda path: write(path, "a text, and no database\n" * 99)))
    cases.case(APPLY, 1, STORE, "CASE/numbers.db: page 3 has a wrong checksum", change=damage)
    cases.case(["found", "CASE/numbers.db", FOUNDING], 1, "fault: taken\n", "CASE/numbers.db: holds a registry already")
    cases.case(["found", "CASE/numbers.db", FOUNDING], 1, STORE, "CASE/numbers.db: the log beside it belongs to another file", change=log_alone)
    cases.case(APPLY, 1, STORE, "CASE/numbers.db: has a rollback journal beside it; open it with sqlite3 first", change=lambda cases: write(cases.path("numbers.db-journal"), "a journal"))
    cases.case(["found", "file:numbers.db", FOUNDING], 1, STORE, "file:numbers.db: SQLite has another meaning for this name; write ./ before it")
    cases.case(["export", ""], 1, FILE, '"": no file has an empty name')


def blank_database(path):
    with open(path, "wb") as file:
        file.write(blank_page())


def other_meta(path):
    """Makes a database with a table meta that is none of a registry, and with pages that are free and have only zeros."""
    with contextlib.closing(sqlite3.connect(path)) as connection:
        connection.execute("PRAGMA secure_delete = ON")
        connection.execute("CREATE TABLE songs (title TEXT)")
        connection.execute("CREATE TABLE meta (id INTEGER PRIMARY KEY, version INTEGER)")
        connection.execute("INSERT INTO meta VALUES (1, 7)")
        connection.execute("CREATE TABLE large (x)")
        connection.execute("INSERT INTO large VALUES (zeroblob(30000))")
        connection.execute("DROP TABLE large")
        connection.commit()


def many_tables(path):
    """Makes a database whose table of schemas has more than one page."""
    with contextlib.closing(sqlite3.connect(path)) as connection:
        for number in range(200):
            connection.execute(f"CREATE TABLE songs_{number:03} (title TEXT NOT NULL, singer TEXT)")
        connection.commit()


def try_contents(cases):
    """A store that holds something else, or is damaged."""
    with opened(copy(cases.whole, f"{cases.room}/version.db")) as connection:
        version = connection.execute("SELECT version FROM meta").fetchone()[0]
        tables = [name for (name,) in connection.execute("SELECT name FROM sqlite_schema WHERE type = 'table' ORDER BY rowid")]
    other = "CASE/numbers.db: the database of another program; its first table is "
    cases.case(APPLY, 1, FOREIGN, f"{other}other", change=only(other_database))
    cases.case(["found", "CASE/numbers.db", FOUNDING], 1, STORE, f"{other}other", change=only(other_database))
    cases.case(APPLY, 1, FOREIGN, f"{other}songs_000", change=only(many_tables))
    cases.case(APPLY, 1, FOREIGN, "CASE/numbers.db: has songs as its table 1, where a registry has meta", change=only(other_meta))
    blank = "CASE/numbers.db: a database without tables, as an empty file becomes one; if it had a registry, restore a backup"
    # The engine makes an empty database of an empty file.
    cases.case(APPLY, 1, FOREIGN, blank, change=only(lambda path: write(path, "")))
    cases.case(APPLY, 1, FOREIGN, blank, change=only(blank_database))
    cases.case(APPLY, 1, FOREIGN, f"CASE/numbers.db: a registry of schema {version + 1}; this usbreg knows schemas up to {version}", change=changed(f"UPDATE meta SET version = {version + 1}"))
    for statement in ("DELETE FROM meta", "UPDATE meta SET version = -1"):
        cases.case(APPLY, 1, FOREIGN, "CASE/numbers.db: has a table meta without a version", change=changed(statement))
    count = f"CASE/numbers.db: has the first {len(tables)} tables of a registry"
    cases.case(APPLY, 1, FOREIGN, f"{count}, and version 0, which none has", change=changed("UPDATE meta SET version = 0"))
    cases.case(APPLY, 1, FOREIGN, f"{count}; one of schema 2 has 10", change=changed("UPDATE meta SET version = 2"))
    less = f"CASE/numbers.db: has the first {len(tables) - 1} tables of a registry; one of schema {version} has {len(tables)}"
    cases.case(APPLY, 1, FOREIGN, less, change=changed(f"DROP TABLE {tables[-1]}"))
    cases.case(APPLY, 1, FOREIGN, "CASE/numbers.db: has a further table songs, which no registry has", change=changed("CREATE TABLE songs (title TEXT)"))
    cases.case(APPLY, 1, FOREIGN, "CASE/numbers.db: has staff as its table 2, where a registry has curators", change=changed("ALTER TABLE curators RENAME TO staff"))
    cases.case(APPLY, 1, FOREIGN, "CASE/numbers.db: has data as its table 1, where a registry has meta", change=changed("ALTER TABLE meta RENAME TO data"))
    values = "CASE/numbers.db: has the tables of a registry, as far as was seen; a value in them is none of a registry; restore a backup"
    cases.case(APPLY, 1, FOREIGN, values, change=changed("DELETE FROM curators"))
    pages = os.path.getsize(cases.whole) // PAGE_SIZE
    lengths = f"by its header it has {pages} pages of {PAGE_SIZE} bytes"
    cases.case(APPLY, 1, STORE, f"CASE/numbers.db: has {5 * PAGE_SIZE} bytes; {lengths}", change=resized(lambda file: file[: 5 * PAGE_SIZE]))
    for more in (lambda file: bytes(PAGE_SIZE), lambda file: file[-PAGE_SIZE:]):
        cases.case(APPLY, 1, STORE, f"CASE/numbers.db: has {(pages + 1) * PAGE_SIZE} bytes; {lengths}", change=resized(lambda file, more=more: file + more(file)))
    for page in range(2, pages + 1):
        zeros = resized(lambda file, page=page: file[: (page - 1) * PAGE_SIZE] + bytes(PAGE_SIZE) + file[page * PAGE_SIZE :])
        cases.case(APPLY, 1, STORE, f"CASE/numbers.db: page {page} has only zeros", change=zeros)


def no_log_in_a_folder_that_is_read(cases):
    for ending in ENDINGS[1:]:
        with contextlib.suppress(FileNotFoundError):
            os.remove(cases.path(f"numbers.db{ending}"))
    os.chmod(f"{cases.room}/case", 0o755)


def try_closings(cases):
    """A founding that is committed, and whose store then cannot be closed: its last write fails."""
    fail = {"FAIL_WRITE": errno.ENOSPC, "FAIL_SKIP": 0}
    while cases.ended(["found", cases.path("new.db"), FOUNDING], [], None, {**fail, "FAIL_SKIP": fail["FAIL_SKIP"] + 1}, None, None, b"")[0]:
        fail["FAIL_SKIP"] += 1
    words = "CASE/new.db: no space left on the device; the registry is founded, and this failed when its store was closed"
    cases.case(["found", "CASE/new.db", FOUNDING], 1, STORE, words, fail=fail)
    status, _, errors = run([cases.usbreg, "apply", cases.path("new.db"), ORDERS])
    if status != 0:
        sys.exit(f"a registry whose store was not closed: status {status} and {errors!r}")


def try_system(cases):
    """Errors of the system."""
    cases.case(APPLY, 1, STORE, "CASE/numbers.db: no space left on the device", fail={"FAIL_WRITE": errno.ENOSPC})
    cases.case(["found", "CASE/new.db", FOUNDING], 1, STORE, "CASE/new.db: no space left on the device", fail={"FAIL_WRITE": errno.ENOSPC}, change=remove_store)
    cases.case(APPLY, 1, STORE, "CASE/numbers.db: read-only file system", fail={"FAIL_OPEN": errno.EROFS})
    unknown = "CASE/numbers.db: no cause is known; look for errors of its disk, and compare it with a backup"
    cases.case(APPLY, 1, STORE, unknown, fail={"FAIL_READ": errno.EIO})
    if os.getuid() == 0:
        cases.case(APPLY, 1, STORE, "CASE/numbers.db: permission denied", user=65534, change=lambda cases: os.chmod(cases.path("numbers.db"), 0o600))
        cases.case(["found", "CASE/new.db", FOUNDING], 1, STORE, f"CASE/new.db: permission denied in its folder {cases.room}/case", user=65534, change=lambda cases: os.chmod(f"{cases.room}/case", 0o755))
        cases.case(APPLY, 1, STORE, f"CASE/numbers.db: permission denied in its folder {cases.room}/case", user=65534, change=no_log_in_a_folder_that_is_read)
        cases.case(APPLY, 1, STORE, "CASE/numbers.db: permission denied for the log beside it", user=65534, change=lambda cases: os.chmod(cases.path("numbers.db-wal"), 0o644))
    else:
        cases.case(APPLY, 1, STORE, "CASE/numbers.db: permission denied", change=lambda cases: os.chmod(cases.path("numbers.db"), 0))


STORES = (try_stores, try_contents, try_system, try_closings)
