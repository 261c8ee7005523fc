"""Stores that are nearly registries: a sound store as SQLite is to make it, and what is changed in it."""

import copy
import re

from lib.usbreg import blank_page, opened, remove, seal

# The tables whose rows the newest schema has in a table with another name, and those that are empty then.
NEWEST = {"petitions": "petitions3", "entries": "entries3", "spans": "spans3"}
OLDER = {1: (), 2: ("reserved",), **dict.fromkeys((3, 4, 5), ("petitions", "entries", "reserved", "spans"))}
# Statements on a sound store, by the schemas that have their tables and columns; {entries} is the table of its schema.
# In each store one of them is run. Petition 3, which the eighth request opened, is declined, 5 is open, 1 is granted, and 0300 is
# a number without terms.
STATEMENTS = (
    (
        "`meta`",
        (1, 2, 3, 4, 5),
        """DELETE FROM meta
        INSERT INTO meta SELECT 2, version, vendor, name FROM meta
        INSERT INTO meta SELECT 2, version, 51966, 'Other' FROM meta
        INSERT INTO meta SELECT 0, version, 51966, 'Other' FROM meta
        INSERT INTO meta SELECT 2, 77, vendor, name FROM meta
        UPDATE meta SET id = 7
        UPDATE meta SET version = 0
        UPDATE meta SET version = 6
        UPDATE meta SET version = 77
        UPDATE meta SET version = version + 4294967296
        UPDATE meta SET vendor = 0
        UPDATE meta SET vendor = 51966
        UPDATE meta SET name = ''
        UPDATE meta SET name = 'Other'""",
    ),
    (
        "the founding",
        (1, 2, 3, 4, 5),
        """DELETE FROM curators
        UPDATE curators SET name = 'Cora'
        WITH RECURSIVE n (n) AS (SELECT 1 UNION ALL SELECT n + 1 FROM n WHERE n < 64) INSERT INTO curators SELECT 'c' || n FROM n
        DELETE FROM licences
        UPDATE licences SET name = 'M' || char(9) WHERE name = 'MIT'
        DELETE FROM fixed
        UPDATE fixed SET lo = 0
        UPDATE fixed SET hi = 0
        INSERT INTO fixed VALUES (5, 20)""",
    ),
    (
        "organisations",
        (1, 2, 3, 4, 5),
        """DELETE FROM orgs
        UPDATE orgs SET slug = 'Acme' WHERE slug = 'acme'
        UPDATE orgs SET title = 'Ac' || char(9) || 'me' WHERE slug = 'acme'
        UPDATE orgs SET title = printf('%.201c', 'x') WHERE slug = 'acme'
        UPDATE orgs SET title = CAST(X'ff' AS TEXT) WHERE slug = 'acme'
        UPDATE orgs SET site = 'acme' WHERE slug = 'acme'
        UPDATE orgs SET keeper = 'Ann' WHERE slug = 'acme'
        UPDATE orgs SET keeper = 'bob' WHERE slug = 'acme'""",
    ),
    (
        "petitions",
        (1, 2, 3, 4, 5),
        """DELETE FROM {petitions}
        DELETE FROM {petitions} WHERE id = 3
        DELETE FROM {petitions} WHERE id = 6
        UPDATE {petitions} SET id = 0 WHERE id = 6
        UPDATE {petitions} SET id = 4294967296 WHERE id = 6
        UPDATE {petitions} SET id = 5000 WHERE id = 6
        UPDATE {petitions} SET org = 'none' WHERE id = 5
        UPDATE {petitions} SET want = 65536 WHERE id = 5
        UPDATE {petitions} SET title = 'La' || char(127) WHERE id = 5
        UPDATE {petitions} SET licence = 'Other' WHERE id = 5
        UPDATE {petitions} SET site = 'lamp' WHERE id = 5
        UPDATE {petitions} SET state = 9 WHERE id = 5
        UPDATE {petitions} SET state = 1 WHERE id = 5
        UPDATE {petitions} SET pid = 17 WHERE id = 5
        UPDATE {petitions} SET pid = 0 WHERE id = 1""",
    ),
    (
        "numbers",
        (1, 2, 3, 4, 5),
        """DELETE FROM {entries}
        UPDATE {entries} SET pid = 0 WHERE pid = 768
        UPDATE {entries} SET pid = 65536 WHERE pid = 768
        UPDATE {entries} SET pid = 8192 WHERE pid = 768
        UPDATE {entries} SET org = 'none' WHERE pid = 768
        UPDATE {entries} SET held = 7 WHERE pid = 768
        UPDATE {entries} SET licence = 'MIT' WHERE pid = 768
        UPDATE {entries} SET licence = NULL WHERE pid = 8208
        UPDATE {entries} SET licence = 'Other' WHERE pid = 8208
        UPDATE {entries} SET source = char(9) WHERE pid = 8208""",
    ),
    (
        "reserved numbers",
        (1,),
        """INSERT INTO reserved VALUES (0)
        INSERT INTO reserved VALUES (65536)
        INSERT INTO reserved VALUES (5)
        INSERT INTO reserved VALUES (768)""",
    ),
    (
        "reserved numbers",
        (2, 3, 4, 5),
        """UPDATE {spans} SET lo = 0 WHERE lo = 8192
        UPDATE {spans} SET hi = 65536 WHERE lo = 8224
        UPDATE {spans} SET hi = 1 WHERE lo = 8224
        UPDATE {spans} SET hi = 8223 WHERE lo = 8192
        UPDATE {spans} SET hi = 8300 WHERE lo = 8192
        UPDATE {spans} SET lo = 5 WHERE lo = 8192""",
    ),
    (
        "vendors",
        (3, 4, 5),
        """DELETE FROM vendors
        UPDATE vendors SET name = ''
        UPDATE vendors SET name = 'Other'
        INSERT INTO vendors VALUES (0, 'Other')
        UPDATE petitions3 SET vid = 65536 WHERE id = 5
        UPDATE petitions3 SET vid = 51966 WHERE id = 5
        UPDATE entries3 SET vid = 65536 WHERE pid = 768
        UPDATE entries3 SET vid = 51966 WHERE pid = 768
        UPDATE spans3 SET vid = 65536
        UPDATE spans3 SET vid = 51966""",
    ),
    (
        "`kept`",
        (1, 2, 3, 4, 5),
        """DELETE FROM kept
        DELETE FROM kept WHERE rowid = 5
        DELETE FROM kept WHERE rowid = 19
        UPDATE kept SET rowid = rowid + 100
        UPDATE kept SET rowid = 0 WHERE rowid = 1
        UPDATE kept SET rowid = -1 WHERE rowid = 5
        UPDATE kept SET rowid = 1000 WHERE rowid = 19
        UPDATE kept SET caller = 'Ann' WHERE rowid = 1
        UPDATE kept SET request = X'ff' WHERE rowid = 1
        UPDATE kept SET request = CAST('enrol' || char(9) || 'bolt' AS BLOB) WHERE rowid = 1
        UPDATE kept SET reply = 'petition' WHERE rowid = 1
        UPDATE kept SET reply = CAST(X'ff' AS TEXT) WHERE rowid = 1
        UPDATE kept SET reply = 'added licence MIT' WHERE rowid = 1""",
    ),
    (
        "digests and times",
        (4, 5),
        """DELETE FROM digests4
        DELETE FROM digests4 WHERE id = 0
        DELETE FROM digests4 WHERE id = 5
        DELETE FROM digests4 WHERE id = 19
        UPDATE digests4 SET id = -1 WHERE id = 0
        UPDATE digests4 SET id = 1000 WHERE id = 19
        UPDATE digests4 SET id = 4294967296 WHERE id = 19
        UPDATE digests4 SET digest = 'x' WHERE id = 5
        UPDATE digests4 SET digest = 'x' WHERE id = 19
        UPDATE digests4 SET digest = upper(digest) WHERE id = 19
        UPDATE digests4 SET digest = printf('%064d', 7) WHERE id = 5
        UPDATE digests4 SET digest = printf('%064d', 7) WHERE id = 19
        UPDATE digests4 SET time = '2026-11-28' WHERE id = 5
        UPDATE digests4 SET time = '2026-11-28' WHERE id = 8
        UPDATE digests4 SET time = '2026-11-28' WHERE id = 19
        UPDATE digests4 SET time = '2026-11-28T20:34:13Z' WHERE id = 0
        UPDATE digests4 SET time = '2026-11-28T20:34:13Z' WHERE id = 5
        UPDATE digests4 SET time = '2026-11-28T20:34:13Z' WHERE id = 8
        UPDATE digests4 SET time = '2026-11-28T20:34:13Z' WHERE id = 19""",
    ),
    (
        "reasons",
        (4, 5),
        """INSERT INTO reasons4 VALUES (0, 'Spam')
        INSERT INTO reasons4 VALUES (3, '')
        INSERT INTO reasons4 VALUES (3, 'Spam')
        INSERT INTO reasons4 VALUES (5, 'Spam')
        INSERT INTO reasons4 VALUES (4294967296, 'Spam')""",
    ),
    (
        "times of petitions",
        (5,),
        """INSERT INTO opened5 VALUES (0, '2026-11-28T20:34:13Z')
        INSERT INTO opened5 VALUES (3, '2026-11-28')
        INSERT INTO opened5 VALUES (3, '2026-11-28T20:34:13Z')
        INSERT INTO opened5 VALUES (5, '2026-11-28')
        INSERT INTO opened5 VALUES (7, '2026-11-28T20:34:13Z')
        INSERT INTO opened5 VALUES (4294967296, '2026-11-28T20:34:13Z')
        INSERT INTO closed5 VALUES (0, '2026-11-28T20:34:13Z')
        INSERT INTO closed5 VALUES (3, '2026-11-28')
        INSERT INTO closed5 VALUES (3, '2026-11-28T20:34:13Z')
        INSERT INTO closed5 VALUES (5, '2026-11-28T20:34:13Z')
        INSERT INTO closed5 VALUES (7, '2026-11-28T20:34:13Z')
        INSERT INTO closed5 VALUES (4294967296, '2026-11-28T20:34:13Z')""",
    ),
)
FURTHER = (
    "CREATE TABLE other (title TEXT NOT NULL) STRICT", "CREATE VIRTUAL TABLE other USING fts5(title)", "ANALYZE",
    "CREATE VIEW other AS SELECT slug FROM orgs", "CREATE INDEX other ON orgs (keeper)",
    "CREATE INDEX other ON {entries} (org) WHERE held = 1",
    "CREATE INDEX other ON kept (reply COLLATE NOCASE)",
    "CREATE TRIGGER other AFTER INSERT ON kept BEGIN DELETE FROM orgs; END",
    "CREATE TRIGGER other AFTER UPDATE ON orgs BEGIN SELECT 1; END",
    "PRAGMA user_version = 7",
)
# The tables, as the newest schema calls them, in which what concerns each table alike is changed.
SOME = ("meta", "orgs", "entries3", "kept", "digests4")


class Plan:
    """A store that is to be made: the text and the rows of each table, and statements before these and after."""

    def __init__(self, version, texts, rows):
        self.version, self.texts, self.rows = version, texts, rows
        self.before, self.after = [], []

    def names(self):
        """Returns the tables that statements name in braces."""
        return NEWEST if self.version >= 3 else {it: it for it in NEWEST}

    def role(self, table):
        """Returns what the tables of all schemas with such rows are called."""
        if table in OLDER[self.version]:
            return f"older {table}"
        return table.rstrip("345")

    def columns(self, table):
        """Returns the parts of a table's text: its columns, and its key if that is one of several."""
        return re.split(r", (?![^(]*\))", re.search(r"\((.*)\) STRICT", self.texts[table])[1])

    def tell(self, table, columns, ending=" STRICT"):
        self.texts[table] = f"CREATE TABLE {table} ({', '.join(columns)}){ending}"

    def last(self, table):
        """Returns the place of the last column."""
        return len([it for it in self.columns(table) if not it.startswith("PRIMARY KEY")]) - 1

    def make(self, store, with_sums):
        """Makes the store with SQLite, and returns its path."""
        remove(store)
        if with_sums:
            with open(store, "wb") as file:
                file.write(blank_page())
        with opened(store) as connection:
            for text in [*self.before, "PRAGMA journal_mode = WAL", *self.texts.values()]:
                connection.execute(text)
            for table, rows in self.rows.items():
                for row in rows:
                    connection.execute(f"INSERT INTO {table} VALUES ({', '.join('?' * len(row))})", row)
            connection.commit()
        return self.finish(store)

    def finish(self, store):
        """Runs the statements that come after, over a store that has the tables and the rows."""
        with opened(store) as connection:
            for text in self.after:
                connection.execute(text)
            connection.commit()
        seal(store)
        return store

    def is_as(self, other):
        """Returns whether both stores have the same tables and rows until the statements that come after."""
        return (self.texts, self.rows, self.before) == (other.texts, other.rows, other.before) and list(self.texts) == list(other.texts)


def changed(plan, change, *given):
    """Returns another plan with a change."""
    other = copy.deepcopy(plan)
    change(other, *given)
    return other


def run_later(plan, text):
    plan.after.append(text.format(**plan.names()))


def add_column(plan, table):
    plan.after += [f"ALTER TABLE {table} ADD COLUMN more TEXT", f"UPDATE {table} SET more = 'More'"]


def add_default(plan, table):
    plan.after.append(f"ALTER TABLE {table} ADD COLUMN more TEXT NOT NULL DEFAULT 'More'")


def drop_column(plan, table):
    columns, last = plan.columns(table), plan.last(table)
    plan.tell(table, columns[:last] + columns[last + 1 :])
    plan.rows[table] = [row[:last] for row in plan.rows.get(table, [])]


def rename_column(plan, table):
    columns, last = plan.columns(table), plan.last(table)
    columns[last] = f"other{columns[last]}"
    plan.tell(table, columns)


def retype(plan, table, types):
    """Gives the last column another type, and its values too."""
    columns, last = plan.columns(table), plan.last(table)
    name, kind, *more = columns[last].split(" ")
    columns[last] = " ".join([name, types[kind], *more])
    plan.tell(table, columns)
    if types[kind] == "BLOB":
        for row in plan.rows.get(table, []):
            row[last] = row[last].encode() if row[last] is not None else None


def reorder(plan, table):
    columns, last = plan.columns(table), plan.last(table)
    plan.tell(table, columns[last::-1] + columns[last + 1 :])
    plan.rows[table] = [row[::-1] for row in plan.rows.get(table, [])]


def retell(plan, table, old, new):
    plan.texts[table] = plan.texts[table].replace(old, new)


def remove_table(plan, table):
    del plan.texts[table]
    plan.rows.pop(table, None)


def null(plan, table, at, in_spite):
    """Puts NULL into the first row, in a column whose text allows it, and with `in_spite` is changed later."""
    text, columns = plan.texts[table], plan.columns(table)
    columns[at] = columns[at].replace(" NOT NULL", "")
    plan.tell(table, columns)
    name = columns[at].split(" ")[0]
    plan.after.append(f"UPDATE {table} SET {name} = NULL WHERE rowid = (SELECT min(rowid) FROM {table})")
    if in_spite:
        plan.after += ["PRAGMA writable_schema = ON", f"UPDATE sqlite_schema SET sql = '{text}' WHERE name = '{table}'"]


def of_table(plan, table):
    """Yields what may be changed in the text of a table."""
    of = plan.role(table)
    yield "a further column, with values", of, changed(plan, add_column, table)
    if plan.last(table):
        yield "without its last column", of, changed(plan, drop_column, table)
    yield "its last column of another type", of, changed(plan, retype, table, {"INTEGER": "TEXT", "TEXT": "BLOB", "BLOB": "TEXT"})
    if table in [plan.names().get(it.removesuffix("3"), it) for it in SOME]:
        yield "its last column of the type ANY", of, changed(plan, retype, table, dict.fromkeys(("INTEGER", "TEXT", "BLOB"), "ANY"))
        yield "another name of its last column", of, changed(plan, rename_column, table)
        yield "its columns in another order", of, changed(plan, reorder, table)
        yield "a further column with a default, added to rows", of, changed(plan, add_default, table)
        yield "not STRICT", of, changed(plan, retell, table, " STRICT", "")
        yield "WITHOUT ROWID", of, changed(plan, retell, table, " STRICT", " STRICT, WITHOUT ROWID")
        yield "its name in upper case", of, changed(plan, retell, table, f"TABLE {table} ", f"TABLE {table.upper()} ")
        yield "missing", of, changed(plan, remove_table, table)


def nulls(plan):
    """Yields NULL in the last column of each table that may have none. A column of a key may have none in any STRICT table."""
    for table in plan.texts:
        columns = [(at, it) for at, it in enumerate(plan.columns(table)) if it.endswith(" NOT NULL")]
        keyed = re.findall(r"PRIMARY KEY \((.*)\)\)", plan.texts[table])
        columns = [(at, it) for at, it in columns if "PRIMARY KEY" not in it and it.split(" ")[0] not in ", ".join(keyed).split(", ")]
        if columns and plan.rows.get(table):
            at, column = columns[-1]
            item = f"{plan.role(table)}.{column.split(' ')[0]}"
            yield "NULL in a column without NOT NULL", item, changed(plan, null, table, at, False)
            if table in ("orgs", "kept"):
                yield "NULL in spite of NOT NULL", item, changed(plan, null, table, at, True)


def reverse(plan):
    plan.texts = dict(reversed(plan.texts.items()))


def fill_older(plan, table, row):
    plan.rows[table] = [row]


def of_store(plan):
    """Yields what else may be changed."""
    for text in FURTHER:
        yield "further", text.format(**{it: it for it in NEWEST}), changed(plan, run_later, text)
    yield "tables", "made in the opposite order", changed(plan, reverse)
    for before in ("PRAGMA auto_vacuum = 1", "PRAGMA encoding = 'UTF-16'"):
        other = changed(plan, lambda it, text: it.before.append(text), before)
        yield "the file, whose settings SQLite takes only if it has no page yet, and so no checksums", before, other
    any_version = changed(plan, retell, "meta", "version INTEGER", "version ANY")
    yield "`meta`", "UPDATE meta SET version = 'three', in a column of the type ANY", changed(any_version, run_later, "UPDATE meta SET version = 'three'")
    yield "`meta`", "UPDATE meta SET version = CAST(version AS TEXT), likewise", changed(any_version, run_later, "UPDATE meta SET version = CAST(version AS TEXT)")
    older = {"petitions": [1, "none", None, "Lamp", "MIT", "x", "x", 9, None], "entries": [9, "none", 7, "Lamp", None, None, None], "reserved": [9], "spans": [9, 9]}
    for table in OLDER[plan.version]:
        yield "a row", f"older {table}", changed(plan, fill_older, table, older[table])


def nearly(plan):
    """Yields a kind of change, what is changed, and the plan with this change."""
    for table in plan.texts:
        yield from of_table(plan, table)
    yield from of_store(plan)
    for kind, versions, texts in STATEMENTS:
        if plan.version in versions:
            for text in texts.splitlines():
                shown = text.strip().format(**{it: it for it in NEWEST})
                yield kind, shown, changed(plan, run_later, text.strip())
    yield from nulls(plan)
