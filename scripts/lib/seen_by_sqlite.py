"""What SQLite sees of a store, in lines, and the texts of the tables in docs/schema.md."""

import difflib
import sys

from lib.pages import blocks, page


def quoted(value):
    """Returns a value as a statement writes it."""
    if value is None:
        return "NULL"
    if isinstance(value, str):
        return "'" + value.replace("'", "''") + "'"
    return f"X'{value.hex()}'" if isinstance(value, bytes) else str(value)


def asked(connection, statement):
    """Returns a line for each row, its values separated by commas."""
    return [",".join(map(quoted, row)) for row in connection.execute(statement)]


def same(what, there, wanted):
    """Ends the script if the lines are not the wanted ones."""
    if there != wanted:
        differences = difflib.unified_diff(wanted, there, "wanted", "there", lineterm="")
        sys.exit(f"{what}:\n" + "\n".join(differences))


def documented_texts():
    """Returns the lines of the blocks of SQL in docs/schema.md."""
    return [f"'{text}'" for text in "".join(blocks(page("docs/schema.md"), "sql")).splitlines()]
