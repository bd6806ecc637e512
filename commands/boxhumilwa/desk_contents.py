"""What the tables of a desk's file say of it: whether it is a desk, and how many bugs it has.

The file is read by SQLite, and nothing else may have it open.
"""

import contextlib
import pathlib
import sqlite3
from typing import NamedTuple

from .faults import Fault

# The tables that came with each schema.
TABLES = (
    {"meta", "sets", "bugs", "marks", "blocks", "nodes", "nearest"},
    {"affects"},
    {"messages", "outcomes", "outcome_numbers"},
)
NEWEST = len(TABLES)


class Contents(NamedTuple):
    """A desk: its schema, and its bugs."""

    schema: int
    bugs: int


def needed_tables(schema: int) -> set[str]:
    """The tables that a desk of a schema has."""
    return set[str]().union(*TABLES[:schema])


def read_schema(connection: sqlite3.Connection) -> int:
    """The schema that a desk says it has; None or more rows are of no desk."""
    rows = connection.execute("SELECT id, schema FROM meta LIMIT 2").fetchall()
    if len(rows) != 1 or rows[0][0] != 1 or not isinstance(rows[0][1], int) or rows[0][1] < 1:
        raise Fault("the store's file is no desk: it does not say its schema")
    return int(rows[0][1])


def contents(connection: sqlite3.Connection) -> Contents:
    """What the tables of a desk say; nothing is asked of a view."""
    rows = connection.execute("SELECT name FROM sqlite_master WHERE type = 'table'")
    tables = {name for (name,) in rows}
    if "meta" not in tables:
        raise Fault("the store's file is no desk: it has other tables, or none")
    schema = read_schema(connection)
    if schema > NEWEST:
        raise Fault(
            f"the store's file has the schema {schema} of a later version: use that version")
    if missing := needed_tables(schema) - tables:
        raise Fault(f"the store's file is no desk: it has no table {min(missing)}")
    (told,) = connection.execute("PRAGMA integrity_check(1)").fetchone()
    if told != "ok":
        raise Fault(f"the store's file is damaged: {told}; keep the copies that you have")
    (bugs,) = connection.execute("SELECT count(*) FROM bugs").fetchone()
    return Contents(schema, bugs)


def read_contents(store: str, path: str) -> Contents:
    """What a copy of a desk has, if it is one and in order; a Fault names the desk."""
    uri = f"{pathlib.Path(path).resolve().as_uri()}?mode=ro"
    try:
        with contextlib.closing(sqlite3.connect(uri, uri=True)) as connection:
            connection.execute("PRAGMA trusted_schema = OFF")
            return contents(connection)
    except sqlite3.Error as error:
        raise Fault(f"{store}: the store's file is no desk, or damaged: {error}") from error
    except Fault as fault:
        raise Fault(f"{store}: {fault}") from fault
