"""The bugs of a desk as relations of SQLite, which are the same whichever way the desk is read.

A desk's file shows them as views of its tables; pages are put into tables of these names.
`key` stands for what a bug shares with those merged with it.

- `facts`: a row for each bug, with `owner` and `forwarded` null where its page has a hyphen
- `bug_marks`, `bug_affects`, `bug_blockers`, `bug_members`: its marks, the packages that it
  affects, the bugs on which it waits, and the bugs merged with it, itself included, by `key`
- `bug_waiting`: the bugs that wait on a bug, by its `number`
"""

import contextlib
import sqlite3
from collections.abc import Iterable, Iterator
from typing import NamedTuple

from .answers import SEVERITIES, TAGS
from .faults import Fault

# The schemas of files that are read; the first has no packages that a bug affects.
SCHEMAS = (1, 2, 3)
WITHOUT_AFFECTS = 1
FOUND, FIXED = 0, 1
STATES = ("open", "done")
FACTS = (
    "number", "key", "title", "submitter", "package", "severity", "closed", "forwarded", "owner",
    "tags", "archived")
VIEWS = {
    "facts": """SELECT number, set_key AS key, title, submitter, package, severity, closed,
        nullif(forwarded, '-') AS forwarded, nullif(owner, '-') AS owner, tags, archived
        FROM main.bugs JOIN main.sets USING (set_key)""",
    "bug_marks": "SELECT set_key AS key, kind, source, version FROM main.marks",
    "bug_affects": "SELECT set_key AS key, package FROM main.affects",
    "bug_blockers": "SELECT set_key AS key, blocker FROM main.blocks",
    "bug_members": "SELECT set_key AS key, number FROM main.bugs",
    "bug_waiting": """SELECT blocker AS number, bugs.number AS waiting
        FROM main.blocks JOIN main.bugs USING (set_key)""",
}
NO_AFFECTS = "SELECT 0 AS key, '' AS package WHERE 0"
Row = tuple[str | int | None, ...]


class Condition(NamedTuple):
    """A condition of SQL over `facts`, and the values of its question marks."""

    text: str
    values: tuple[str | int, ...] = ()


# What is asked of a bug, as SQL over `facts`.


def named(column: str, words: Iterable[str]) -> str:
    """The word that the number of a column stands for."""
    arms = " ".join(f"WHEN {place} THEN '{word}'" for place, word in enumerate(words))
    return f"CASE {column} {arms} END"


SEVERITY, STATE = named("severity", SEVERITIES), named("closed", STATES)
WAITING = "(SELECT count(*) FROM bug_waiting WHERE bug_waiting.number = facts.number)"
MARKS = "SELECT source || '/' || version AS item FROM bug_marks WHERE bug_marks.key = facts.key"
# The rows of lists, of which a page has the words on one line.
LISTS = {
    "tags": "SELECT name AS item FROM tag_names WHERE facts.tags & bit",
    "affects": "SELECT package AS item FROM bug_affects WHERE bug_affects.key = facts.key",
    "found": f"{MARKS} AND kind = {FOUND}",
    "fixed": f"{MARKS} AND kind = {FIXED}",
    "blocked_by": "SELECT blocker AS item FROM bug_blockers WHERE bug_blockers.key = facts.key",
    "blocks": "SELECT waiting AS item FROM bug_waiting WHERE bug_waiting.number = facts.number",
    "merged_with": "SELECT bug_members.number AS item FROM bug_members "
        "WHERE bug_members.key = facts.key AND bug_members.number <> facts.number",
}


def made_of_list(name: str, made: str) -> str:
    """What is made of the items of a list, in their order."""
    return f"(SELECT {made} FROM ({LISTS[name]} ORDER BY 1))"


# Files.


def test_schema(path: str, connection: sqlite3.Connection) -> int:
    """The schema of a desk's file, which has to be one that is read."""
    try:
        rows = connection.execute("SELECT schema FROM main.meta WHERE id = 1").fetchall()
    except sqlite3.DatabaseError as error:
        raise Fault(f"{path}: the store's file is no desk: {error}") from error
    if len(rows) != 1 or rows[0][0] not in SCHEMAS:
        schema = rows[0][0] if rows else "none"
        raise Fault(
            f"{path}: the store's file has the schema {schema}, and those up to {SCHEMAS[-1]} are "
            "read: take the commands of the version that wrote it")
    return int(rows[0][0])


@contextlib.contextmanager
def told_faults(path: str) -> Iterator[None]:
    """Tells what SQLite can't do with a desk."""
    try:
        yield
    except sqlite3.Error as error:
        raise Fault(f"{path}: its tables can't be read: {error}") from error


@contextlib.contextmanager
def opened_file(path: str, copy: str) -> Iterator[sqlite3.Connection]:
    """The relations of a desk in a file, which are read from a copy of it."""
    with told_faults(path), contextlib.closing(sqlite3.connect(copy)) as connection:
        schema = test_schema(path, connection)
        for name, text in VIEWS.items():
            is_missing = name == "bug_affects" and schema == WITHOUT_AFFECTS
            connection.execute(f"CREATE TEMP VIEW {name} AS {NO_AFFECTS if is_missing else text}")
        yield connection


# Questions.


def add_tags(connection: sqlite3.Connection) -> None:
    """Puts the names of tags, which go by their bytes as their numbers do."""
    connection.execute("CREATE TEMP TABLE tag_names (bit INTEGER PRIMARY KEY, name TEXT)")
    rows = [(1 << place, tag) for place, tag in enumerate(TAGS)]
    connection.executemany("INSERT INTO tag_names VALUES (?, ?)", rows)


def select(
    connection: sqlite3.Connection, columns: Iterable[str], conditions: Iterable[Condition],
    order: str,
) -> Iterator[Row]:
    """These columns of the bugs that meet all conditions, in an order."""
    texts, values = ["1"], list[str | int]()
    for condition in conditions:
        texts.append(f"({condition.text})")
        values.extend(condition.values)
    return connection.execute(
        f"SELECT {', '.join(columns)} FROM facts WHERE {' AND '.join(texts)} ORDER BY {order}",
        values)
