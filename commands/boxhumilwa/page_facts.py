"""The bugs of a served desk as the relations of `bug_facts`, by their pages.

A server does not tell which numbers it has, so they are asked for one after another.
A bug that changes meanwhile is read as it was or as it is.
"""

import contextlib
import sqlite3
from collections.abc import Iterator

from .answers import PAGE_LINES, SEVERITIES, TAGS, Unexpected
from .bug_facts import FACTS, FIXED, FOUND, STATES, told_faults
from .bug_pages import NONE, words_of
from .desk_served import ServedDesk
from .terminal import Progress

# Reading ends after so many numbers in a row that no bug has.
MOST_MISSING = 1_000
LARGEST_NUMBER = 999_999_999
LABELS = (
    "Title", "Package", "Severity", "State", "Archived", "Submitter", "Owner", "Forwarded", "Tags",
    "Affects", "Found", "Fixed", "Blocked by", "Blocks", "Merged with")
# The columns of each relation; bugs are looked up by the first one.
TABLES = {
    "facts": FACTS, "bug_marks": ("key", "kind", "source", "version"),
    "bug_affects": ("key", "package"), "bug_blockers": ("key", "blocker"),
    "bug_members": ("key", "number"), "bug_waiting": ("number", "waiting"),
}
Rows = dict[str, list[tuple[object, ...]]]


def page_fields(number: int, text: str) -> dict[str, str]:
    """The fields of a page, each of which stands on a line of its own."""
    heading, *lines = text.split("\n")
    fields = dict(line.partition(": ")[::2] for line in lines)
    if heading != f"Bug {number}" or len(lines) != PAGE_LINES - 1 or tuple(fields) != LABELS:
        raise Unexpected(text)
    return fields


def place_in(words: tuple[str, ...], word: str) -> int:
    """The place of a word of a page among those that may stand there."""
    if word not in words:
        raise Unexpected(word)
    return words.index(word)


def numbers_of(value: str) -> list[int]:
    """The numbers of a field."""
    words = words_of(value)
    if not all(word.isascii() and word.isdecimal() for word in words):
        raise Unexpected(value)
    return [int(word) for word in words]


def text_of(value: str) -> str | None:
    """The text of a field, or None."""
    return None if value == NONE else value


def page_rows(number: int, text: str) -> Rows:
    """The rows of each relation that a page makes; each bug has its number as its key."""
    fields = page_fields(number, text)
    tags = sum(1 << place_in(TAGS, tag) for tag in words_of(fields["Tags"]))
    facts = (
        number, number, fields["Title"], fields["Submitter"], fields["Package"],
        place_in(SEVERITIES, fields["Severity"]), place_in(STATES, fields["State"]),
        text_of(fields["Forwarded"]), text_of(fields["Owner"]), tags,
        place_in(("no", "yes"), fields["Archived"]))
    marks = [
        (number, kind, *node.partition("/")[::2])
        for kind, label in ((FOUND, "Found"), (FIXED, "Fixed")) for node in words_of(fields[label])]
    return {
        "facts": [facts], "bug_marks": list(marks),
        "bug_affects": [(number, package) for package in words_of(fields["Affects"])],
        "bug_blockers": [(number, other) for other in numbers_of(fields["Blocked by"])],
        "bug_members": [(number, other) for other in [number, *numbers_of(fields["Merged with"])]],
        "bug_waiting": [(number, other) for other in numbers_of(fields["Blocks"])],
    }


class Reading:
    """The reading of a desk's pages: from the first number, to the last where one is given."""

    def __init__(
        self, desk: ServedDesk, first: int, last: int | None, progress: Progress,
    ) -> None:
        self.desk, self.first, self.last, self.progress = desk, first, last, progress
        self.total = last - first + 1 if last else None
        self.read = self.missing = 0

    def has_ended(self) -> bool:
        """Whether the numbers after the last one are taken for missing."""
        return self.last is None and self.missing == MOST_MISSING

    def __iter__(self) -> Iterator[tuple[int, str]]:
        """The pages that there are, with their numbers."""
        numbers = range(self.first, (self.last or LARGEST_NUMBER) + 1)
        for number, text in zip(numbers, self.desk.pages(numbers)):
            self.read = number
            self.progress(self.total, "pages")
            if not text.startswith("NO "):
                self.missing = 0
                yield number, text
            else:
                self.missing += 1
                if self.has_ended():
                    return

    def __str__(self) -> str:
        """What is told of the numbers that were read."""
        told = f"{self.desk.place}: the pages of bugs {self.first:,} to {self.read:,} are read"
        if not self.has_ended():
            return told
        return f"{told}, and no later ones: the last {MOST_MISSING:,} numbers are missing"


def put_pages(connection: sqlite3.Connection, reading: Reading) -> None:
    """Puts what pages say into the relations."""
    for number, text in reading:
        try:
            made = page_rows(number, text)
        except Unexpected as error:
            raise reading.desk.place.no_desk(error) from error
        for name, rows in made.items():
            if rows:
                marks = ", ".join("?" for _ in rows[0])
                connection.executemany(f"INSERT INTO {name} VALUES ({marks})", rows)


@contextlib.contextmanager
def opened_pages(reading: Reading) -> Iterator[sqlite3.Connection]:
    """The relations of a served desk, which are filled as its pages are read."""
    place = str(reading.desk.place)
    with told_faults(place), contextlib.closing(sqlite3.connect(":memory:")) as connection:
        for name, columns in TABLES.items():
            connection.execute(f"CREATE TABLE {name} ({', '.join(columns)})")
        try:
            put_pages(connection, reading)
        finally:
            reading.progress.end()
        for name, columns in TABLES.items():
            connection.execute(f"CREATE INDEX index_of_{name} ON {name} ({columns[0]})")
        yield connection
