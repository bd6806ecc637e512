"""What a desk answers: its lists, its pages, and the rows of lists.

Nothing of the desk's rules is here: the answers are read as the manual tells them.
"""

import re
from collections.abc import Iterator
from typing import NamedTuple

SEVERITIES = ("critical", "grave", "serious", "important", "normal", "minor", "wishlist")
TAGS = (
    "a11y", "confirmed", "d-i", "fixed-upstream", "ftbfs", "help", "ipv6", "l10n", "lfs",
    "moreinfo", "newcomer", "patch", "pending", "security", "unreproducible", "upstream", "wontfix")
ROW = re.compile(r" *([0-9]+)  ([a-z]+) +(open|done)  (.*)", re.DOTALL)
PAGE_LINES = 16
# A source and its version.
Question = tuple[str, str]


class Bug(NamedTuple):
    """The row of a bug in a list."""

    number: int
    severity: str
    state: str
    title: str


class Unexpected(Exception):
    """An answer that no desk gives; its text is the answer's."""


# Answers.


def read_row(line: str) -> Bug:
    """The bug of a row."""
    row = ROW.fullmatch(line)
    if not row or row[2] not in SEVERITIES:
        raise Unexpected(line)
    return Bug(int(row[1]), *row.group(2, 3, 4))


def list_size(line: str, source: str, version: str) -> int | None:
    """The number of rows that follow the heading of a list, or None where it is no such heading."""
    start = f"Bugs in {source} at {source}/{version}: "
    count = line.removeprefix(start)
    return int(count) if line.startswith(start) and count.isdecimal() else None


def read_list(lines: Iterator[str], source: str, version: str) -> tuple[list[Bug], str | None]:
    """The bugs of a list, and the desk's words where it is refused."""
    heading = next_line(lines)
    if heading.startswith("NO ") or heading == "Bad directive.":
        return [], heading
    size = list_size(heading, source, version)
    if size is None:
        raise Unexpected(heading)
    return [read_row(next_line(lines)) for _ in range(size)], None


def read_page(lines: Iterator[str], number: int) -> str:
    """The page of a bug, or the desk's words where there is none."""
    heading = next_line(lines)
    if heading == f"Bug {number}":
        rest = [next_line(lines) for _ in range(PAGE_LINES - 1)]
        return "\n".join([heading, *rest])
    if heading.startswith("NO "):
        return heading
    raise Unexpected(heading)


def next_line(lines: Iterator[str]) -> str:
    """The next line of the answers."""
    line = next(lines, None)
    if line is None:
        raise Unexpected("no line")
    return line
