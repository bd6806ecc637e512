"""The bugs that `find` found as a table, as CSV, as JSON, or as their numbers alone.

Each form names the columns that it asks of the bugs, and makes lines of their rows.
"""

import csv
import itertools
from collections.abc import Iterable, Iterator

from .bug_facts import LISTS, SEVERITY, STATE, WAITING, Row, made_of_list
from .terminal import columns, json_text, plural, safe, shown, wrapped

# The widest that the column of packages is made, and the narrowest that the one of titles is.
PACKAGES, TITLES = 30, 20
GAP = "  "
# What a spreadsheet takes for the beginning of a formula, and what keeps it a text.
FORMULAS = ("=", "+", "-", "@", "＝", "＋", "－", "＠")
TEXT_SIGN = "'"
TEXTS = ("title", "submitter", "owner", "forwarded")


def whole_bug(truth: tuple[str, str], of_list: str) -> dict[str, str]:
    """All that a page says of a bug, as SQL, with words for no and yes, and a form of lists."""
    no, yes = truth
    return {
        "number": "number", "package": "package", "severity": SEVERITY, "state": STATE,
        "archived": f"CASE archived WHEN 0 THEN {no} ELSE {yes} END",
        **{name: name for name in TEXTS}, **{name: made_of_list(name, of_list) for name in LISTS}}


# JSON.


def json_columns() -> list[str]:
    """The one column of JSON: an object."""
    whole = whole_bug(("json('false')", "json('true')"), "json_group_array(item)")
    members = ", ".join(f"'{name}', {value}" for name, value in whole.items())
    return [f"json_object({members})"]


def json_lines(rows: Iterable[Row]) -> Iterator[str]:
    """An array of JSON with an object for each bug, on a line of its own."""
    yield "["
    before = ""
    for row in rows:
        if before:
            yield f"{before},"
        before = json_text(str(row[0]))
    if before:
        yield before
    yield "]"


# CSV.


class LineMaker:
    """What a writer of CSV writes to: it hands each line back."""

    def write(self, line: str) -> str:
        """The line."""
        return line


def text_cell(column: str) -> str:
    """A text as a cell that no spreadsheet takes for a formula, as SQL."""
    signs = ", ".join(f"'{sign}'" for sign in FORMULAS)
    return (
        f"CASE WHEN substr({column}, 1, 1) IN ({signs}) THEN char({ord(TEXT_SIGN)}) || {column} "
        f"ELSE {column} END")


def csv_columns() -> dict[str, str]:
    """The columns of CSV, by their names; a list is words with blanks between."""
    whole = whole_bug(("'no'", "'yes'"), "group_concat(item, ' ')")
    return whole | {name: text_cell(name) for name in TEXTS}


def csv_lines(names: list[str], rows: Iterable[Row], is_terminal: bool) -> Iterator[str]:
    """Lines of CSV without their line feeds; a terminal is not steered by them."""
    writer = csv.writer(LineMaker(), lineterminator="")
    for row in itertools.chain([names], rows):
        line = str(writer.writerow(row))
        yield f"{shown(line) if is_terminal else line}\r"


# Numbers.


def number_lines(rows: Iterable[Row]) -> Iterator[str]:
    """The numbers alone."""
    return (str(row[0]) for row in rows)


# A table.


def table_columns(is_waiting: bool) -> dict[str, str]:
    """The columns of a table, by their headings."""
    archived = f"{STATE} || CASE archived WHEN 0 THEN '' ELSE ', archived' END"
    waiting = {"waiting": WAITING} if is_waiting else {}
    return {
        "number": "number", "severity": SEVERITY, "state": archived, **waiting,
        "package": "package", "title": "title"}


def widths_of(rows: list[list[str]], width: int | None) -> tuple[list[int], int | None]:
    """The widths of columns but the last: those of their cells; and what is left for titles."""
    widths = [max(map(len, column)) for column in list(zip(*rows))[:-1]]
    if width is None:
        return widths, None
    widths[-1] = min(widths[-1], PACKAGES)
    return widths, max(width - sum(widths) - len(GAP) * len(widths), TITLES)


def row_lines(cells: list[str], widths: list[int], title_width: int | None) -> Iterator[str]:
    """The lines of a row: several where a package or a title is wider than its column."""
    number, *words, title = cells
    words = [word.ljust(width) for word, width in zip(words, widths[1:])]
    start = GAP.join([number.rjust(widths[0]), *words[:-1]])
    packages, titles = [words[-1]], [title]
    if title_width is not None:
        packages = wrapped(words[-1], widths[-1])
        titles = wrapped(title, title_width) if columns(title) > title_width else titles
    for place in range(max(len(packages), len(titles))):
        package = packages[place] if place < len(packages) else ""
        part = titles[place] if place < len(titles) else ""
        yield f"{start}{GAP}{package.ljust(widths[-1])}{GAP}{part}".rstrip(" ")
        start = " " * len(start)


def table_lines(headings: list[str], found: Iterable[Row], width: int | None) -> Iterator[str]:
    """A table for people: how many bugs there are, and a row for each."""
    rows = [[safe(str(cell)) for cell in row] for row in found]
    yield plural(len(rows), "bug")
    if rows:
        rows.insert(0, headings)
        widths, title_width = widths_of(rows, width)
        yield ""
        for row in rows:
            yield from row_lines(row, widths, title_width)
