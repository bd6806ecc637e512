"""A picture of a bug's versions as SVG, which has no script and needs nothing from elsewhere.

A version that is listed is a full circle, and one that is not listed an empty one.
A mark found is a ring around it, and a mark fixed a square; several versions are an oblong.
The picture is written beside its file and then takes its place, so that none is half written.
"""

import html
import itertools
from collections.abc import Iterable, Iterator
from typing import Any

from . import files
from .picture_rows import Picture, Row
from .picture_text import (
    ALONE,
    WIDTH,
    facts_of,
    label_width,
    row_label,
    row_words,
    title_of,
    version_words,
)
from .terminal import columns, wrapped

# Sizes in pixels; a letter of the fonts below has at most LETTER.
ROW, LANE, LINE, MARGIN, LETTER = 28, 28, 20, 20, 8
# What the legend takes.
LEGEND = 640
RADIUS, RING, HALF_SQUARE, HALF_LENGTH = 7, 11, 12, 11
STATES = {True: "listed", False: "clear", None: "unasked"}
STYLE = """
text { font: 13px "DejaVu Sans Mono", "Liberation Mono", Menlo, Consolas, monospace; fill: #222;
  white-space: pre }
.heading { font-weight: bold; font-size: 13px } .version { font-weight: bold }
.folded { font-style: italic } .grey { fill: #555 }
.line { fill: none; stroke: #888; stroke-width: 2 }
.listed { fill: #c62828; stroke: #c62828; stroke-width: 2 }
.clear { fill: #fff; stroke: #555; stroke-width: 2 }
.unasked { fill: #ccc; stroke: #777; stroke-width: 2 }
.found { fill: none; stroke: #8b0000; stroke-width: 2 }
.fixed { fill: none; stroke: #1b7a2f; stroke-width: 2 }
"""


def text_at(x: int, y: int, words: str, kind: str | None = None) -> str:
    """A text at a place."""
    told = f' class="{kind}"' if kind else ""
    return f'<text x="{x}" y="{y}"{told}>{html.escape(words)}</text>'


# Signs.


def sign(
    x: int, y: int, state: str, is_folded: bool = False, is_found: bool = False,
    is_fixed: bool = False,
) -> Iterator[str]:
    """The sign of a version, or of several, with the outlines of its marks."""
    if is_folded:
        yield (f'<rect class="{state}" x="{x - HALF_LENGTH}" y="{y - RADIUS}" '
               f'width="{2 * HALF_LENGTH}" height="{2 * RADIUS}" rx="{RADIUS}"/>')
    else:
        yield f'<circle class="{state}" cx="{x}" cy="{y}" r="{RADIUS}"/>'
    if is_found:
        yield f'<circle class="found" cx="{x}" cy="{y}" r="{RING}"/>'
    if is_fixed:
        yield (f'<rect class="fixed" x="{x - HALF_SQUARE}" y="{y - HALF_SQUARE}" '
               f'width="{2 * HALF_SQUARE}" height="{2 * HALF_SQUARE}"/>')


def legend(picture: Picture, y: int) -> Iterator[str]:
    """What the signs mean, in a line."""
    states: list[tuple[bool | None, str]] = [(None, "not asked")] if picture.page.is_archived else [
        (True, "listed"), (False, "not listed")]
    plain = STATES[states[-1][0]]
    signs: list[tuple[str, dict[str, Any]]] = [
        (word, {"state": STATES[state]}) for state, word in states]
    signs += [("found", {"state": plain, "is_found": True}),
              ("fixed", {"state": plain, "is_fixed": True}),
              ("several versions", {"state": plain, "is_folded": True})]
    x = MARGIN + HALF_SQUARE
    for word, options in signs:
        yield from sign(x, y, **options)
        yield text_at(x + LANE - 8, y + 5, word, "grey")
        x += 2 * LANE + LETTER * len(word)


# Rows.


def lane_x(lane: int) -> int:
    """The middle of a lane."""
    return MARGIN + HALF_SQUARE + lane * LANE


def line_down(row: Row, y: int, base_y: int) -> str:
    """The line from a row to what it is based on."""
    x = lane_x(row.lane)
    if not row.leaves:
        return f'<path class="line" d="M{x} {y}V{base_y}"/>'
    left, low = lane_x(row.lane - 1), y + ROW
    return (f'<path class="line" d="M{x} {y}C{x} {y + ROW * 2 // 3} {left} {y + ROW // 3} '
            f'{left} {low}V{base_y}"/>')


def row_parts(picture: Picture, row: Row, y: int, width: int) -> Iterator[str]:
    """The sign and the words of a row."""
    first, is_folded = row.versions[0], len(row.versions) > 1
    label, words = row_label(picture.page.package, row), row_words(row)
    x = lane_x(picture.lanes()) - LANE // 4
    yield f"<g><title>{html.escape(row_title(row))}</title>"
    yield from sign(lane_x(row.lane), y, STATES[first.is_listed], is_folded, first.is_found,
                    first.is_fixed)
    yield text_at(x, y + 5, label, "folded" if is_folded else "version")
    if words:
        yield text_at(x + LETTER * (max(width, columns(label)) + 2), y + 5, words)
    yield "</g>"


def row_title(row: Row) -> str:
    """What a row says where it is pointed at."""
    told = {True: "listed", False: "not listed", None: "not asked"}[row.versions[0].is_listed]
    words = [told, *version_words(row.versions[0])] if len(row.versions) == 1 else [told]
    return f"{' '.join(version.node for version in row.versions)}: {', '.join(words)}"


def placed(picture: Picture, y: int) -> tuple[list[int], int | None, int]:
    """The places from above of the rows, of the heading of those in no branch, and of the end."""
    places: list[int] = []
    heading = None
    for rows in picture.trees:
        places.extend(y + ROW * place for place in range(len(rows)))
        y += ROW * len(rows) + ROW // 2
    if picture.alone:
        heading = y
        places.extend(y + ROW * place for place in range(1, len(picture.alone) + 1))
        y += ROW * (len(picture.alone) + 1) + ROW // 2
    return places, heading, y


def row_width(picture: Picture, row: Row, width: int) -> int:
    """How many pixels a row needs."""
    label = max(width, columns(row_label(picture.page.package, row)))
    return lane_x(picture.lanes()) + LETTER * (label + 2 + columns(row_words(row))) + MARGIN


# The picture.


def head_lines(picture: Picture) -> list[tuple[str | None, str]]:
    """The lines above the rows, each with its kind."""
    told = (wrapped(line, WIDTH) for line in (facts_of(picture), *picture.notes))
    return [
        *(("heading", line) for line in wrapped(title_of(picture.page), WIDTH)),
        *((None, line) for line in itertools.chain(*told))]


def size_of(picture: Picture, heads: list[tuple[str | None, str]], bottom: int) -> tuple[int, int]:
    """The width and the height of a picture whose rows end at a place from above."""
    rows, labels = picture.rows(), label_width(picture)
    widths = [
        *(columns(line) * LETTER + 2 * MARGIN for _, line in heads),
        *(row_width(picture, row, labels) for row in rows), LEGEND if rows else 0]
    return max(widths), bottom + (MARGIN if rows else -ROW // 2)


def svg_lines(picture: Picture) -> Iterator[str]:
    """The lines of a picture as SVG."""
    heads, rows = head_lines(picture), picture.rows()
    places, alone, bottom = placed(picture, MARGIN + LINE * len(heads) + ROW)
    width, height = size_of(picture, heads, bottom)
    yield (f'<svg xmlns="http://www.w3.org/2000/svg" width="{width}" height="{height}" '
           f'viewBox="0 0 {width} {height}" role="img">')
    yield f"<title>{html.escape(title_of(picture.page))}</title><style>{STYLE}</style>"
    yield f'<rect width="{width}" height="{height}" fill="#fff"/>'
    yield from (text_at(MARGIN, MARGIN + LINE * place + 12, line, kind)
                for place, (kind, line) in enumerate(heads))
    yield from lines_drawn(rows, places)
    yield from rows_drawn(picture, rows, places)
    if alone:
        yield text_at(MARGIN, alone + 5, ALONE, "grey")
    if rows:
        yield from legend(picture, bottom)
    yield "</svg>"


def lines_drawn(rows: list[Row], places: list[int]) -> Iterator[str]:
    """The lines from all rows to what they are based on."""
    place_of = {
        version.node: place for row, place in zip(rows, places) for version in row.versions
    }
    for row, place in zip(rows, places):
        if row.base:
            yield line_down(row, place, place_of[row.base])


def rows_drawn(picture: Picture, rows: list[Row], places: list[int]) -> Iterator[str]:
    """The signs and the words of all rows."""
    labels = label_width(picture)
    for row, place in zip(rows, places):
        yield from row_parts(picture, row, place, labels)


def test_path(path: str) -> None:
    """Tests early that a picture can take the place of what is there."""
    files.test_path(path, "the picture")


def write_picture(path: str, lines: Iterable[str]) -> None:
    """Writes a picture, which is there whole or not at all."""
    files.write_lines(path, lines, "the picture")
