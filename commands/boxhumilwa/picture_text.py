"""A picture of a bug's versions as text for a terminal, and in the language of dot(1)."""

import itertools
from collections.abc import Iterator

from .bug_pages import Page
from .nodes import source_of
from .picture_rows import Picture, Row, Version
from .terminal import columns, padded, plural, safe, wrapped

WIDTH = 80
# Where labels and words have less room, lines may be longer than WIDTH.
LEAST_ROOM = 20
WIDEST_LABEL = 36
GAP = "  "
ALONE = "In no branch, each by itself:"
SIGNS: dict[bool | None, str] = {True: "*", False: "o", None: "-"}
ARCHIVED = "archived: it is in no list, so its marks alone are drawn"


# What all pictures say.


def version_name(package: str, node: str) -> str:
    """The name of a node, which is bare where its source is the package."""
    return node.partition("/")[2] if source_of(node) == package else node


def row_label(package: str, row: Row) -> str:
    """The name of a row's version, or how many versions it has, and the newest and the oldest."""
    names = [version_name(package, version.node) for version in row.versions]
    if len(names) == 1:
        return names[0]
    return f"{len(names):,} versions, {names[0]} to {names[-1]}"


def version_words(version: Version) -> Iterator[str]:
    """What is told of a version."""
    told = ((version.is_found, "found"), (version.is_fixed, "fixed"), (version.is_head, "head"))
    yield from (word for is_so, word in told if is_so)
    yield from (f"in {safe(name)}" for name in version.suites)


def row_words(row: Row) -> str:
    """What is told of a row's version; of folded ones nothing is."""
    return ", ".join(version_words(row.versions[0])) if len(row.versions) == 1 else ""


def title_of(page: Page) -> str:
    """The first line of a picture."""
    return f"Bug {page.number} in {page.package}: {safe(page.title)}"


def facts_of(picture: Picture) -> str:
    """The second line of a picture: what is known of the bug."""
    page, versions = picture.page, picture.versions()
    facts = [page.severity, page.state]
    if page.is_archived:
        facts.append(ARCHIVED)
    elif versions:
        count = sum(bool(version.is_listed) for version in versions)
        facts.append(f"listed at {count:,} of {plural(len(versions), 'version')}")
    if page.merged:
        facts.append(f"merged with {' '.join(page.merged)}")
    return ", ".join(facts)


def label_width(picture: Picture) -> int:
    """The width of the labels beside which something is told, but of very wide ones."""
    widths = (
        columns(row_label(picture.page.package, row)) for row in picture.rows() if row_words(row))
    return max((width for width in widths if width <= WIDEST_LABEL), default=0)


# Text.


def row_lines(picture: Picture, row: Row, width: int) -> Iterator[str]:
    """The lines of a row, whose label has this width."""
    package = picture.page.package
    label, words = row_label(package, row), row_words(row)
    graph_width = len(GAP) * picture.lanes() + 1
    told = f"{padded(label, width)}{GAP}{words}".rstrip(" ")
    lines = wrapped(told, max(LEAST_ROOM, WIDTH - graph_width))
    sign = "| " * row.lane + SIGNS[row.versions[0].is_listed]
    further = "| " * row.lane + ("|" if row.base else " ")
    for place, line in enumerate(lines):
        yield f"{padded(further if place else sign, graph_width)}{line}"
    if row.leaves:
        yield "| " * (row.lane - 1) + "|/"


def part_lines(picture: Picture, rows: list[Row]) -> Iterator[str]:
    """The lines of some rows, with an empty line before them."""
    width = label_width(picture)
    yield ""
    for row in rows:
        yield from row_lines(picture, row, width)


def legend_line(picture: Picture) -> str:
    """What the signs mean."""
    if picture.page.is_archived:
        return f"{SIGNS[None]} not asked"
    return f"{SIGNS[True]} listed, {SIGNS[False]} not listed"


def text_lines(picture: Picture) -> Iterator[str]:
    """The lines of a picture as text."""
    heads = (title_of(picture.page), facts_of(picture), *picture.notes)
    yield from itertools.chain(*(wrapped(line, WIDTH) for line in heads))
    yield from itertools.chain(*(part_lines(picture, rows) for rows in picture.trees))
    if picture.alone:
        yield ""
        yield ALONE
        yield from part_lines(picture, picture.alone)
    if picture.rows():
        yield ""
        yield legend_line(picture)


# The language of dot(1).


COLOURS: dict[bool | None, str] = {True: "#c62828", False: "#ffffff", None: "#cccccc"}
LETTERS: dict[bool | None, str] = {True: "#ffffff", False: "#000000", None: "#000000"}
FOUND, FIXED, BOTH, PLAIN = "#8b0000", "#1b7a2f", "#8b0000:#1b7a2f", "#777777"


def quoted(text: str) -> str:
    """A text as dot has it: no letter of it ends the text, is an escape, or begins an entity."""
    for letter, written in (("\\", "\\\\"), ('"', '\\"'), ("&", "&amp;"), ("\n", "\\n")):
        text = text.replace(letter, written)
    return f'"{text}"'


def outline(row: Row) -> str:
    """The colour of a row's outline."""
    version = row.versions[0]
    if version.is_found and version.is_fixed:
        return BOTH
    return FOUND if version.is_found else FIXED if version.is_fixed else PLAIN


def dot_row(picture: Picture, row: Row, name: str) -> str:
    """The node of a row."""
    version, lines = row.versions[0], [row_label(picture.page.package, row), row_words(row)]
    is_marked = version.is_found or version.is_fixed
    values = {
        "label": "\n".join(line for line in lines if line),
        "fillcolor": COLOURS[version.is_listed], "fontcolor": LETTERS[version.is_listed],
        "color": outline(row), "peripheries": "2" if is_marked else "1",
        "style": "filled,dashed" if len(row.versions) > 1 else "filled",
    }
    told = ", ".join(f"{key}={quoted(value)}" for key, value in values.items())
    return f"  {name} [{told}];"


def dot_title(picture: Picture) -> str:
    """What stands above a picture, and what its colours mean."""
    lines = [title_of(picture.page), facts_of(picture), *picture.notes]
    if picture.rows() and not picture.page.is_archived:
        lines.append("red: listed, white: not listed")
    return "\n".join(lines)


def dot_lines(picture: Picture) -> Iterator[str]:
    """The lines of a picture for dot(1), in which each version stands above what it is based on."""
    rows = picture.rows()
    names = {
        version.node: f"n{place}" for place, row in enumerate(rows) for version in row.versions
    }
    yield f"digraph {quoted(f'bug {picture.page.number}')} {{"
    yield f"  graph [label={quoted(dot_title(picture))}, labelloc=t, fontname=Courier];"
    yield "  node [shape=box, fontname=Courier];"
    yield "  edge [dir=none];"
    yield from (dot_row(picture, row, f"n{place}") for place, row in enumerate(rows))
    yield from (f"  n{place} -> {names[row.base]};" for place, row in enumerate(rows) if row.base)
    yield "}"
