"""Draws which versions of its package have a bug.

The versions are drawn as a tree, the newest on top, each above the one it is based on.
A version is listed if the desk's `@list` at that version has the bug.
`found` and `fixed` are the bug's marks, and heads are the ends of the package's branches.
SUITE=PATH names a suite and its packages, as for `release`; suites are shown beside their versions.
Successive versions with nothing to show are folded, with their count.
An archived bug is in no list, so only its marks are drawn.

The desk is in a file that no other process has open, or served on a port of this machine or on a
Unix socket.
The file has the branches too; a server doesn't tell them, so name its file too, of which a copy is
read, or give --branches=FILE, a script with the `@branch` lines, plain or compressed by gzip or xz;
`-` is standard input.

The exit status is 0; 1 if there is no such bug; 2 for a wrong command line; 3 for a fault: the
desk, its branches or an index can't be read, or output can't be written.
"""

import argparse
import contextlib
import json
import re
from collections.abc import Iterable

from . import picture_svg, picture_text
from .bug_pages import MISSING, Page, listed, page_of, page_text
from .command import (
    DONE,
    REFUSED,
    Desk,
    Parser,
    add_desk_to_read,
    add_program,
    desk_to_read,
    is_served,
    make_parser,
    named_path,
    run,
    tell,
    test_desk,
    write_lines,
)
from .desk_copy import HandedIn
from .faults import Fault
from .graph_notes import differing_notes, notes_of, unseen_notes
from .indexes import candidates
from .nodes import Parents, children_of, read_nodes, source_of, wanted_trees
from .picture_rows import Picture, Version, make_picture
from .terminal import Progress, json_text, safe, shown
from .versions import highest_versions, order_of

NAME = "graph"
STANDARD = "-"


# The words of the command line.


def bug_or_suite(word: str) -> int | tuple[str, str]:
    """The number of a bug, or the name of a suite and the path of its index."""
    number = re.fullmatch("#?([0-9]{1,9})", word)
    if number and int(number[1]):
        return int(number[1])
    try:
        return named_path(word)
    except argparse.ArgumentTypeError:
        told = f"{word!r} is neither a bug's number nor SUITE=PATH"
        raise argparse.ArgumentTypeError(told) from None


def graph_parser() -> Parser:
    """What the command line may be."""
    parser = make_parser(
        NAME, __doc__,
        "graph [--store=FILE] [--port=N | --socket=PATH] [--branches=FILE] [options] "
        "[SUITE=PATH ..] N")
    add_desk_to_read(parser)
    parser.add_argument(
        "--branches", metavar="FILE", help="a script with the @branch lines of the served desk")
    kind = parser.add_mutually_exclusive_group()
    kind.add_argument("--text", action="store_true", help="draw for a terminal, the default")
    kind.add_argument(
        "--svg", nargs="?", metavar="FILE",
        help="draw into this file, bug-N.svg if left out")
    kind.add_argument("--dot", action="store_true", help="write input for dot(1)")
    kind.add_argument("--json", action="store_true", help="write JSON instead of a picture")
    add_program(parser)
    parser.add_argument("words", nargs="+", type=bug_or_suite, metavar="SUITE=PATH .. N")
    return parser


def read_options(words: list[str]) -> argparse.Namespace:
    """The options, of which each is good by itself and with the others."""
    parser = graph_parser()
    options = parser.parse_intermixed_args(
        ["--svg=" if word == "--svg" else word for word in words])
    numbers = [word for word in options.words if isinstance(word, int)]
    options.suites = [word for word in options.words if not isinstance(word, int)]
    if len(numbers) != 1:
        parser.error("one bug is drawn at a time")
    options.number = numbers[0]
    if options.svg == "":
        options.svg = f"bug-{options.number}.svg"
    test_desk(parser, options)
    if options.store is None and not options.branches:
        parser.error("a server tells nobody its branches: give its --store too, or --branches")
    if options.branches and not is_served(options):
        parser.error("--branches goes with a server: the file of a desk has its branches")
    if len({name for name, _ in options.suites}) != len(options.suites):
        parser.error("two suites have one name")
    if [options.branches, *(path for _, path in options.suites)].count(STANDARD) > 1:
        parser.error("standard input can be one thing alone")
    return options


# What is drawn.


def suite_versions(program: str, path: str, sources: Iterable[str]) -> dict[str, str]:
    """The version of each of these sources in a suite, the highest where there are several."""
    refused: list[tuple[str, str, int, str]] = []
    found = candidates(path, set(sources), lambda entry, reason: refused.append((*entry, reason)))
    highest = highest_versions(
        program, found, lambda source, version, reason: refused.append(
            (source, version, found[source][version], reason)))
    for source, version, line, reason in sorted(refused, key=lambda entry: entry[2]):
        words = shown(f"{source} {version}"[:100])
        tell(NAME, f"{path}:{line}: {words} is left out: {reason}")
    return highest


def read_suites(
    options: argparse.Namespace, package: str, sources: set[str],
) -> tuple[dict[str, list[str]], list[str]]:
    """The suites that have each node, and those that have no version of the package."""
    suites = {
        name: suite_versions(options.program, path, sources) for name, path in options.suites}
    pairs = (("/".join(pair), name) for name in suites for pair in suites[name].items())
    having: dict[str, list[str]] = {}
    for node, name in pairs:
        having.setdefault(node, []).append(name)
    return having, [name for name, versions in suites.items() if package not in versions]


def listed_states(
    desk: Desk, page: Page, nodes: list[str],
) -> tuple[dict[str, bool], str | None]:
    """Whether each node lists the bug, and its page then; an archived one is in no list."""
    return ({}, None) if page.is_archived else listed(desk, page, nodes, Progress(NAME))


def drawn(
    options: argparse.Namespace, desk: Desk, parents: Parents, page: Page,
) -> tuple[Picture, str | None]:
    """The picture of a bug, and the text of its page after the lists were asked for."""
    trees = wanted_trees(parents, page.package, page.marks())
    placed = [node for tree in trees for node in tree]
    sources = {page.package, *map(source_of, placed)}
    having, missing = read_suites(options, page.package, sources)
    alone = [*page.marks(), *(node for node in having if source_of(node) == page.package)]
    nodes = list(dict.fromkeys([*placed, *alone]))
    states, text = listed_states(desk, page, nodes)
    ends = set(placed) - set(children_of(parents))
    versions = {
        node: Version(
            node, states.get(node), node in page.found, node in page.fixed,
            node in ends and source_of(node) == page.package, node in ends,
            tuple(having.get(node, ())))
        for node in nodes
    }
    notes = [*notes_of(page, trees, nodes, missing), *unseen_notes(page, parents, versions)]
    order = order_of(options.program, nodes)
    return make_picture(page, parents, trees, versions, order, notes), text


def branches_of(
    options: argparse.Namespace, file: str | None, sources: set[str],
) -> tuple[Parents, list[str]]:
    """What each version is based on, by the branches given or else the file, and notes on that."""
    if options.branches:
        handed_in = HandedIn(options.program, options.branches, lambda told: tell(NAME, told))
        with contextlib.closing(handed_in):
            given = read_nodes(handed_in.store, sources)
        return given, list(differing_notes(given, file, sources)) if file else []
    if file is None:
        raise Fault(f"{options.store}: no branches are read of it: give --branches=FILE")
    return read_nodes(file, sources), []


def gather(
    options: argparse.Namespace, desk: Desk, file: str | None,
) -> tuple[Picture | None, str]:
    """The picture of the bug, or the desk's words where there is none."""
    before = page_text(desk, options.number)
    if before.startswith(MISSING):
        return None, before
    page = page_of(options.number, before)
    sources = {page.package, *map(source_of, page.marks())}
    parents, notes = branches_of(options, file, sources)
    picture, after = drawn(options, desk, parents, page)
    picture.notes.extend(notes)
    if after not in (None, before):
        raise Fault(f"bug {options.number} was changed meanwhile: ask again")
    return picture, ""


# Pictures.


def version_value(version: Version) -> dict[str, object]:
    """A version, as JSON has it."""
    return {
        "version": version.node, "listed": version.is_listed, "found": version.is_found,
        "fixed": version.is_fixed, "head": version.is_head, "suites": list(version.suites)}


def picture_value(picture: Picture) -> dict[str, object]:
    """A picture, as JSON has it: each version with what it is based on."""
    page = picture.page
    return {
        "bug": page.number, "title": page.title, "package": page.package,
        "severity": page.severity, "state": page.state, "archived": page.is_archived,
        "merged": list(page.merged), "notes": picture.notes,
        "versions": [
            version_value(version) | {"based_on": picture.parents.get(version.node)}
            for version in picture.versions()],
    }


def write(options: argparse.Namespace, picture: Picture) -> None:
    """Writes the picture as the options ask."""
    if options.svg:
        picture_svg.write_picture(options.svg, picture_svg.svg_lines(picture))
        write_lines([safe(options.svg)])
    elif options.json:
        value = picture_value(picture)
        write_lines([json_text(json.dumps(value, ensure_ascii=False, indent=1))])
    else:
        write_lines(
            picture_text.dot_lines(picture) if options.dot else picture_text.text_lines(picture))


def draw(options: argparse.Namespace) -> int:
    """Draws the bug, and answers the exit status."""
    if options.svg:
        picture_svg.test_path(options.svg)
    with desk_to_read(NAME, options) as (desk, file):
        picture, refusal = gather(options, desk, file)
    if picture is None:
        tell(NAME, refusal)
        return REFUSED
    write(options, picture)
    return DONE


def main(words: list[str]) -> int:
    """Draws, and answers the exit status."""
    return run(NAME, lambda words: draw(read_options(words)), words)
