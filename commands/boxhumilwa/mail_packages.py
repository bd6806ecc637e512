"""Versions as people have them: a binary package and its version as a source and its version.

The file has lines of a binary, its version, its source and the version of that, or is an index
`Packages` of Debian.
"""

import itertools
import re
from collections.abc import Iterable, Iterator
from typing import NamedTuple

from . import indexes, versions
from .faults import Fault
from .nodes import read_nodes
from .texts import is_package_name

REBUILT = re.compile(r"\+b[0-9]+$")


class Built(NamedTuple):
    """A binary package, its version, and what it was built from."""

    binary: str
    version: str
    source: str
    source_version: str


class Named(NamedTuple):
    """The package and the version that a bug gets, and what has to be told of them."""

    package: str
    version: str
    notes: tuple[str, ...] = ()


# The file.


def built_lines(path: str, lines: indexes.Lines) -> Iterator[Built]:
    """The packages of lines of four words."""
    for number, line in lines:
        words = line.split()
        if words and not line.startswith("#"):
            if len(words) != 4:
                raise Fault(f"{path}:{number}: neither binary, version, source and version, "
                            "nor a field")
            yield Built(*words)


def built_paragraphs(path: str, lines: indexes.Lines) -> Iterator[Built]:
    """The packages of an index."""
    for start, fields in indexes.paragraphs(path, lines):
        entry = indexes.paragraph_entry(path, start, fields)
        yield Built(fields["package"], fields["version"], entry.source, entry.version)


def read_built(path: str) -> Iterator[Built]:
    """All packages of a file."""
    lines = indexes.numbered_lines(path)
    for number, line in lines:
        if line.strip() and not line.startswith("#"):
            read = built_paragraphs if indexes.is_paragraphs(line) else built_lines
            yield from read(path, itertools.chain([(number, line)], lines))


def of_package(path: str, package: str) -> list[Built]:
    """The packages of a file that a name stands for, be it of a binary or of a source."""
    return [it for it in read_built(path) if package in (it.binary, it.source)]


# Names.


def named(path: str | None, package: str, version: str) -> Named:
    """The source of a package and its version, as the file says; the same where it says nothing."""
    found = of_package(path, package) if path else []
    binaries = [it for it in found if it.binary == package]
    for it in binaries:
        if version and version in (it.version, REBUILT.sub("", it.version)):
            return Named(it.source, it.source_version, told(package, version, it.source,
                                                            it.source_version))
    if found and not any(it.source == package for it in found):
        source, bare = binaries[0].source, REBUILT.sub("", version)
        return Named(source, bare, told(package, version, source, bare))
    bare = REBUILT.sub("", version) if found else version
    return Named(package, bare, told(package, version, package, bare))


def told(package: str, version: str, source: str, source_version: str) -> tuple[str, ...]:
    """What is told of a package that is another source's, or has another version there."""
    if (package, version) == (source, source_version):
        return ()
    of = f"{package} {version}".strip()
    return (f"{of} is of the source {source} {source_version}".strip() + ".",)


# What branches know.


def nearest(program: str, source: str, known: Iterable[str], version: str) -> str:
    """Of the known versions of a source the highest that is not above this one, else the lowest."""
    nodes = [f"{source}/{it}" for it in known]
    order = versions.order_of(program, [*nodes, f"{source}/{version}"])
    place = order[f"{source}/{version}"]
    below = [node for node in nodes if order[node] <= place]
    best = max(below, key=order.__getitem__) if below else min(nodes, key=order.__getitem__)
    return best.partition("/")[2]


def known_versions(store: str | None, path: str | None, source: str) -> tuple[list[str], str]:
    """The versions of a source that are known, and by what: the desk's branches, or the file."""
    if store is not None:
        nodes = (node.partition("/") for node in read_nodes(store, [source]))
        return [version for owner, _, version in nodes if owner == source], "branch of the desk"
    if path:
        return sorted({it.source_version for it in of_package(path, source)
                       if it.source == source}), f"package of {source} in the desk's index"
    return [], ""


def unknown(
    program: str, known: list[str], what: str, source: str, version: str,
) -> tuple[str, ...]:
    """What is told of a version that is not known, with the nearest that is."""
    text = f"No {what} has the version {version}, so no list of another version goes by it"
    try:
        near = nearest(program, source, known, version) if known else ""
    except Fault:
        near = ""
    return (f"{text}; the nearest that is known is {near}." if near else f"{text}.",)


def settled(
    program: str, store: str | None, path: str | None, package: str, version: str,
) -> Named:
    """The package and the version that a bug gets, and what has to be told of them."""
    it = named(path, package, version)
    if not it.version or not is_package_name(it.package):
        return it
    known, what = known_versions(store, path, it.package)
    bare = REBUILT.sub("", it.version)
    if not what or it.version in known:
        return it
    if bare in known:
        return Named(it.package, bare, told(package, version, it.package, bare))
    notes = unknown(program, known, what, it.package, it.version)
    return Named(it.package, it.version, it.notes + notes)
