"""The packages of a suite, each a source and its version.

A suite is an index `Sources` or `Packages`, dpkg's `status`, or lines of a source and a version.
It may be packed by gzip or xz, which its first byte tells, and is read line by line.
What a source or a version may be is left to the desk: here they are words.
"""

import contextlib
import gzip
import io
import itertools
import lzma
import zlib
from collections.abc import Callable, Iterator
from typing import NamedTuple, cast

from .faults import Fault

# Lines with their numbers, and the fields of a paragraph.
Lines = Iterator[tuple[int, str]]
Fields = dict[str, str]
MOST_PACKAGES = 250_000
MOST_VERSIONS = 1_000
LONGEST_LINE = 1 << 20
LONGEST_WORD = 500
GZIP, XZ = b"\x1f", b"\xfd"
# The fields of a paragraph that are read, and the states of dpkg that no package is in.
FIELDS = {"package", "source", "version", "status", "extra-source-only"}
NOT_INSTALLED = ("config-files", "not-installed")


class Entry(NamedTuple):
    """A source, its version, and the number of the line of the index that names them."""

    source: str
    version: str
    line: int


# Lines.


@contextlib.contextmanager
def opened_index(path: str) -> Iterator[io.BufferedIOBase]:
    """The bytes of an index, unpacked."""
    with open(0 if path == "-" else path, "rb", closefd=path != "-") as file:
        first = file.peek(1)[:1]
        if first == GZIP:
            with gzip.GzipFile(fileobj=file) as unpacked:
                yield io.BufferedReader(cast(io.RawIOBase, unpacked))
        elif first == XZ:
            with lzma.LZMAFile(file) as unpacked_xz:
                yield io.BufferedReader(cast(io.RawIOBase, unpacked_xz))
        else:
            yield file


def numbered_lines(path: str) -> Lines:
    """The lines of an index, each with its number and with its line feed."""
    try:
        with opened_index(path) as file:
            for number in itertools.count(1):
                line = file.readline(LONGEST_LINE + 1)
                if not line:
                    return
                if len(line) > LONGEST_LINE:
                    raise Fault(f"{path}:{number}: longer than {LONGEST_LINE:,} bytes")
                yield number, decoded(path, number, line)
    except EOFError as error:
        raise Fault(f"{path}: it is cut: its packed data has no end") from error
    except (gzip.BadGzipFile, zlib.error, lzma.LZMAError) as error:
        raise Fault(f"{path}: it can't be unpacked: {error}") from error
    except OSError as error:
        raise Fault(f"{path}: it can't be read: {error.strerror or error}") from error


def decoded(path: str, number: int, line: bytes) -> str:
    """The text of a line."""
    try:
        return line.decode()
    except UnicodeDecodeError as error:
        raise Fault(f"{path}:{number}: not UTF-8") from error


# Paragraphs.


def is_paragraphs(line: str) -> bool:
    """Whether an index that begins with this line has paragraphs of fields."""
    return ":" in line.split(maxsplit=1)[0]


def paragraphs(path: str, lines: Lines) -> Iterator[tuple[int, Fields]]:
    """The paragraphs of an index: the number of the first line, and the fields that are read."""
    start = 0
    fields: Fields = {}
    for number, line in lines:
        if not line.endswith("\n"):
            raise Fault(f"{path}:{number}: it is cut: its last line has no end")
        if not line.strip():
            if start:
                yield start, fields
            start, fields = 0, {}
        elif line[0] not in " \t#":
            start = start or number
            read_field(path, number, line, fields)
    if start:
        yield start, fields


def read_field(path: str, number: int, line: str, fields: Fields) -> None:
    """Puts the field of a line to the others of its paragraph."""
    name, colon, value = line.partition(":")
    name = name.lower()
    if not colon:
        raise Fault(f"{path}:{number}: no field of a paragraph")
    if name in FIELDS:
        if name in fields:
            raise Fault(f"{path}:{number}: a second field {name} in its paragraph")
        fields[name] = value.strip(" \t\r\n")


def is_left_out(fields: Fields) -> bool:
    """Whether a paragraph is of no package of the suite.

    Such are packages of dpkg that are not installed, and sources that are kept for others alone.
    """
    state = fields.get("status", "").split(" ")[-1]
    return state in NOT_INSTALLED or fields.get("extra-source-only") == "yes"


def paragraph_entry(path: str, start: int, fields: Fields) -> Entry:
    """The source and the version of a paragraph."""
    name, version = fields.get("package"), fields.get("version")
    if not name or not version:
        raise Fault(f"{path}:{start}: a paragraph without its package or version: it may be cut")
    source, blank, own_version = fields.get("source", "").partition(" ")
    if blank:
        version = own_version.strip("()")
    return Entry(source or name, version, start)


def paragraph_entries(path: str, lines: Lines) -> Iterator[Entry]:
    """The entries of an index that has paragraphs."""
    for start, fields in paragraphs(path, lines):
        if not is_left_out(fields):
            yield paragraph_entry(path, start, fields)


# Lines of a source and a version.


def line_entries(path: str, lines: Lines) -> Iterator[Entry]:
    """The entries of an index that has a source and a version on each line."""
    for number, line in lines:
        words = line.split()
        if words and not line.startswith("#"):
            if len(words) != 2:
                raise Fault(f"{path}:{number}: neither a source and a version, nor a field")
            yield Entry(words[0], words[1], number)


# Suites.


def entries(path: str) -> Iterator[Entry]:
    """All entries of an index, as they stand."""
    lines = numbered_lines(path)
    for number, line in lines:
        if line.strip() and not line.startswith("#"):
            read = paragraph_entries if is_paragraphs(line) else line_entries
            yield from read(path, itertools.chain([(number, line)], lines))


def candidates(
    path: str, packages: set[str], refuse: Callable[[Entry, str], None],
) -> dict[str, dict[str, int]]:
    """The versions of each source of an index, with their lines, as {source: {version: line}}.

    Where packages are named, only those count.
    Words that are too long for a question are handed on, and left out.
    """
    found: dict[str, dict[str, int]] = {}
    count, is_empty = 0, True
    for entry in entries(path):
        is_empty = False
        if packages and entry.source not in packages:
            continue
        if max(len(entry.source.encode()), len(entry.version.encode())) > LONGEST_WORD:
            refuse(entry, f"a word of more than {LONGEST_WORD} bytes")
            continue
        versions = found.setdefault(entry.source, {})
        count += entry.version not in versions
        versions.setdefault(entry.version, entry.line)
        if count > MOST_PACKAGES:
            raise Fault(f"{path}:{entry.line}: more than {MOST_PACKAGES:,} packages")
        if len(versions) > MOST_VERSIONS:
            raise Fault(f"{path}:{entry.line}: more than {MOST_VERSIONS:,} versions of a source")
    if is_empty:
        raise Fault(f"{path}: there is no package in it")
    return found
