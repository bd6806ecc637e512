"""Debian changelogs: their entries, and the branches that a bug desk is told of them.

The form is that of deb-changelog(5); an entry begins with its heading, and the newest stands first.
"""
import gzip
import re
import zlib
from dataclasses import dataclass, field

BRANCH_LENGTH = 200
NAME_LENGTH = 100
VERSION_LENGTH = 100
SHOWN_LENGTH = 60

HEADING = re.compile(
    r"(\w[-+0-9a-z.]*) \(([^() \t]+)\)((?:[ \t]+[-+0-9a-z.]+)+);", re.IGNORECASE | re.ASCII)
COMMENT = re.compile(r"#|/\*.*\*/|\$\w+:.*\$", re.ASCII)
EDITOR_SETTINGS = re.compile(r"vim:|(;;\s*)?Local variables:", re.IGNORECASE)
TRAILER = " --"
CLOSES = re.compile(
    r"closes:\s*(?:bug)?#?\s?\d+(?:,\s*(?:bug)?#?\s?\d+)*", re.IGNORECASE | re.ASCII)
PACKAGE_NAME = re.compile(r"[a-z0-9][a-z0-9+.-]+")
EPOCH = re.compile(r"[0-9]+")
UPSTREAM = re.compile(r"[A-Za-z0-9.+~-]+")
UPSTREAM_AFTER_EPOCH = re.compile(r"[A-Za-z0-9.+~:-]+")
REVISION = re.compile(r"[A-Za-z0-9+.~]+")


class ChangelogError(Exception):
    """A changelog that can't be read; its text says which and why."""


@dataclass
class Entry:
    """One entry: its heading, the number of the heading's line, and the lines of its changes."""

    source: str
    version: str
    distributions: list[str]
    line: int
    changes: list[str] = field(default_factory=list)

    @property
    def node(self) -> str:
        """The version as a desk is told it."""
        return f"{self.source}/{self.version}"

    def is_released(self) -> bool:
        """Whether it was made for an upload."""
        return "UNRELEASED" not in self.distributions

    def closes(self) -> list[int]:
        """The numbers of the bugs that it closes, each once, in their order."""
        numbers: list[int] = []
        for words in CLOSES.findall("\n".join(self.changes)):
            numbers += [int(digits) for digits in re.findall(r"[0-9]+", words)]
        return list(dict.fromkeys(numbers))


@dataclass
class LeftOut:
    """A line of a changelog that gives no version to a branch, and why."""

    line: int
    reason: str


@dataclass
class Changelog:
    """The entries of a changelog, newest first, and its unindented lines that are no heading."""

    entries: list[Entry]
    no_headings: list[LeftOut]


def read_bytes(path: str) -> bytes:
    """All bytes of a file, or of standard input where the path is `-`."""
    with open(0 if path == "-" else path, "rb", closefd=path != "-") as file:
        return file.read()


def read_text(path: str) -> str:
    """The text of a changelog, unpacked where it is gzip's; bytes that are no UTF-8 are kept."""
    try:
        content = read_bytes(path)
        if path.endswith(".gz") or content.startswith(b"\x1f\x8b"):
            content = gzip.decompress(content)
    except (gzip.BadGzipFile, EOFError, zlib.error) as error:
        raise ChangelogError(f"{path}: broken gzip file: {error}") from error
    except OSError as error:
        raise ChangelogError(f"{path}: {error.strerror}") from error
    return content.decode("utf-8", "surrogateescape")


def shown(text: str) -> str:
    """The text as one short line that any terminal can show."""
    short = text if len(text) <= SHOWN_LENGTH else text[:SHOWN_LENGTH] + ".."
    return ascii(short)[1:-1]


def parse(text: str) -> Changelog:
    """The changelog of a text: every heading in it counts, wherever it stands."""
    changelog = Changelog([], [])
    entry: Entry | None = None
    for number, line in enumerate(text.split("\n"), 1):
        heading = HEADING.match(line)
        if heading:
            source, version, distributions = heading.groups()
            entry = Entry(source, version, distributions.split(), number)
            changelog.entries.append(entry)
        elif EDITOR_SETTINGS.match(line):
            break
        elif line.startswith(TRAILER):
            entry = None
        elif line[:1].strip() and not COMMENT.match(line):
            changelog.no_headings.append(LeftOut(number, f"no heading: {shown(line.rstrip())}"))
            entry = None
        elif entry:
            entry.changes.append(line)
    return changelog


def read_changelog(path: str) -> Changelog:
    """The changelog in a file."""
    changelog = parse(read_text(path))
    if not changelog.entries:
        raise ChangelogError(f"{path}: no heading of a Debian changelog in it")
    return changelog


def name_fault(name: str) -> str | None:
    """What is wrong with a source package's name, or None."""
    if len(name) > NAME_LENGTH:
        return f"the source's name has more than {NAME_LENGTH} bytes"
    if not PACKAGE_NAME.fullmatch(name):
        return "the source is no package name"
    return None


def version_parts(version: str) -> tuple[str | None, str, str | None]:
    """The epoch, the upstream part and the revision of a version's text, or None for each."""
    epoch, _, rest = version.partition(":") if ":" in version else (None, "", version)
    upstream, hyphen, revision = rest.rpartition("-")
    return epoch, upstream if hyphen else rest, revision if hyphen else None


def version_fault(version: str) -> str | None:
    """What is wrong with a version by Policy 5.6.12, or None; colons may follow an epoch."""
    epoch, upstream, revision = version_parts(version)
    if len(version) > VERSION_LENGTH:
        return f"the version has more than {VERSION_LENGTH} bytes"
    if epoch is not None and not EPOCH.fullmatch(epoch):
        return "the epoch is no number"
    if not (UPSTREAM if epoch is None else UPSTREAM_AFTER_EPOCH).fullmatch(upstream):
        return "the upstream part of the version is bad"
    if revision is not None and not REVISION.fullmatch(revision):
        return "the revision is bad"
    return None


def entry_fault(entry: Entry, oldest: Entry, is_above_uploads: bool) -> str | None:
    """Why a desk is not told of an entry, or None."""
    if oldest is not entry:
        return f"it stands again in line {oldest.line}, and is told from there"
    if is_above_uploads:
        return "it is UNRELEASED, and nothing above it was uploaded"
    return name_fault(entry.source) or version_fault(entry.version)


def select(changelog: Changelog) -> tuple[list[Entry], list[LeftOut]]:
    """The entries that a desk is told of, newest first, and what is left out, by its line.

    Where a version stands twice, its oldest entry counts: there it began.
    An UNRELEASED entry counts where an upload above it has it in its history.
    Until then its version may still change, and a desk never forgets one.
    """
    taken, left_out = [], list(changelog.no_headings)
    oldest = {entry.node: entry for entry in changelog.entries}
    is_above_uploads = True
    for entry in changelog.entries:
        is_above_uploads = is_above_uploads and not entry.is_released()
        fault = entry_fault(entry, oldest[entry.node], is_above_uploads)
        if fault:
            left_out.append(LeftOut(entry.line, f"{shown(entry.node)} is left out: {fault}"))
        else:
            taken.append(entry)
    return taken, sorted(left_out, key=lambda left: left.line)


def branch_lines(nodes: list[str]) -> list[str]:
    """The `@branch` lines of nodes, newest first; each begins with the last node of that above."""
    starts = range(0, max(len(nodes) - 1, 1), BRANCH_LENGTH - 1)
    return ["@branch " + " ".join(nodes[start:start + BRANCH_LENGTH]) for start in starts]
