"""What lists don't show because no branch has a version, from the tables of a desk's file.

At a version that no branch has, only the marks at this version are looked at: a bug that is marked
found at other versions alone is not in its list.
An open bug whose found marks all stand at such versions is in the list of no version that a branch
has.
"""

import dataclasses
import sqlite3
from collections.abc import Iterable, Iterator
from typing import NamedTuple

from .answers import SEVERITIES, Question
from .listed_bugs import node_of
from .nodes import opened

IN_BRANCH = "SELECT 1 FROM nodes WHERE source = ? AND version = ?"
# The bugs that a list of a package would have but for marks at the version itself: not archived,
# of the package or affecting it, and not closed without a version that fixes them.
# Where none of their marks is at the version, and some is a found one, they are not listed.
NOT_COUNTED = """SELECT number FROM bugs JOIN sets USING (set_key)
WHERE archived = 0
  AND set_key IN (SELECT set_key FROM sets WHERE package = :package
    UNION SELECT set_key FROM affects WHERE package = :package)
  AND (closed = 0
    OR EXISTS (SELECT 1 FROM marks WHERE marks.set_key = sets.set_key AND kind = 1))
  AND EXISTS (SELECT 1 FROM marks WHERE marks.set_key = sets.set_key AND kind = 0)
  AND NOT EXISTS (SELECT 1 FROM marks WHERE marks.set_key = sets.set_key
    AND source = :source AND version = :version)
ORDER BY number"""
UNPLACED = """SELECT number, severity, title, package, set_key FROM bugs JOIN sets USING (set_key)
WHERE archived = 0 AND closed = 0
  AND EXISTS (SELECT 1 FROM marks WHERE marks.set_key = sets.set_key AND kind = 0)
  AND NOT EXISTS (SELECT 1 FROM marks JOIN nodes USING (source, version)
    WHERE marks.set_key = sets.set_key AND kind = 0)
ORDER BY number"""
# Whether marks decide at a version, as they do where an ancestor of it, or it, is marked.
IS_DECIDED = """SELECT 1 FROM nearest WHERE set_key = :key AND source = :source
  AND version = :version
UNION ALL SELECT 1 FROM marks WHERE set_key = :key AND source = :source AND version = :version"""
FOUND = """SELECT source || '/' || version FROM marks WHERE set_key = ? AND kind = 0
ORDER BY source, version"""
AFFECTED = "SELECT package FROM affects WHERE set_key = ? ORDER BY package"


class Uncounted(NamedTuple):
    """A version that no branch has, and the bugs that are found at others and so not counted."""

    package: str
    version: str
    numbers: tuple[int, ...]


class Unplaced(NamedTuple):
    """An open bug whose found marks all stand at versions that no branch has.

    `packages` has its package and those that it affects, and `found` its found marks.
    """

    number: int
    severity: str
    title: str
    packages: tuple[str, ...]
    found: tuple[str, ...]


@dataclasses.dataclass
class Unseen:
    """What a report of a suite can't see: versions, and by package bugs that are not listed."""

    versions: list[Uncounted] = dataclasses.field(default_factory=list)
    bugs: dict[str, list[Unplaced]] = dataclasses.field(default_factory=dict)

    def counted(self) -> list[Uncounted]:
        """The versions at which some bug is not counted, the most first."""
        counted = [it for it in self.versions if it.numbers]
        return sorted(counted, key=lambda it: (-len(it.numbers), it.package))

    def numbers(self) -> set[int]:
        """The numbers of all bugs that are not seen."""
        return {
            *(number for version in self.versions for number in version.numbers),
            *(bug.number for bugs in self.bugs.values() for bug in bugs)}


def uncounted(
    connection: sqlite3.Connection, questions: Iterable[Question],
) -> Iterator[Uncounted]:
    """Those of these packages and versions that no branch has, with the bugs not counted there.

    A version may have its source before it, which is the package else.
    """
    for package, version in questions:
        node = node_of((package, version))
        source, _, bare = node.partition("/")
        if not connection.execute(IN_BRANCH, (source, bare)).fetchone():
            words = {"package": package, "source": source, "version": bare}
            rows = connection.execute(NOT_COUNTED, words).fetchall()
            yield Uncounted(package, version, tuple(number for (number,) in rows))


def all_unplaced(connection: sqlite3.Connection) -> Iterator[tuple[int, Unplaced]]:
    """The open bugs of a desk whose found marks all stand at versions that no branch has.

    Each has the key of what it shares with those merged with it.
    """
    for number, severity, title, package, owner in connection.execute(UNPLACED).fetchall():
        affected = [name for (name,) in connection.execute(AFFECTED, (owner,))]
        found = tuple(node for (node,) in connection.execute(FOUND, (owner,)))
        packages = tuple(dict.fromkeys([package, *affected]))
        yield owner, Unplaced(number, SEVERITIES[severity], title, packages, found)


def is_decided(connection: sqlite3.Connection, key: int, node: str) -> bool:
    """Whether marks say of a version that it has a bug, or that it has not."""
    source, _, version = node.partition("/")
    words = {"key": key, "source": source, "version": version}
    return connection.execute(IS_DECIDED, words).fetchone() is not None


def unplaced_in(
    connection: sqlite3.Connection, unplaced: Iterable[tuple[int, Unplaced]],
    questions: Iterable[Question],
) -> dict[str, list[Unplaced]]:
    """Those of these bugs that one of these lists has not, though no mark says so, by package."""
    asked: dict[str, list[str]] = {}
    for package, version in questions:
        asked.setdefault(package, []).append(node_of((package, version)))
    missed: dict[str, list[Unplaced]] = {}
    triples = ((key, bug, package) for key, bug in unplaced for package in bug.packages)
    for key, bug, package in triples:
        if not all(is_decided(connection, key, node) for node in asked.get(package, ())):
            missed.setdefault(package, []).append(bug)
    return missed


def unseen_of(path: str, lists: Iterable[Iterable[Question]]) -> list[Unseen]:
    """What can't be seen of lists of packages at versions, in the file of a desk."""
    with opened(path) as connection:
        unplaced = list(all_unplaced(connection))
        ordered = [sorted(questions) for questions in lists]
        return [
            Unseen(
                list(uncounted(connection, questions)),
                unplaced_in(connection, unplaced, questions))
            for questions in ordered]


def unplaced_numbers(path: str) -> set[int]:
    """The numbers of the open bugs of a desk's file that are found only in no branch's version."""
    with opened(path) as connection:
        return {bug.number for _, bug in all_unplaced(connection)}
