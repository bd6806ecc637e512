"""The tests of bugs by which `find` answers, and the orders of its answers.

Each test is a function from the values that its option was given to a condition of SQL over the
relations of `bug_facts`; a further test is one more such function, and its line in `TESTS`.
"""

import fnmatch
import json
import sqlite3
from collections.abc import Callable, Iterator, Mapping, Sequence

from .answers import SEVERITIES, TAGS
from .bug_facts import STATES, WAITING, Condition
from .people import is_person

# What stands on a page where there is nothing.
NONE = "-"
YES, NO, BOTH = "yes", "no", "both"
# How answers are sorted; ties go by number.
ORDERS = {
    "number": "number", "severity": "severity, number", "package": "package, number",
    "waiting": f"{WAITING} DESC, number"}


def add_functions(connection: sqlite3.Connection) -> None:
    """Gives a connection the functions that conditions call."""
    connection.create_function("is_person", 2, is_person, deterministic=True)
    connection.create_function("is_like", 2, fnmatch.fnmatchcase, deterministic=True)


# Conditions.


def among(column: str, values: Sequence[str | int]) -> Condition:
    """That a column has one of these values."""
    return Condition(f"{column} IN (SELECT value FROM json_each(?))", (json.dumps(values),))


def any_of(conditions: Sequence[Condition]) -> Condition:
    """That one of these conditions holds; SQLite takes no text that is nested a thousand deep."""
    if len(conditions) == 1:
        return conditions[0]
    half = len(conditions) // 2
    one, other = any_of(conditions[:half]), any_of(conditions[half:])
    return Condition(f"({one.text}) OR ({other.text})", one.values + other.values)


def flag(condition: str, values: Sequence[str]) -> Condition:
    """That a condition holds, for `yes`, or not, for `no`."""
    if BOTH in values or {YES, NO} <= set(values):
        return Condition("1")
    return Condition(condition if YES in values else f"NOT {condition}")


def tag_bits(tags: Sequence[str]) -> int:
    """The number that stands for some tags."""
    return sum(1 << TAGS.index(tag) for tag in set(tags))


# Tests.


def in_package(names: Sequence[str]) -> Condition:
    """The bug's own package is one of these."""
    return among("package", names)


def affects(names: Sequence[str]) -> Condition:
    """It affects one of these packages."""
    inner = among("package", names)
    return Condition(
        f"EXISTS (SELECT 1 FROM bug_affects WHERE bug_affects.key = facts.key "
        f"AND bug_affects.{inner.text})", inner.values)


def submitted_by(names: Sequence[str]) -> Condition:
    """One of these people reported it."""
    return any_of([Condition("is_person(submitter, ?)", (name,)) for name in names])


def owned_by(names: Sequence[str]) -> Condition:
    """One of these people owns it; nobody, for a hyphen."""
    return any_of([
        Condition("owner IS NULL") if name == NONE
        else Condition("is_person(owner, ?)", (name,)) for name in names])


def at_least(names: Sequence[str]) -> Condition:
    """It has one of these severities, or a graver one."""
    return Condition("severity <= ?", (max(map(SEVERITIES.index, names)),))


def tagged(tags: Sequence[str]) -> Condition:
    """It has one of these tags."""
    return Condition("tags & ? <> 0", (tag_bits(tags),))


def not_tagged(tags: Sequence[str]) -> Condition:
    """It has none of these tags."""
    return Condition("tags & ? = 0", (tag_bits(tags),))


def in_state(states: Sequence[str]) -> Condition:
    """Its state is one of these."""
    return among("closed", [STATES.index(state) for state in states])


def titled(patterns: Sequence[str]) -> Condition:
    """Its title matches one of these patterns of a shell."""
    return any_of([Condition("is_like(title, ?)", (pattern,)) for pattern in patterns])


def archived(values: Sequence[str]) -> Condition:
    """It is archived, or not."""
    return flag("archived = 1", values)


def forwarded(values: Sequence[str]) -> Condition:
    """It is forwarded, or not."""
    return flag("forwarded IS NOT NULL", values)


def merged(values: Sequence[str]) -> Condition:
    """It is merged with other bugs, or not."""
    return flag(
        "EXISTS (SELECT 1 FROM bug_members WHERE bug_members.key = facts.key "
        "AND bug_members.number <> facts.number)", values)


def blocked(values: Sequence[str]) -> Condition:
    """It waits on other bugs, or not."""
    return flag(
        "EXISTS (SELECT 1 FROM bug_blockers WHERE bug_blockers.key = facts.key)", values)


def numbered(numbers: Sequence[int]) -> Condition:
    """It has one of these numbers."""
    return among("number", numbers)


# The tables of a file hold for each version of a branch the mark that decides, as `nearest`.
LISTED = """archived = 0
AND (package = ? OR EXISTS (SELECT 1 FROM bug_affects
  WHERE bug_affects.key = facts.key AND bug_affects.package = ?))
AND (closed = 0 OR EXISTS (SELECT 1 FROM bug_marks
  WHERE bug_marks.key = facts.key AND kind = 1))
AND 0 = coalesce(
  (SELECT kind FROM main.nearest WHERE set_key = facts.key AND source = ? AND version = ?),
  (SELECT min(kind) FROM bug_marks
    WHERE bug_marks.key = facts.key AND source = ? AND version = ?),
  EXISTS (SELECT 1 FROM bug_marks WHERE bug_marks.key = facts.key AND kind = 0))"""


def listed_at(package: str, source: str, version: str) -> Condition:
    """In a file, it is in the list of a package at this version of a source.

    What is closed and marked nowhere as fixed is done everywhere.
    Else the mark decides that the version, or the nearest of its ancestors, has; found wins.
    Where none has one, the version has the bug if it is found nowhere.
    """
    return Condition(LISTED, (package, package, source, version, source, version))


# The test of each option, by the name of its values; without values there is no test.
TESTS: dict[str, Callable[[Sequence[str]], Condition]] = {
    "package": in_package, "affects": affects, "submitter": submitted_by, "owner": owned_by,
    "severity": at_least, "tag": tagged, "not_tag": not_tagged, "state": in_state,
    "title": titled, "archived": archived, "forwarded": forwarded, "merged": merged,
    "blocked": blocked,
}


def conditions(values: Mapping[str, Sequence[str]]) -> Iterator[Condition]:
    """The conditions of the options that were given."""
    for name, test in TESTS.items():
        if values.get(name):
            yield test(values[name])
