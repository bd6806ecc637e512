"""The desk on whole bug records: its changes, and questions to it.

Each bug has a record of its own with all its fields, merged or not.
"""

import typing

from reading_lines import SEVERITIES
from reading_versions import Ancestry, status


class Record(typing.NamedTuple):
    """All fields of one bug; those after the submitter are shared within its set."""

    title: str
    submitter: str
    package: str
    severity: str
    closed: bool = False
    forwarded: typing.Optional[str] = None
    owner: typing.Optional[str] = None
    tags: frozenset = frozenset()
    found: frozenset = frozenset()
    fixed: frozenset = frozenset()
    blockers: frozenset = frozenset()
    archived: bool = False
    affected: frozenset = frozenset()


class Desk(typing.NamedTuple):
    """Records and sets by bug number, the ancestry, and the next number."""

    records: dict
    sets: dict
    ancestry: Ancestry
    next: int


def new_desk(first=1):
    """The desk without a bug."""
    return Desk({}, {}, Ancestry(), first)


# Changes of a desk, each of which leaves the desk handed in as it is.


def change_record(desk, number, **fields):
    """The desk with some fields of one record changed."""
    record = desk.records[number]._replace(**fields)
    return desk._replace(records={**desk.records, number: record})


def change_set(desk, number, **fields):
    """The desk with some fields changed in every record of the set of a bug."""
    for member in desk.sets[number]:
        desk = change_record(desk, member, **fields)
    return desk


def join(desk, numbers):
    """The desk with the sets of these bugs as one set."""
    joined = frozenset().union(*(desk.sets[number] for number in numbers))
    return desk._replace(sets={**desk.sets, **{member: joined for member in joined}})


def add_record(desk, record):
    """The desk with one more bug, unmerged, under the next number."""
    number = desk.next
    return Desk(
        {**desk.records, number: record},
        {**desk.sets, number: frozenset([number])},
        desk.ancestry,
        number + 1,
    )


def changed_numbers(before, after):
    """The ascending numbers whose record or set differs between two desks."""
    return sorted(
        number
        for number in after.records
        if before.records.get(number) != after.records[number]
        or before.sets.get(number) != after.sets[number]
    )


# Questions to a desk.


def status_at(desk, number, node):
    """The status of a bug at a node."""
    record = desk.records[number]
    return status(desk.ancestry, record.found, record.fixed, record.closed, node)


def listed(desk, package, node):
    """The numbers of the bugs that are found at a node, the gravest first.

    They are those of a package, and those of other packages that affect it.
    """
    numbers = [
        number
        for number, record in desk.records.items()
        if (record.package == package or package in record.affected)
        and not record.archived
        and status_at(desk, number, node) == "Found"
    ]
    return sorted(
        numbers, key=lambda number: (SEVERITIES.index(desk.records[number].severity), number)
    )


def waiting_on(desk, number):
    """The ascending numbers of the bugs that have a bug among their blockers."""
    return sorted(
        waiting for waiting, record in desk.records.items() if number in record.blockers
    )
