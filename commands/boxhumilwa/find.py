"""Finds bugs of a desk: those that meet each option that is given.

Where an option is given several times, one of its values is enough; --not-tag leaves out each bug
that has one of its tags.
WHICH is `yes`, which it also is where the option stands alone, `no` or `both`.
A NAME is the whole text that names a person, or the name or the address in it, in any case.
Archived bugs are found only with --archived or --archived=both; they are in no list, and so not in
one of --at or --suite.

The desk is in a file, which a server may have open, since a copy of it is read; or it is served,
and is read by a copy of its file where --store names that too and it may be read, else by pages.

With --unseen bugs are found that lists don't show since no branch has a version.

The exit status is 0, also where no bug is found; 1 if the desk refuses a version; 2 for a wrong
command line; 3 for a fault: a file or the desk can't be read, or output can't be written.
"""

import argparse
import contextlib
import os
import shutil
import sqlite3
from collections.abc import Iterable, Iterator

from .bug_facts import Condition, Row, add_tags, opened_file, select, told_faults
from .command import DONE, REFUSED, is_served, place_of, run, tell, write_lines
from .desk_file import FileDesk
from .desk_served import ServedDesk
from .faults import Fault
from .find_words import read_options
from .finding import (
    ORDERS,
    add_functions,
    any_of,
    conditions,
    in_package,
    listed_at,
    numbered,
)
from .found_forms import (
    csv_columns,
    csv_lines,
    json_columns,
    json_lines,
    number_lines,
    table_columns,
    table_lines,
)
from .listed_bugs import Desk, Question, listed, node_of
from .page_facts import Reading, opened_pages
from .people import maintained
from .report import Suite, gather
from .snapshot import LOG, private_copy, real_path
from .suites import read_suite, refusals
from .terminal import Progress
from .unseen import unplaced_numbers, unseen_of

NAME = "find"


class Refused(Exception):
    """What the desk refuses; its text says it."""


# What is asked of files and lists.


def maintained_by(options: argparse.Namespace) -> Iterator[Condition]:
    """That a bug is in a package of the maintainers who are named."""
    if options.maintainer:
        packages = maintained(options.maintainers, options.maintainer)
        if not packages:
            tell(NAME, f"{options.maintainers}: no package in it is theirs")
        yield in_package(packages)


def questions_at(options: argparse.Namespace) -> list[Question]:
    """The lists to ask for: of each version's source, or of the packages where it names none."""
    return list(dict.fromkeys(
        (package, version) for version in options.at
        for package in ([version.partition("/")[0]] if "/" in version else options.package)))


def in_lists(desk: Desk, options: argparse.Namespace) -> Iterator[Condition]:
    """That a bug is in one of the lists of --at."""
    if not options.at:
        return
    questions, progress = questions_at(options), Progress(NAME)
    # To open a big desk takes the program seconds; what it refuses, an empty one refuses as well.
    asked: Desk = FileDesk(desk.program, None) if isinstance(desk, FileDesk) else desk
    found: set[int] = set()
    for (package, version), (numbers, refusal) in zip(questions, listed(asked, questions)):
        progress(len(questions), "lists")
        if refusal is not None:
            raise Refused(f"{package} at {version}: {refusal}")
        found |= numbers
    if isinstance(desk, ServedDesk):
        yield numbered(sorted(found))
    else:
        yield any_of([
            listed_at(package, *node_of((package, version)).split("/", 1))
            for package, version in questions])


def suites_of(desk: Desk, options: argparse.Namespace) -> list[Suite]:
    """The suites that are named, with the bugs of their packages at their versions there."""
    suites = [read_suite(options.program, (), name, path) for name, path in options.suite]
    if suites:
        gather(desk, suites, (), Progress(NAME))
    for told in refusals(suites):
        tell(NAME, told)
    return suites


def in_suites(suites: list[Suite]) -> Iterator[Condition]:
    """That a bug is in the list of a package of one of the suites, at its version there."""
    if suites:
        found = set[int]().union(*(numbers for it in suites for numbers in it.numbers.values()))
        yield numbered(sorted(found))


def not_seen(desk: Desk, questions: list[Question]) -> Condition:
    """That these lists don't show a bug, or without any no list of a version of a branch."""
    if not isinstance(desk, FileDesk) or desk.store is None:
        raise Fault("--unseen needs to read the desk's file, by --store=FILE")
    # The program carries an older file over, so that it has all tables.
    list(desk.lists([("aa", "0")]))
    if not questions:
        return numbered(sorted(unplaced_numbers(desk.store)))
    return numbered(sorted(unseen_of(desk.store, [questions])[0].numbers()))


def all_conditions(desk: Desk, options: argparse.Namespace) -> list[Condition]:
    """All that a bug has to meet."""
    wanted = [*conditions(vars(options)), *maintained_by(options)]
    at, suites = list(in_lists(desk, options)), suites_of(desk, options)
    if not options.unseen:
        return [*wanted, *at, *in_suites(suites)]
    questions = [question for suite in suites for question in suite.versions.items()]
    return [*wanted, not_seen(desk, [*questions_at(options), *questions])]


# The desk.


@contextlib.contextmanager
def asked_file(
    options: argparse.Namespace,
) -> Iterator[tuple[sqlite3.Connection, list[Condition]]]:
    """A desk in a file, of which a copy is read, and what its bugs have to meet."""
    with private_copy(options.store) as copy:
        # The program is asked before SQLite opens the copy, which only one of them can.
        wanted = all_conditions(FileDesk(options.program, copy), options)
        with opened_file(options.store, copy) as connection:
            yield connection, wanted


@contextlib.contextmanager
def asked_pages(
    options: argparse.Namespace,
) -> Iterator[tuple[sqlite3.Connection, list[Condition]]]:
    """A desk that is served, of which all pages are read, and what its bugs have to meet."""
    desk = ServedDesk(place_of(options))
    wanted = all_conditions(desk, options)
    reading = Reading(desk, options.first or 1, options.last, Progress(NAME))
    with opened_pages(reading) as connection:
        tell(NAME, reading)
        yield connection, wanted


def is_readable(store: str) -> bool:
    """Whether a desk's file and its log may be read."""
    log = real_path(store) + LOG
    return os.access(store, os.R_OK) and (not os.path.exists(log) or os.access(log, os.R_OK))


@contextlib.contextmanager
def asked_desk(
    options: argparse.Namespace,
) -> Iterator[tuple[sqlite3.Connection, list[Condition]]]:
    """The desk that the options name, and what its bugs have to meet."""
    may_read = options.store is not None and is_readable(options.store)
    if is_served(options) and not may_read:
        if options.store is not None:
            tell(NAME, f"{options.store}: it is not there or not readable; the server is asked")
        opened = asked_pages(options)
    else:
        if options.first or options.last:
            tell(NAME, "--first and --last are not used, since the file is read")
        opened = asked_file(options)
    with opened as (connection, wanted):
        with told_faults(options.store or str(place_of(options))):
            add_functions(connection)
            add_tags(connection)
            yield connection, wanted


# Answers.


def answer_lines(
    connection: sqlite3.Connection, options: argparse.Namespace, wanted: list[Condition],
) -> Iterable[str]:
    """The lines of the answer, in the form that is asked for."""
    def ask(columns: Iterable[str]) -> Iterable[Row]:
        """These columns of the bugs."""
        return select(connection, columns, wanted, ORDERS[options.sort])

    is_terminal = os.isatty(1)
    if options.numbers:
        return number_lines(ask(["number"]))
    if options.json:
        return json_lines(ask(json_columns()))
    if options.csv:
        cells = csv_columns()
        return csv_lines(list(cells), ask(cells.values()), is_terminal)
    columns = table_columns(options.sort == "waiting")
    width = shutil.get_terminal_size().columns if is_terminal else None
    return table_lines(list(columns), ask(columns.values()), width)


def find(options: argparse.Namespace) -> int:
    """Finds, and answers the exit status."""
    try:
        with asked_desk(options) as (connection, wanted):
            write_lines(answer_lines(connection, options, wanted))
    except Refused as refused:
        tell(NAME, refused)
        return REFUSED
    return DONE


def main(words: list[str]) -> int:
    """Finds, and answers the exit status."""
    return run(NAME, lambda words: find(read_options(__doc__, words)), words)
