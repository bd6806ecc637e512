"""Reports the bugs that a desk has for the packages of a suite.

SUITE=PATH names a suite and the file of its packages: a Debian `Sources` or `Packages` index,
dpkg's `status`, or lines of a source and a version; plain or compressed by gzip or xz.
`-` is standard input.
If a source appears twice, its highest version counts.

The desk is in a file that no other process has open, or served on a port of this machine or on a
Unix socket.
A server tells nobody its branches; where its file is named too, a copy of that is read.
The report has the bugs of each suite by severity, the packages with the most release-critical ones
(critical, grave or serious), and these bugs by package.
It says what it can't see: versions that no branch has, at which bugs found elsewhere don't count,
and open bugs that are found only at such versions.
Package names and versions that the desk refuses are left out, with a message.

The exit status is 0; 1 if --fail-on or --fail-on-unseen found a bug; 2 for a wrong command line;
3 for a fault: an index or the desk can't be read, or output can't be written.
"""

import argparse
from collections.abc import Iterable, Iterator

from . import report_page, report_text
from .answers import SEVERITIES
from .command import (
    DONE,
    REFUSED,
    Desk,
    Parser,
    add_desk_to_read,
    add_program,
    desk_to_read,
    make_parser,
    named_path,
    run,
    tell,
    test_desk,
)
from .faults import Fault
from .report import CRITICAL, Suite, at_least, compare, gather, listed_numbers
from .snapshot import private_copy
from .suites import read_suite, refusals
from .terminal import Progress, shown
from .unseen import unseen_of

NAME = "release"
NO_BRANCHES = (
    "a server tells nobody its branches, so what no branch has is not told: "
    "name the desk's file too, by --store=FILE")


# The words of the command line.


def release_parser() -> Parser:
    """What the command line may be."""
    parser = make_parser(
        NAME, __doc__,
        "release [--store=FILE] [--port=N | --socket=PATH] [options] SUITE=PATH ..")
    add_desk_to_read(parser)
    parser.add_argument(
        "--severity", choices=SEVERITIES, default=CRITICAL, metavar="S",
        help="list bugs from this severity up; serious if left out")
    parser.add_argument(
        "--package", action="append", default=[], metavar="NAME",
        help="count only this package; may be repeated")
    parser.add_argument(
        "--compare", nargs=2, metavar=("A", "B"),
        help="compare two suites, for a migration from B to A")
    parser.add_argument("--json", action="store_true", help="write JSON instead of text")
    parser.add_argument("--html", metavar="FILE", help="also make a page")
    parser.add_argument(
        "--fail-on", choices=SEVERITIES, metavar="S",
        help="end with status 1 if the first suite has a bug of this severity or a graver one")
    parser.add_argument(
        "--fail-on-unseen", action="store_true",
        help="end with status 1 if a bug of the first suite can't be seen for want of a branch")
    add_program(parser)
    parser.add_argument("suites", nargs="+", type=named_path, metavar="SUITE=PATH")
    return parser


def read_options(words: list[str]) -> argparse.Namespace:
    """The options, of which each is good by itself and with the others."""
    parser = release_parser()
    options = parser.parse_args(words)
    test_desk(parser, options)
    if options.fail_on_unseen and options.store is None:
        parser.error("--fail-on-unseen needs --store: a server tells nobody its branches")
    names = [name for name, _ in options.suites]
    if len(set(names)) != len(names):
        parser.error("two suites have one name")
    if [path for _, path in options.suites].count("-") > 1:
        parser.error("standard input can be one suite alone")
    for name in options.compare or ():
        if name not in names:
            parser.error(f"--compare: no suite is named {name}")
    return options


# The report.


def tell_missing(packages: list[str], suites: list[Suite]) -> None:
    """Tells of packages that were named and are in no suite."""
    for package in packages:
        if not any(package in suite.versions for suite in suites):
            tell(NAME, f"no suite has the package {shown(package)}")


def look_for_unseen(options: argparse.Namespace, file: str | None, suites: list[Suite]) -> None:
    """Looks in a file for what the lists of suites can't show, or tells that it can't."""
    if file is None:
        if options.fail_on_unseen:
            raise Fault(f"{options.store}: --fail-on-unseen needs its branches")
        tell(NAME, NO_BRANCHES)
        return
    # SQLite leaves a file beside a desk that it reads, so it reads a copy.
    with private_copy(file) as path:
        found = unseen_of(path, [suite.versions.items() for suite in suites])
    for suite, unseen in zip(suites, found):
        suite.unseen = unseen


def report(options: argparse.Namespace) -> int:
    """Makes the report, and answers the exit status."""
    if options.html:
        report_page.test_path(options.html)
    with desk_to_read(NAME, options) as (desk, file):
        return report_of(options, desk, file)


def report_of(options: argparse.Namespace, desk: Desk, file: str | None) -> int:
    """Makes the report of a desk, whose tables are in a file, and answers the exit status."""
    suites = [
        read_suite(options.program, options.package, name, path) for name, path in options.suites]
    progress = Progress(NAME)
    gather(desk, suites, at_least(options.severity), progress)
    look_for_unseen(options, file, suites)
    for told in refusals(suites):
        tell(NAME, told)
    tell_missing(options.package, suites)
    named = {suite.name: suite for suite in suites}
    comparison = compare(*(named[name] for name in options.compare)) if options.compare else None
    if options.html:
        pages = with_pages(desk, listed_numbers(suites), progress)
        report_page.write_page(options.html, suites, comparison, options.severity, pages)
    write = report_text.write_json if options.json else report_text.write_text
    with open(1, "w", encoding="utf-8", closefd=False) as output:
        write(output, suites, comparison, options.severity)
    return REFUSED if has_failed(options, suites[0]) else DONE


def has_failed(options: argparse.Namespace, suite: Suite) -> bool:
    """Whether the first suite has a bug that ends the report with another status."""
    counts = options.fail_on and suite.count(at_least(options.fail_on))
    is_missed = options.fail_on_unseen and suite.unseen and suite.unseen.numbers()
    return bool(counts or is_missed)


def with_pages(
    desk: Desk, numbers: list[int], progress: Progress,
) -> Iterator[tuple[int, str]]:
    """The listed bugs, each with its page."""
    answers: Iterable[str] = desk.pages(numbers)
    for number, page in zip(numbers, answers, strict=True):
        progress(len(numbers), "pages")
        yield number, page


def main(words: list[str]) -> int:
    """Reports, and answers the exit status."""
    return run(NAME, lambda words: report(read_options(words)), words)
