"""What a report says: the figures of suites, the bugs listed, and two suites compared.

A bug that affects other packages may be in the lists of several.
It is listed under each of them, and counts once in a suite.
"""

import collections
import dataclasses
from collections.abc import Callable, Iterable, Iterator
from typing import Protocol

from .answers import SEVERITIES, Bug, Question
from .indexes import Entry
from .terminal import shown
from .unseen import Unseen

CRITICAL = "serious"
MOST_SHOWN = 10


def at_least(severity: str) -> tuple[str, ...]:
    """The severities that are this one or graver."""
    return SEVERITIES[: SEVERITIES.index(severity) + 1]


class ListDesk(Protocol):
    """A desk that is asked for lists."""

    def lists(self, questions: Iterable[Question]) -> Iterator[tuple[list[Bug], str | None]]:
        """For each source and version the bugs of its list, and why it is refused."""


@dataclasses.dataclass
class Suite:
    """A suite: its packages and their versions, with the lines of its index, and their bugs.

    `refused` has the entries that the desk refuses, each with its words.
    `numbers` has the numbers of all bugs by severity, and `critical` how many release-critical bugs
    each package has; `listed` has the bugs of the severities that are listed, by package.
    `unseen` has what lists can't show for want of branches; None where that can't be told.
    """

    name: str
    path: str
    versions: dict[str, str]
    lines: dict[str, int]
    refused: list[tuple[Entry, str]]
    numbers: dict[str, set[int]] = dataclasses.field(
        default_factory=lambda: {severity: set() for severity in SEVERITIES})
    critical: collections.Counter[str] = dataclasses.field(default_factory=collections.Counter)
    listed: dict[str, list[Bug]] = dataclasses.field(default_factory=dict)
    unseen: Unseen | None = None

    def take(self, package: str, bugs: list[Bug], listed: Iterable[str]) -> None:
        """Takes the list of a package."""
        for bug in bugs:
            self.numbers[bug.severity].add(bug.number)
        critical = sum(bug.severity in at_least(CRITICAL) for bug in bugs)
        if critical:
            self.critical[package] = critical
        kept = [bug for bug in bugs if bug.severity in listed]
        if kept:
            self.listed[package] = kept

    def leave_out(self, package: str, reason: str) -> None:
        """Leaves out a package that the desk refuses."""
        entry = Entry(package, self.versions.pop(package), self.lines[package])
        self.refused.append((entry, reason))

    def told_refusals(self) -> Iterator[str]:
        """What is told of the entries that are left out, in their order."""
        for entry, reason in sorted(self.refused, key=lambda refused: refused[0].line):
            words = shown(f"{entry.source} {entry.version}"[:100])
            yield f"{self.path}:{entry.line}: {words} is left out: {reason}"

    def count(self, severities: Iterable[str] = SEVERITIES) -> int:
        """How many bugs of these severities are in the suite."""
        return sum(len(self.numbers[severity]) for severity in severities)

    def most(self) -> list[tuple[str, int]]:
        """The packages with the most release-critical bugs, and how many each has."""
        order = sorted(self.critical.items(), key=lambda item: (-item[1], item[0]))
        return order[:MOST_SHOWN]

    def listed_packages(self) -> list[str]:
        """The packages that have listed bugs, by name."""
        return sorted(self.listed)


def bug_line(bug: Bug) -> str:
    """The row of a bug, as the desk's lists have it."""
    return f"  {bug.number:9}  {bug.severity:<9}  {bug.state}  {shown(bug.title)}"


def questions_of(suites: Iterable[Suite]) -> dict[Question, list[Suite]]:
    """Each source and version that some suite has, once, with those suites."""
    having: dict[Question, list[Suite]] = {}
    pairs = ((question, suite) for suite in suites for question in suite.versions.items())
    for question, suite in pairs:
        having.setdefault(question, []).append(suite)
    return having


def gather(
    desk: ListDesk, suites: list[Suite], listed: Iterable[str],
    progress: Callable[[int, str], None],
) -> None:
    """Asks the desk for the lists of all packages, and puts the answers to their suites."""
    having = questions_of(suites)
    questions = sorted(having)
    for question, answer in zip(questions, desk.lists(questions), strict=True):
        give(having[question], question[0], answer, listed)
        progress(len(questions), "lists")


def give(
    suites: list[Suite], package: str, answer: tuple[list[Bug], str | None], listed: Iterable[str],
) -> None:
    """Gives the list of a package to the suites that have it, or leaves it out of them."""
    bugs, refusal = answer
    for suite in suites:
        if refusal is None:
            suite.take(package, bugs, listed)
        else:
            suite.leave_out(package, refusal)


def listed_numbers(suites: Iterable[Suite]) -> list[int]:
    """The numbers of all bugs that are listed, ascending."""
    return sorted({
        bug.number for suite in suites for bugs in suite.listed.values() for bug in bugs
    })


# Two suites.


@dataclasses.dataclass
class Comparison:
    """What two suites have alone and in common.

    `counts` has by severity the numbers of bugs in the first alone, in the second alone, in both.
    The three others have the listed bugs of these kinds, by package.
    """

    first: Suite
    second: Suite
    counts: dict[str, tuple[int, int, int]]
    alone: dict[str, list[Bug]]
    brought: dict[str, list[Bug]]
    common: dict[str, list[Bug]]

    def versions_of(self, package: str) -> tuple[str | None, str | None]:
        """The versions of a package in both suites, None where it is in none."""
        return self.first.versions.get(package), self.second.versions.get(package)

    def differing(self) -> list[str]:
        """The packages whose versions differ, or that one of the suites has not, by name."""
        packages = self.first.versions.keys() | self.second.versions.keys()
        return sorted(package for package in packages if len(set(self.versions_of(package))) > 1)

    def total(self, place: int, severities: Iterable[str] = SEVERITIES) -> int:
        """How many bugs of these severities one column of the counts has."""
        return sum(self.counts[severity][place] for severity in severities)


def compare(first: Suite, second: Suite) -> Comparison:
    """Compares two suites."""
    counts = {}
    for severity in SEVERITIES:
        here, there = first.numbers[severity], second.numbers[severity]
        counts[severity] = len(here - there), len(there - here), len(here & there)
    in_first: set[int] = set().union(*first.numbers.values())
    in_second: set[int] = set().union(*second.numbers.values())
    return Comparison(
        first, second, counts,
        by_package([first], in_first - in_second),
        by_package([second], in_second - in_first),
        by_package([first, second], in_first & in_second))


def by_package(suites: Iterable[Suite], numbers: set[int]) -> dict[str, list[Bug]]:
    """The listed bugs that have these numbers, by package, each once in a package."""
    found: dict[str, dict[int, Bug]] = {}
    rows = (
        (package, bug) for suite in suites for package, bugs in suite.listed.items()
        for bug in bugs if bug.number in numbers
    )
    for package, bug in rows:
        found.setdefault(package, {})[bug.number] = bug
    return {
        package: sorted(found[package].values(), key=bug_order) for package in sorted(found)
    }


def bug_order(bug: Bug) -> tuple[int, int]:
    """The order of rows in a list of the desk."""
    return SEVERITIES.index(bug.severity), bug.number
