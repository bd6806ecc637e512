"""What a report says of what it can't see, as text, as JSON and on its page."""

from collections.abc import Iterable, Iterator

from .answers import Bug
from .markup import text, title
from .report import Suite, bug_line
from .terminal import plural
from .unseen import Unplaced, Unseen


def others_told(unseen: Unseen) -> str:
    """How many versions in no branch have no bug that doesn't count; empty where there is none."""
    counted = len(unseen.counted())
    others = len(unseen.versions) - counted
    return plural(others, "other version" if counted else "version") if others else ""


# Text.


def unseen_lines(suite: Suite) -> Iterator[str]:
    """The lines of what a suite's lists can't show."""
    unseen = suite.unseen or Unseen()
    if unseen.versions:
        yield ""
        yield f"{suite.name}: versions in no branch, where bugs found elsewhere don't count"
        yield ""
        yield from version_lines(unseen)
    if unseen.bugs:
        yield ""
        yield f"{suite.name}: open bugs found only at versions in no branch, and not listed"
    for package in sorted(unseen.bugs):
        yield ""
        yield f"{package} {suite.versions[package]}"
        for bug in unseen.bugs[package]:
            yield from unplaced_lines(bug)


def version_lines(unseen: Unseen) -> Iterator[str]:
    """How many bugs don't count at each version that is in no branch."""
    for package, version, numbers in unseen.counted():
        yield f"  {len(numbers):9,}  {package} {version}"
    if others_told(unseen):
        yield f"  {0:9}  {others_told(unseen)}"


def unplaced_lines(bug: Unplaced) -> Iterator[str]:
    """The row of a bug that no list has, and where it is found."""
    yield bug_line(Bug(bug.number, bug.severity, "open", bug.title))
    yield f"{'':13}found {' '.join(bug.found)}"


# JSON.


def unseen_value(unseen: Unseen | None) -> dict[str, object] | None:
    """What can't be seen, as JSON has it; None where that can't be told."""
    if unseen is None:
        return None
    return {
        "versions": [version._asdict() for version in unseen.versions],
        "bugs": {
            package: [bug._asdict() for bug in unseen.bugs[package]]
            for package in sorted(unseen.bugs)},
    }


# The page.


def is_unseen(suites: Iterable[Suite]) -> bool:
    """Whether there is something to say of what can't be seen."""
    return any(
        suite.unseen is None or suite.unseen.versions or suite.unseen.bugs for suite in suites)


def unseen_part(suites: list[Suite]) -> Iterator[str]:
    """What the report can't see, since no branch has a version."""
    yield '<h2 id="unseen">What this report can\'t see</h2>'
    yield "<p>At a version in no branch, bugs that are marked as found elsewhere don't count."
    yield "A bug that is found only at such versions is in the list of no version of a branch."
    yield "A branch with the version, or a mark at the right one, mends it.</p>"
    for suite in suites:
        if suite.unseen is None:
            yield f"<p>{text(suite.name)}: the desk's branches could not be read.</p>"
        else:
            yield from version_table(suite.name, suite.unseen)
            yield from unplaced_table(suite, suite.unseen)


def version_table(name: str, unseen: Unseen) -> Iterator[str]:
    """The versions of a suite that are in no branch, those with bugs that don't count by name."""
    if not unseen.versions:
        return
    yield f"<table><caption>{text(name)}: versions in no branch</caption>"
    yield '<thead><tr><th>Package<th>Version<th class="count">Bugs not counted</thead><tbody>'
    for package, version, numbers in unseen.counted():
        yield f'<tr><td class="text">{text(package)}<td class="text">{text(version)}'
        yield f'<td class="count">{len(numbers):,}'
    if others_told(unseen):
        yield f'<tr><td colspan="2">{others_told(unseen)}<td class="count">0'
    yield "</tbody></table>"


def unplaced_table(suite: Suite, unseen: Unseen) -> Iterator[str]:
    """The open bugs of a suite that no list has, by package."""
    if not unseen.bugs:
        return
    yield f"<h3>{text(suite.name)}: open bugs found only at versions in no branch</h3>"
    yield '<table class="bugs"><thead><tr><th class="number count">Bug<th class="severity">Severity'
    yield "<th>Title, and where it is found</thead>"
    for package in sorted(unseen.bugs):
        yield f'<tbody><tr><td class="package" colspan="3">{text(package)} '
        yield text(suite.versions[package])
        yield from map(unplaced_row, unseen.bugs[package])
        yield "</tbody>"
    yield "</table>"


def unplaced_row(bug: Unplaced) -> str:
    """The row of a bug that no list has."""
    return (
        f'<tr><td class="count">{bug.number}<td>{bug.severity}<td class="text">{title(bug.title)}'
        f'<br>found {text(" ".join(bug.found))}')
