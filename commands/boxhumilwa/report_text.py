"""The report as plain text, and as JSON."""

import json
from collections.abc import Callable, Iterable, Iterator
from typing import TextIO

from .answers import SEVERITIES, Bug
from .report import CRITICAL, Comparison, Suite, at_least, bug_line
from .report_unseen import unseen_lines, unseen_value
from .terminal import capitalized, json_text, plural

NONE = "-"


def listed_title(severity: str) -> str:
    """What the bugs are called that are listed."""
    if severity == CRITICAL:
        return "release-critical bugs"
    if severity == SEVERITIES[-1]:
        return "bugs"
    if severity == SEVERITIES[0]:
        return "critical bugs"
    return f"bugs that are {severity} or graver"


# Text.


def suite_lines(suite: Suite, severity: str) -> Iterator[str]:
    """The lines of a suite: its figures, its worst packages, and the bugs listed."""
    critical = suite.count(at_least(CRITICAL))
    yield f"{suite.name}: {plural(len(suite.versions), 'package')}, {plural(suite.count(), 'bug')}"
    yield from unseen_lines(suite)
    yield ""
    yield from (f"  {name:<16}  {suite.count([name]):9,}" for name in SEVERITIES)
    yield f"  {'release-critical':<16}  {critical:9,}"
    if suite.critical:
        yield ""
        yield f"{suite.name}: packages with the most release-critical bugs"
        yield ""
        for package, count in suite.most():
            yield f"  {count:9,}  {package} {suite.versions[package]}"
    yield ""
    yield f"{suite.name}: {listed_title(severity)}"
    yield from package_lines(
        suite.listed, lambda package: f"{package} {suite.versions[package]}")


def package_lines(bugs: dict[str, list[Bug]], heading: Callable[[str], str]) -> Iterator[str]:
    """The bugs of packages, each package with its heading."""
    if not bugs:
        yield ""
        yield "  none"
    for package in sorted(bugs):
        yield ""
        yield heading(package)
        yield from map(bug_line, bugs[package])


def comparison_parts(comparison: Comparison) -> Iterator[tuple[str, dict[str, list[Bug]]]]:
    """The three parts of a comparison: a title, and the listed bugs by package."""
    first, second = comparison.first.name, comparison.second.name
    yield f"in {first} alone: {second}'s versions mend them", comparison.alone
    yield f"in {second} alone: {second}'s versions bring them", comparison.brought
    yield f"in both {first} and {second}", comparison.common


def comparison_lines(comparison: Comparison, severity: str) -> Iterator[str]:
    """The lines of a comparison."""
    first, second = comparison.first.name, comparison.second.name
    yield f"{first} and {second} compared"
    yield ""
    columns = (f"{first} alone", f"{second} alone", "both")
    widths = [max(9, len(column)) for column in columns]
    yield count_line("", columns, widths)
    for name in SEVERITIES:
        yield count_line(name, [f"{count:,}" for count in comparison.counts[name]], widths)
    totals = [f"{comparison.total(place, at_least(CRITICAL)):,}" for place in range(3)]
    yield count_line("release-critical", totals, widths)
    yield ""
    yield from part_lines(comparison, severity)
    yield from differing_lines(comparison)


def part_lines(comparison: Comparison, severity: str) -> Iterator[str]:
    """The listed bugs of a comparison, in its three parts."""
    for title, bugs in comparison_parts(comparison):
        yield f"{capitalized(listed_title(severity))} {title}"
        yield from package_lines(bugs, lambda package: versions_told(comparison, package))
        yield ""


def count_line(name: str, counts: Iterable[str], widths: Iterable[int]) -> str:
    """A line of a table of counts."""
    cells = [f"{count:>{width}}" for count, width in zip(counts, widths)]
    return "  ".join([f"  {name:<16}", *cells])


def versions_told(comparison: Comparison, package: str) -> str:
    """A package with its versions in both suites, in words."""
    first, second = comparison.versions_of(package)
    if first == second:
        return f"{package} {first} in both"
    if first and second:
        return f"{package} {first} -> {second}"
    missing = comparison.second if first else comparison.first
    return f"{package} {first or second}, not in {missing.name}"


def version_line(comparison: Comparison, package: str) -> str:
    """A package with its versions in both suites, a hyphen where there is none."""
    return " ".join([package, *(version or NONE for version in comparison.versions_of(package))])


def differing_lines(comparison: Comparison) -> Iterator[str]:
    """The lines of the packages whose versions differ."""
    first, second = comparison.first.name, comparison.second.name
    packages = comparison.differing()
    yield f"Packages whose versions differ, in {first} and in {second}: {len(packages):,}"
    if packages:
        yield ""
    for package in packages:
        yield f"  {version_line(comparison, package)}"


def write_text(
    output: TextIO, suites: list[Suite], comparison: Comparison | None, severity: str,
) -> None:
    """Writes the report as text."""
    for place, suite in enumerate(suites):
        if place:
            output.write("\n")
        output.writelines(f"{line}\n" for line in suite_lines(suite, severity))
    if comparison:
        output.write("\n")
        output.writelines(f"{line}\n" for line in comparison_lines(comparison, severity))


# JSON.


def bugs_value(bugs: dict[str, list[Bug]]) -> dict[str, object]:
    """Bugs by package, as JSON has them."""
    return {
        package: [bug._asdict() for bug in bugs[package]] for package in sorted(bugs)
    }


def suite_value(suite: Suite) -> dict[str, object]:
    """A suite, as JSON has it."""
    return {
        "name": suite.name,
        "packages": len(suite.versions),
        "bugs": suite.count(),
        "severities": {name: suite.count([name]) for name in SEVERITIES},
        "release_critical": suite.count(at_least(CRITICAL)),
        "most": [
            {"package": package, "version": suite.versions[package], "release_critical": count}
            for package, count in suite.most()
        ],
        "versions": {package: suite.versions[package] for package in suite.listed_packages()},
        "listed": bugs_value(suite.listed),
        "refused": [{**entry._asdict(), "reason": reason} for entry, reason in suite.refused],
        "unseen": unseen_value(suite.unseen),
    }


def comparison_value(comparison: Comparison) -> dict[str, object]:
    """A comparison, as JSON has it."""
    places = ("first_alone", "second_alone", "both")
    parts = (comparison.alone, comparison.brought, comparison.common)
    return {
        "first": comparison.first.name,
        "second": comparison.second.name,
        "severities": {
            name: dict(zip(places, comparison.counts[name])) for name in SEVERITIES
        },
        "listed": {place: bugs_value(bugs) for place, bugs in zip(places, parts)},
        "versions": {
            package: comparison.versions_of(package) for package in comparison.differing()
        },
    }


def write_json(
    output: TextIO, suites: list[Suite], comparison: Comparison | None, severity: str,
) -> None:
    """Writes the report as JSON."""
    value: dict[str, object] = {
        "severity": severity, "suites": [suite_value(suite) for suite in suites]}
    if comparison:
        value["comparison"] = comparison_value(comparison)
    output.write(json_text(json.dumps(value, ensure_ascii=False, indent=1)) + "\n")
