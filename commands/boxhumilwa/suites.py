"""The suites that a command line names, as their indexes and the program's order say them."""

from collections.abc import Collection, Iterable

from .faults import Fault
from .indexes import Entry, candidates
from .report import Suite
from .versions import highest_versions


def read_suite(program: str, packages: Collection[str], name: str, path: str) -> Suite:
    """A suite, of which each source has one version; of named packages, where there are any."""
    refused: list[tuple[Entry, str]] = []
    found = candidates(
        path, set(packages), lambda entry, reason: refused.append((entry, reason)))
    doubled = {source: versions for source, versions in found.items() if len(versions) > 1}
    highest = highest_versions(
        program, doubled, lambda source, version, reason: refused.append(
            (Entry(source, version, found[source][version]), reason)))
    versions = {
        source: highest[source] if source in doubled else next(iter(choices))
        for source, choices in found.items() if source not in doubled or source in highest
    }
    lines = {source: found[source][version] for source, version in versions.items()}
    return Suite(name, path, versions, lines, refused)


def refusals(suites: Iterable[Suite]) -> Iterable[str]:
    """What is told of what is left out; a suite of which nothing is left ends the command."""
    for suite in suites:
        yield from suite.told_refusals()
        if suite.refused and not suite.versions:
            raise Fault(f"{suite.path}: the desk takes no package of it")
