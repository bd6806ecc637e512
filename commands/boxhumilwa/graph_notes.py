"""What is said beside a picture: what it lacks, and what lists can't show for want of a branch."""

from collections.abc import Iterable, Iterator

from .bug_pages import Page
from .nodes import Parents, read_nodes, source_of
from .picture_rows import Version
from .terminal import plural, safe

OPEN = "open"
# So many versions are named at which branches differ.
MOST_TOLD = 3


def unseen_notes(
    page: Page, parents: Parents, versions: dict[str, Version],
) -> Iterator[str]:
    """What is said where lists don't show the bug for want of a branch."""
    if not page.found or page.is_archived:
        return
    if page.state == OPEN and not set(page.found) & parents.keys():
        yield "It is found only at versions in no branch, so no version of a branch lists it."
    for node, version in versions.items():
        is_silent = version.is_listed is False and node not in page.marks()
        if is_silent and version.suites and node not in parents and (
                page.state == OPEN or page.fixed):
            names = safe(" and ".join(version.suites))
            yield f"{names} has {node}, in no branch: that it is found elsewhere doesn't count."


def differing_notes(given: Parents, store: str, sources: Iterable[str]) -> Iterator[str]:
    """What is said where the branches that are given differ from those of the desk's file."""
    own = read_nodes(store, sources)
    differing = [
        node for node in dict.fromkeys([*given, *own])
        if (node in given, given.get(node)) != (node in own, own.get(node))]
    if differing:
        told = safe(", ".join(differing[:MOST_TOLD])) + (", .." if differing[MOST_TOLD:] else "")
        yield f"The desk's own branches differ at {plural(len(differing), 'version')}: {told}."


def notes_of(
    page: Page, trees: list[list[str]], nodes: list[str], missing: list[str],
) -> Iterator[str]:
    """What is said of a picture that lacks something."""
    of_package = any(source_of(node) == page.package for tree in trees for node in tree)
    if not nodes:
        yield f"No version of {page.package} is known."
    elif not of_package:
        yield f"No branch has a version of {page.package}."
    for name in missing:
        yield f"{safe(name)} has no {page.package}."
