"""What a picture of a bug's versions shows: its rows, from the newest version down.

A row is one version, or a chain of versions that are folded.
It stands in a lane: the line of the highest version has the lane 0, and a branch that leaves a line
has the next lane, above the version that it leaves.
"""

import dataclasses
import itertools
from collections.abc import Callable, Iterator, Mapping
from typing import Any, NamedTuple, TypeVar

from .bug_pages import Page
from .nodes import Children, Parents, children_of, source_of

# What ranks a node; the nodes of a tree from its oldest up, with lanes.
Rank = tuple[bool, int]
Stack = list[tuple[str, int, bool]]
Worth = TypeVar("Worth")
# Where the highest versions would need more lanes, the longest lines go first.
MOST_LANES = 20
FEWEST_FOLDED = 2


class Version(NamedTuple):
    """A version; `is_listed` is None where the desk was not asked.

    `is_end` says that no version is based on it, and `is_head` that it is a head of the package.
    """

    node: str
    is_listed: bool | None
    is_found: bool
    is_fixed: bool
    is_head: bool
    is_end: bool
    suites: tuple[str, ...]

    def is_told(self) -> bool:
        """Whether something is told of it, so that it is not folded."""
        return bool(self.is_found or self.is_fixed or self.is_end or self.suites)


class Row(NamedTuple):
    """Versions that follow one another, the newest first, in a lane.

    `base` is the node on which the last of them is based, and `leaves` whether that one is in the
    next lane to the left.
    """

    versions: tuple[Version, ...]
    lane: int
    base: str | None
    leaves: bool


@dataclasses.dataclass
class Picture:
    """The rows of each tree, those of versions in no branch, and what else is said.

    `parents` has what each version in a tree is based on.
    """

    page: Page
    trees: list[list[Row]]
    alone: list[Row]
    notes: list[str]
    parents: Parents

    def rows(self) -> list[Row]:
        """All rows."""
        return [*itertools.chain(*self.trees), *self.alone]

    def versions(self) -> list[Version]:
        """All versions."""
        return [version for row in self.rows() for version in row.versions]

    def lanes(self) -> int:
        """How many lanes the rows need."""
        return 1 + max((row.lane for row in self.rows()), default=0)


# The order of branches.


def gathered(
    tree: list[str], parents: Parents, worth: Callable[[str], Worth],
    together: Callable[[Worth, Worth], Worth],
) -> dict[str, Worth]:
    """What the worths of a node and of all above it are together, for each node of a tree."""
    found = {node: worth(node) for node in tree}
    for node in reversed(tree[1:]):
        base = parents[node]
        if base is not None:
            found[base] = together(found[base], found[node])
    return found


def arranged(
    tree: list[str], children: Children, worths: Mapping[str, Any],
) -> dict[str, list[str]]:
    """The nodes based on each node, the one of the greatest worth first."""
    return {
        node: sorted(children.get(node, ()), key=worths.__getitem__, reverse=True) for node in tree
    }


def stacked(children: dict[str, list[str]], root: str) -> Iterator[tuple[str, int, bool]]:
    """The nodes of a tree from its oldest up, each with its lane and whether it leaves another."""
    waiting = [(root, 0, False)]
    while waiting:
        node, lane, leaves = waiting.pop()
        yield node, lane, leaves
        line, branches = children[node][:1], children[node][1:]
        waiting.extend((child, lane, False) for child in line)
        waiting.extend((child, lane + 1, True) for child in branches)


def higher(one: Rank, other: Rank) -> Rank:
    """The higher of two ranks."""
    return max(one, other)


def stack_of(tree: list[str], parents: Parents, rank: Callable[[str], Rank]) -> Stack:
    """The nodes of a tree from its oldest up, with their lanes."""
    children = children_of({node: parents[node] for node in tree})
    highest = gathered(tree, parents, rank, higher)
    stack = list(stacked(arranged(tree, children, highest), tree[0]))
    if max(lane for _, lane, _ in stack) < MOST_LANES:
        return stack
    sizes = gathered(tree, parents, lambda _: 1, int.__add__)
    return list(stacked(arranged(tree, children, sizes), tree[0]))


# Rows.


def rows_of(
    stack: Stack, parents: Parents, versions: dict[str, Version], forks: set[str],
) -> list[Row]:
    """The rows of a tree, the newest first; `forks` are the nodes with several based on them."""
    def fold_key(place: int) -> tuple[int | None, bool | None]:
        """What neighbours in a chain that is folded have in common."""
        version = versions[stack[place][0]]
        is_single = version.is_told() or version.node in forks
        return (place, None) if is_single else (None, version.is_listed)

    rows: list[Row] = []
    for (single, _), group in itertools.groupby(range(len(stack)), fold_key):
        places = list(group)
        is_folded = single is None and len(places) >= FEWEST_FOLDED
        chains = [places] if is_folded else [[place] for place in places]
        rows.extend(row_of(stack, parents, versions, chain) for chain in chains)
    return rows[::-1]


def row_of(stack: Stack, parents: Parents, versions: dict[str, Version], places: list[int]) -> Row:
    """The row of these places of a stack, which are ascending."""
    oldest, lane, leaves = stack[places[0]]
    chain = tuple(versions[stack[place][0]] for place in reversed(places))
    return Row(chain, lane, parents[oldest], leaves)


def rank_of(package: str, order: dict[str, int]) -> Callable[[str], Rank]:
    """What ranks nodes: those of the package are above others, and then the order counts."""
    return lambda node: (source_of(node) == package, order[node])


def make_picture(
    page: Page, parents: Parents, trees: list[list[str]], versions: dict[str, Version],
    order: dict[str, int], notes: list[str],
) -> Picture:
    """The picture of a bug: `versions` has those of the trees, and those in no branch."""
    rank = rank_of(page.package, order)
    highest = [(max(map(rank, tree)), tree) for tree in trees]
    placed = set(itertools.chain(*trees))
    based = {node: parents[node] for node in placed}
    children = children_of(based)
    forks = {node for node, above in children.items() if node and len(above) > 1}
    drawn = [
        rows_of(stack_of(tree, parents, rank), parents, versions, forks)
        for _, tree in sorted(highest, reverse=True)
    ]
    alone = sorted((node for node in versions if node not in placed), key=rank, reverse=True)
    return Picture(
        page, drawn, [Row((versions[node],), 0, None, False) for node in alone], notes,
        based)
