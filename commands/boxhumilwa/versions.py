"""The order of versions, as the program has it: a new desk in memory is asked for it."""

from collections.abc import Callable, Collection, Iterable, Iterator, Mapping

from .desk_file import FileDesk, asked
from .faults import Fault

# The versions of each source, and what is told of a source and a version that a desk refuses.
Choices = Mapping[str, Collection[str]]
Refuse = Callable[[str, str, str], None]


def good_versions(program: str, choices: Choices, refuse: Refuse) -> dict[str, list[str]]:
    """The sources and those of their versions that a desk takes, as {source: [version]}."""
    questions = [(source, version) for source in choices for version in choices[source]]
    taken: dict[str, list[str]] = {}
    answers = FileDesk(program, None).lists(questions)
    for (source, version), (_, refusal) in zip(questions, answers, strict=True):
        if refusal is None:
            taken.setdefault(source, []).append(version)
        else:
            refuse(source, version, refusal)
    return taken


def order_script(taken: dict[str, list[str]]) -> Iterator[str]:
    """A script that reports a bug for each source, found in all its versions, and asks for it."""
    for number, (source, versions) in enumerate(taken.items(), 1):
        yield f"@report {source} - normal x"
        yield from (f"found {number} {source}/{version}" for version in versions)
        yield f"@show {number}"


def highest_versions(program: str, choices: Choices, refuse: Refuse) -> dict[str, str]:
    """Of each source of {source: versions} the highest version, by the program's order.

    A new desk in memory is told of a bug that is found in all of them, and shows them in order.
    What it refuses is handed on; a source of which it takes no version has none.
    """
    if not choices:
        return {}
    taken = good_versions(program, choices, refuse)
    found = list(asked(
        program, None, order_script(taken),
        lambda lines: (line for line in lines if line.startswith("Found: "))))
    if len(found) != len(taken):
        raise Fault(f"{program}: it does not show the order of versions")
    return {source: line.rpartition("/")[2] for source, line in zip(taken, found)}


def order_of(program: str, nodes: Iterable[str]) -> dict[str, int]:
    """The place of each node in the program's order, which is by source and then by version.

    A new desk in memory is told of a bug that is found in all of them, and shows them in order.
    """
    nodes = list(nodes)
    if len(nodes) < 2:
        return {node: place for place, node in enumerate(nodes)}
    script = ["@report aa - normal x", *(f"found 1 {node}" for node in nodes), "@show 1"]
    start = "Found: "
    found = list(asked(
        program, None, script, lambda lines: (line for line in lines if line.startswith(start))))
    order = found[0].removeprefix(start).split(" ") if found else []
    if set(order) != set(nodes):
        raise Fault(f"{program}: it does not show the order of versions")
    return {node: place for place, node in enumerate(order)}
