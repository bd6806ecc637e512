"""What a desk answers of one bug: its page, and the versions that list it.

A version is written source/version here, as the desk writes it, and is called a node.
Whether a node is listed is read from the program's `@list` at that node alone.
"""

from collections.abc import Callable, Iterator
from typing import NamedTuple

from .answers import Unexpected, read_page
from .desk_file import FileDesk, asked
from .desk_served import ServedDesk
from .faults import Fault
from .listed_bugs import Desk, Listed, listed_at_port, read_listed

# What is told of each list that came, of so many.
TellOne = Callable[[int, str], None]
NONE = "-"
MISSING = "NO "
# Each has a line of its own on a page, and all but the title are words of ASCII.
FIELDS = (
    "Title", "Package", "Severity", "State", "Archived", "Found", "Fixed", "Merged with")


class Page(NamedTuple):
    """What the page of a bug says, as far as a picture shows it."""

    number: int
    title: str
    package: str
    severity: str
    state: str
    is_archived: bool
    found: tuple[str, ...]
    fixed: tuple[str, ...]
    merged: tuple[str, ...]

    def marks(self) -> list[str]:
        """The nodes that are marked, each once."""
        return list(dict.fromkeys([*self.found, *self.fixed]))


def words_of(value: str) -> tuple[str, ...]:
    """The words of a field, of which there is none where a hyphen stands."""
    return () if value == NONE else tuple(value.split(" "))


def page_of(number: int, text: str) -> Page:
    """The page of a bug from its text."""
    fields = dict(line.partition(": ")[::2] for line in text.split("\n")[1:])
    title, *others = (fields.get(name, "") for name in FIELDS)
    if not title or not all(value and value.isascii() and value.isprintable() for value in others):
        raise Fault(f"bug {number}: its page lacks a line that each page of a desk has")
    package, severity, state, archived, found, fixed, merged = others
    return Page(
        number, title, package, severity, state, archived == "yes",
        words_of(found), words_of(fixed), words_of(merged))


def page_text(desk: Desk, number: int) -> str:
    """The text of a bug's page, or the desk's words where there is no such bug."""
    (text,) = desk.pages([number])
    return text


# Lists.


def is_listed(answer: Listed, number: int) -> bool:
    """Whether a bug is in the list of a package at a node, which no desk refuses."""
    numbers, refusal = answer
    if refusal is not None:
        raise Unexpected(refusal)
    return number in numbers


def listed_in_file(desk: FileDesk, page: Page, nodes: list[str]) -> tuple[dict[str, bool], str]:
    """Whether each node lists the bug, and the text of its page after that, by one run."""
    script = [*(f"@list {page.package} {node}" for node in nodes), f"@show {page.number}"]

    def read(lines: Iterator[str]) -> Iterator[bool | str]:
        """Each answer, the page last."""
        yield from (
            is_listed(read_listed(lines, (page.package, node)), page.number) for node in nodes)
        yield read_page(lines, page.number)

    *states, text = asked(desk.program, desk.store, script, read)
    return {node: bool(state) for node, state in zip(nodes, states)}, str(text)


def node_lists(desk: ServedDesk, page: Page, node: str) -> bool:
    """Whether a node lists the bug, by a server."""
    try:
        return is_listed(listed_at_port(desk, (page.package, node)), page.number)
    except Unexpected as error:
        raise desk.place.no_desk(error) from error


def listed(
    desk: Desk, page: Page, nodes: list[str], tell_one: TellOne,
) -> tuple[dict[str, bool], str]:
    """Whether each node lists the bug, and the text of its page after that."""
    if isinstance(desk, ServedDesk):
        states = {}
        for node in nodes:
            states[node] = node_lists(desk, page, node)
            tell_one(len(nodes), "lists")
        return states, page_text(desk, page.number)
    return listed_in_file(desk, page, nodes)
