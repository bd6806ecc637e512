"""Which bugs versions have, as the program's own lists say it."""

import urllib.parse
from collections.abc import Iterator

from .answers import Unexpected, next_line, read_row
from .desk_file import FileDesk, asked
from .desk_served import ServedDesk

Desk = FileDesk | ServedDesk
# A package, and the version at which its bugs are listed, as source/version or as its own.
Question = tuple[str, str]
# The numbers of a list, and why it is refused.
Listed = tuple[set[int], str | None]
REFUSED_BY_SERVER: Listed = (set(), "the server answers 404: a bad name or version")
BAD_DIRECTIVE = "Bad directive."


def node_of(question: Question) -> str:
    """The version of a question with its source."""
    package, version = question
    return version if "/" in version else f"{package}/{version}"


def read_listed(lines: Iterator[str], question: Question) -> Listed:
    """The numbers of a list."""
    heading = next_line(lines)
    if heading.startswith("NO ") or heading == BAD_DIRECTIVE:
        return set(), heading
    start = f"Bugs in {question[0]} at {node_of(question)}: "
    count = heading.removeprefix(start)
    if not heading.startswith(start) or not count.isdecimal():
        raise Unexpected(heading)
    return {read_row(next_line(lines)).number for _ in range(int(count))}, None


def listed_in_file(desk: FileDesk, questions: list[Question]) -> Iterator[Listed]:
    """The numbers of each list, by one run of the program."""
    return asked(
        desk.program, desk.store, (f"@list {' '.join(question)}" for question in questions),
        lambda lines: (read_listed(lines, question) for question in questions))


def listed_at_port(desk: ServedDesk, question: Question) -> Listed:
    """The numbers of a list, by a server."""
    words = [question[0], *question[1].split("/")]
    path = "/list/" + "/".join(urllib.parse.quote(word, safe="") for word in words)
    return desk.read(path, lambda lines: read_listed(lines, question), REFUSED_BY_SERVER)


def listed(desk: Desk, questions: list[Question]) -> Iterator[Listed]:
    """The numbers of each list, and why it is refused."""
    if isinstance(desk, ServedDesk):
        return (listed_at_port(desk, question) for question in questions)
    return listed_in_file(desk, questions)
