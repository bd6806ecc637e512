"""Orders to a desk that are no message: a report, a branch, a list, a page.

Each is the line of a directive, whose words stand behind it, and is answered as a script is.
"""

import urllib.parse
from collections.abc import Callable

from .answers import PAGE_LINES, Unexpected, read_row
from .desk_served import Place
from .faults import BadWords
from .sending import (
    ACCEPTED,
    FAILED,
    REFUSED,
    Object,
    ask,
    error_of,
    no_desk,
    object_of,
    store_fault,
)
from .texts import BLANKS, cut_words, is_package_name, number_word, text_from

DONE, MADE, NOT_FOUND = 200, 201, (400, 404)


def answered(
    place: Place, status: int, text: str, wanted: Callable[[Object], str | None],
) -> tuple[str, int]:
    """The answer of a desk to a report or a branch: `wanted` makes it of the object where good."""
    if status not in (DONE, MADE):
        return f"NO {error_of(place, status, text)}\n", REFUSED
    answer = wanted(object_of(place, text))
    if answer is None:
        raise no_desk(place, text)
    return answer, ACCEPTED


def report(place: Place, sender: str, line: str) -> tuple[str, int]:
    """A new bug; the line is the package, the version, the severity and the title."""
    package, version, severity = cut_words(line)[:3]
    status, text = ask(place, "POST", "/bugs", {
        "from": sender, "package": package, "version": None if version == "-" else version,
        "severity": severity, "title": text_from(line, 3)})
    return answered(
        place, status, text,
        lambda value: f"OK {value['bug']}\n" if type(value.get("bug")) is int else None)


def branch(place: Place, _: str, line: str) -> tuple[str, int]:
    """A branch; the line is its versions, the newest first."""
    status, text = ask(place, "POST", "/branches", {"branch": cut_words(line)})
    return answered(place, status, text, lambda value: "OK\n" if value.get("ok") is True else None)


def is_well_formed(text: str, is_answer: Callable[[list[str]], bool]) -> bool:
    """Whether the lines of a text are such an answer."""
    try:
        return text.endswith("\n") and is_answer(text.removesuffix("\n").split("\n"))
    except Unexpected:
        return False


def question(
    place: Place, path: str, refusal: str, is_answer: Callable[[list[str]], bool],
) -> tuple[str, int]:
    """The answer to a question, or its refusal."""
    status, text = ask(place, "GET", path)
    if status == DONE and is_well_formed(text, is_answer):
        return text, ACCEPTED
    if status in NOT_FOUND and isinstance(object_of(place, text).get("error"), str):
        return f"NO {refusal}\n", REFUSED
    if status == FAILED:
        raise store_fault(place, object_of(place, text))
    raise no_desk(place, f"{status} {text}")


def is_list(lines: list[str], package: str, node: str) -> bool:
    """Whether lines are a list of bugs of this package at this version."""
    start = f"Bugs in {package} at {node}: "
    rows = [read_row(line) for line in lines[1:]]
    return lines[0] == f"{start}{len(rows)}"


def list_bugs(place: Place, _: str, line: str) -> tuple[str, int]:
    """The list of a package at a version."""
    package, version = cut_words(line)
    node = version if "/" in version else f"{package}/{version}"
    path = [urllib.parse.quote(part, safe="") for part in (package, *version.split("/"))]
    refusal = "bad version" if is_package_name(package) else "bad package name"
    return question(
        place, f"/list/{'/'.join(path)}", refusal, lambda lines: is_list(lines, package, node))


def show(place: Place, _: str, line: str) -> tuple[str, int]:
    """The page of a bug."""
    number = number_word(line.strip(BLANKS))
    return question(
        place, f"/bugs/{number}", f"no such bug {number}",
        lambda lines: lines[0] == f"Bug {number}" and len(lines) == PAGE_LINES)


def test_order(name: str, line: str) -> None:
    """Refuses a line that is no such order, before anything is sent."""
    words = cut_words(line)
    if name == "report" and len(words) < 3:
        raise BadWords("a report is PACKAGE VERSION SEVERITY TITLE")
    if name == "list" and len(words) != 2:
        raise BadWords("a list is PACKAGE VERSION")
    if name == "show" and (len(words) != 1 or number_word(words[0]) is None):
        raise BadWords("a page is that of N, the number of a bug")


ORDERS = {"report": report, "branch": branch, "list": list_bugs, "show": show}


def order_line(name: str, written: str) -> str:
    """The line of an order without its directive, which may stand before it."""
    words = cut_words(written)
    if not words[0].startswith("@"):
        return written
    if words[0] != f"@{name}":
        raise BadWords(f"{words[0]} is not @{name}: nothing is sent")
    return text_from(written, 1)
