"""What the gateway asks of a desk, and how a report is one bug, wherever a crash fell.

A report has no id.
So the number that is the desk's next one is noted before it is sent; where no number is noted after
it, the desk is searched from there on for a bug with this title and this submitter.
Before any other report is sent, this is settled, so that of all reports by mail at most one can be
meant by a bug that is found; what remains is a report of the same title and submitter by others
over the desk itself, between the note and the search.
"""

import re
from collections.abc import Iterator
from typing import NamedTuple

from . import orders, sending, sending_file
from .desk_file import FileDesk
from .desk_served import Place
from .faults import BadWords, Fault
from .mail_journal import Journal, Row
from .nodes import opened
from .sending import REFUSED

MOST_NUMBERS = 999_999_999
CHANGED = re.compile(r"^OK((?: [0-9]+)+)$", re.MULTILINE)
NO_VERSION = "NO bad version"
NEXT = "SELECT next FROM meta"


class Report(NamedTuple):
    """A report, as a desk takes it; without a version where that is empty."""

    sender: str
    package: str
    version: str
    severity: str
    title: str


class MailDesk:
    """A desk, in a file or served; `lock` is held by each run of the program that reports."""

    def __init__(
        self, program: str, store: str | None, place: Place, first: int, lock: int,
    ) -> None:
        self.program, self.store, self.place = program, store, place
        self.first, self.lock = first, lock

    # Questions.

    def page(self, number: int) -> dict[str, str] | None:
        """What the page of a bug says."""
        return next(self.pages([number]), None)

    def pages(self, numbers: "list[int] | range") -> Iterator[dict[str, str]]:
        """What the pages of bugs say, up to the first number that has none."""
        for text in self.texts(numbers):
            if text.startswith("NO "):
                return
            yield dict(line.partition(": ")[::2] for line in text.split("\n")[1:])

    def texts(self, numbers: "list[int] | range") -> Iterator[str]:
        """The pages of bugs, or what is said where there is none."""
        if self.store is not None:
            yield from FileDesk(self.program, self.store).pages(numbers)
            return
        for number in numbers:
            yield orders.show(self.place, "", str(number))[0]

    def next_number(self, known: int) -> int:
        """The number of the next bug, where this one may be known."""
        if self.store is not None:
            with opened(self.store) as connection:
                return int(connection.execute(NEXT).fetchone()[0])
        low, step = max(known, self.first - 1), 1
        while low + step <= MOST_NUMBERS and self.page(low + step):
            low, step = low + step, 2 * step
        return self.first_missing(low, min(low + step, MOST_NUMBERS + 1))

    def first_missing(self, low: int, high: int) -> int:
        """The first number that has no bug: above `low`, and `high` at most, which has none."""
        while high - low > 1:
            middle = (low + high) // 2
            if self.page(middle):
                low = middle
            else:
                high = middle
        return high

    # Changes.

    def report_once(self, report: Report) -> int | str:
        """The number of a report, or the words of its refusal."""
        sender, *words = report
        line = " ".join(word or "-" for word in words)
        if self.store is None:
            text, status = orders.report(self.place, sender, line)
        else:
            text, status = sending_file.outcome(
                self.program, [f"--store={self.store}", "run"], f"@from {sender}\n@report {line}\n",
                [self.lock])
        text = text.removesuffix("\n")
        if status == REFUSED and text.startswith("NO "):
            return text
        found = CHANGED.fullmatch(text)
        if found is None:
            raise no_desk("a report", text)
        return int(found[1])

    def report(self, report: Report) -> tuple[int | str, bool]:
        """The same, and whether it was sent without its version, which the desk calls bad."""
        answer = self.report_once(report)
        if answer == NO_VERSION and report.version:
            return self.report_once(report._replace(version="")), True
        return answer, False

    def message(self, sender: str, lines: list[str], word: str) -> str:
        """The transcript of a message that has an id, each line of which acts once."""
        try:
            if self.store is None:
                text = sending.send_once(self.place, sender, "\n".join(lines), word)[0]
            else:
                words = [it for line in lines for it in (line, ",")]
                text = sending_file.send_words(self.program, self.store, sender, words, word)[0]
        except BadWords as bad:
            return f"NO {bad}\n"
        if not text.startswith(("> ", "NO ")):
            raise no_desk("a message", text)
        return text


def no_desk(what: str, text: str) -> Fault:
    """The fault of an answer that no desk gives."""
    return Fault(f"the desk answered {what} by {text[:100]!r}, as no desk does")


def changed_bugs(transcript: str) -> list[int]:
    """The bugs that a transcript says were changed, each once."""
    numbers = (int(word) for found in CHANGED.finditer(transcript) for word in found[1].split())
    return list(dict.fromkeys(numbers))


# Reports that may have been made.


def found_bug(desk: MailDesk, row: Row) -> int | None:
    """The bug that a report has made whose number is not noted; None where it has made none."""
    start = row.next or 1
    report = Report(*row.plan["report"])
    end = desk.next_number(0) if desk.store is not None else MOST_NUMBERS + 1
    for number, page in enumerate(desk.pages(range(start, end)), start):
        if (page.get("Title"), page.get("Submitter")) == (report.title, report.sender):
            return number
    return None


def settle(journal: Journal, desk: MailDesk) -> None:
    """Notes of each report that may have made a bug whether it has, and which."""
    for row in journal.pending():
        journal.set_bug(row.key, found_bug(desk, row))
