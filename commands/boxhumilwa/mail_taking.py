"""One delivery of a mail: journal, desk, Maildir, answer, and the journal again.

Each step does nothing where it was done before, so a delivery that ended anywhere is just repeated.
"""

import functools
import hashlib
import itertools
import json
import os
import time
from collections.abc import Iterable, Iterator
from typing import NamedTuple

from . import mail_answers, mail_folders, mail_headers
from .desk_served import Place
from .faults import Fault
from .mail_addresses import CONTROL, REPORT, Target, answered_to, target_of
from .mail_answers import Outcome
from .mail_desk import MailDesk, Report, changed_bugs, settle
from .mail_journal import BEGUN, HELD, REFUSED, TAKEN, Journal, Row, locked
from .mail_plan import Plan, Refusal, Rules, plan_of, read_allowed
from .mail_reading import Mail, read_mail

KEY_LETTERS = 40
HOUR, MOST_ANSWERED = 3_600, 50
# A transcript is no longer than this, by far.
LARGEST_TRANSCRIPT = 400_000


class Settings(NamedTuple):
    """What the command line says of a delivery."""

    program: str
    store: str | None
    place: Place
    first: int
    folder: str
    to: str
    sender: str | None
    domain: str
    packages: str | None
    allow: str | None
    room: int
    wait: float


class Delivery(NamedTuple):
    """A mail that is being taken, and what it is taken with."""

    mail: Mail
    data: bytes
    rest: Iterable[bytes]
    target: Target | None
    key: str
    settings: Settings
    journal: Journal
    desk: MailDesk

    def to(self) -> tuple[str, str]:
        """The address that an answer goes to, or why there is none."""
        domain = self.target.domain if self.target else self.settings.domain
        return answered_to(self.settings.sender, self.mail, domain)


def key_of(mail: Mail, target: Target | None, to: str) -> str:
    """The key of a mail at its recipient."""
    words = json.dumps([str(target) if target else to, mail.identity])
    return hashlib.sha256(words.encode()).hexdigest()[:KEY_LETTERS]


def id_of(key: str) -> str:
    """The id at the desk of a mail's message."""
    return f"mail.{key}"


# Room.


def test_room(delivery: Delivery) -> None:
    """Sees that there is room for a mail, before anything is done."""
    size = delivery.journal.total() + len(delivery.data) + LARGEST_TRANSCRIPT
    test_size(delivery.settings, "bugs", size)


def test_size(settings: Settings, name: str, size: int) -> None:
    """A folder may not pass its size."""
    if size > settings.room:
        raise Fault(
            f"{os.path.join(settings.folder, name)}: it would have {size:,} bytes, and may have "
            f"{settings.room:,}: make room, or give it more by --room")


# Answers, and mails that are held.


def write_answer(delivery: Delivery, outcome: Outcome) -> None:
    """Puts the answer to a mail into the folder of answers."""
    out = os.path.join(delivery.settings.folder, "out")
    build = functools.partial(
        mail_answers.answer, delivery.to()[0], delivery.target, delivery.settings.domain)
    data = mail_answers.built(build, delivery.mail, outcome)
    test_size(delivery.settings, "out", mail_folders.size_of(out) + len(data))
    delivery.journal.note_answer(delivery.to()[0].lower(), time.time())
    mail_folders.put(out, f"{delivery.key}.eml", data)


def may_answer(delivery: Delivery, row: Row) -> str:
    """Why a mail gets no answer; nothing where it gets one."""
    address, reason = delivery.to()
    if reason:
        return reason
    count = delivery.journal.count_of(row.sender, row.time - HOUR, row.time)
    if count > MOST_ANSWERED:
        return f"its sender sent {count} mails in an hour"
    now = time.time()
    count = delivery.journal.answers_of(address.lower(), now - HOUR, now)
    return f"its sender got {count} answers in an hour" if count >= MOST_ANSWERED else ""


def within(pieces: Iterable[bytes], settings: Settings, size: int) -> Iterator[bytes]:
    """Pieces of a file, as long as their folder does not pass its size."""
    for piece in pieces:
        size += len(piece)
        test_size(settings, "held", size)
        yield piece


def hold(delivery: Delivery) -> None:
    """Keeps a mail whole that is neither carried out nor answered."""
    held = os.path.join(delivery.settings.folder, "held")
    pieces = itertools.chain([delivery.data], delivery.rest)
    mail_folders.keep(
        held, delivery.key, within(pieces, delivery.settings, mail_folders.size_of(held)))


def refuse(delivery: Delivery, row: Row, reason: str) -> str:
    """Answers a mail that is not carried out, or holds it, and tells which."""
    journal = delivery.journal
    journal.begin(row._replace(next=None, bug=None, plan={"refusal": reason}))
    silence = may_answer(delivery, row)
    if silence:
        hold(delivery)
        journal.set_plan(row.key, {"refusal": reason, "silence": silence})
        journal.end(row.key, HELD)
        return f"held: {first_line(reason)} ({silence})"
    number = delivery.target.number if delivery.target else None
    write_answer(delivery, Outcome(row.key, row.time, number, "", reason.split("\n"), ""))
    mail_folders.remove_held(delivery.settings.folder, row.key)
    journal.end(row.key, REFUSED)
    return f"refused: {first_line(reason)}"


def first_line(text: str) -> str:
    """The first line of a text."""
    return text.partition("\n")[0]


# What a mail asks.


def noted_plan(delivery: Delivery, row: Row) -> tuple[Plan, Row]:
    """The plan of a mail, and its row, both as the journal has them."""
    known = delivery.journal.mail(row.key)
    if known and known.state == BEGUN and "lines" in known.plan:
        plan, row = Plan(**known.plan), known
    else:
        test_room(delivery)
        settings = delivery.settings
        rules = Rules(settings.packages, read_allowed(settings.allow))
        plan = plan_of(delivery.mail, delivery.target, rules, delivery.desk)
        row = row._replace(plan=plan.value(), bug=plan.number)
    if plan.report and row.bug is None:
        row = row._replace(next=delivery.desk.next_number(delivery.journal.last_bug()))
    delivery.journal.begin(row)
    return plan, row


def bug_at_hand(delivery: Delivery, plan: Plan, row: Row) -> tuple[int | None, list[str]]:
    """The bug that a mail is about, which is made where it is a report; and what is told of it."""
    if not plan.report:
        return row.bug, []
    report = Report(*plan.report)
    number, is_bare = (row.bug, False) if row.bug else delivery.desk.report(report)
    if isinstance(number, str) or number is None:
        raise Refusal(f"The desk refuses the report: {number}")
    delivery.journal.set_bug(row.key, number)
    told = [f"Bug {number} is reported in {report.package}."]
    if is_bare:
        told.append(f"{report.version} is no version, and is left out.")
    return number, told


def message_lines(delivery: Delivery, plan: Plan, number: int | None) -> list[str]:
    """The lines that are sent to the desk."""
    if number is None:
        return plan.lines
    return mail_headers.sent_lines(mail_headers.control_lines(plan.lines, number))


def keep_all(delivery: Delivery, plan: Plan, outcome: Outcome) -> None:
    """Keeps the mail, and what it changed, with each bug that it is about or changed."""
    bugs = changed_bugs(outcome.transcript)
    if outcome.number is not None and outcome.number not in bugs:
        bugs.insert(0, outcome.number)
    kept = [(f"{delivery.mail.identity[:KEY_LETTERS]}.mail", delivery.data)]
    if outcome.transcript and delivery.target:
        build = functools.partial(mail_answers.transcript, plan.sender, delivery.target)
        kept.append((f"{delivery.key}.transcript", mail_answers.built(
            build, delivery.mail, outcome)))
    delivery.journal.keep(bugs, [(name, len(data)) for name, data in kept])
    for name, data in kept:
        other = ""
        for bug in bugs:
            other = mail_folders.keep(
                mail_folders.bug_folder(delivery.settings.folder, bug), name, [data], other)


def carry_out(delivery: Delivery, row: Row) -> str:
    """Carries out a mail, and tells what has become of it."""
    plan, row = noted_plan(delivery, row)
    number, told = bug_at_hand(delivery, plan, row)
    lines = message_lines(delivery, plan, number)
    transcript = delivery.desk.message(plan.sender, lines, id_of(row.key)) if lines else ""
    if delivery.target and delivery.target.kind not in (REPORT, CONTROL):
        told.append(f"Your mail is kept with bug {number}.")
    outcome = Outcome(row.key, row.time, number, plan.title, told + plan.notes, transcript)
    keep_all(delivery, plan, outcome)
    if plan.is_answered and not may_answer(delivery, row):
        write_answer(delivery, outcome)
    mail_folders.remove_held(delivery.settings.folder, row.key)
    delivery.journal.end(row.key, TAKEN)
    return f"taken: bug {number}" if number else "taken"


def deliver(delivery: Delivery) -> str:
    """Takes a mail, unless it was taken before, and tells what has become of it."""
    known = delivery.journal.mail(delivery.key)
    if known and known.state == TAKEN:
        return "taken before"
    settle(delivery.journal, delivery.desk)
    address, _ = delivery.to()
    row = delivery.journal.mail(delivery.key) or Row(
        delivery.key, BEGUN, time.time(), delivery.settings.to[:1_000], address.lower(),
        None, None, {})
    if row.state != BEGUN:
        row = row._replace(state=BEGUN, next=None, bug=None, plan={})
    try:
        return carry_out(delivery, row)
    except Refusal as refusal:
        return refuse(delivery, row, str(refusal))


def take(settings: Settings, data: bytes, rest: Iterable[bytes]) -> str:
    """Takes the bytes of a mail, and tells what has become of it."""
    mail = read_mail(data)
    target = target_of(settings.to, settings.domain)
    with locked(settings.folder, settings.wait) as lock:
        journal = Journal(settings.folder)
        try:
            desk = MailDesk(
                settings.program, settings.store, settings.place, settings.first, lock)
            key = key_of(mail, target, settings.to)
            told = deliver(Delivery(mail, data, rest, target, key, settings, journal, desk))
            for _ in rest:
                pass
            return told
        finally:
            journal.close()
