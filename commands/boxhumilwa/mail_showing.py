"""What was said about a bug, and what of the gateway's folder wants somebody's care."""

import email.message
import email.utils
import json
import os
import re
from collections.abc import Iterator
from typing import Any, NamedTuple

from . import mail_folders
from .faults import Fault
from .mail_journal import BEGUN, HELD, Journal
from .mail_reading import header_text, is_attached, message_of, own_parts, part_bytes, read_mail
from .terminal import json_text, plural, shown

HEADERS = ("From", "To", "Date", "Subject")
LONGEST_READ = 20_000_000
FROM = re.compile(rb"^(>*From )", re.MULTILINE)


class Said(NamedTuple):
    """A mail that is kept with a bug: its headers, its text, and the parts beside that."""

    headers: dict[str, str]
    text: str
    parts: list[dict[str, Any]]


# What was said.


def read_file(path: str) -> bytes:
    """The bytes of a mail that is kept."""
    try:
        with open(path, "rb") as file:
            return file.read(LONGEST_READ)
    except OSError as error:
        raise Fault(f"{path}: it can't be read: {error.strerror}") from error


def part_told(part: email.message.Message) -> dict[str, Any]:
    """What is told of a part that is not the text of a mail."""
    try:
        name = part.get_filename() or ""
    except (ValueError, LookupError, TypeError):
        name = ""
    return {
        "type": header_text(part.get_content_type()), "name": header_text(name)[:200],
        "bytes": len(part_bytes(part))}


def said(path: str) -> Said:
    """A mail that is kept."""
    data = read_file(path)
    mail = read_mail(data)
    message = message_of(data)
    headers = {name: header_text(message.get(name)) for name in HEADERS}
    parts = own_parts(message)
    text = next((it for it in parts if it.get_content_type() == "text/plain"
                 and not is_attached(it)), None)
    others = [part_told(it) for it in parts if it is not text]
    return Said(headers, mail.text, others if len(parts) > 1 or not mail.text else [])


def said_lines(it: Said) -> Iterator[str]:
    """The lines of a mail for a terminal."""
    yield from (f"{name}: {shown(value)}" for name, value in it.headers.items() if value)
    for part in it.parts:
        name = f"{part['name']!r}, " if part["name"] else ""
        yield f"Part: {shown(name)}{shown(part['type'])}, {plural(part['bytes'], 'byte')}"
    yield ""
    yield from (shown(line) for line in it.text.rstrip("\n").split("\n"))


def show_lines(paths: list[str]) -> Iterator[str]:
    """The lines of all mails, with a rule between two."""
    for place, path in enumerate(paths):
        if place:
            yield from ("", "-" * 72, "")
        yield from said_lines(said(path))


def json_lines(paths: list[str]) -> Iterator[str]:
    """The same as lines of JSON, one for each mail."""
    for path in paths:
        it = said(path)
        value = {name.lower(): text for name, text in it.headers.items()}
        yield json_text(json.dumps(
            value | {"text": it.text, "parts": it.parts}, ensure_ascii=False))


def envelope_line(path: str) -> bytes:
    """The line of an mbox that begins a mail."""
    address = read_mail(read_file(path)).address or "MAILER-DAEMON"
    seconds = int(os.stat(path).st_mtime)
    words = email.utils.formatdate(seconds, usegmt=True).replace(",", "").split()
    day, number, month, year, clock = words[:5]
    return f"From {address} {day} {month} {int(number):2} {clock} {year}\n".encode()


def mbox_pieces(paths: list[str]) -> Iterator[bytes]:
    """An mbox of mails, in which a line that begins with From is quoted."""
    for path in paths:
        data = read_file(path).replace(b"\r\n", b"\n")
        data = re.sub(rb"\A(?:>?From [^\n]*\n)+", b"", data).rstrip(b"\n") + b"\n"
        yield envelope_line(path) + FROM.sub(rb">\1", data) + b"\n"


# What wants care.


class State(NamedTuple):
    """The state of a folder: mails that are held, mails that were begun, and sizes."""

    held: list[dict[str, Any]]
    begun: list[dict[str, Any]]
    sizes: dict[str, int]
    answers: int


def held_mail(folder: str, path: str, journal: Journal) -> dict[str, Any]:
    """What is told of a mail that is held."""
    row = journal.mail(os.path.basename(path).partition(":")[0])
    plan = row.plan if row else {}
    return {
        "file": os.path.relpath(path, folder), "to": row.recipient if row else "",
        "sender": row.sender if row else "",
        "reason": str(plan.get("refusal", "the journal does not know it")).partition("\n")[0],
        "silence": str(plan.get("silence", ""))}


def state_of(folder: str, journal: Journal) -> State:
    """The state of a folder, whose kept mails are counted anew."""
    sizes = {name: mail_folders.size_of(os.path.join(folder, name))
             for name in ("bugs", "held", "out")}
    journal.set_total(sizes["bugs"])
    held = [held_mail(folder, it.path, journal) for it in sorted(
        mail_folders.files_of(os.path.join(folder, "held")), key=lambda it: it.name)]
    begun = [{"to": row.recipient, "sender": row.sender, "since": row.time}
             for row in journal.rows("state = ?", BEGUN)]
    answers = sum(it.name.endswith(".eml") for it in mail_folders.files_of(
        os.path.join(folder, "out")))
    return State(held, begun, sizes, answers)


def state_lines(it: State) -> Iterator[str]:
    """The lines that tell the state of a folder."""
    for mail in it.held:
        reasons = f"{mail['reason']} ({mail['silence']})" if mail["silence"] else mail["reason"]
        yield shown(f"{HELD}: {mail['file']} to {mail['to']} from {mail['sender'] or '<>'}: "
                    f"{reasons}")
    for mail in it.begun:
        since = email.utils.formatdate(mail["since"], usegmt=True)
        yield shown(f"not ended: to {mail['to']} from {mail['sender'] or '<>'} since {since}")
    for name, size in it.sizes.items():
        yield f"{name}: {size:,} bytes"
    yield f"answers that wait: {it.answers:,}"
