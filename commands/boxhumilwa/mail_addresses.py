"""What the recipient of a mail means: a report, commands, or something said about a bug."""

import re
from typing import NamedTuple

from .mail_reading import Mail, is_address

REPORT, CONTROL = "submit", "control"
DONE, FORWARDED = "done", "forwarded"
# What may follow the number of a bug.
SUFFIXES = ("", "quiet", "maintonly", "submitter", DONE, "close", FORWARDED)
NUMBERED = re.compile("([1-9][0-9]{0,8})(?:-([a-z]+))?")
TEXT_LIMIT = 200
# What stands before the @ of senders that are no persons.
MACHINES = re.compile("owner-.*|.*-(?:request|bounces?|owner)")
FIRST_WORD = re.compile("[^ ,;(]*")


class Target(NamedTuple):
    """What a mail is sent to: `submit`, `control`, or what stands after the number of a bug."""

    kind: str
    number: int | None
    domain: str

    def __str__(self) -> str:
        if self.number is None:
            return self.kind
        return f"{self.number}-{self.kind}" if self.kind else str(self.number)


def target_of(address: str, domain: str) -> Target | None:
    """What an address means, by what stands before its @ and before a +; None where it is none."""
    local, _, own = address.strip().strip("<>").rpartition("@") if "@" in address else (
        address.strip(), "", "")
    word = local.partition("+")[0].lower()
    place = domain or own or "localhost"
    if word in (REPORT, "bugs"):
        return Target(REPORT, None, place)
    if word == CONTROL:
        return Target(CONTROL, None, place)
    found = NUMBERED.fullmatch(word)
    if found is None or (found[2] or "") not in SUFFIXES:
        return None
    return Target(DONE if found[2] == "close" else found[2] or "", int(found[1]), place)


def is_ours(address: str, domain: str) -> bool:
    """Whether an address is one of the desk's."""
    own = address.rpartition("@")[2].lower() == domain.lower()
    return own and target_of(address, domain) is not None


def sender_of(mail: Mail) -> str:
    """The sender as the desk knows it: `Name <address>` where that is no longer than a text."""
    named = f"{mail.name} <{mail.address}>"
    return named if mail.name and len(named.encode()) <= TEXT_LIMIT else mail.address


# Answers.


def answered_to(sender: str | None, mail: Mail, domain: str) -> tuple[str, str]:
    """The address that an answer goes to, or why there is none."""
    envelope = mail.return_path if sender is None else sender
    if envelope is None:
        return "", "nobody said who the envelope's sender is"
    address = envelope.strip().strip("<>")
    local = address.lower().rpartition("@")[0] or address.lower()
    if not local or local == "mailer-daemon":
        return "", "its return path is empty"
    if MACHINES.fullmatch(local.partition("+")[0]):
        return "", "its return path is a machine's"
    if not is_address(address):
        return "", "its return path is no address"
    if is_ours(address, domain):
        return "", "its return path is the desk itself"
    return address, unanswered(mail)


def unanswered(mail: Mail) -> str:
    """Why a mail gets no answer, by its headers; nothing where it may get one."""
    if "x-boxhumilwa" in mail.headers:
        return "it is an answer of a desk"
    for value in mail.headers.get("auto-submitted", "").split("\n"):
        if first_word(value) not in ("", "no"):
            return "no person sent it: Auto-Submitted"
    for value in mail.headers.get("precedence", "").split("\n"):
        if first_word(value) in ("bulk", "junk", "list", "auto_reply"):
            return "no person sent it: Precedence"
    for name in ("List-Id", "X-Auto-Response-Suppress"):
        if name.lower() in mail.headers:
            return f"no person sent it: {name}"
    return ""


def first_word(value: str) -> str:
    """The first word of a header."""
    found = FIRST_WORD.match(value)
    return found[0] if found else ""
