"""Mails that the gateway writes: answers to senders, and the transcripts that are kept with bugs.

What a mail says is in them as it is read, and is never read a second time: nothing of it becomes a
header.
"""

import email.header
import email.message
import email.policy
import email.utils
import re
from collections.abc import Callable, Iterable
from typing import NamedTuple

from .mail_addresses import CONTROL, Target
from .mail_reading import Mail, is_address, plain, well_formed

LONGEST_SUBJECT, LONGEST_LINE = 200, 900
REPEATED = re.compile(r"^(?:(?:re|fwd|bug ?#[0-9]+):\s*)+", re.IGNORECASE)
MARK = "X-Boxhumilwa"
# Answers are written with 8 bits nowhere, so that any server takes them.
POLICY = email.policy.default.clone(cte_type="7bit")
# The other policy reads encoded words in a header that is set, and what they hold can end it.
HEADERS = email.policy.compat32.clone(cte_type="7bit")


class Outcome(NamedTuple):
    """What has become of a mail: its key and its time, its bug, and the lines that tell of it."""

    key: str
    time: float
    number: int | None
    title: str
    told: list[str]
    transcript: str


def domain_of(target: Target | None, domain: str) -> str:
    """The domain of the desk's addresses."""
    word = target.domain if target else domain
    return word if is_address(f"a@{word}") else "localhost"


def subject_of(mail: Mail, outcome: Outcome) -> str:
    """The subject of an answer: its bug, and the title or what the mail was called."""
    title = REPEATED.sub("", outcome.title or mail.title)[:LONGEST_SUBJECT].strip()
    if outcome.number is None:
        return plain(f"Re: {title or 'your mail'}")
    return plain(f"Bug#{outcome.number}: {title or 'your mail'}")


def answer_text(mail: Mail, outcome: Outcome) -> str:
    """The text of an answer."""
    lines = list(outcome.told)
    if outcome.transcript:
        lines += ["", *outcome.transcript.removesuffix("\n").split("\n")]
    if mail.title:
        lines += ["", f"This answers the mail {mail.title[:LONGEST_SUBJECT]!r} "
                  f"of {mail.address or 'an unknown sender'}."]
    return "".join(f"{cut}\n" for line in lines for cut in pieces(line))


def pieces(line: str) -> Iterable[str]:
    """A line in pieces that mail allows."""
    return [line[at:at + LONGEST_LINE] for at in range(0, len(line), LONGEST_LINE)] or [""]


def header_value(name: str, value: str) -> str | email.header.Header:
    """The value of a header, in which nothing but a subject is more than plain words."""
    value = plain(value)
    if name != "Subject":
        return " ".join(word for word in value.split() if is_plain(word))
    return value if is_plain(value) else email.header.Header(value, "utf-8", header_name=name)


def is_plain(value: str) -> bool:
    """Whether a value is ASCII that no reader decodes."""
    return value.isascii() and "=?" not in value


def message(text: str, headers: dict[str, str]) -> bytes:
    """The bytes of a mail."""
    body = email.message.EmailMessage(policy=POLICY)
    body.set_content(well_formed(text))
    written = email.message.Message(policy=HEADERS)
    for name, text in headers.items():
        value = header_value(name, text)
        if value:
            written[name] = value
    for name, value in body.items():
        written[name] = str(value)
    written.set_payload(body.get_payload())
    return written.as_bytes()


def built(build: Callable[[Mail, Outcome], bytes], mail: Mail, outcome: Outcome) -> bytes:
    """A mail that is written, without what its headers take from another where that is at fault.

    Else the other would be tried again for ever, after all was done that it asks.
    """
    try:
        return build(mail, outcome)
    except Exception:
        bare = mail._replace(title="", message_id="", references=())
        return build(bare, outcome._replace(title=""))


def thread(mail: Mail) -> dict[str, str]:
    """The headers that tie a mail to the one that it answers."""
    return {"In-Reply-To": mail.message_id, "References": " ".join(mail.references)}


def answer(to: str, target: Target | None, domain: str, mail: Mail, outcome: Outcome) -> bytes:
    """The answer to a mail; who sends it gives it an empty return path."""
    place = domain_of(target, domain)
    own = f"{outcome.number or CONTROL}@{place}"
    return message(answer_text(mail, outcome), {
        "From": own, "To": to, "Subject": subject_of(mail, outcome), "Reply-To": own,
        "Date": email.utils.formatdate(outcome.time, usegmt=True),
        "Message-ID": f"<{outcome.key}.answer@{place}>", **thread(mail),
        "Auto-Submitted": "auto-replied", "Precedence": "bulk", MARK: "answer"})


def transcript(sender: str, target: Target, mail: Mail, outcome: Outcome) -> bytes:
    """The mail that is kept with each bug which a message has changed: who did what, and when."""
    place = domain_of(target, "")
    return message(
        "".join(f"{cut}\n" for line in [f"{sender} to {target}@:", "",
                                        *outcome.transcript.removesuffix("\n").split("\n")]
                for cut in pieces(line)),
        {"From": f"{CONTROL}@{place}", "To": mail.address, "Subject": "What a mail changed",
         "Date": email.utils.formatdate(outcome.time, usegmt=True),
         "Message-ID": f"<{outcome.key}.transcript@{place}>", **thread(mail),
         "Auto-Submitted": "auto-generated", MARK: "transcript"})
