"""One mail as a record: who says it, its title, its text, and what answers depend on.

Any bytes are read: what is no mail has no sender, and what can't be decoded is replaced and told.
Headers are cut at a length, since the standard library takes too long on longer ones.
"""

import email
import email.errors
import email.header
import email.message
import email.policy
import email.utils
import hashlib
import json
import re
from typing import NamedTuple

from .mail_flowed import unflowed

LARGEST = 10_000_000
LONGEST_HEADER = 10_000
# How many parts may hold parts, and that times the lines, each of which is tried for each end.
MOST_NESTED, MOST_TRIES = 300, 20_000_000
NESTING = re.compile(rb"content-type:\s*(?:multipart|message)/", re.IGNORECASE)
ADDRESS = re.compile(
    r"[A-Za-z0-9!#$%&'*+/=?^_`{|}~-]+(?:\.[A-Za-z0-9!#$%&'*+/=?^_`{|}~-]+)*"
    r"@[A-Za-z0-9](?:[A-Za-z0-9-]*[A-Za-z0-9])?(?:\.[A-Za-z0-9](?:[A-Za-z0-9-]*[A-Za-z0-9])?)*")
LONGEST_ADDRESS = 200
# The headers that answers depend on, and how many of each are looked at.
ASKED = ("auto-submitted", "precedence", "list-id", "x-auto-response-suppress", "x-boxhumilwa",
         "x-debbugs-no-ack")
MOST_SAME = 100
IDENTITY = re.compile("<[!-;=?-~]{1,240}>")
# Codecs of Python that are no charsets of mails, and may be slow or read escapes.
NO_CHARSETS = ("idna", "punycode", "unicode_escape", "unicode-escape", "raw_unicode_escape",
               "raw-unicode-escape", "undefined")
# An encoded word, or a backslash outside of one.
BACKSLASH = re.compile(r"(=\?[^?]*\?[qb]\?.*?\?=)|\\", re.IGNORECASE)
CONTROL = re.compile("[\x00-\x1f\x7f]+")
# What went wrong with the text of a mail.
TOO_BIG, TOO_DEEP, ONLY_HTML, TEXTLESS = "too big", "too deep", "only HTML", "no text"


class Mail(NamedTuple):
    """What is read of a mail.

    `wrong` is empty where it has a text, `notes` tell what was replaced, and `identity` is a hash
    of its Message-ID (its Subject and Date where it has none), its From and its body.
    """

    identity: str
    name: str
    address: str
    title: str
    recipients: tuple[str, ...]
    message_id: str
    references: tuple[str, ...]
    return_path: str | None
    headers: dict[str, str]
    text: str
    wrong: str
    notes: tuple[str, ...]


class Bounded(email.policy.Compat32):
    """The reading of the standard library, with headers of a bounded length."""

    def header_source_parse(self, sourcelines: list[str]) -> tuple[str, str]:
        """The name and the value of a header."""
        name, value = super().header_source_parse(sourcelines)
        return name, value[:LONGEST_HEADER]

    def header_fetch_parse(self, name: str, value: str) -> str:
        """The value of a header as it stands; a byte that is no ASCII is a surrogate."""
        return value


POLICY = Bounded()


# Texts.


def plain(text: str) -> str:
    """A text on one line, in which control characters and line breaks are blanks."""
    return " ".join(CONTROL.sub(" ", well_formed(text)).split())


def well_formed(text: str) -> str:
    """A text that UTF-8 can write."""
    return text.encode(errors="replace").decode()


def decoded(data: bytes, charset: str) -> tuple[str, str]:
    """The text of bytes, and what has to be told of it."""
    try:
        if charset.strip().lower() in NO_CHARSETS:
            raise LookupError
        return well_formed(data.decode(charset or "us-ascii")), ""
    except (LookupError, ValueError):
        pass
    try:
        text = data.decode()
        is_plain = charset.lower() in ("", "us-ascii", "ascii")
        return text, "" if is_plain else f"its charset {plain(charset)[:40]!r} is not what it has"
    except UnicodeDecodeError:
        return data.decode(errors="replace"), "bytes that are no text were replaced"


def header_text(value: object) -> str:
    """The text of a header, whatever stands in it, on one line."""
    raw = raw_text(value)
    try:
        # Plain pieces beside encoded words come back with escapes, so a backslash goes in as one.
        pieces = email.header.decode_header(
            BACKSLASH.sub(lambda found: found[1] or r"\u005c", raw))
    except (email.errors.HeaderParseError, ValueError):
        return plain(raw)
    return plain("".join(
        raw if isinstance(piece, str)
        else piece.decode("raw-unicode-escape", "replace") if charset is None
        else decoded(piece, charset)[0]
        for piece, charset in pieces))


def raw_text(value: object) -> str:
    """A header before encoded words are read; its bytes are UTF-8, or else Latin 1."""
    data = str(value or "").encode(errors="surrogateescape")
    try:
        return data.decode()
    except UnicodeDecodeError:
        return data.decode("latin-1")


def is_address(word: str) -> bool:
    """Whether a word is an address that mail can be sent to, and that no reader decodes."""
    is_short = len(word) <= LONGEST_ADDRESS and "=?" not in word
    return is_short and ADDRESS.fullmatch(word) is not None


def addresses(value: object) -> list[tuple[str, str]]:
    """The names and the addresses of a header."""
    try:
        pairs = email.utils.getaddresses([" ".join(raw_text(value).split())])
    except (RecursionError, IndexError, ValueError):
        return []
    return [
        (re.sub('[<>"]', "", header_text(name)).strip(), address) for name, address in pairs
        if is_address(address)]


# The text of a mail.


def is_too_deep(data: bytes) -> bool:
    """Whether a mail is nested too deep, or too deep for its many lines."""
    if not NESTING.search(head_of(data)):
        return False
    depth = sum(1 for _ in NESTING.finditer(data))
    return depth > MOST_NESTED or (depth > 1 and depth * data.count(b"\n") > MOST_TRIES)


def own_parts(message: email.message.Message) -> list[email.message.Message]:
    """The parts of a mail that hold no parts, without those of mails inside it."""
    waiting, found = [message], []
    while waiting:
        part = waiting.pop()
        # What a part without parts holds is not asked for here: that would decode it.
        if part.is_multipart() and part.get_content_maintype() == "multipart":
            inner = part.get_payload()
            waiting.extend(reversed([it for it in inner if isinstance(it, email.message.Message)]))
        else:
            found.append(part)
    return found


def part_bytes(part: email.message.Message) -> bytes:
    """What a part holds, decoded as its transfer encoding says."""
    try:
        payload = part.get_payload(decode=True)
    except (ValueError, AssertionError):
        payload = None
    return payload if isinstance(payload, bytes) else b""


def parameter(part: email.message.Message, name: str) -> str:
    """A parameter of the type of a part."""
    value = part.get_param(name, "")
    return str(value[2] if isinstance(value, tuple) else value)


def part_text(part: email.message.Message) -> tuple[str, str]:
    """The text of a part, with line feeds alone, and what has to be told of it."""
    text, note = decoded(part_bytes(part), parameter(part, "charset"))
    text = text.replace("\r\n", "\n")
    if parameter(part, "format").lower() == "flowed":
        text = unflowed(text, parameter(part, "delsp").lower() == "yes")
    return text, note


def is_attached(part: email.message.Message) -> bool:
    """Whether a part is an attachment, and not what the mail says."""
    return str(part.get("content-disposition", "")).strip().lower().startswith("attachment")


def text_of(message: email.message.Message) -> tuple[str, str, str]:
    """The text of a mail, what is wrong with it, and what has to be told of it."""
    parts = own_parts(message)
    for part in parts:
        if part.get_content_type() == "text/plain" and not is_attached(part):
            text, note = part_text(part)
            if text.strip():
                return text, "", note
    is_html = any(part.get_content_type() == "text/html" for part in parts)
    return "", ONLY_HTML if is_html else TEXTLESS, ""


# The record.


def own_name(message: email.message.Message) -> str:
    """What stands for the Message-ID of a mail that has none."""
    return json.dumps([" ".join(raw_text(message.get(it)).split()) for it in ("subject", "date")])


def identity_of(message_id: str, sender: str, body: bytes) -> str:
    """A hash of a mail's Message-ID, of its From, and of its body, whatever ends its lines."""
    digest = hashlib.sha256(body.replace(b"\r\n", b"\n").rstrip(b"\n")).hexdigest()
    words = json.dumps([message_id, " ".join(sender.split()), digest])
    return hashlib.sha256(words.encode()).hexdigest()


def body_of(data: bytes) -> bytes:
    """What follows the head of a mail."""
    found = re.search(rb"\r?\n\r?\n", data)
    return data[found.end():] if found else b""


def head_of(data: bytes) -> bytes:
    """The head of a mail, with the empty line."""
    return data[:len(data) - len(body_of(data))]


def identities(value: object) -> tuple[str, ...]:
    """The Message-IDs of a header."""
    return tuple(IDENTITY.findall(raw_text(value)))


def message_of(data: bytes) -> email.message.Message:
    """The message of bytes; the lines of a body without parts are not looked at one by one."""
    head, body = head_of(data), body_of(data)
    message = email.message_from_bytes(head, policy=POLICY)
    # What stands above the empty line and is no header belongs to the body.
    if NESTING.search(head) or part_bytes(message):
        return email.message_from_bytes(data, policy=POLICY)
    message.set_payload(body.decode("ascii", "surrogateescape"))
    return message


def parsed(data: bytes) -> tuple[email.message.Message, str, str, str]:
    """The message of bytes, its text, what is wrong with it, and what has to be told."""
    wrong = TOO_BIG if len(data) > LARGEST else TOO_DEEP if is_too_deep(data) else ""
    try:
        if not wrong:
            message = message_of(data)
            return message, *text_of(message)
    except (RecursionError, ValueError, LookupError, AttributeError, TypeError):
        wrong = TOO_DEEP
    head = head_of(data)[:LARGEST // 10]
    return email.message_from_bytes(head, policy=POLICY), "", wrong, ""


def headers_of(message: email.message.Message, name: str) -> str:
    """The first headers of a name, each on a line and in lower case."""
    return "\n".join(header_text(it).lower() for it in message.get_all(name, [])[:MOST_SAME])


def read_mail(data: bytes) -> Mail:
    """The record of a mail."""
    data = re.sub(rb"\A(?:>?From [^\n]*\n)+", b"", data)
    message, text, wrong, note = parsed(data)
    senders = addresses(message.get("from"))
    name, address = senders[0] if senders else ("", "")
    message_id = (identities(message.get("message-id")) or ("",))[0]
    earlier = identities(message.get("references")) or identities(message.get("in-reply-to"))
    path = message.get("return-path")
    return Mail(
        identity_of(
            message_id or own_name(message), raw_text(message.get("from")), body_of(data)),
        name, address, header_text(message.get("subject")),
        tuple(address for _, address in addresses(message.get("to"))),
        message_id, (earlier + ((message_id,) if message_id else ()))[-20:],
        None if path is None else raw_text(path).strip().strip("<>"),
        {it: headers_of(message, it) for it in ASKED if it in message},
        text, wrong, (note,) if note else ())

