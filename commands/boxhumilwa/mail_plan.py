"""What a mail asks of a desk: a report, lines of a message, or nothing but to be kept.

It is decided once, and noted in the journal, so that a second delivery does the same.
"""

from typing import Any, NamedTuple

from . import mail_headers, sending
from .faults import BadWords, Fault
from .mail_addresses import CONTROL, DONE, FORWARDED, REPORT, TEXT_LIMIT, Target, is_ours, sender_of
from .mail_desk import MailDesk, Report
from .mail_headers import Pseudo
from .mail_reading import ONLY_HTML, TEXTLESS, TOO_BIG, TOO_DEEP, Mail
from .texts import is_package_name

ADDRESSES = """Mails are taken at these addresses, where N is the number of a bug:

  submit@                 a new bug, from the lines at the beginning of the text
  control@                commands, one on each line
  N@, N-quiet@, N-maintonly@, N-submitter@
                          something said about bug N
  N-done@, N-close@       the same, which closes the bug
  N-forwarded@            the same, which notes whom it was forwarded to
"""
EXAMPLE = """A report begins with lines such as these, then an empty line, then its text:

  Package: foo
  Version: 1.0-1
  Severity: important
"""
WRONG = {
    TOO_BIG: "The mail is longer than 10,000,000 bytes: send it without big attachments.",
    TOO_DEEP: "The mail has too many parts within parts: send its text alone.",
    ONLY_HTML: "The mail has only HTML, which is not read: send it as plain text.",
    TEXTLESS: "The mail has no plain text: write it as text, not as an attachment.",
}
LONGEST_WORDS = 999_999_999


class Refusal(Exception):
    """A mail that is not carried out; its text says why, and what to do."""


class Plan(NamedTuple):
    """What is done: a report, lines for the bug at hand, and what has to be told."""

    sender: str
    title: str
    report: list[str] | None
    number: int | None
    lines: list[str]
    notes: list[str]
    is_answered: bool

    def value(self) -> dict[str, Any]:
        """The same for the journal."""
        return self._asdict()


class Rules(NamedTuple):
    """What the command line says of mails: the file of packages, and who may send commands."""

    packages: str | None
    allowed: frozenset[str] | None

    def may_control(self, mail: Mail) -> bool:
        """Whether a sender may send commands."""
        return self.allowed is None or mail.address.lower() in self.allowed


def read_allowed(path: str | None) -> frozenset[str] | None:
    """The addresses of a file, one on each line; None without a file."""
    if path is None:
        return None
    try:
        with open(path, encoding="utf-8") as file:
            lines = [line.partition("#")[0].strip().lower() for line in file]
    except (OSError, UnicodeDecodeError) as error:
        reason = getattr(error, "strerror", None) or "not UTF-8"
        raise Fault(f"{path}: it can't be read: {reason}") from error
    return frozenset(line for line in lines if line)


# Parts of a plan.


def title_of(mail: Mail) -> tuple[str, list[str]]:
    """The title of a report, and what has to be told of it."""
    data = mail.title.encode()
    if len(data) <= TEXT_LIMIT:
        return mail.title, []
    title = data[:TEXT_LIMIT].decode(errors="ignore").rstrip()
    return title, [f"The title is cut, since it may have {TEXT_LIMIT} bytes."]


def general_notes(mail: Mail, pseudo: Pseudo) -> list[str]:
    """What has to be told of a mail whose pseudo-headers are read."""
    notes = [f"In its text {note}." for note in mail.notes]
    if pseudo.unknown:
        names = ", ".join(dict.fromkeys(name[:40] for name in pseudo.unknown[:10]))
        notes.append(f"These lines at its beginning mean nothing here: {names}.")
    if "x-debbugs-cc" in pseudo.values:
        notes.append("Copies (X-Debbugs-CC) are not sent yet.")
    return notes


def wants_answer(mail: Mail, pseudo: Pseudo) -> bool:
    """Whether its sender wants to hear that a mail was taken."""
    name = "x-debbugs-no-ack"
    return name not in mail.headers and name not in pseudo.values


def test_size(pseudo: Pseudo, sender: str, lines: list[str]) -> None:
    """Refuses more lines than may be carried out, before anything is done."""
    reason = mail_headers.too_many(pseudo, lines)
    if not reason:
        try:
            sending.body_of({"from": sender, "id": "i" * 100, "message": "\n".join(
                mail_headers.for_bug(line, LONGEST_WORDS) for line in lines)})
        except BadWords:
            reason = "The commands are too long: send them in several mails."
    if reason:
        raise Refusal(f"{reason}\nNothing of this mail was carried out.")


def bare_version(values: dict[str, str]) -> tuple[str, list[str]]:
    """The version of a mail, and what has to be told of one that is none."""
    word = values.get("version") or values.get("source-version") or ""
    if not word or (len(word) <= TEXT_LIMIT and word.isascii() and " " not in word
                    and "\t" not in word and word != "-"):
        return word, []
    return "", [f"{word[:40]!r} is no version, and is left out."]


def source_of(
    desk: MailDesk, rules: Rules, package: str, version: str,
) -> tuple[str, str, list[str]]:
    """The package and the version that a bug gets, and what has to be told of them."""
    if not version and not rules.packages:
        return package, version, []
    # Only here, since it reads packed files, and most mails name no version.
    from .mail_packages import settled
    known = settled(desk.program, desk.store, rules.packages, package, version)
    return known.package, known.version, list(known.notes)


# Plans.


def report_plan(mail: Mail, rules: Rules, desk: MailDesk) -> Plan:
    """What a report asks."""
    if mail.wrong:
        raise Refusal(f"{WRONG[mail.wrong]}\n\n{EXAMPLE}")
    pseudo = mail_headers.read_pseudo(mail.text)
    package = mail_headers.package_of(pseudo.values)
    if not package:
        raise Refusal(f"There is no line `Package:` at the beginning of its text.\n\n{EXAMPLE}")
    if not is_package_name(package):
        raise Refusal(f"{package[:100]!r} is no package's name.\n\n{EXAMPLE}")
    title, notes = title_of(mail)
    if not title:
        raise Refusal("It has no Subject, which is the title of the bug: send it with one.")
    version, told = bare_version(pseudo.values)
    severity, note = mail_headers.severity_of(pseudo.values)
    lines = mail_headers.field_lines(pseudo.values)
    if rules.may_control(mail):
        lines += pseudo.control
    elif pseudo.control:
        told.append(f"{mail.address} may send no commands: the lines Control were left out.")
    sender = sender_of(mail)
    test_size(pseudo, sender, lines)
    version = version.removeprefix(f"{package}/")
    package, version, named = source_of(desk, rules, package, version)
    notes += [*told, *([note] if note else []), *named, *general_notes(mail, pseudo)]
    report = Report(sender, package, version, severity, title)
    return Plan(sender, title, list(report), None, lines, notes, wants_answer(mail, pseudo))


def control_plan(mail: Mail, rules: Rules) -> Plan:
    """What a mail of commands asks."""
    if not rules.may_control(mail):
        raise Refusal(f"{mail.address} may send no commands to this desk.")
    if mail.wrong:
        raise Refusal(WRONG[mail.wrong])
    lines = mail_headers.sent_lines(mail_headers.text_lines(mail.text))
    if not lines:
        raise Refusal("There is no command in it; send one on each line, such as:\n\n"
                      "  severity 7 important\n  thanks")
    sender = sender_of(mail)
    test_size(Pseudo({}, (), ()), sender, lines)
    notes = [f"In its text {note}." for note in mail.notes]
    return Plan(sender, mail.title, None, None, lines, notes, True)


def forwarded_lines(mail: Mail, target: Target) -> list[str]:
    """The line that notes whom a mail was sent to, without the desk itself."""
    text = ""
    for address in dict.fromkeys(mail.recipients):
        longer = f"{text}, {address}" if text else address
        if not is_ours(address, target.domain) and len(longer) <= TEXT_LIMIT:
            text = longer
    return [f"forwarded -1 {text}"] if text else []


def closing_lines(values: dict[str, str], package: str, rules: Rules, desk: MailDesk) -> tuple[
        list[str], list[str]]:
    """The line that closes a bug of a package, with the version that a mail says, and its notes."""
    word, notes = bare_version(values)
    owner, _, version = word.rpartition("/")
    package = owner or mail_headers.package_of(values) or package
    if version and is_package_name(package):
        package, version, named = source_of(desk, rules, package, version)
        word, notes = f"{package}/{version}", notes + named
    return [f"close -1 {word}".rstrip()], notes


def own_lines(
    mail: Mail, target: Target, pseudo: Pseudo, rules: Rules, desk: MailDesk, page: dict[str, str],
) -> tuple[list[str], list[str]]:
    """The lines that a mail about a bug stands for, and what has to be told of them.

    A bug that is forwarded stays so, since who answers a mail to upstream keeps the desk in copy.
    """
    lines = list(pseudo.control)
    notes: list[str] = []
    if target.kind == DONE:
        if mail.wrong:
            raise Refusal(f"{WRONG[mail.wrong]}\nThe bug was not closed.")
        closing, notes = closing_lines(
            pseudo.values, page.get("Package", ""), rules, desk)
        lines = closing + lines
    if target.kind == FORWARDED and page.get("Forwarded", "-") == "-":
        lines = forwarded_lines(mail, target) + lines
    if lines and not rules.may_control(mail):
        return [], [f"{mail.address} may send no commands: the mail is kept, and no more."]
    return lines, notes


def said_plan(mail: Mail, target: Target, rules: Rules, desk: MailDesk) -> Plan:
    """What a mail about a bug asks."""
    number = target.number or 0
    if mail.wrong in (TOO_BIG, TOO_DEEP):
        raise Refusal(WRONG[mail.wrong])
    page = desk.page(number)
    if page is None:
        raise Refusal(f"There is no bug {number} here: nothing was kept.")
    pseudo = mail_headers.read_pseudo(mail.text)
    lines, notes = own_lines(mail, target, pseudo, rules, desk, page)
    sender = sender_of(mail)
    test_size(pseudo, sender, lines)
    if page.get("Archived") == "yes":
        notes.append(f"Bug {number} is archived: to change it, send `unarchive {number}` to "
                     "control@ first.")
    if mail.wrong:
        notes.append(WRONG[mail.wrong])
    if lines:
        notes += general_notes(mail, pseudo._replace(unknown=()))
    return Plan(sender, page.get("Title", ""), None, number, lines, notes,
                wants_answer(mail, pseudo) or bool(lines))


def plan_of(mail: Mail, target: Target | None, rules: Rules, desk: MailDesk) -> Plan:
    """What a mail asks of the desk; a refusal where it can't be carried out."""
    if target is None:
        raise Refusal(f"There is no such address here.\n\n{ADDRESSES}")
    if not mail.address:
        raise Refusal("Its From is missing, or is no address: send it with one.")
    if target.kind == REPORT:
        return report_plan(mail, rules, desk)
    if target.kind == CONTROL:
        return control_plan(mail, rules)
    return said_plan(mail, target, rules, desk)
