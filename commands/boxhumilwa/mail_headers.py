"""Pseudo-headers at the beginning of a mail's text, and the lines of a message that they stand for.

In `Control` the name -1 is the bug at hand, until a `clone` of the same mail gives it to another.
"""

import re
from collections.abc import Iterable, Iterator
from typing import NamedTuple

from .answers import SEVERITIES
from .sending_file import JOBS
from .texts import lower_case, name_word
from .words import TAKES_BUGS

PSEUDO = re.compile(r"([A-Za-z][A-Za-z0-9-]*)[ \t]*:[ \t]*(.*?)[ \t]*")
KNOWN = ("package", "source", "version", "source-version", "severity", "tags", "owner",
         "forwarded", "affects", "control", "x-debbugs-cc", "x-debbugs-no-ack")
# Names that clients write for the same, and those of a mail about a bug, which are none of ours.
SAME = {"tag": "tags", "affect": "affects"}
QUIET = ("followup-for", "justification", "x-debbugs-cc", "x-debbugs-no-ack")
MOST_CONTROL, MOST_BYTES = 100, 65_536
STOPS = ("quit", "stop", "thank", "thanks", "thankyou", "thank you", "--")
SIGNED = re.compile(r"\n*-----BEGIN PGP SIGNED MESSAGE-----[ \t]*\n(?:[^\n]+\n)*\n")
BLANK = re.compile("\\A(?:\ufeff|[ \t\r]*\n)+")
NO_TEXT = re.compile("[\x00-\x08\x0a-\x1f\x7f]")
REPLACEMENT = "\N{REPLACEMENT CHARACTER}"
WORD = re.compile("[^ \t]+")


class Pseudo(NamedTuple):
    """The pseudo-headers of a mail: the last value of each, all of `Control`, and unknown names."""

    values: dict[str, str]
    control: tuple[str, ...]
    unknown: tuple[str, ...]


# Reading.


def unsigned(text: str) -> str:
    """A text without the frame of a signature, which PGP writes around it."""
    found = SIGNED.match(text)
    if not found:
        return text
    return re.sub("^- ", "", text[found.end():], flags=re.MULTILINE).partition(
        "\n-----BEGIN PGP SIGNATURE-----")[0]


def text_lines(text: str) -> list[str]:
    """The lines of a text, without blank ones and byte order marks before the first."""
    return BLANK.sub("", unsigned(BLANK.sub("", text))).split("\n")


def written(lines: Iterable[str]) -> Iterator[tuple[str, str]]:
    """The names and values of pseudo-headers, up to the first line that is none."""
    name, value = "", ""
    for line in lines:
        found = PSEUDO.fullmatch(line)
        if found:
            if name:
                yield name, value
            name, value = lower_case(found[1]), found[2]
        elif name and line[:1] in (" ", "\t") and line.strip(" \t"):
            value = f"{value} {line.strip(' ' + chr(9))}".strip()
        else:
            break
    if name:
        yield name, value


def read_pseudo(text: str) -> Pseudo:
    """The pseudo-headers of a text."""
    values: dict[str, str] = {}
    control, unknown = [], []
    for name, value in written(text_lines(text)):
        name, value = SAME.get(name, name), NO_TEXT.sub(REPLACEMENT, value)
        if name == "control":
            control.append(value)
        elif name in KNOWN:
            values[name] = value
        elif name not in QUIET:
            unknown.append(name)
    return Pseudo(values, tuple(control), tuple(unknown))


# Lines of a message.


def sent_line(line: str) -> str:
    """A line as it is sent over HTTP and as a word of the program alike.

    A blank beside it keeps a comma at its end, a hyphen at its start, or the name of a job.
    """
    text = NO_TEXT.sub(REPLACEMENT, line.strip(" \t\r"))
    is_apart = text.startswith("-") or text.endswith(",") or text in (".", "help", *JOBS)
    return f" {text} " if is_apart else text


def sent_lines(lines: Iterable[str]) -> list[str]:
    """The lines of a message up to the word that stops it, without blank ones and comments."""
    found = []
    for line in lines:
        text = line.strip(" \t\r")
        if text and not text.startswith("#"):
            found.append(sent_line(text))
        if lower_case(" ".join(text.split())) in STOPS:
            break
    return found


def too_many(pseudo: Pseudo, lines: list[str]) -> str:
    """Why so many lines are not carried out; nothing where they are no more than may be."""
    if len(pseudo.control) > MOST_CONTROL:
        return (f"There are {len(pseudo.control)} lines Control, and may be {MOST_CONTROL}: send "
                "the others in another mail.")
    count = sum(len(line.encode()) + 1 for line in lines)
    if count > MOST_BYTES:
        return (f"The commands have {count:,} bytes, and may have {MOST_BYTES:,}: send them in "
                "several mails, and end each with `thanks`.")
    return ""


def bug_places(line: str) -> Iterator[re.Match[str]]:
    """The words of a line that stand for bugs."""
    words = list(WORD.finditer(line))
    takes_bugs = bool(words) and lower_case(words[0][0]) in TAKES_BUGS
    return iter(words[1:] if takes_bugs else words[1:2])


def for_bug(line: str, number: int) -> str:
    """A line in which the name -1 is the bug of this number."""
    pieces, end = [], 0
    for word in bug_places(line):
        stem = word[0].rstrip(",")
        if name_word(stem) == -1:
            pieces += [line[end:word.start()], str(number), word[0][len(stem):]]
            end = word.end()
    return "".join(pieces) + line[end:]


def gives_name(line: str) -> bool:
    """Whether a line gives the name -1 to a clone."""
    words = line.split()
    return words[:1] != [] and lower_case(words[0]) == "clone" and any(
        name_word(word) == -1 for word in words[2:])


def control_lines(lines: Iterable[str], number: int) -> list[str]:
    """The lines of `Control` for a bug."""
    found, is_taken = [], False
    for line in lines:
        found.append(line if is_taken else for_bug(line, number))
        is_taken = is_taken or gives_name(line)
    return found


def field_lines(values: dict[str, str]) -> list[str]:
    """The lines that set what a report says of its bug, whose name is -1."""
    lines = []
    for name, start in (
        ("tags", "tags -1 + "), ("owner", "owner -1 "), ("forwarded", "forwarded -1 "),
        ("affects", "affects -1 + "),
    ):
        value = values.get(name, "")
        words = value.replace(",", " ").split() if name in ("tags", "affects") else [value.strip()]
        if any(words):
            lines.append(start + " ".join(words))
    return lines


# Values.


def package_of(values: dict[str, str]) -> str:
    """The package of a report, in lower case; a source is written with or without `src:`."""
    word = values.get("package") or values.get("source") or ""
    return lower_case(word).removeprefix("src:")


def severity_of(values: dict[str, str]) -> tuple[str, str]:
    """The severity of a report, and what has to be told of it."""
    word = lower_case(values.get("severity", "")) or "normal"
    if word in SEVERITIES:
        return word, ""
    return "normal", f"There is no severity {word[:40]!r}; the bug is normal."
