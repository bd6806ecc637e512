"""Text for a terminal: its columns, nothing in it that steers a terminal, and how far work is."""

import json
import sys
import time
import unicodedata

# The seconds before progress is shown, and between two times.
PATIENCE, PAUSE = 2, 0.2


def shown(text: str) -> str:
    """A text on one line, without what would steer a terminal."""
    if text.isprintable():
        return text
    return "".join(
        letter if letter.isprintable() or letter == "\t" or unicodedata.category(letter) == "Zs"
        else letter.encode("unicode_escape").decode()
        for letter in text)


def json_text(text: str) -> str:
    """A text of JSON that means the same, without what would steer a terminal."""
    if text.isprintable():
        return text
    return "".join(
        letter if letter.isprintable() or letter == "\n" or unicodedata.category(letter) == "Zs"
        else json.dumps(letter)[1:-1] for letter in text)


def safe(text: str) -> str:
    """A text on one line, without what would steer a terminal; a tab is a blank."""
    return shown(text.replace("\t", " "))


def plural(count: int, noun: str) -> str:
    """A number of things in words."""
    return f"{count:,} {noun}{'' if count == 1 else 's'}"


def capitalized(words: str) -> str:
    """Words as a heading begins."""
    return words[:1].upper() + words[1:]


# Columns.


def columns(text: str) -> int:
    """How many columns of a terminal a text takes."""
    if text.isascii():
        return len(text)
    return sum(letter_columns(letter) for letter in text)


def letter_columns(letter: str) -> int:
    """How many columns a letter takes."""
    if unicodedata.category(letter) in ("Mn", "Me"):
        return 0
    return 2 if unicodedata.east_asian_width(letter) in "WF" else 1


def padded(text: str, width: int) -> str:
    """A text with blanks up to a width."""
    return text + " " * (width - columns(text))


def fitting(text: str, width: int) -> int:
    """How many letters of a text fit into a width; at least one."""
    used = 0
    for place, letter in enumerate(text):
        used += letter_columns(letter)
        if used > width:
            return max(1, place)
    return len(text)


def wrapped(text: str, width: int) -> list[str]:
    """The lines of a text, which is cut at blanks where it can be."""
    lines = []
    while columns(text) > width:
        place = fitting(text, width)
        blank = text.rfind(" ", 1, place + 1)
        cut = blank if blank > 0 else place
        lines.append(text[:cut].rstrip(" "))
        text = text[cut:].lstrip(" ")
    return [*lines, text]


# Progress.


class Progress:
    """Tells on a terminal how far the work is, where it takes more than some seconds."""

    def __init__(self, name: str) -> None:
        self.name, self.is_shown = name, sys.stderr.isatty()
        self.count, self.next = 0, time.monotonic() + PATIENCE
        self.is_begun = False

    def __call__(self, total: int | None, what: str) -> None:
        """One more is done, of so many where that is known."""
        self.count += 1
        is_last = self.count == total
        if self.is_shown and (time.monotonic() >= self.next or (is_last and self.is_begun)):
            self.next, self.is_begun = time.monotonic() + PAUSE, not is_last
            end = "\n" if is_last else ""
            of = "" if total is None else f" of {total:,}"
            sys.stderr.write(f"\r{self.name}: {self.count:,}{of} {what}{end}")
            sys.stderr.flush()
        if is_last:
            self.count = 0

    def end(self) -> None:
        """Ends the line of work that came to no known end."""
        if self.is_begun:
            self.is_begun = False
            sys.stderr.write("\n")
            sys.stderr.flush()
