"""Words and texts as the desk takes them: the manual's rules, said a second time.

`test_send_words.py` compares them with the program.
"""

import re

TEXT_LIMIT = 200
BLANKS = " \t"
WORD = re.compile(f"[^{BLANKS}]+")
CONTROL = re.compile("[\x00-\x08\x0a-\x1f\x7f]")
NUMBER = re.compile("#?([0-9]{1,9})")
NAME = re.compile("#?(-[0-9]{1,9})")
PACKAGE_NAME = re.compile("[a-z0-9][a-z0-9+.-]{1,99}")


def lower_case(text: str) -> str:
    """The text with its ASCII letters in lower case, and no other letter changed."""
    return text.encode().lower().decode()


def cut_words(text: str) -> list[str]:
    """The words of a text: what stands between blanks, which are spaces and tabs."""
    return WORD.findall(text)


def text_from(line: str, place: int) -> str:
    """The part of a line from the word at a place, counted from 0, to the end of the last word."""
    words = list(WORD.finditer(line))
    return line[words[place].start():words[-1].end()] if place < len(words) else ""


def has_control_character(text: str) -> bool:
    """Whether a text has a control character of ASCII, other than a tab."""
    return CONTROL.search(text) is not None


def is_text(text: str) -> bool:
    """Whether this is a text of 1 to 200 bytes, without control characters and outer blanks."""
    return (
        0 < len(text.encode()) <= TEXT_LIMIT and not has_control_character(text)
        and text == text.strip(BLANKS))


def number_word(word: str) -> int | None:
    """The number of a bug that a word writes, or None."""
    found = NUMBER.fullmatch(word)
    return int(found[1]) or None if found else None


def name_word(word: str) -> int | None:
    """The negative number that a word writes, which is a name of a clone, or None."""
    found = NAME.fullmatch(word)
    return int(found[1]) or None if found else None


def is_package_name(word: str) -> bool:
    """Whether a word is the name of a package."""
    return PACKAGE_NAME.fullmatch(word) is not None
