"""Words of a command line, in the manner of bts(1), as the lines of a message.

It is the program's own rule said a second time; `test_send_words.py` compares the two.
"""

from collections.abc import Iterable, Iterator

from .faults import BadWords
from .texts import has_control_character, lower_case, name_word, number_word

# The commands all of whose words after the first may stand for bugs.
TAKES_BUGS = ("merge", "forcemerge", "block", "unblock")


def cut(word: str) -> tuple[str, bool]:
    """The text of a word, which may be empty, and whether a command ends after it."""
    return ("", True) if word == "." else (word.removesuffix(","), word.endswith(","))


def commands(words: Iterable[str]) -> Iterator[list[str]]:
    """The commands: the runs of words between what ends a command, without the empty ones."""
    command: list[str] = []
    for text, ends in map(cut, words):
        if text:
            command.append(text)
        if ends and command:
            yield command
            command = []
    if command:
        yield command


def is_bug(word: str) -> bool:
    """Whether a word stands for a bug, by its number or its name."""
    return number_word(word) is not None or name_word(word) is not None


def line_of(command: list[str], last: str | None) -> tuple[str, str | None]:
    """The line of a command, and the last bug word, which was `last` before it."""
    written: list[str] = []
    takes_bugs = lower_case(command[0]) in TAKES_BUGS
    for place, word in enumerate(command):
        may_be_bug = place == 1 or (place > 1 and takes_bugs)
        if may_be_bug and lower_case(word) == "it":
            if last is None:
                raise BadWords("`it` has no bug before it")
            word = last
        elif may_be_bug and is_bug(word):
            last = word
        written.append(word)
    return " ".join(written), last


def test_words(words: Iterable[str]) -> None:
    """Refuses words with a control character other than tab, which no line may be made of."""
    if any(map(has_control_character, words)):
        raise BadWords("a word has a control character, as a line feed")


def lines_of(words: list[str]) -> list[str]:
    """The lines that words stand for, of which there is one at least."""
    test_words(words)
    lines: list[str] = []
    last: str | None = None
    for command in commands(words):
        line, last = line_of(command, last)
        lines.append(line)
    if not lines:
        raise BadWords("there is no command in these words")
    return lines
