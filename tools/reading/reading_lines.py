"""The grammar of one line of a control message.

The commands are those of the BTS page 'control and manipulation'.
Their exact shapes are this project's own rules.
"""

import re
import typing

from reading_versions import byte_length, is_package_name, read_version_word

TEXT_LIMIT = 200

SEVERITIES = ("critical", "grave", "serious", "important", "normal", "minor", "wishlist")
TAGS = (
    "a11y", "confirmed", "d-i", "fixed-upstream", "ftbfs", "help", "ipv6", "l10n", "lfs",
    "moreinfo", "newcomer", "patch", "pending", "security", "unreproducible", "upstream",
    "wontfix",
)
STOPS = ("quit", "stop", "thank", "thanks", "thankyou", "thank you", "--")

# What a line gives that is no command.
NOTHING = "nothing"
STOP = "stop"

# What stands for a text of `reopen`, `owner` and `submitter`.
KEEP = "keep"
SENDER = "sender"


class Refused(Exception):
    """A line that changes nothing; its argument is the text of the refusal."""


class Unreadable(Refused):
    """A line that is no command or has no command's shape; the fifth ends its message."""


class Malformed(Unreadable):
    """A line whose first word is a command, and whose shape is not that command's."""

    def __init__(self):
        super().__init__("malformed command")


class Command(typing.NamedTuple):
    """A command as the line writes it.

    A bug word is its number, or a negative number where it is a name.
    The names are those that `clone` gives.
    What else the line gives is in `given`, which depends on the word:
    a severity, a list of tag steps, a sign and a list of packages, a version word or None,
    a package and a version word or None.
    For a text it is a pair of KEEP, SENDER or `text`, and the text itself.
    """

    word: str
    bugs: list
    names: list
    given: object


def lower_case(text):
    """The text with its ASCII letters in lower case, and no other letter changed."""
    return text.encode("utf-8").lower().decode("utf-8")


def cut_words(text):
    """The words of a text: what stands between blanks, which are spaces and tabs."""
    return re.findall("[^ \t]+", text)


def text_from(line, place):
    """The part of a line from the word at a place, counted from 0, through the last word."""
    words = list(re.finditer("[^ \t]+", line))
    return line[words[place].start() : words[-1].end()] if place < len(words) else ""


def has_control_character(text):
    """Whether a text holds an ASCII control character other than tab."""
    return any((character < " " and character != "\t") or character == "\x7f" for character in text)


def is_text(text):
    """Whether this is a text of 1 to 200 bytes."""
    return (
        1 <= byte_length(text) <= TEXT_LIMIT
        and not has_control_character(text)
        and text == text.strip(" \t")
    )


# Words.


def number_word(word):
    """The number that a word writes, or None."""
    if re.fullmatch("#?[0-9]{1,9}", word) and int(word.lstrip("#")) >= 1:
        return int(word.lstrip("#"))
    return None


def name_word(word):
    """The negative number that a word writes, or None."""
    if re.fullmatch("#?-[0-9]{1,9}", word) and int(word.lstrip("#")) <= -1:
        return int(word.lstrip("#"))
    return None


def read_bug(word):
    """A bug word: a number or a name."""
    number = number_word(word)
    bug = name_word(word) if number is None else number
    if bug is None:
        raise Malformed
    return bug


def read_name(word):
    """A name, as `clone` gives it."""
    name = name_word(word)
    if name is None:
        raise Malformed
    return name


def read_version(word):
    """A version word."""
    version_word = read_version_word(word)
    if version_word is None:
        raise Refused("bad version")
    return version_word


def read_package(word):
    """A package, before which one `src:` is dropped."""
    package = word.removeprefix("src:")
    if not is_package_name(package):
        raise Refused("bad package name")
    return package


def read_text(text):
    """A text that a command sets."""
    if text == "":
        raise Malformed
    if byte_length(text) > TEXT_LIMIT:
        raise Refused("text too long")
    return "text", text


def read_who(text):
    """A text, or `!` for the sender."""
    return (SENDER, None) if text == "!" else read_text(text)


def read_tag_steps(words):
    """The steps of `tags`: pairs of `+`, `-` or `=` and a tag, or `=` and None for emptying."""
    steps, sign = [], "+"
    for word in words:
        if word[0] in "+-=":
            sign, word = word[0], word[1:]
            if sign == "=":
                steps.append(("=", None))
                sign = "+"
        if word:
            tag = lower_case(word)
            if tag not in TAGS:
                raise Refused("unknown tag")
            steps.append((sign, tag))
    return steps


def read_affected(words):
    """The sign of `affects` and the packages for which it holds; no word at all is `=` alone."""
    if not words:
        return "=", []
    sign, first = (words[0][0], words[0][1:]) if words[0][0] in "+-=" else ("+", words[0])
    packages = [first] + words[1:] if first else words[1:]
    if sign != "=" and not packages:
        raise Malformed
    return sign, [read_package(package) for package in packages]


# The shapes of the commands.
# Each takes the words after the command word, and the line without its outer blanks.


def count_words(words, least, most):
    """Refuses a line with too few or too many words after the command word."""
    if not least <= len(words) <= most:
        raise Malformed


def shape_bug(words, line):
    """One bug and nothing else."""
    count_words(words, 1, 1)
    return [read_bug(words[0])], [], None


def shape_version(words, line):
    """A bug and a version."""
    count_words(words, 2, 2)
    return [read_bug(words[0])], [], read_version(words[1])


def shape_version_or_none(words, line):
    """A bug, and a version or nothing."""
    count_words(words, 1, 2)
    bug = read_bug(words[0])
    return [bug], [], read_version(words[1]) if len(words) == 2 else None


def shape_severity(words, line):
    """A bug and a severity."""
    count_words(words, 2, 2)
    bug, severity = read_bug(words[0]), lower_case(words[1])
    if severity not in SEVERITIES:
        raise Refused("unknown severity")
    return [bug], [], severity


def shape_tags(words, line):
    """A bug and words of tags, between which commas are blanks."""
    count_words(words, 2, len(line))
    bug, rest = read_bug(words[0]), cut_words(" ".join(words[1:]).replace(",", " "))
    if not rest:
        raise Malformed
    return [bug], [], read_tag_steps(rest)


def shape_affects(words, line):
    """A bug, and perhaps a sign and packages, between which commas are blanks."""
    count_words(words, 1, len(line))
    bug, rest = read_bug(words[0]), cut_words(" ".join(words[1:]).replace(",", " "))
    return [bug], [], read_affected(rest)


def shape_text(words, line):
    """A bug and a text."""
    count_words(words, 2, len(line))
    return [read_bug(words[0])], [], read_text(text_from(line, 2))


def shape_who(words, line):
    """A bug, and a text or the sender."""
    count_words(words, 2, len(line))
    return [read_bug(words[0])], [], read_who(text_from(line, 2))


def shape_reopen(words, line):
    """A bug, and a text, the sender, `=` or nothing."""
    count_words(words, 1, len(line))
    bug, text = read_bug(words[0]), text_from(line, 2)
    return [bug], [], (KEEP, None) if text in ("", "=") else read_who(text)


def shape_reassign(words, line):
    """A bug and a package, and a version or nothing."""
    count_words(words, 2, 3)
    bug, package = read_bug(words[0]), read_package(words[1])
    return [bug], [], (package, read_version(words[2]) if len(words) == 3 else None)


def shape_bugs(words, line):
    """Two or more bugs."""
    count_words(words, 2, len(line))
    return [read_bug(word) for word in words], [], None


def shape_clone(words, line):
    """A bug and one or more names."""
    count_words(words, 2, len(line))
    return [read_bug(words[0])], [read_name(word) for word in words[1:]], None


def shape_block(words, line):
    """A bug, `by` or `with`, and one or more bugs, between which commas are blanks."""
    count_words(words, 3, len(line))
    rest = cut_words(" ".join(words[2:]).replace(",", " "))
    if lower_case(words[1]) not in ("by", "with") or not rest:
        raise Malformed
    return [read_bug(word) for word in words[:1] + rest], [], None


SHAPES = {
    "found": shape_version_or_none,
    "notfound": shape_version,
    "fixed": shape_version,
    "notfixed": shape_version,
    "close": shape_version_or_none,
    "reopen": shape_reopen,
    "severity": shape_severity,
    "tags": shape_tags,
    "tag": shape_tags,
    "affects": shape_affects,
    "retitle": shape_text,
    "submitter": shape_who,
    "reassign": shape_reassign,
    "merge": shape_bugs,
    "forcemerge": shape_bugs,
    "unmerge": shape_bug,
    "clone": shape_clone,
    "block": shape_block,
    "unblock": shape_block,
    "forwarded": shape_text,
    "notforwarded": shape_bug,
    "owner": shape_who,
    "noowner": shape_bug,
    "archive": shape_bug,
    "unarchive": shape_bug,
}


def read_line(written):
    """NOTHING for a blank line or a comment, STOP, or the command; raises Refused."""
    line = written.strip(" \t")
    if line == "" or line.startswith("#"):
        return NOTHING
    words = cut_words(line)
    if lower_case(" ".join(words)) in STOPS:
        return STOP
    word = lower_case(words[0])
    if word not in SHAPES:
        raise Unreadable("unknown command")
    if has_control_character(line):
        raise Malformed
    bugs, names, given = SHAPES[word](words[1:], line)
    return Command("tags" if word == "tag" else word, bugs, names, given)
