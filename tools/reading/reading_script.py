"""Control messages, their transcripts, the directives of a script, and the texts of answers.

The script, the directives and all texts are this project's own rules.
"""

import typing

from reading_desk import report, state_of, step
from reading_lines import (
    NOTHING,
    STOP,
    Refused,
    Unreadable,
    cut_words,
    is_text,
    lower_case,
    number_word,
    read_line,
    read_version,
    text_from,
)
from reading_records import changed_numbers, listed, new_desk, waiting_on
from reading_versions import (
    BranchRefused,
    in_node_order,
    is_package_name,
    node_for,
    node_text,
    read_node,
)

LINE_LIMIT = 65_536
UNREADABLE_LIMIT = 5
FIRST_SENDER = "nobody"
STOPPED = "Stopped."
TOO_MANY = "Too many unreadable lines."

ACCEPTED, REFUSED, FAULT = 0, 1, 3
FAULT_TEXT = "bts: fault\n"


class Fault(Exception):
    """What ends a script early."""


class BadDirective(Exception):
    """A directive without a directive's shape."""


# Texts.


def numbers_text(numbers):
    """What stands in a transcript for the numbers that an accepted line changed."""
    return f"OK {' '.join(map(str, numbers))}" if numbers else "OK, no change."


def entries_text(entries):
    """The entries of a line of a page, or a hyphen where there is none."""
    return " ".join(map(str, entries)) or "-"


def list_text(desk, package, node):
    """The list of the bugs of a package, or that affect it, that are found at a node."""
    numbers = listed(desk, package, node)
    lines = [f"Bugs in {package} at {node_text(node)}: {len(numbers)}"]
    for number in numbers:
        record = desk.records[number]
        state = state_of(record)
        lines.append(f"{number:>9}  {record.severity:<9}  {state}  {record.title}")
    return "".join(f"{line}\n" for line in lines)


def page_text(desk, number):
    """The page of a bug."""
    record = desk.records[number]
    fields = [
        ("Title", record.title),
        ("Package", record.package),
        ("Severity", record.severity),
        ("State", state_of(record)),
        ("Archived", "yes" if record.archived else "no"),
        ("Submitter", record.submitter),
        ("Owner", "-" if record.owner is None else record.owner),
        ("Forwarded", "-" if record.forwarded is None else record.forwarded),
        ("Tags", entries_text(sorted(record.tags))),
        ("Affects", entries_text(sorted(record.affected))),
        ("Found", entries_text(map(node_text, in_node_order(record.found)))),
        ("Fixed", entries_text(map(node_text, in_node_order(record.fixed)))),
        ("Blocked by", entries_text(sorted(record.blockers))),
        ("Blocks", entries_text(waiting_on(desk, number))),
        ("Merged with", entries_text(sorted(desk.sets[number] - {number}))),
    ]
    return f"Bug {number}\n" + "".join(f"{name}: {value}\n" for name, value in fields)


# Messages.


class Outcome(typing.NamedTuple):
    """What came of one line: its answer, the names after it, and whether nobody could read it."""

    answer: str
    names: dict
    is_unreadable: bool = False


def carry_out(desk, names, sender, line):
    """The desk after a line, and its outcome, which is None for a blank line and a comment."""
    try:
        command = read_line(line)
        if command == NOTHING:
            return desk, None
        if command == STOP:
            return desk, Outcome(STOPPED, names)
        after, new_names = step(desk, names, sender, command)
        return after, Outcome(numbers_text(changed_numbers(desk, after)), new_names)
    except Refused as refusal:
        return desk, Outcome(f"NO {refusal}", names, isinstance(refusal, Unreadable))


def receive(desk, sender, lines):
    """The desk after a message, and the message's transcript."""
    names, unreadable, transcript = {}, 0, []
    for line in lines:
        desk, outcome = carry_out(desk, names, sender, line)
        if outcome is None:
            continue
        names, unreadable = outcome.names, unreadable + outcome.is_unreadable
        transcript += [f"> {line}", outcome.answer]
        if outcome.answer == STOPPED:
            break
        if unreadable == UNREADABLE_LIMIT:
            transcript.append(TOO_MANY)
            break
    return desk, "".join(f"{line}\n" for line in transcript)


# Directives.
# Each takes the desk, the sender, the words after the directive word, and the line.
# Each gives the desk and the sender afterwards, and the answer.


def take_from(desk, sender, words, line):
    """`@from`: the sender of what follows."""
    text = text_from(line, 1)
    if not is_text(text):
        raise BadDirective
    return desk, text, ""


def take_report(desk, sender, words, line):
    """`@report`: a new bug."""
    if len(words) < 3:
        raise BadDirective
    package, version, severity = words[:3]
    version = None if version == "-" else version
    after = report(desk, sender, package, version, lower_case(severity), text_from(line, 4))
    return after, sender, f"OK {desk.next}\n"


def take_branch(desk, sender, words, line):
    """`@branch`: a changelog branch."""
    nodes = [read_node(word) for word in words]
    if None in nodes:
        raise Refused("bad version")
    try:
        ancestry = desk.ancestry.with_branch(nodes)
    except BranchRefused as refusal:
        raise Refused(str(refusal)) from None
    return desk._replace(ancestry=ancestry), sender, "OK\n"


def take_list(desk, sender, words, line):
    """`@list`: the bugs that are found in a package at a version."""
    if len(words) != 2:
        raise BadDirective
    package, word = words
    if not is_package_name(package):
        raise Refused("bad package name")
    node = node_for(package, read_version(word))
    return desk, sender, list_text(desk, package, node)


def take_show(desk, sender, words, line):
    """`@show`: the page of a bug."""
    number = number_word(words[0]) if len(words) == 1 else None
    if number is None:
        raise BadDirective
    if number not in desk.records:
        raise Refused(f"no such bug {number}")
    return desk, sender, page_text(desk, number)


DIRECTIVES = {
    "@from": take_from,
    "@report": take_report,
    "@branch": take_branch,
    "@list": take_list,
    "@show": take_show,
}


def take_directive(desk, sender, line):
    """The desk and the sender after a directive, its answer, and whether it was carried out."""
    words = cut_words(line)
    try:
        if words[0] not in DIRECTIVES:
            raise BadDirective
        desk, sender, answer = DIRECTIVES[words[0]](desk, sender, words[1:], line)
        return desk, sender, answer, True
    except BadDirective:
        return desk, sender, "Bad directive.\n", False
    except Refused as refusal:
        return desk, sender, f"NO {refusal}\n", False


# Scripts.


def script_lines(script):
    """The lines of a script, each with the carriage return that may stand before its line feed."""
    lines = script.split(b"\n")
    return lines if lines[-1] else lines[:-1]


def decode_line(line):
    """The text of a line."""
    if len(line) > LINE_LIMIT:
        raise Fault
    try:
        return line.removesuffix(b"\r").decode("utf-8")
    except UnicodeDecodeError:
        raise Fault from None


def is_refusal(transcript):
    """Whether a message's transcript holds a refusal."""
    lines = transcript.split("\n")
    return any(line.startswith(("NO ", "Too many ")) for line in lines)


def read_script(script, first=1):
    """The output of a script, and the exit status: ACCEPTED, REFUSED or FAULT."""
    desk, sender, message = new_desk(first), FIRST_SENDER, []
    output, end = [], ACCEPTED

    def end_message():
        nonlocal desk, end
        desk, transcript = receive(desk, sender, message)
        output.append(transcript)
        message.clear()
        if is_refusal(transcript):
            end = REFUSED

    try:
        for written in script_lines(script):
            line = decode_line(written)
            if not line.startswith("@"):
                message.append(line)
                continue
            end_message()
            desk, sender, answer, is_good = take_directive(desk, sender, line)
            output.append(answer)
            if not is_good:
                end = REFUSED
        end_message()
    except Fault:
        end = FAULT
    return "".join(output).encode("utf-8"), end
