"""Messages with an id, each of whose lines acts once, however often the message is sent.

What is kept of a message is its sender, its whole text, and the outcome of each line so far.
"""

import re
import typing

from reading_records import Desk, new_desk
from reading_script import (
    STOPPED,
    TOO_MANY,
    UNREADABLE_LIMIT,
    carry_out,
    decode_line,
    is_refusal,
    script_lines,
)

# How a message ends; a cut one has lines left that were not carried out.
ALL, AT_STOP, AT_UNREADABLE, CUT = "all", "stopped", "unreadable", "cut"
# What is answered in the place of an end and a transcript.
NO_ID, IN_USE = "no id", "id in use"


class Kept(typing.NamedTuple):
    """What is kept of a message: who sent it, its text, and what came of its lines."""

    sender: str
    text: str
    outcomes: tuple


class Store(typing.NamedTuple):
    """A desk, and what is kept of each message by its id."""

    desk: Desk
    kept: dict


def new_store(first=1):
    """The store without a bug and without a message."""
    return Store(new_desk(first), {})


def is_id(word):
    """Whether this is 1 to 100 visible ASCII characters."""
    return re.fullmatch("[!-~]{1,100}", word) is not None


def message_lines(text):
    """The lines of the text of a message, as those of a script are cut."""
    return [decode_line(line) for line in script_lines(text.encode("utf-8"))]


def send(store, word, sender, text, most=None):
    """The store after a message, and its end and transcript, or NO_ID, or IN_USE.

    The id is None where the message has none.
    At most so many lines are carried out, where that is given, as if the program ended then.
    """
    if word is not None and not is_id(word):
        return store, NO_ID
    kept = store.kept.get(word, Kept(sender, text, ()))
    if (kept.sender, kept.text) != (sender, text):
        return store, IN_USE
    desk, outcomes, answer = go_on(store.desk, kept, most)
    if word is None or not outcomes:
        return store._replace(desk=desk), answer
    return Store(desk, {**store.kept, word: kept._replace(outcomes=outcomes)}), answer


def go_on(desk, kept, most):
    """The desk, the outcomes, and the end and transcript of a message that is kept so far."""
    names, unreadable, outcomes, transcript = {}, 0, [], []
    for line in message_lines(kept.text):
        after, outcome = carry_out(desk, names, kept.sender, line)
        if outcome is None:
            continue
        if len(outcomes) < len(kept.outcomes):
            after, outcome = desk, kept.outcomes[len(outcomes)]
        elif most is not None and len(outcomes) == len(kept.outcomes) + most:
            return desk, tuple(outcomes), (CUT, ended(transcript))
        desk, names = after, outcome.names
        outcomes.append(outcome)
        unreadable += outcome.is_unreadable
        transcript += [f"> {line}", outcome.answer]
        if outcome.answer == STOPPED:
            return desk, tuple(outcomes), (AT_STOP, ended(transcript))
        if unreadable == UNREADABLE_LIMIT:
            return desk, tuple(outcomes), (AT_UNREADABLE, ended(transcript + [TOO_MANY]))
    return desk, tuple(outcomes), (ALL, ended(transcript))


def fronts(store, word, sender, text):
    """The stores after each front of the lines that a message still has, the whole one last."""
    stores, most = [], 0
    while True:
        after, answer = send(store, word, sender, text, most)
        stores.append(after)
        if answer in (NO_ID, IN_USE) or answer[0] != CUT:
            return stores
        most += 1


def ended(lines):
    """The lines of a transcript as one text."""
    return "".join(f"{line}\n" for line in lines)


def words_answer(answer):
    """The output and the exit status of a message in words that has this answer."""
    if answer == NO_ID:
        return "", 2
    if answer == IN_USE:
        return f"NO {IN_USE}\n", 1
    return answer[1], int(is_refusal(answer[1]))
