"""Random requests to a server, of which `compare_ids` makes its rounds.

A request is a tuple of its sort and what it has:
`control`, `words` and `killed` have an id or None, a sender and a text, `killed` a moment before;
`report` has a sender, a package, a version or None, a severity and a title, `branch` its nodes;
`list` has a package and a version, `page` a number, `restart` nothing.
"""

import json
import random

from compare_scripts import make_script
from compare_words import PACKAGES, SENDERS
from reading_ids import message_lines
from reading_lines import (
    NOTHING,
    STOP,
    Refused,
    cut_words,
    is_text,
    number_word,
    read_line,
    text_from,
)
from reading_versions import is_package_name, read_version_word

KINDS = ("mixed", "versions", "merges", "affects", "malformed")
ROUND = 25
LARGEST = 60_000
STARTS = ("m", "<", "~", "#%", '"', "\\", "i" * 90)
BAD_IDS = ("", " ", "a b", "i" * 101, "é", "\x7f", "a\n", 7, ["m1"], True)
BAD_SENDERS = ("", " ann", "x" * 201, "a\x07", "ann ")


def make_requests(seed, place, kills):
    """The requests of a round; so many of its messages, a share of 1, are killed."""
    chance = random.Random(f"{seed} {place}")
    requests, past, messages = [], [], 0
    while messages < ROUND:
        script = make_script(chance.random(), chance.choice(KINDS)).decode("utf-8", "ignore")
        for request in script_requests(chance, script):
            if request[0] != "control":
                requests.append(request)
                continue
            messages += 1
            sent = around(kills, chance, with_id(chance, request, past))
            past.append(("control", *sent[-1][1:]))
            requests += sent
    return requests + questions()


def script_requests(chance, script):
    """The requests that do what a script does, a message of each sender being one or several."""
    sender, lines = "nobody", []
    for line in script.replace("\r", "").split("\n") + ["@"]:
        words = cut_words(line)
        if not line.startswith("@"):
            lines.append(line)
            if chance.random() < 0.9:
                continue
        text = chance.choice(("\n", "\n", "\n", "\r\n")).join(lines)
        if lines and len(json.dumps(text)) < LARGEST:
            yield "control", None, sender, text + chance.choice(("", "", "\n", "\r"))
        lines = []
        if words and words[0] == "@from" and is_text(text_from(line, 1)):
            sender = text_from(line, 1)
        elif words and words[0] == "@report" and len(words) > 3:
            version = None if words[2] == "-" else words[2]
            yield "report", sender, words[1], version, words[3], text_from(line, 4)
        elif words and words[0] == "@branch":
            yield "branch", tuple(words[1:])
        elif words and words[0] == "@list" and len(words) == 3:
            if is_package_name(words[1]) and read_version_word(words[2]) is not None:
                yield "list", words[1], words[2]
        elif words and words[0] == "@show" and len(words) == 2 and number_word(words[1]):
            yield "page", number_word(words[1])


def with_id(chance, request, past):
    """A message with an id, new or known, good or bad, or one that was sent before."""
    _, _, sender, text = request
    new = f"{chance.choice(STARTS)}{len(past)}"
    way = chance.random()
    if past and way < 0.25:
        return chance.choice(past)
    if past and way < 0.33:
        earlier = chance.choice(past)
        return chance.choice(
            ((*earlier[:2], sender, earlier[3]), (*earlier[:3], text), (*earlier[:2], sender, text),
             (*earlier[:3], earlier[3] + "\n"), (*earlier[:2], earlier[2] + "x", earlier[3]))
        )
    if way < 0.36:
        return "control", chance.choice(BAD_IDS), sender, text
    if way < 0.38:
        return "control", new, chance.choice(BAD_SENDERS), text
    sender = chance.choice(SENDERS) if chance.random() < 0.2 else sender
    return "control", None if way < 0.48 else new, sender, text


def around(kills, chance, request):
    """The requests with which a message is sent: in words, killed and sent again, or just so."""
    way = chance.random()
    if way < kills:
        killed = "killed", chance.random() ** 2, *request[1:]
        return [killed] + (questions() if chance.random() < 0.7 else []) + [request]
    if way < kills + 0.05:
        return [("restart",), request]
    words = [" ".join(cut_words(line)) for line in message_lines(request[3])]
    words = [line for line in words if are_words(line)]
    if way < kills + 0.2 and words and isinstance(request[1], (str, type(None))):
        if "\x00" not in f"{request[1]}{request[2]}":
            return [("words", *request[1:3], "\n".join(words))] * chance.choice((1, 1, 2))
    return [request]


def are_words(line):
    """Whether a line may be a command in words."""
    try:
        is_command = read_line(line) not in (NOTHING, STOP)
    except Refused:
        return False
    words = line.split(" ")
    return is_command and not any(
        word in (".", "it") or "," in word or "\x00" in word for word in words
    )


def questions():
    """Requests for pages and lists."""
    asked = [("page", number) for number in range(1, 13)]
    return asked + [("list", package, version) for package in PACKAGES[:3] for version in "12"]
