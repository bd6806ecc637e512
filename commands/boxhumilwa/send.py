"""Sends a message to the service of a desk on this machine, or a report, a branch or a question.

The words are commands in the manner of bts(1): a word `,` or `.`, or a comma at a word's end, ends
a command, and `it` is the last bug named before.
Without words the message is standard input, a command on each line.
The transcript is printed as the program prints it.

With --report, --branch, --list or --show the words are those of that directive.
Without words, these four read standard input, one on each line, with or without the directive's
word.

With --store nothing is sent: the program does the same on the file of a desk that nothing serves.

The exit status is 0; 1 if something was refused, or the id is in use; 2 for a wrong command line or
a request that is too big: it was not sent, but earlier lines of reports, branches and questions
were; 3 for a fault: no service, no whole answer, a store that failed, input that can't be read or
output that can't be written.
"""

import argparse
import json
import os
import re
import sys

from . import sending, sending_file
from .command import Parser, add_desk, add_program, make_parser, place_of, run
from .command import tell as tell_of
from .desk_served import Place, default_port
from .faults import BadWords, Fault
from .orders import ORDERS, order_line, test_order
from .sending import ACCEPTED, Lost
from .terminal import json_text, shown
from .texts import is_text
from .words import lines_of, test_words

NAME = "send"
AUTO = "auto"
# What to do where no whole answer came, by the id that was given.
ADVICE = {
    None: "some lines may have acted: look before you send it again, or use --id=auto",
    AUTO: "each line acts once then",
}
LOOK = "it may have been taken: look before you send it again"
AGAIN = "send the same again with this id: each line acts once"
USAGE = """send --from=TEXT [options] [--id=TEXT|auto] [WORD ..]
       send --from=TEXT [options] --report [PACKAGE VERSION SEVERITY TITLE ..]
       send [options] --branch [SOURCE/VERSION ..]
       send [options] --list [PACKAGE VERSION]
       send [options] --show [N]"""


# The words of the command line.


def sender(word: str) -> str:
    """The sender of a word."""
    if not is_text(word):
        raise argparse.ArgumentTypeError("a sender is a text of 1 to 200 bytes")
    return word


def message_id(word: str) -> str:
    """The id of a word."""
    if not re.fullmatch("[!-~]{1,100}", word):
        raise argparse.ArgumentTypeError("an id is 1 to 100 visible ASCII characters")
    return word


def send_parser() -> Parser:
    """What the options may be; the words follow them."""
    parser = make_parser(NAME, __doc__, USAGE)
    parser.add_argument(
        "--from", dest="sender", type=sender, metavar="TEXT",
        help="the sender, a text of 1 to 200 bytes; messages and reports need it")
    add_desk(
        parser, False, "the port of the service, 1 to 65535; if left out, that of "
        "/etc/default/boxhumilwa, or 8080 without such a file")
    add_program(parser)
    parser.add_argument("--json", action="store_true", help="write each answer as a line of JSON")
    parser.add_argument(
        "--id", type=message_id, metavar="TEXT",
        help="the id of the message, 1 to 100 visible ASCII characters; `auto` makes one, and "
             "sends the message up to 5 times, until it comes to its end")
    order = parser.add_mutually_exclusive_group()
    for name, told in (
        ("report", "report a bug; the version - is none"),
        ("branch", "declare which version is based on which, the newest first"),
        ("list", "list the bugs that a version of a package has"),
        ("show", "show the page of bug N"),
    ):
        order.add_argument(f"--{name}", dest="order", action="store_const", const=name, help=told)
    return parser


def decoded(words: list[str]) -> list[str]:
    """The words as texts, whatever the language of the machine."""
    try:
        return [os.fsencode(word).decode() for word in words]
    except UnicodeDecodeError:
        raise BadWords("a word is not UTF-8") from None


def read_options(words: list[str]) -> tuple[argparse.Namespace, list[str]]:
    """The options, which precede the words, and the words."""
    parser = send_parser()
    count = next((place for place, word in enumerate(words) if word[:1] != "-"), len(words))
    options = parser.parse_args(words[:count])
    if options.sender is None and options.order in (None, "report"):
        parser.error("--from=TEXT is needed")
    if options.id is not None and options.order is not None:
        parser.error(f"--{options.order} takes no --id: only messages have ids")
    if options.id is not None and options.store is not None and count == len(words):
        parser.error("over a file a message with --id is in words")
    return options, words[count:]


# What is sent.


def read_input() -> str:
    """The text of standard input."""
    try:
        return sys.stdin.buffer.read().decode()
    except UnicodeDecodeError as error:
        line = error.object.count(b"\n", 0, error.start) + 1
        raise Fault(f"line {line}: not UTF-8: nothing is sent") from error
    except (AttributeError, OSError) as error:
        raise Fault("standard input can't be read: nothing is sent") from error


def order_lines(name: str, words: list[str]) -> list[str]:
    """The lines of orders: one of words, or those of standard input."""
    if words:
        test_words(words)
        return [" ".join(words)]
    lines = read_input().replace("\r\n", "\n").split("\n")
    test_words(lines)
    return [order_line(name, line) for line in lines if line.strip(" \t")]


def tell(text: object) -> None:
    """Tells something on standard error."""
    tell_of(NAME, text)


def write(text: str) -> None:
    """Writes an answer, on a terminal without what would steer it."""
    if os.isatty(1):
        text = "\n".join(map(shown, text.split("\n")))
    with open(1, "wb", closefd=False) as output:
        output.write(text.encode(errors="replace"))


def answer(options: argparse.Namespace, told: tuple[str, int], line: str | None = None) -> int:
    """Writes an answer to a message or to the line of an order, and answers the exit status."""
    text, status = told
    if options.json:
        value = {} if line is None else {"order": options.order, "line": line}
        value |= {"answer": text, "refused": status != ACCEPTED}
        text = json_text(json.dumps(value, ensure_ascii=False)) + "\n"
    write(text)
    return status


def message_answer(options: argparse.Namespace, place: Place, words: list[str]) -> tuple[str, int]:
    """What a message is answered, and the exit status."""
    message = "\n".join(lines_of(words)) if words else read_input()
    if options.store is None and options.id == AUTO:
        return sending.send_until_end(place, options.sender, message, tell)
    if options.store is None:
        return sending.send_once(place, options.sender, message, options.id)
    if options.id is None:
        return sending_file.send_script(options.program, options.store, options.sender, message)
    word = sending.new_id() if options.id == AUTO else options.id
    return sending_file.send_words(options.program, options.store, options.sender, words, word)


def send_message(options: argparse.Namespace, place: Place, words: list[str]) -> int:
    """Sends a message, writes its transcript, and answers the exit status."""
    try:
        told = message_answer(options, place, words)
    except Lost as lost:
        write(lost.transcript)
        raise Fault(f"{lost}; {ADVICE.get(options.id, AGAIN)}") from lost
    status = answer(options, told)
    if re.search("^> @", told[0], re.MULTILINE):
        tell("a line that begins with @ is no command: see --report, --branch, --list and --show")
    return status


def send_order(options: argparse.Namespace, place: Place, line: str) -> int:
    """Sends one order, writes its answer, and answers the exit status."""
    test_order(options.order, line)
    try:
        if options.store is None:
            told = ORDERS[options.order](place, options.sender, line)
        else:
            told = sending_file.send_order(
                options.program, options.store, options.sender, options.order, line)
    except Lost as lost:
        advice = LOOK if options.order in ("report", "branch") else "ask again"
        raise Fault(f"{line}: {lost}; {advice}") from lost
    return answer(options, told, line)


def send_orders(options: argparse.Namespace, place: Place, words: list[str]) -> int:
    """Sends orders up to the first fault, writes their answers, and answers the exit status."""
    worst = ACCEPTED
    for line in order_lines(options.order, words):
        worst = max(worst, send_order(options, place, line))
    return worst


def work(words: list[str]) -> int:
    """Sends what the words ask."""
    options, words = read_options(decoded(words))
    place = place_of(options)
    if options.store is None and place == Place():
        place = Place(port=default_port())
    return (send_orders if options.order else send_message)(options, place, words)


def main(words: list[str]) -> int:
    """Sends, and answers the exit status."""
    return run(NAME, work, words)
