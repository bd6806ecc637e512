"""Takes a mail for a desk from standard input, or shows what was said about a bug.

take       carries out the mail; the mail system gives it again until it is taken
show N     prints the mails that are kept with bug N, and what they changed
mbox N     writes them as an mbox
check      tells which mails are held, and how big the folders are

`take`, which is the job where none is named, ends with 0 where the mail was taken, or refused and
answered, or held; and with 75 for everything else, so that the mail system keeps it.
The other jobs end with 0; 1 where nothing is kept, or where a mail is held or was not ended; 2 for
a wrong command line; 3 for a fault.
"""

import argparse
import json
import os
import sys
from collections.abc import Iterator
from typing import NoReturn

from . import command
from .desk_served import Place, default_port
from .faults import BadWords, Fault

NAME = "mail"
TAKE, SHOW, MBOX, CHECK = "take", "show", "mbox", "check"
JOBS = (TAKE, SHOW, MBOX, CHECK)
# The status by which a mail system tries again later, EX_TEMPFAIL.
TRY_AGAIN = 75
PIECE = 1 << 16
LARGEST_NUMBER = 999_999_999
USAGE = """mail (--store=FILE | --port=N | --socket=PATH) --folder=PATH [options] [take]
       mail --folder=PATH [--json] show N
       mail --folder=PATH mbox N
       mail --folder=PATH [--json] check"""


class Parser(command.Parser):
    """A command line, of which a fault is a fault of its job."""

    def error(self, message: str) -> NoReturn:
        """Tells what is wrong."""
        raise BadWords(f"error: {message}; {self.prog} --help says what there is")


def at_least_one(word: str) -> int:
    """A number from 1 on."""
    if not (word.isascii() and word.isdecimal() and len(word) < 16 and int(word)):
        raise argparse.ArgumentTypeError(f"{word!r} is not a number from 1 on")
    return int(word)


def mail_parser() -> Parser:
    """What the command line may be."""
    parser = Parser(
        prog=NAME, description=__doc__, usage=USAGE, allow_abbrev=False,
        formatter_class=argparse.RawDescriptionHelpFormatter)
    command.add_desk(parser, False)
    command.add_program(parser)
    parser.add_argument("--json", action="store_true", help="write JSON")
    parser.add_argument(
        "--folder", required=True, metavar="PATH",
        help="the folder of the journal, of kept and held mails, and of answers")
    parser.add_argument(
        "--to", metavar="ADDRESS", help="the recipient; if left out, RECIPIENT of the environment")
    parser.add_argument(
        "--sender", metavar="ADDRESS",
        help="the envelope's sender, which may be empty; if left out, SENDER of the environment, "
             "else Return-Path of the mail")
    parser.add_argument(
        "--domain", default="", metavar="NAME",
        help="the domain of the desk's addresses; if left out, that of the recipient")
    parser.add_argument(
        "--packages", metavar="FILE",
        help="which source a binary package and its version are of: lines of these four, or an "
             "index Packages")
    parser.add_argument(
        "--allow", metavar="FILE", help="the addresses that may send commands; all if left out")
    parser.add_argument(
        "--room", type=at_least_one, default=1_000_000_000, metavar="BYTES",
        help="how big each of the folders bugs, held and out may be; 1,000,000,000 if left out")
    parser.add_argument(
        "--wait", type=at_least_one, default=60, metavar="SECONDS",
        help="how long it waits for the delivery before it; 60 if left out")
    parser.add_argument(
        "--first", type=at_least_one, default=1, metavar="N",
        help="the number of the first bug of a served desk; 1 if left out")
    parser.add_argument("job", nargs="?", default=TAKE, metavar="JOB", help=", ".join(JOBS))
    parser.add_argument("number", nargs="?", metavar="N", help="the number of a bug")
    return parser


def read_options(words: list[str]) -> argparse.Namespace:
    """The options, and the job with its number."""
    options = mail_parser().parse_args(words)
    if options.job not in JOBS:
        raise BadWords(f"{options.job} is no job: {', '.join(JOBS)}")
    needs_number = options.job in (SHOW, MBOX)
    if needs_number != (options.number is not None):
        what = "the number of a bug" if needs_number else "no word"
        raise BadWords(f"{options.job} takes {what}")
    if needs_number:
        word = options.number.removeprefix("#")
        if not (word.isascii() and word.isdecimal() and 0 < int(word[:20]) <= LARGEST_NUMBER):
            raise BadWords(f"{options.number} is not the number of a bug")
        options.number = int(word)
    return options


# Jobs.


def mail_pieces() -> Iterator[bytes]:
    """The bytes of standard input, from where it was read to."""
    while piece := sys.stdin.buffer.read(PIECE):
        yield piece


def take(options: argparse.Namespace) -> int:
    """Takes the mail of standard input."""
    from . import mail_reading, mail_taking

    to = options.to if options.to is not None else os.environ.get("RECIPIENT")
    if not to:
        raise BadWords("the recipient is missing: give --to=ADDRESS, or RECIPIENT")
    sender = options.sender if options.sender is not None else os.environ.get("SENDER")
    place = command.place_of(options)
    if options.store is None and place == Place():
        place = Place(port=default_port())
    try:
        data = sys.stdin.buffer.read(mail_reading.LARGEST + 1)
    except (AttributeError, OSError, ValueError) as error:
        raise Fault("standard input can't be read") from error
    told = mail_taking.take(mail_taking.Settings(
        options.program, options.store, place, options.first, options.folder, utf_8(to),
        None if sender is None else utf_8(sender), options.domain, options.packages,
        options.allow, options.room, options.wait), data, mail_pieces())
    lines = [json.dumps({"told": told}) if options.json else told]
    try:
        command.write_lines(lines)
    except (OSError, ValueError):
        # All is done, so nothing is tried again because nobody reads this.
        pass
    return command.DONE


def utf_8(word: str) -> str:
    """A word of the command line, whatever its bytes are."""
    return os.fsencode(word).decode(errors="replace")


def show(options: argparse.Namespace) -> int:
    """Prints what was said about a bug, or writes it as an mbox."""
    from . import mail_folders, mail_showing

    paths = mail_folders.kept_mails(options.folder, options.number)
    if not paths:
        command.tell(NAME, f"{options.folder}: nothing is kept with bug {options.number}")
        return command.REFUSED
    if options.job == MBOX:
        with open(1, "wb", closefd=False) as output:
            output.writelines(mail_showing.mbox_pieces(paths))
    elif options.json:
        command.write_lines(mail_showing.json_lines(paths))
    else:
        command.write_lines(mail_showing.show_lines(paths))
    return command.DONE


def check(options: argparse.Namespace) -> int:
    """Tells the state of the folder."""
    from . import mail_journal, mail_showing
    from .terminal import json_text

    if not os.path.exists(os.path.join(options.folder, "journal.db")):
        raise Fault(f"{options.folder}: no mail was taken there: it has no journal")
    with mail_journal.locked(options.folder, options.wait):
        journal = mail_journal.Journal(options.folder)
        try:
            state = mail_showing.state_of(options.folder, journal)
        finally:
            journal.close()
    if options.json:
        command.write_lines([json_text(json.dumps(state._asdict(), ensure_ascii=False))])
    else:
        command.write_lines(mail_showing.state_lines(state))
    return command.REFUSED if state.held or state.begun else command.DONE


def work(words: list[str]) -> int:
    """Carries out the job that the words name."""
    options = read_options(words)
    return {TAKE: take, SHOW: show, MBOX: show, CHECK: check}[options.job](options)


# The end.


def is_delivery(words: list[str]) -> bool:
    """Whether a command line, be it wrong, is for a delivery: it names no other job and no help."""
    before = ["", *words]
    return not any(
        word in (SHOW, MBOX, CHECK, "--help", "-h")
        and (earlier == "--json" or "=" in earlier or not earlier.startswith("--"))
        for earlier, word in zip(before, words))


def where(error: BaseException) -> str:
    """The kind of a fault of ours, and the line that it comes from."""
    trace = error.__traceback__
    while trace and trace.tb_next:
        trace = trace.tb_next
    place = f" in {os.path.basename(trace.tb_frame.f_code.co_filename)}:{trace.tb_lineno}" \
        if trace else ""
    return f"a fault of this command: {type(error).__name__}{place}"


def carried_out(words: list[str]) -> int:
    """The exit status of a job, as other commands have it."""
    try:
        return command.run(NAME, work, words)
    except Exception as error:
        command.tell(NAME, where(error))
        return command.FAULT


def main(words: list[str]) -> int:
    """Carries out a job, and answers the exit status: of a delivery 0 or 75."""
    if not is_delivery(words):
        return carried_out(words)
    try:
        return TRY_AGAIN if carried_out(words) else command.DONE
    except BaseException:
        return TRY_AGAIN
