"""One way in for all commands: their options, the desk that these name, and how they end.

The exit statuses are those of the program: 0; 1 where something was refused; 2 for a wrong command
line; 3 for a fault.
"""

import argparse
import contextlib
import os
import signal
import sys
from collections.abc import Callable, Iterable, Iterator
from typing import NoReturn

from .desk_file import IN_USE, PROGRAM, FileDesk
from .desk_served import Place, ServedDesk, is_port
from .faults import BadWords, Fault
from .snapshot import private_copy
from .terminal import shown

Desk = FileDesk | ServedDesk
DONE, REFUSED, BAD_WORDS, FAULT = 0, 1, 2, 3
HINT = "a server may have it open: ask that one by --port=N or --socket=PATH"
# The signals that end a command, and those of them that came: what a signal raises in a function
# that SQLite calls, SQLite tells as a fault of its own.
ENDING = (signal.SIGTERM, signal.SIGINT, signal.SIGHUP)
ENDED: list[int] = []


def tell(name: str, text: object) -> None:
    """Tells something on standard error: one line, with nothing in it that steers a terminal."""
    line = shown(" ".join(str(text).split("\n")))
    sys.stderr.write(f"{name}: {line}\n")
    sys.stderr.flush()


class Parser(argparse.ArgumentParser):
    """A command line, of which a fault is told in one line."""

    def error(self, message: str) -> NoReturn:
        """Tells what is wrong, and ends."""
        tell(self.prog, f"error: {message}; {self.prog} --help says what there is")
        sys.exit(BAD_WORDS)


def make_parser(name: str, told: str | None, usage: str) -> Parser:
    """The parser of a command."""
    return Parser(
        prog=name, description=told, usage=usage, allow_abbrev=False,
        formatter_class=argparse.RawDescriptionHelpFormatter)


# Options that commands share.


def port_number(word: str) -> int:
    """The port of a word."""
    if not is_port(word):
        raise argparse.ArgumentTypeError("a port is a number from 1 to 65,535")
    return int(word)


def named_path(word: str) -> tuple[str, str]:
    """The name of a suite, and the path of its index."""
    name, sign, path = word.partition("=")
    if not (sign and path and name.isprintable()) or name != name.strip() or not name:
        raise argparse.ArgumentTypeError(f"{word!r} is not SUITE=PATH")
    return name, path


def add_desk(
    parser: Parser, is_required: bool = True, port: str = "the port of the desk's server",
) -> None:
    """Puts the options that name a desk; `port` says what that option does."""
    desk = parser.add_mutually_exclusive_group(required=is_required)
    desk.add_argument("--store", metavar="FILE", help="the file of the desk")
    desk.add_argument("--port", type=port_number, metavar="N", help=port)
    desk.add_argument(
        "--socket", metavar="PATH", help="the Unix socket of the desk's server, for HTTP")


def add_desk_to_read(parser: Parser) -> None:
    """Puts the options that name a desk, of which a served one may be read in its file."""
    parser.add_argument(
        "--store", metavar="FILE", help="the file of the desk; of a served one a copy is read")
    desk = parser.add_mutually_exclusive_group()
    desk.add_argument(
        "--port", type=port_number, metavar="N", help="the port of the desk's server")
    desk.add_argument(
        "--socket", metavar="PATH", help="the Unix socket of the desk's server, for HTTP")


def is_served(options: argparse.Namespace) -> bool:
    """Whether the options name a server."""
    return options.port is not None or options.socket is not None


def test_desk(parser: Parser, options: argparse.Namespace) -> None:
    """Tests that the options name a desk."""
    if options.store is None and not is_served(options):
        parser.error("one of the arguments --store --port --socket is required")


def add_program(parser: Parser) -> None:
    """Puts the option that names the program."""
    parser.add_argument(
        "--program", default=str(PROGRAM), metavar="FILE", help="the program of the desk")


def place_of(options: argparse.Namespace) -> Place:
    """Where the desk of the options is served."""
    return Place(port=options.port or 0, path=options.socket or "")


def open_desk(options: argparse.Namespace) -> Desk:
    """The desk that the options name."""
    if options.store is not None:
        return FileDesk(options.program, options.store)
    return ServedDesk(place_of(options))


@contextlib.contextmanager
def desk_to_read(name: str, options: argparse.Namespace) -> Iterator[tuple[Desk, str | None]]:
    """The desk that the options name, and the file of it whose tables can be read.

    Of a served desk whose file is named a copy is read, at one moment.
    Where that can't be made, which is told, the server is asked, and no table can be read.
    """
    if not is_served(options):
        yield FileDesk(options.program, options.store), options.store
        return
    desk = ServedDesk(place_of(options))
    with contextlib.ExitStack() as stack:
        path = None
        if options.store is not None:
            try:
                path = stack.enter_context(private_copy(options.store))
            except Fault as fault:
                tell(name, f"{fault}; the server is asked instead")
        yield (desk if path is None else FileDesk(options.program, path)), path


# The end.


def write_lines(lines: Iterable[str]) -> None:
    """Writes lines to standard output."""
    with open(1, "w", encoding="utf-8", closefd=False) as output:
        output.writelines(f"{line}\n" for line in lines)


def carried_out(name: str, main: Callable[[list[str]], int], words: list[str]) -> int:
    """The exit status of a command's work, whose faults are told."""
    try:
        return main(words)
    except BadWords as bad:
        tell(name, bad)
        return BAD_WORDS
    except Fault as fault:
        if ENDED:
            tell(name, "interrupted")
            return 128 + ENDED[0]
        tell(name, f"{fault}; {HINT}" if IN_USE in str(fault) else fault)
    except MemoryError:
        tell(name, "out of memory: ask for less, or give it more")
    except BrokenPipeError:
        os.dup2(os.open(os.devnull, os.O_WRONLY), 1)
        tell(name, "standard output can't be written: nobody reads it")
    except OSError as error:
        tell(name, f"standard output can't be written: {error.strerror}")
    except KeyboardInterrupt:
        tell(name, "interrupted")
        return 128 + signal.SIGINT
    return FAULT


def end(number: int, _: object) -> NoReturn:
    """Ends the command because of a signal, so that it removes what it has made."""
    ENDED.append(number)
    if number == signal.SIGINT:
        raise KeyboardInterrupt
    sys.exit(128 + number)


def run(name: str, main: Callable[[list[str]], int], words: list[str]) -> int:
    """Carries out a command's work, which a signal ends, and answers the exit status."""
    for number in ENDING:
        if signal.getsignal(number) is not signal.SIG_IGN:
            signal.signal(number, end)
    return carried_out(name, main, words)
