"""The command line of `find`: its options, of which each is good by itself and with the others."""

import argparse
import fnmatch
import re

from .answers import SEVERITIES, TAGS
from .bug_facts import STATES
from .command import Parser, add_desk_to_read, add_program, is_served, make_parser, named_path
from .finding import BOTH, NO, ORDERS, YES
from .page_facts import MOST_MISSING
from .texts import is_package_name, number_word

WORD = re.compile("(?!/)[!-~]{1,500}")
WHICH = (YES, NO, BOTH)
USAGE = "find [--store=FILE] [--port=N | --socket=PATH] [options]"
STANDARD_INPUT = "-"


# Values.


def package_name(word: str) -> str:
    """The name of a package."""
    if not is_package_name(word):
        raise argparse.ArgumentTypeError(f"{word!r} is no package's name")
    return word


def version_word(word: str) -> str:
    """A version, perhaps with its source."""
    if not WORD.fullmatch(word):
        raise argparse.ArgumentTypeError("a version is 1 to 500 visible ASCII characters")
    return word


def text_word(word: str) -> str:
    """A text, which is UTF-8."""
    try:
        word.encode()
    except UnicodeEncodeError as error:
        raise argparse.ArgumentTypeError(f"{word!r} is not UTF-8") from error
    return word


def title_pattern(word: str) -> str:
    """A pattern of a shell."""
    text_word(word)
    try:
        fnmatch.fnmatchcase("", word)
    except re.error as error:
        raise argparse.ArgumentTypeError(f"{word!r} is no pattern: {error}") from error
    return word


def bug_number(word: str) -> int:
    """The number of a bug."""
    number = number_word(word)
    if number is None:
        raise argparse.ArgumentTypeError(f"{word!r} is no bug's number")
    return number


# Options.


def add_place(parser: Parser) -> None:
    """Puts the options that say where the desk is, and how it is read."""
    add_desk_to_read(parser)
    parser.add_argument(
        "--first", type=bug_number, metavar="N",
        help="the first page to ask a server for; 1 if left out")
    parser.add_argument(
        "--last", type=bug_number, metavar="N",
        help=f"the last one; else {MOST_MISSING:,} missing numbers in a row end the reading")
    add_program(parser)


def add_texts(parser: Parser) -> None:
    """Puts the options that test a text of a bug."""
    tests = parser.add_argument_group("tests of names and texts")
    for name, told in (
        ("--package", "bugs of this package"), ("--affects", "bugs that affect this package"),
    ):
        tests.add_argument(
            name, action="append", default=[], type=package_name, metavar="PACKAGE", help=told)
    for name, told in (
        ("--maintainer", "bugs of packages that this person maintains"),
        ("--submitter", "bugs that this person reported"),
        ("--owner", "bugs that this person owns; - is nobody"),
    ):
        tests.add_argument(
            name, action="append", default=[], type=text_word, metavar="NAME", help=told)
    tests.add_argument(
        "--maintainers", metavar="FILE",
        help="lines of a package and its maintainer, for --maintainer")
    tests.add_argument(
        "--title", action="append", default=[], type=title_pattern, metavar="PATTERN",
        help="bugs whose whole title is like this, with * ? and [..] as in a shell")


def add_choices(parser: Parser) -> None:
    """Puts the options that test what is one of some words."""
    tests = parser.add_argument_group("tests of states")
    for name, choices, metavar, told in (
        ("--severity", SEVERITIES, "S", "bugs of this severity or a graver one"),
        ("--tag", TAGS, "TAG", "bugs that have this tag"),
        ("--not-tag", TAGS, "TAG", "bugs that have not this tag"),
        ("--state", STATES, "STATE", f"bugs in this state: {' or '.join(STATES)}"),
    ):
        tests.add_argument(
            name, action="append", default=[], choices=choices, metavar=metavar, help=told)
    for name, told in (
        ("--archived", "archived bugs; no if left out"),
        ("--forwarded", "bugs that are forwarded"),
        ("--merged", "bugs that are merged with others"),
        ("--blocked", "bugs that wait on others, be these done or not"),
    ):
        tests.add_argument(
            name, action="append", default=[], nargs="?", const=YES, choices=WHICH,
            metavar="WHICH", help=told)


def add_versions(parser: Parser) -> None:
    """Puts the options that ask which bugs versions have."""
    tests = parser.add_argument_group("tests by the desk's lists")
    tests.add_argument(
        "--at", action="append", default=[], type=version_word, metavar="VERSION",
        help="bugs that this SOURCE/VERSION has; a VERSION is one of each --package")
    tests.add_argument(
        "--suite", action="append", default=[], type=named_path, metavar="SUITE=PATH",
        help="bugs that a package of this suite has, at its version there")
    tests.add_argument(
        "--unseen", action="store_true",
        help="open bugs found only at versions in no branch; with --at or --suite, bugs not listed "
             "there for want of a branch")


def add_answers(parser: Parser) -> None:
    """Puts the options that say what is written."""
    answers = parser.add_argument_group("answers")
    answers.add_argument(
        "--sort", choices=sorted(ORDERS), default="number", metavar="ORDER",
        help="number, severity, package, or waiting: how many wait on it")
    forms = answers.add_mutually_exclusive_group()
    forms.add_argument("--json", action="store_true", help="write JSON instead of a table")
    forms.add_argument("--csv", action="store_true", help="write CSV")
    forms.add_argument("--numbers", action="store_true", help="write the numbers alone")


def find_parser(told: str | None) -> Parser:
    """What the command line may be."""
    parser = make_parser("find", told, USAGE)
    for add in (add_place, add_texts, add_choices, add_versions, add_answers):
        add(parser)
    return parser


# All together.


def fault_of(options: argparse.Namespace) -> str | None:
    """What is wrong with options that are good by themselves."""
    if options.store is None and not is_served(options):
        return "name the desk by --store=FILE, --port=N or --socket=PATH"
    if options.unseen and options.store is None:
        return "--unseen needs --store: a server tells nobody its branches"
    if (options.first or options.last) and not is_served(options):
        return "--first and --last are for a desk that is served"
    if options.last and options.last < (options.first or 1):
        return "--last is before the first"
    if bool(options.maintainer) != (options.maintainers is not None):
        return "--maintainer=NAME and --maintainers=FILE need each other"
    if not options.package and not all("/" in version for version in options.at):
        return "--at=VERSION without --package needs SOURCE/VERSION"
    if len(dict(options.suite)) != len(options.suite):
        return "two suites have one name"
    paths = [options.maintainers, *(path for _, path in options.suite)]
    if paths.count(STANDARD_INPUT) > 1:
        return "standard input can be one file alone"
    return None


def read_options(told: str | None, words: list[str]) -> argparse.Namespace:
    """The options of a command line."""
    parser = find_parser(told)
    options = parser.parse_args(words)
    fault = fault_of(options)
    if fault:
        parser.error(fault)
    options.archived = options.archived or [NO]
    return options
