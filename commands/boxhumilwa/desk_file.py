"""A desk in a file, or one in memory: each is asked by one run of the program on a script."""

import itertools
import pathlib
import subprocess
import tempfile
import threading
from collections.abc import Callable, Generator, Iterable, Iterator
from typing import IO, TypeVar, cast

from .answers import Bug, Question, Unexpected, read_list, read_page
from .faults import Fault

CHECKOUT = pathlib.Path(__file__).resolve().parent.parent.parent
INSTALLED = pathlib.Path("/usr/bin/boxhumilwa")
# The program of the checkout that this file is in; elsewhere the one that is installed.
PROGRAM = CHECKOUT / "crates/bts/out/bts" if (CHECKOUT / "crates.txt").exists() else INSTALLED
BATCH = 1_000
REFUSED = 1
# How many lines are read after an answer that is none, for the program to say why.
MOST_DRAINED = 1_000
IN_USE = "in use by another process"
Read = TypeVar("Read")


def write_script(stream: IO[bytes], script: Iterable[str]) -> None:
    """Writes the lines of a script, as long as somebody reads them."""
    lines = iter(script)
    try:
        with stream:
            while batch := list(itertools.islice(lines, BATCH)):
                stream.write("".join(f"{line}\n" for line in batch).encode())
    except BrokenPipeError:
        pass


def answer_lines(
    program: str, store: str | None, script: Iterable[str],
) -> Generator[str, None, None]:
    """The lines that one run of the program answers to a script, as they come.

    A thread writes the script meanwhile, so neither waits for the other.
    """
    words = [program, *([f"--store={store}"] if store else []), "run"]
    with tempfile.TemporaryFile() as errors:
        try:
            process = subprocess.Popen(
                words, stdin=subprocess.PIPE, stdout=subprocess.PIPE, stderr=errors)
        except OSError as error:
            raise Fault(f"{program}: it can't be run: {error.strerror}") from error
        output = cast(IO[bytes], process.stdout)
        writer = threading.Thread(target=write_script, args=(process.stdin, script), daemon=True)
        writer.start()
        try:
            for line in output:
                yield line.decode().removesuffix("\n")
            status = process.wait()
        except UnicodeDecodeError as error:
            raise Unexpected("bytes that are not UTF-8") from error
        finally:
            process.kill()
            process.wait()
            output.close()
            writer.join()
        if status not in (0, REFUSED):
            raise Fault(why_ended(program, status, errors))


def why_ended(program: str, status: int, errors: IO[bytes]) -> str:
    """What a run that ended with a fault said of it."""
    errors.seek(0)
    told = errors.read(10_000).decode(errors="replace").split("\n")
    reason = next((line for line in told[1:] if line), f"it ended with status {status}")
    return f"{program}: {reason.removeprefix('bts: ')}"


def asked(
    program: str, store: str | None, script: Iterable[str],
    read: Callable[[Iterator[str]], Iterable[Read]],
) -> Iterator[Read]:
    """Yields what `read` makes of the answers of a run, one after another, up to their end."""
    lines = answer_lines(program, store, script)
    try:
        yield from read(lines)
        if (line := next(lines, None)) is not None:
            raise Unexpected(line)
    except Unexpected as error:
        for _ in itertools.islice(lines, MOST_DRAINED):
            pass
        raise Fault(f"{program}: it answered {str(error)[:100]!r}, as no desk does") from error
    finally:
        lines.close()


def list_line(question: Question) -> str:
    """The directive that asks for the list of a source at its version."""
    return "@list {0} {0}/{1}".format(*question)


class FileDesk:
    """A desk in a file, which the program opens for each series of questions."""

    def __init__(self, program: str, store: str | None) -> None:
        self.program, self.store = program, store

    def lists(self, questions: Iterable[Question]) -> Iterator[tuple[list[Bug], str | None]]:
        """For each source and version the bugs of its list, and why it is refused."""
        return asked(
            self.program, self.store, map(list_line, questions),
            lambda lines: (read_list(lines, *question) for question in questions))

    def pages(self, numbers: Iterable[int]) -> Iterator[str]:
        """The page of each bug."""
        return asked(
            self.program, self.store, (f"@show {number}" for number in numbers),
            lambda lines: (read_page(lines, number) for number in numbers))
