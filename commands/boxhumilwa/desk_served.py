"""A desk that is served: where it is, and its answers over HTTP."""

import contextlib
import http.client
import pathlib
import re
import socket
import urllib.parse
from collections.abc import Callable, Iterable, Iterator
from typing import NamedTuple, TypeVar

from .answers import Bug, Question, Unexpected, list_size, read_list, read_page
from .faults import Fault

DEFAULTS = pathlib.Path("/etc/default/boxhumilwa")
FIRST_PORT = 8080
SECONDS = 20
# How often a question is asked whose connection the server closes without a word, as it does with a
# client that has asked nothing for a second.
TRIES = 3
LARGEST_ANSWER = 1 << 30
Read = TypeVar("Read")
# What a list is that the server refuses.
NOT_FOUND: tuple[list[Bug], str | None] = ([], "the server answers 404: a bad name or version")


# Where it is served.


def is_port(word: str) -> bool:
    """Whether a word is a number from 1 to 65,535."""
    digits = word.lstrip("0")
    return word.isascii() and digits.isdecimal() and len(digits) < 6 and int(digits) <= 65_535


def default_port() -> int:
    """The port of the service, as its file says it; the first one where there is no such file."""
    try:
        text = DEFAULTS.read_text(encoding="utf-8")
    except FileNotFoundError:
        return FIRST_PORT
    except (OSError, UnicodeDecodeError) as error:
        reason = getattr(error, "strerror", None) or "not UTF-8"
        raise Fault(f"{DEFAULTS}: it can't be read: {reason}; give --port=N") from error
    values = re.findall(r"^[ \t]*PORT[ \t]*=[ \t]*(.*?)[ \t\r]*$", text, re.MULTILINE)
    value = values[-1].strip("\"'") if values else ""
    if not is_port(value):
        raise Fault(f"{DEFAULTS}: it sets no PORT from 1 to 65,535; give --port=N")
    return int(value)


class SocketConnection(http.client.HTTPConnection):
    """A connection over a Unix socket."""

    def __init__(self, path: str, timeout: float) -> None:
        super().__init__("localhost", timeout=timeout)
        self.path = path

    def connect(self) -> None:
        """Connects."""
        self.sock = socket.socket(socket.AF_UNIX)
        self.sock.settimeout(self.timeout)
        self.sock.connect(self.path)


class Place(NamedTuple):
    """Where a desk is served: a Unix socket where it has a path, else a port of this machine."""

    port: int = 0
    path: str = ""

    def __str__(self) -> str:
        return f"socket {self.path}" if self.path else f"port {self.port}"

    def connection(self, seconds: float) -> http.client.HTTPConnection:
        """A connection that waits so long for each answer."""
        if self.path:
            return SocketConnection(self.path, seconds)
        return http.client.HTTPConnection("127.0.0.1", self.port, timeout=seconds)

    def no_desk(self, answer: object) -> Fault:
        """The fault of an answer that no desk gives."""
        return Fault(f"{self}: it answered {str(answer)[:100]!r}, as no desk does")


# The desk.


class ServedDesk:
    """A desk that is served: a connection for each question."""

    def __init__(self, place: Place) -> None:
        self.place = place
        try:
            lines = self.get("/list/aa/0")[1]
            if list_size(lines[0], "aa", "0") is None:
                raise Unexpected(lines[0])
        except Unexpected as error:
            raise self.place.no_desk(error) from error

    def get(self, path: str) -> tuple[int, list[str]]:
        """The status of an answer, and the lines of its body."""
        for _ in range(TRIES - 1):
            with contextlib.suppress(http.client.RemoteDisconnected):
                return self.get_once(path)
        try:
            return self.get_once(path)
        except http.client.RemoteDisconnected as error:
            raise Unexpected(repr(error)) from error

    def get_once(self, path: str) -> tuple[int, list[str]]:
        """The same, by one connection."""
        connection = self.place.connection(SECONDS)
        try:
            connection.request("GET", path)
            response = connection.getresponse()
            if response.length is None or response.length > LARGEST_ANSWER:
                raise Unexpected("a body of no length")
            body = response.read()
        except http.client.RemoteDisconnected:
            raise
        except http.client.HTTPException as error:
            raise Unexpected(repr(error)) from error
        except TimeoutError as error:
            raise Fault(f"{self.place}: no answer within {SECONDS} seconds") from error
        except OSError as error:
            raise Fault(f"{self.place}: {error.strerror or error}") from error
        finally:
            connection.close()
        return response.status, self.body_lines(response.status, body)

    def body_lines(self, status: int, body: bytes) -> list[str]:
        """The lines of a body; a store that fails ends the report."""
        if status == 500:
            raise Fault(f"{self.place}: the store of the desk failed")
        try:
            return body.decode().removesuffix("\n").split("\n")
        except UnicodeDecodeError as error:
            raise Unexpected("bytes that are not UTF-8") from error

    def read(self, path: str, read: Callable[[Iterator[str]], Read], refusal: Read) -> Read:
        """What `read` makes of the lines of a body, or the refusal where it is 404."""
        try:
            status, told = self.get(path)
            if status == 404:
                return refusal
            if status != 200:
                raise Unexpected(f"status {status}")
            lines = iter(told)
            answer = read(lines)
            if (line := next(lines, None)) is not None:
                raise Unexpected(line)
            return answer
        except Unexpected as error:
            raise self.place.no_desk(error) from error

    def lists(self, questions: Iterable[Question]) -> Iterator[tuple[list[Bug], str | None]]:
        """For each source and version the bugs of its list, and why it is refused."""
        for question in questions:
            source, version = (urllib.parse.quote(word, safe="") for word in question)
            path = f"/list/{source}/{source}/{version}"
            yield self.read(path, lambda lines: read_list(lines, *question), NOT_FOUND)

    def pages(self, numbers: Iterable[int]) -> Iterator[str]:
        """The page of each bug."""
        for number in numbers:
            refusal = f"NO no such bug {number}"
            yield self.read(f"/bugs/{number}", lambda lines: read_page(lines, number), refusal)
