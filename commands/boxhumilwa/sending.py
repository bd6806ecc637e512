"""What is sent to the server of a desk: one exchange, and a message that is sent to its end."""

import http.client
import json
import os
import secrets
import time
from collections.abc import Callable
from typing import Any

from .desk_served import LARGEST_ANSWER, SECONDS, Place
from .faults import BadWords, Fault
from .terminal import shown

# An object of JSON.
Object = dict[str, Any]
LARGEST_BODY = 65_536
ENDS = ("all", "stopped", "unreadable")
# The seconds before a message is sent again: systemd restarts the service after 5 seconds.
PAUSES = (0.5, 1, 3, 8)
ACCEPTED, REFUSED = 0, 1
# The status of HTTP where the store failed, or there was no memory.
FAILED = 500


class NotBegun(Fault):
    """Nobody listens there, so nothing was done."""


class Lost(Fault):
    """No whole answer came, or the store failed: what was asked may have been done, or a part."""

    def __init__(self, text: str, transcript: str = "") -> None:
        super().__init__(text)
        self.transcript = transcript


# One exchange.


def no_desk(place: Place, answer: object) -> Fault:
    """The fault of an answer that no desk gives."""
    return Fault(f"{place}: it answered {shown(str(answer)[:100])!r}, as no desk does")


def body_of(value: Object) -> bytes:
    """The bytes of a request, which are refused where they are too many."""
    body = json.dumps(value, ensure_ascii=False, separators=(",", ":")).encode()
    if len(body) > LARGEST_BODY:
        raise BadWords(
            f"the request has {len(body):,} bytes, and may have {LARGEST_BODY:,}: nothing is sent")
    return body


def ask(place: Place, method: str, path: str, value: Object | None = None) -> tuple[int, str]:
    """The status of an answer, and its body; a long message is given more time."""
    body = None if value is None else body_of(value)
    seconds = SECONDS + len(body or b"") // 1_000
    connection = place.connection(seconds)
    try:
        connection.request(method, path, body)
        response = connection.getresponse()
        if response.length is None:
            raise Lost(str(no_desk(place, "a body of no length, or half a head")))
        if response.length > LARGEST_ANSWER:
            raise no_desk(place, f"a body of {response.length} bytes")
        return response.status, response.read().decode()
    except (ConnectionRefusedError, FileNotFoundError) as error:
        raise NotBegun(f"{place}: no desk is served there: {error.strerror}") from error
    except TimeoutError as error:
        raise Lost(f"{place}: no answer within {seconds} seconds") from error
    except (http.client.IncompleteRead, ConnectionError) as error:
        raise Lost(f"{place}: the connection ended before a whole answer came") from error
    except http.client.HTTPException as error:
        raise Lost(str(no_desk(place, error))) from error
    except UnicodeDecodeError as error:
        raise no_desk(place, "bytes that are not UTF-8") from error
    except OSError as error:
        raise Lost(f"{place}: {error.strerror or error}") from error
    finally:
        connection.close()


def object_of(place: Place, text: str) -> Object:
    """The object of JSON that a body is."""
    try:
        value = json.loads(text)
    except (ValueError, RecursionError):
        raise no_desk(place, text) from None
    if not isinstance(value, dict):
        raise no_desk(place, text)
    return value


def error_of(place: Place, status: int, text: str) -> str:
    """The words of a refusal; a fault where the answer is none."""
    if status == FAILED:
        raise store_fault(place, object_of(place, text))
    error = object_of(place, text).get("error") if status in (400, 409) else None
    if not isinstance(error, str):
        raise no_desk(place, f"{status} {text}")
    if error == "bad request":
        raise BadWords("the desk calls it a bad request: nothing was done")
    return error


def store_fault(place: Place, value: Object) -> Lost:
    """The fault of a desk whose store failed, with the transcript up to there."""
    transcript = value.get("transcript")
    return Lost(f"{place}: the store of the desk failed, or it has no memory",
                transcript if isinstance(transcript, str) else "")


# Messages.


def is_refusal(transcript: str) -> bool:
    """Whether a line of a message was refused."""
    return any(line.startswith(("NO ", "Too many ")) for line in transcript.split("\n"))


def send_once(
    place: Place, sender: str, message: str, word: str | None = None,
) -> tuple[str, int]:
    """What a message is answered that is sent once: a text, and the exit status."""
    value = {"from": sender, "message": message} | ({} if word is None else {"id": word})
    status, text = ask(place, "POST", "/control", value)
    if status != 200:
        return f"NO {error_of(place, status, text)}\n", REFUSED
    value = object_of(place, text)
    transcript = value.get("transcript")
    if value.get("end") not in ENDS or not isinstance(transcript, str):
        raise no_desk(place, text)
    return transcript, REFUSED if is_refusal(transcript) else ACCEPTED


def new_id() -> str:
    """An id unlike any other: the time, this process, and a random number."""
    return f"send.{time.time_ns()}.{os.getpid()}.{secrets.token_hex(8)}"


def send_until_end(
    place: Place, sender: str, message: str, tell: Callable[[str], None],
) -> tuple[str, int]:
    """The same of a message that gets an id, and is sent again until it has its end."""
    word, times = new_id(), 1
    try:
        for pause in PAUSES:
            try:
                return send_once(place, sender, message, word)
            except (Lost, NotBegun) as fault:
                tell(f"{fault}; it is sent again")
                time.sleep(pause)
                times += 1
        return send_once(place, sender, message, word)
    except (Lost, NotBegun) as fault:
        raise Lost(
            f"{fault}; it was sent {times} times: send the same again with --id={word}",
            getattr(fault, "transcript", "")) from fault
    except (KeyboardInterrupt, SystemExit):
        tell(f"to go on, send the same again with --id={word}")
        raise
