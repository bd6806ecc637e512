"""What is done on a desk in a file in place of sending: a run of the program."""

import subprocess
import tempfile
from collections.abc import Collection

from .desk_file import why_ended
from .faults import BadWords, Fault
from .sending import Lost

# The words that are jobs of the program where they stand first.
JOBS = ("init", "run", "serve")
GOOD, BAD_WORDS = (0, 1), 2


def outcome(
    program: str, words: list[str], given: str = "", held: Collection[int] = (),
) -> tuple[str, int]:
    """What a run of the program answers, and its exit status; a fault has what came before it.

    The run holds these files open, so that a lock on them lasts as long as it does.
    """
    with tempfile.TemporaryFile() as errors:
        try:
            ran = subprocess.run(
                [program, *words], input=given.encode(), stdout=subprocess.PIPE, stderr=errors,
                pass_fds=held)
        except OSError as error:
            raise Fault(f"{program}: it can't be run: {error.strerror}") from error
        text = ran.stdout.decode(errors="replace")
        if ran.returncode == BAD_WORDS:
            raise BadWords(f"{program} calls these bad words: nothing was done")
        if ran.returncode not in GOOD:
            raise Lost(why_ended(program, ran.returncode, errors), text)
    return text, ran.returncode


def send_script(program: str, store: str, sender: str, message: str) -> tuple[str, int]:
    """What a message is answered; a line that a script takes for a directive is refused."""
    if any(line.lstrip(" \t").startswith("@") for line in message.split("\n")):
        raise BadWords("a line that begins with @ is no command: nothing is sent")
    return outcome(program, [f"--store={store}", "run"], f"@from {sender}\n{message}")


def send_words(
    program: str, store: str, sender: str, words: list[str], word: str,
) -> tuple[str, int]:
    """What a message in words is answered that has an id."""
    if words[0] in JOBS:
        raise BadWords(f"{words[0]} is no command: nothing is sent")
    options = [f"--store={store}", f"--from={sender}", f"--id={word}"]
    return outcome(program, [*options, *words])


def send_order(
    program: str, store: str, sender: str | None, name: str, line: str,
) -> tuple[str, int]:
    """What an order is answered."""
    start = f"@from {sender}\n" if sender else ""
    return outcome(program, [f"--store={store}", "run"], f"{start}@{name} {line}\n")
