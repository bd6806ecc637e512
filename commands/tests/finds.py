"""What the tests of `find` share: its runs, and what the program answers to a script."""

import contextlib
import io
import os
import re
import subprocess
import sys
import tempfile
import unittest.mock

import desks

from boxhumilwa import find


def answers(store, script):
    """The text that the program answers to a script."""
    ran = subprocess.run(
        [desks.program(), f"--store={store}", "run"], input="\n".join(script).encode(),
        stdout=subprocess.PIPE, check=False)
    return ran.stdout.decode()


@contextlib.contextmanager
def output_kept():
    """Keeps what is written to standard output meanwhile, by its number."""
    sys.stdout.flush()
    kept = os.dup(1)
    with tempfile.TemporaryFile() as file:
        os.dup2(file.fileno(), 1)
        try:
            yield file
        finally:
            os.dup2(kept, 1)
            os.close(kept)


def found(*words, status=0):
    """What `find` writes, run in this process, and what it tells."""
    errors = io.StringIO()
    with output_kept() as output, unittest.mock.patch.object(sys, "stderr", errors):
        ended = find.main([f"--program={desks.program()}", *map(str, words)])
        output.seek(0)
        text = output.read().decode()
    if ended != status:
        raise AssertionError(f"{words}: status {ended}: {errors.getvalue()}")
    return text, errors.getvalue()


def on_terminal(width, *words):
    """What a command writes to a terminal of so many columns."""
    terminal, side = os.openpty()
    try:
        with os.fdopen(side, "wb") as stream:
            process = subprocess.Popen(
                [*desks.command("find"), f"--program={desks.program()}", *words], stdout=stream,
                stdin=stream, stderr=stream, env=os.environ | {"COLUMNS": str(width)})
        pieces = []
        with contextlib.suppress(OSError):
            while piece := os.read(terminal, 10_000):
                pieces.append(piece)
        process.wait(desks.TIME_LIMIT)
    finally:
        os.close(terminal)
    # The terminal puts a carriage return before each line feed, and CSV has one there already.
    return re.sub("\r+\n", "\n", b"".join(pieces).decode())
