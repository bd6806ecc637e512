"""Tests that `send --id=auto` acts once per line beside a server that is killed and started anew.

Each round sends a message of clones, each of which would make one more bug if it acted twice, and
kills the server as soon as the log of its desk shows that the message has begun, or a bit later.
It goes on until ROUNDS messages were hit between two of their lines, which the environment sets.
"""

import collections
import os
import pathlib
import random
import sqlite3
import subprocess
import tempfile
import time
import unittest

import desks

ROUNDS = int(os.environ.get("ROUNDS", "3"))
MEMORY = pathlib.Path("/dev/shm")
LINES = 300
# The most seconds that the server has after the first line, and how many rounds may miss for a hit.
SPAN = 0.015
MOST_MISSED = 20
BETWEEN = "between lines"


def serve(store, port):
    """A server of a desk that listens."""
    words = [desks.program(), f"--port={port}", f"--store={store}", "serve"]
    server = subprocess.Popen(words, stdout=subprocess.PIPE, stderr=subprocess.DEVNULL)
    if not server.stdout.readline():
        raise AssertionError("the server does not listen")
    return server


def kill(server):
    """Kills the server."""
    server.kill()
    server.wait()
    server.stdout.close()


def count(store, table):
    """How many rows a table of a desk that nothing has open has."""
    connection = sqlite3.connect(f"file:{store}?mode=ro", uri=True)
    try:
        return connection.execute(f"SELECT count(*) FROM {table}").fetchone()[0]
    finally:
        connection.close()


def wait_for_line(log, before, sender):
    """Waits until the log of a desk has changed, or the sender has ended."""
    end = time.monotonic() + desks.TIME_LIMIT
    while os.stat(log).st_mtime_ns == before and sender.poll() is None:
        if time.monotonic() > end:
            raise AssertionError("the message does not arrive")


class Killed(unittest.TestCase):
    """Messages to a server that is killed."""

    def test_rounds(self):
        """Each line acts once, wherever the server is killed."""
        chance, hits = random.Random(5), collections.Counter()
        while hits[BETWEEN] < ROUNDS and hits.total() < ROUNDS * MOST_MISSED:
            with tempfile.TemporaryDirectory(dir=MEMORY if MEMORY.is_dir() else None) as place:
                store = desks.make_desk(place, "@report foo 1 normal a\n")
                hits[self.round(store, chance.random() * SPAN)] += 1
        if "ROUNDS" in os.environ:
            print(f"killed {dict(sorted(hits.items()))}")
        self.assertEqual(hits[BETWEEN], ROUNDS)

    def round(self, store, seconds):
        """One message, and where its server was killed."""
        port, log = desks.free_port(), f"{store}-wal"
        server = serve(store, port)
        words = " , ".join(f"clone 1 -{place}" for place in range(1, LINES + 1)).split()
        before = os.stat(log).st_mtime_ns
        sender = subprocess.Popen(
            [*desks.command("send"), f"--port={port}", "--from=ann", "--id=auto",
             *words],
            stdout=subprocess.PIPE, stderr=subprocess.PIPE, text=True)
        wait_for_line(log, before, sender)
        time.sleep(seconds)
        kill(server)
        done = count(store, "outcomes")
        server = serve(store, port)
        try:
            output, errors = sender.communicate(timeout=desks.TIME_LIMIT)
        finally:
            kill(server)
        self.assertEqual(sender.returncode, 0, errors)
        self.assertEqual(output, "".join(
            f"> clone 1 -{place}\nOK {place + 1}\n" for place in range(1, LINES + 1)))
        self.assertEqual((count(store, "bugs"), count(store, "outcomes")), (LINES + 1, LINES))
        if not errors:
            return "after the answer"
        return BETWEEN if 0 < done < LINES else f"after {done} lines"


if __name__ == "__main__":
    unittest.main()
