"""Tests of the program's edges, which no contract can know: its error output, its files, and what
it tells first where it is out of memory."""

import http.client
import json
import os
import pathlib
import resource
import shutil
import sqlite3
import subprocess
import unittest

import desks
from desks import folder, make_desk, program, run, served, server_of

NOBODY = 65534
# The causes of a file that is not opened, as the manual has them.
NOT_THERE = "bts: fault\nbts: the store's file is not there\n"
NOT_OPENED = "bts: fault\nbts: the store's file can't be opened\n"


def status_of(words, given="", **how):
    """The exit status of a run, whose output and error output go where `how` says."""
    how = {"stdout": subprocess.DEVNULL, "stderr": subprocess.DEVNULL, **how}
    return subprocess.run(words, input=given.encode(), timeout=desks.TIME_LIMIT, **how).returncode


def drop_rights():
    """Goes on as nobody, where root runs the tests."""
    if os.geteuid() == 0:
        os.setgroups([])
        os.setgid(NOBODY)
        os.setuid(NOBODY)


class Complaints(unittest.TestCase):
    """Error output that can't be written leaves the status of what happened."""

    def test_status(self):
        """It is full, or closed."""
        for words, given, status in (
                (["RUN"], "", 2),
                (["--store=/nowhere/desk.db", "run"], "", 3),
                (["run"], "severity 1 grave\n", 1),
                (["run"], "", 0)):
            with open("/dev/full", "wb") as full:
                self.assertEqual(status_of([program(), *words], given, stderr=full), status)
            closed = status_of(["sh", "-c", 'exec "$@" 2>&-', "", program(), *words], given)
            self.assertEqual(closed, status)


class Files(unittest.TestCase):
    """What a job leaves in the file of a desk, as SQLite reads it."""

    def test_form(self):
        """A new file has pages of 4,096 bytes without sums, and a log beside it."""
        with folder() as place:
            store = pathlib.Path(place, "desk.db")
            run([program(), f"--store={store}", "init"])
            head = store.read_bytes()[:100]
            self.assertEqual(head[:16], b"SQLite format 3\0")
            self.assertEqual(int.from_bytes(head[16:18], "big"), 4096)
            self.assertEqual(head[18:20], b"\2\2")
            self.assertEqual(head[20], 0)

    def test_log_is_copied(self):
        """The file by itself, without the log, has all that was answered."""
        with folder() as place:
            store = make_desk(place, desks.RELEASE_DAY)
            words = [program(), f"--store={store}", "--from=ann", "--id=m1", "close", "2"]
            self.assertEqual(run(words)[0], "> close 2\nOK 2\n")
            alone = pathlib.Path(place, "alone.db")
            shutil.copyfile(store, alone)
            connection = sqlite3.connect(alone)
            for query, answer in (
                    ("PRAGMA integrity_check", "ok"),
                    ("SELECT count(*) FROM bugs", 3),
                    ("SELECT count(*) FROM sets WHERE closed", 2),
                    ("SELECT count(*) FROM outcomes WHERE id = 'm1'", 1)):
                self.assertEqual(connection.execute(query).fetchone(), (answer,), query)
            connection.close()

    def test_rights(self):
        """A file that may not be read is there, and one that is not there is not."""
        with folder() as place:
            os.chmod(place, 0o755)
            store = make_desk(place, desks.RELEASE_DAY)
            os.chmod(store, 0)
            copy = shutil.copy(program(), place)
            for name, errors in (("desk.db", NOT_OPENED), ("other.db", NOT_THERE)):
                ran = subprocess.run(
                    [copy, f"--store={place}/{name}", "run"], input=b"", capture_output=True,
                    preexec_fn=drop_rights, timeout=desks.TIME_LIMIT)
                self.assertEqual((ran.returncode, ran.stdout), (3, b""))
                self.assertEqual(ran.stderr.decode(), errors)


class OutOfMemory(unittest.TestCase):
    """A message with an id for whose lines there is no memory."""

    # More than a request takes, and less than the lines of a message of so many.
    MORE = 500_000
    LINES = 32_000

    def send(self, port, words):
        """The status and the answer of a control message."""
        connection = http.client.HTTPConnection("127.0.0.1", port, timeout=desks.TIME_LIMIT)
        connection.request("POST", "/control", json.dumps({"from": "ann", **words}))
        answer = connection.getresponse()
        said = (answer.status, json.load(answer))
        connection.close()
        return said

    def test_id_in_use(self):
        """That the id has another message is told before its lines are cut."""
        short = {"id": "m1", "message": "close 2"}
        used = {"id": "m1", "message": "\n" * self.LINES}
        new = {"id": "m2", "message": "\n" * self.LINES}
        with folder() as place:
            store = make_desk(place, desks.RELEASE_DAY)
            with server_of(store) as (port, server):
                self.assertEqual(self.send(port, short)[0], 200)
                pages = int(pathlib.Path(f"/proc/{server.pid}/statm").read_text().split()[0])
                most = pages * resource.getpagesize() + self.MORE
                resource.prlimit(server.pid, resource.RLIMIT_AS, (most, most))
                self.assertEqual(self.send(port, used), (409, {"error": "id in use"}))
                self.assertEqual(self.send(port, new), (500, {"error": "store fault"}))
            with served(store) as port:
                self.assertEqual(self.send(port, used), (409, {"error": "id in use"}))
                self.assertEqual(self.send(port, new), (200, {"end": "all", "transcript": ""}))


if __name__ == "__main__":
    unittest.main()
