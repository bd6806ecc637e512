"""Tests of the program's streams: held output is seen before more input is waited for, and what
can't be written or read is told."""

import contextlib
import http.client
import subprocess
import threading
import unittest

import desks
from desks import folder, make_desk, program, run

REPORT = "@report foo - normal foo crashes\n"
NOT_WRITTEN = b"bts: fault\nbts: standard output can't be written\n"


@contextlib.contextmanager
def conversation(*words):
    """The program's input and output, while it runs."""
    with subprocess.Popen(
            [program(), *words], stdin=subprocess.PIPE, stdout=subprocess.PIPE) as running:
        watch = threading.Timer(desks.TIME_LIMIT, running.kill)
        watch.start()
        try:
            yield running.stdin, running.stdout
        finally:
            running.kill()
            watch.cancel()


class Answers(unittest.TestCase):
    """Who waits for an answer before more is sent gets it."""

    def converse(self, *words):
        """Each part is answered once a directive follows it, also where the next line is begun."""
        with conversation(*words) as (given, taken):
            for lines, answer in (
                    (REPORT, ["OK 1"]),
                    ("severity 1 grave\n@from ann\n", ["> severity 1 grave", "OK 1"]),
                    ("close 1\n@from bob\nclose", ["> close 1", "OK 1"]),
                    (" 1\n" + REPORT, ["> close 1", "OK, no change.", "OK 2"])):
                given.write(lines.encode())
                given.flush()
                for line in answer:
                    self.assertEqual(taken.readline().decode().rstrip(), line)

    def test_in_memory(self):
        """Of a desk in memory the answers are held, but not while the input is waited for."""
        self.converse()
        self.converse("run")

    def test_in_file(self):
        """Of a desk in a file no answer is held."""
        with folder() as place:
            store = make_desk(place, "")
            self.converse(f"--store={store}", "run")

    def test_order(self):
        """What was answered stands before the complaint."""
        said = subprocess.run(
            [program()], input=REPORT.encode() + b"\xff\n", stdout=subprocess.PIPE,
            stderr=subprocess.STDOUT, timeout=desks.TIME_LIMIT)
        self.assertEqual(said.stdout, b"OK 1\nbts: fault\nbts: line 2: not UTF-8\n")

    def test_long(self):
        """An answer that is longer than what is held comes whole, and in its place."""
        lines = [f"close {number}" for number in range(900, 1300)]
        refused = "".join(f"> {line}\nNO no such bug {line.split()[1]}\n" for line in lines)
        script = REPORT + "\n".join(lines) + "\n" + REPORT + "\n".join(lines) + "\n"
        output, _errors = run([program()], script, 1)
        self.assertEqual(output, f"OK 1\n{refused}OK 2\n{refused}")


class Unwritten(unittest.TestCase):
    """Output that can't be written is a fault, and nothing is where there is none."""

    def ended(self, script, redirection, *words):
        """The status and the error output of a run whose output goes there."""
        ran = subprocess.run(
            ["sh", "-c", f'exec "$@" {redirection}', "", program(), *words],
            input=script.encode(), stderr=subprocess.PIPE, timeout=desks.TIME_LIMIT)
        return ran.returncode, ran.stderr

    def test_fault(self):
        """It is full, or closed, for one short answer and for many."""
        for redirection in (">/dev/full", ">&-"):
            for words in ([], ["run"]):
                for count in (1, 3, 5_000):
                    self.assertEqual(
                        self.ended(REPORT * count, redirection, *words), (3, NOT_WRITTEN))
                self.assertEqual(self.ended("# nothing is said\n", redirection, *words), (0, b""))

    def test_other_faults(self):
        """One complaint is told, that of the first fault."""
        self.assertEqual(
            self.ended(REPORT + "x" * 65_537, ">/dev/full"),
            (3, b"bts: fault\nbts: line 2: longer than 65,536 bytes\n"))

    def test_file_is_left(self):
        """Over a file no part is begun after one whose answer couldn't be written."""
        with folder() as place:
            store = make_desk(place, "")
            words = [f"--store={store}", "run"]
            self.assertEqual(self.ended(REPORT * 3, ">/dev/full", *words), (3, NOT_WRITTEN))
            output, _errors = run([program(), *words], "@show 1\n@show 2\n", 1)
            self.assertTrue(output.startswith("Bug 1\nTitle: foo crashes\n"), output)
            self.assertTrue(output.endswith("NO no such bug 2\n"), output)


class Unread(unittest.TestCase):
    """Words and input that can't be read are told."""

    def test_words(self):
        """Words that are not UTF-8 are bad words."""
        for words in ([b"\xff"], ["run", b"\xc3"], [b"\xff", "run"]):
            ran = subprocess.run(
                [program(), *words], input=REPORT.encode(), capture_output=True,
                timeout=desks.TIME_LIMIT)
            self.assertEqual((ran.returncode, ran.stdout), (2, b""))
            self.assertEqual(ran.stderr, b"bts: bad words\nbts: try --help\n")

    def test_input(self):
        """Input that is closed, or a folder, is a fault."""
        for redirection in ("<&-", "</"):
            ran = subprocess.run(
                ["sh", "-c", f'exec "$@" {redirection}', "", program()], capture_output=True,
                timeout=desks.TIME_LIMIT)
            self.assertEqual((ran.returncode, ran.stdout), (3, b""))
            self.assertEqual(ran.stderr, b"bts: fault\nbts: standard input can't be read\n")


class Served(unittest.TestCase):
    """A server ends after the count that its words name."""

    def test_count(self):
        """It answers so many connections, and its status is 0."""
        port = desks.free_port()
        words = [program(), f"--port={port}", "--count=2", "serve"]
        with subprocess.Popen(words, stdout=subprocess.PIPE) as server:
            self.assertEqual(server.stdout.readline(), f"Listening on 127.0.0.1:{port}\n".encode())
            for _ in range(2):
                self.assertIsNone(server.poll())
                connection = http.client.HTTPConnection("127.0.0.1", port, timeout=desks.TIME_LIMIT)
                connection.request("GET", "/bugs/1")
                self.assertEqual(connection.getresponse().status, 404)
                connection.close()
            self.assertEqual(server.wait(timeout=desks.TIME_LIMIT), 0)


if __name__ == "__main__":
    unittest.main()
