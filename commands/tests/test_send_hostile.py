"""Tests of `send` beside what is no desk, or half of one, and of the file that has the port."""

import contextlib
import http.client as http_client
import io
import itertools
import json
import os
import pathlib
import re
import socket
import threading
import unittest
from unittest import mock

import desks
from boxhumilwa import command, desk_served, sending
from boxhumilwa import send as TOOL
from boxhumilwa.faults import Fault
from boxhumilwa.orders import ORDERS

HEAD = "HTTP/1.1 {} X\r\nContent-Length: {}\r\n\r\n"
GOOD = {"end": "all", "transcript": "> close 1\nOK 1\n"}
SHORT = 0.3


def http(status, value):
    """An answer of HTTP with this value, as JSON where it is no text."""
    body = (value if isinstance(value, str) else json.dumps(value)).encode()
    return HEAD.format(status, len(body)).encode() + body


# Answers to a message that no desk gives, and what is told of them.
NO_DESKS = (
    (http(404, {"error": "not found"}), "as no desk does"),
    (http(200, "<html>"), "as no desk does"), (http(200, []), "as no desk does"),
    (http(200, {"end": "all"}), "as no desk does"),
    (http(200, {"end": "all", "transcript": 5}), "as no desk does"),
    (http(200, {"end": "some", "transcript": ""}), "as no desk does"),
    (http(200, "[" * 100_000), "as no desk does"), (http(409, "x"), "as no desk does"),
    (http(400, {"error": 7}), "as no desk does"), (http(302, ""), "as no desk does"),
    (b"HTTP/1.1 200 OK\r\nContent-Length: 2\r\n\r\n\xff\xff", "bytes that are not UTF-8"),
    (HEAD.format(200, 1 << 40).encode(), "as no desk does"),
)
# Answers after which a message is sent again.
LOST = (
    (b"", "before a whole answer came"), (b"HTTP/1.1 200 OK\r\nContent-", "half a head"),
    (b"HTTP/1.1 200 OK\r\n\r\n" + json.dumps(GOOD).encode(), "as no desk does"),
    (http(200, GOOD)[:-1], "before a whole answer came"), (b"SSH-2.0-x\r\n", "as no desk does"),
    (b"HTTP/1.1 200 OK\r\nContent-Length: 9\r\n\r\n", "before a whole answer came"),
    (http(500, {"error": "store"}), "the store of the desk failed"), (None, "no answer within"),
)
# What a desk answers that refuses, and the status of that.
REFUSALS = (
    (http(409, {"error": "id in use"}), "NO id in use\n", 1),
    (http(400, {"error": "bad request"}), "", 2),
    (http(500, {"end": "store", "transcript": "> a\nStore fault: full.\n"}),
     "> a\nStore fault: full.\n", 3),
)


def run_tool(*words):
    """The status, the output and the error output of the tool, as it is run in this process."""
    output, errors = [], io.StringIO()
    with contextlib.redirect_stderr(errors), mock.patch.object(TOOL, "write", output.append):
        with mock.patch.object(command.signal, "signal"):
            status = TOOL.main(list(words))
    return status, "".join(output), errors.getvalue()


def read_request(connection):
    """The whole of a request, so that no unread rest breaks the connection before the answer."""
    with connection.makefile("rb") as file:
        head = "".join(line.decode() for line in iter(file.readline, b"\r\n"))
        length = re.search("(?i)^content-length: ([0-9]+)", head, re.MULTILINE)
        return head, file.read(int(length[1]) if length else 0).decode()


def serve(server, answers, requests, kept):
    """Gives each connection its answer, or keeps it open where that is None."""
    with contextlib.suppress(OSError):
        for answer in answers:
            connection = server.accept()[0]
            requests.append(read_request(connection)[1])
            if answer is None:
                kept.append(connection)
            else:
                with connection:
                    connection.sendall(answer)


@contextlib.contextmanager
def scripted(answers):
    """The port of a server that gives these answers in turn, and the list of what it was sent."""
    requests, kept = [], []
    with socket.create_server(("127.0.0.1", 0)) as server:
        thread = threading.Thread(
            target=serve, args=(server, answers, requests, kept), daemon=True)
        thread.start()
        try:
            yield server.getsockname()[1], requests
        finally:
            server.shutdown(socket.SHUT_RDWR)
            thread.join()
            for connection in kept:
                connection.close()


@contextlib.contextmanager
def answering(answer):
    """The port of a server that gives each connection this answer."""
    with scripted(itertools.repeat(answer)) as (port, _):
        yield port


class Hostile(unittest.TestCase):
    """What answers is no desk, or not a whole one."""

    def setUp(self):
        for name, value in (("SECONDS", SHORT), ("PAUSES", (0.01,) * 4)):
            patch = mock.patch.object(sending, name, value)
            patch.start()
            self.addCleanup(patch.stop)

    def test_messages(self):
        """Each answer to a message that is none is told, with status 3."""
        for answer, told in NO_DESKS + LOST:
            with self.subTest(answer and answer[:80]), answering(answer) as port:
                status, output, errors = run_tool(f"--port={port}", "--from=ann", "close", "1")
                self.assertEqual((status, output), (3, ""))
                self.assertRegex(errors, f"^send: port {port}: .*{told}")
                self.assertEqual("--id=auto" in errors, (answer, told) in LOST)

    def test_refusals(self):
        """A refusal of a desk is written, and has its status."""
        for answer, told, wanted in REFUSALS:
            with self.subTest(answer), answering(answer) as port:
                status, output, _ = run_tool(f"--port={port}", "--from=ann", "--id=x", "a")
                self.assertEqual((status, output), (wanted, told))

    def test_orders(self):
        """Each answer to an order that is none is told, with status 3."""
        listed = "Bugs in foo at foo/1: 1\n        1  grave      open  x\n"
        for name, words, wrong in (
            ("report", ["foo", "1", "normal", "a"], [
                http(201, {"bug": "1"}), http(201, {"bug": True})]),
            ("branch", ["foo/1"], [http(200, {"ok": 1}), http(200, "true"), http(201, {})]),
            ("list", ["foo", "1"], [
                http(200, listed[:-1]), http(200, listed.replace("1\n", "2\n", 1)), http(404, "no"),
                http(200, listed.replace("foo/1", "foo/2")), http(200, ""), http(201, listed),
                http(409, {"error": "a"}), http(200, listed.replace("grave", "heavy"))]),
            ("show", ["1"], [http(200, "Bug 1\n"), http(200, "Bug 2" + "\n" * 16), http(404, "1")]),
        ):
            lost = [answer for answer, _ in LOST]
            for answer in [http(302, ""), http(200, {}), http(400, {"error": []}), *wrong, *lost]:
                with self.subTest(name, answer=answer), answering(answer) as port:
                    words_given = [f"--port={port}", "--from=ann", f"--{name}", *words]
                    status, output, errors = run_tool(*words_given)
                    self.assertEqual((status, output), (3, ""))
                    self.assertIn(f"port {port}: ", errors)
                    is_lost = answer in lost and name in ("report", "branch")
                    self.assertEqual("may have been taken" in errors, is_lost)
        self.assertEqual(set(ORDERS), {"report", "branch", "list", "show"})

    def test_again(self):
        """With --id=auto the same is sent again, with the same id, until it has its end."""
        answers = [answer for answer, _ in LOST if answer is not None][:4]
        with scripted([*answers, http(200, GOOD)]) as (port, requests):
            status, output, errors = run_tool(
                f"--port={port}", "--from=ann", "--id=auto", "close", "1")
        self.assertEqual((status, output), (0, GOOD["transcript"]))
        self.assertEqual(errors.count("it is sent again"), 4)
        bodies = [json.loads(request) for request in requests]
        self.assertEqual(len(bodies), 5)
        word = bodies[0].pop("id")
        self.assertRegex(word, "^[!-~]{1,100}$")
        self.assertEqual(bodies, [{"from": "ann", "message": "close 1"}] + [
            {"from": "ann", "message": "close 1", "id": word}] * 4)

    def test_given_up(self):
        """After five times it is told with its id, and two messages have two ids."""
        words = set()
        for answer in (http(500, {"error": "memory"}), b""):
            with scripted([answer] * 9) as (port, requests):
                status, output, errors = run_tool(
                    f"--port={port}", "--from=ann", "--id=auto", "close", "1")
            self.assertEqual((status, output, len(requests)), (3, "", 5))
            word = json.loads(requests[0])["id"]
            self.assertIn(f"it was sent 5 times: send the same again with --id={word}", errors)
            words.add(word)
        self.assertEqual(len(words), 2)
        status, _, errors = run_tool(
            f"--port={desks.free_port()}", "--from=ann", "--id=auto", "close", "1")
        self.assertEqual((status, errors.count("Connection refused")), (3, 5))

    def test_not_again(self):
        """What is no desk is not sent the same again, and without --id=auto nothing is."""
        for answer, word, times in (
            (NO_DESKS[0][0], "--id=auto", 1), (REFUSALS[0][0], "--id=auto", 1),
            (REFUSALS[1][0], "--id=auto", 1), (LOST[0][0], "--id=x", 1),
        ):
            with self.subTest(answer), scripted([answer] * 9) as (port, requests):
                run_tool(f"--port={port}", "--from=ann", word, "close", "1")
                self.assertEqual(len(requests), times)

    def test_long(self):
        """A long message is waited for longer, since each of its lines is kept."""
        words = ["x" * 999] * 2
        for given, seconds in ((["close", "1"], SHORT), (words, SHORT + 2)):
            with answering(http(200, GOOD)) as port, mock.patch.object(
                sending.http.client, "HTTPConnection", wraps=http_client.HTTPConnection
            ) as made:
                run_tool(f"--port={port}", "--from=ann", *given)
            made.assert_called_once_with("127.0.0.1", port, timeout=seconds)

    def test_terminal(self):
        """On a terminal what would steer it is written out, and elsewhere not."""
        steering = "> \x1b[31m\u009b\nOK\t\u00e9\n"
        for is_terminal, told in ((True, "> \\x1b[31m\\x9b\nOK\t\u00e9\n"), (False, steering)):
            with mock.patch.object(TOOL.os, "isatty", return_value=is_terminal):
                with mock.patch("builtins.open", return_value=io.BytesIO()) as opened:
                    opened.return_value.close = lambda: None
                    TOOL.write(steering)
                self.assertEqual(opened.return_value.getvalue().decode(), told)


class PortFile(unittest.TestCase):
    """The port where none is given."""

    def port(self, content, name="file"):
        """The port that a file with this content says."""
        with desks.folder() as place:
            path = pathlib.Path(place, name)
            if content is not None:
                path.write_bytes(content)
            with mock.patch.object(desk_served, "DEFAULTS", path):
                return desk_served.default_port()

    def test_ports(self):
        """The last PORT of the file counts; without the file it is 8080."""
        packaged = (desks.ROOT / "packaging/default").read_bytes()
        for content, port in (
            (None, 8080), (packaged, 8080), (packaged.replace(b"8080", b"8081"), 8081),
            (b"PORT=1\nPORT=65535", 65535), (b'# PORT=7\n PORT = "99" \r\n', 99),
            (b"OTHER=7\nPORT='1024'\n", 1024), (b"PORT=0008081", 8081), (b"PORT=x\nPORT=9", 9),
        ):
            self.assertEqual(self.port(content), port)

    def test_no_port(self):
        """A file without a port, or that can't be read, is told."""
        for content in (b"", b"PORT=", b"PORT=0", b"PORT=65536", b"PORT=a", b"#PORT=1", b"PORT=-1",
                        b"PORT=\xff", b"PORT=00655359", b"PORT=\xd9\xa1", b"PORT= "):
            with self.subTest(content), self.assertRaisesRegex(Fault, "give --port=N"):
                self.port(content)
        with mock.patch.object(desk_served, "DEFAULTS", pathlib.Path("/")):
            status, output, errors = run_tool("--show", "1")
        self.assertEqual((status, output), (3, ""))
        self.assertIn("/: it can't be read: Is a directory; give --port=N", errors)

    def test_no_permission(self):
        """A file that this user may not read is told."""
        with desks.folder() as place:
            path = desks.written(place, "default", "PORT=8081\n")
            path.chmod(0)
            child = os.fork()
            if child == 0:
                os._exit(self.unprivileged_status(path))
            self.assertEqual(os.waitstatus_to_exitcode(os.waitpid(child, 0)[1]), 0)

    def unprivileged_status(self, path):
        """0 where somebody who is not root is told that the file can't be read."""
        try:
            os.chmod(path.parent, 0o755)
            if os.geteuid() == 0:
                os.setuid(65534)
            with mock.patch.object(desk_served, "DEFAULTS", path):
                desk_served.default_port()
        except Fault as fault:
            return 0 if "it can't be read: Permission denied; give --port=N" in str(fault) else 2
        except BaseException:
            return 3
        return 1


if __name__ == "__main__":
    unittest.main()
