"""Tests of what all commands share: where a desk is, JSON, errors in a line, and hostile text."""

import gzip
import io
import json
import re
import shutil
import signal
import subprocess
import sys
import time
import unittest
from unittest import mock

import desks
from desks import DAY, STABLE, command, folder, make_desk, over_socket, run, served, written

from boxhumilwa import command as COMMAND
from boxhumilwa import terminal
from boxhumilwa.faults import Fault

COMMANDS = sorted(path.name for path in desks.COMMANDS.iterdir() if path.is_file())
PACKAGE = desks.COMMANDS / "boxhumilwa"
LOG = "foo (1) sid; urgency=low\n\n -- A <a@b.example>  x\n"
# What would steer a terminal, a line, or the direction of writing.
STEERING = "\x1b[2J\u202e\x9b\u2028"


def program():
    """The option that names the program."""
    return f"--program={desks.program()}"


class Places(unittest.TestCase):
    """A desk in a file, at a port and at a socket is the same to each command."""

    def test_same(self):
        """What is asked of a file is answered as by its server, at the port and over a socket."""
        with folder() as place:
            store = make_desk(place, DAY)
            suite, day = written(place, "stable", STABLE), written(place, "day", DAY)
            branches, copy = f"--branches={day}", shutil.copy(desks.program(), f"{place}/bts")
            orders = (
                ["release", f"s={suite}"], ["release", "--json", f"s={suite}"],
                ["graph", "1"], ["graph", "--json", f"s={suite}", "2"],
                ["send", "--from=ann", "severity", "2", "important"],
                ["send", "--list", "foo", "2.0-1"], ["send", "--json", "--show", "1"],
                ["count", "foo", "2.0-1"], ["count", "--json", "bar", "3"],
            )
            told = [self.told(order, f"--store={store}", program()) for order in orders]
            other = [self.told(order, f"--store={store}", f"--program={copy}") for order in orders]
            self.assertEqual(told, other)
            self.assertNotIn("", [output for output, _ in told])
            needed = {"graph": [branches], "release": [f"--store={store}"]}
            with over_socket(store) as (port, path):
                for order, wanted in zip(orders, told):
                    more = needed.get(order[0], [])
                    for where in (f"--port={port}", f"--socket={path}"):
                        with self.subTest(order, where=where):
                            found = self.told(order, where, program(), *more)
                            self.assertEqual(found, wanted)
            words = [*command("send"), f"--socket={place}/none", "--show", "1"]
            self.assertIn("no desk is served there", run(words, status=3)[1])

    def told(self, order, *options):
        """What a command prints and tells with these options."""
        name, *rest = order
        return run([*command(name), *options, *rest])

    def test_file(self):
        """What `send` does over a file is what it does over a server of another such file."""
        with folder() as place:
            store, other = make_desk(place, DAY), make_desk(place, DAY, "other.db")
            with served(other) as port:
                for words, given, status in (
                    (["--from=ann", "severity", "2", "grave", ",", "owner", "it", "!"], "", 0),
                    (["--from=ann", "close", "9"], "", 1), (["--from=ann"], "# x\nclose 2\n", 0),
                    (["--from=ann", "--id=m1", "clone", "2", "-1"], "", 0),
                    (["--from=ann", "--id=m1", "clone", "2", "-1"], "", 0),
                    (["--from=bob", "--id=m1", "clone", "2", "-1"], "", 1),
                    (["--from=ann", "--report", "foo", "1", "minor", "a  b"], "", 0),
                    (["--branch", "foo/9", "foo/2.0-1"], "", 0), (["--show", "99"], "", 1),
                    (["--list", "foo", "9"], "", 0), (["--list"], "foo 9\n@list foo 1\n", 0),
                ):
                    with self.subTest(words):
                        told = [
                            run([*command("send"), where, program(), *words], given, status)
                            for where in (f"--store={store}", f"--port={port}")]
                        self.assertEqual(told[0], told[1])

    def test_jobs(self):
        """No word makes the program do something else than a message, and no line a directive."""
        with folder() as place:
            words = [*command("send"), f"--store={make_desk(place, DAY)}", program(), "--from=ann"]
            for more, given in (
                (["--id=x", "init"], ""), (["--id=x", "serve"], ""), ([], "@show 1"),
            ):
                self.assertEqual(run([*words, *more], given, 2)[0], "")
            self.assertEqual(run([*words, "serve"], "", 1)[0], "> serve\nNO unknown command\n")


class Answers(unittest.TestCase):
    """JSON, and faults."""

    def test_json(self):
        """Each command writes JSON."""
        with folder() as place:
            store = f"--store={make_desk(place, DAY)}"
            suite = written(place, "stable", STABLE)
            log = written(place, "log", LOG)
            for words in (
                ["release", store, program(), "--json", f"s={suite}"],
                ["graph", store, program(), "--json", f"s={suite}", "1"],
                ["send", store, program(), "--json", "--show", "1"], ["branches", "--json", log],
                ["count", store, program(), "--json", "foo", "2.0-1"],
                ["find", store, program(), "--json"],
            ):
                name, *rest = words
                self.assertTrue(json.loads(run([*command(name), *rest])[0]), words)
            told = json.loads(run([*command("graph"), store, program(), "--json", "1"])[0])
            bases = {it["version"]: it["based_on"] for it in told["versions"]}
            self.assertEqual(
                bases, {"foo/2.0-1": "foo/1.0-2", "foo/1.0-2": "foo/1.0-1", "foo/1.0-1": None})

    def test_lines(self):
        """An error is one line, and each command has its help."""
        for name in COMMANDS:
            # A mail system would return a mail for any status but 75.
            _, errors = run([*command(name), "--nothing"], status=75 if name == "mail" else 2)
            self.assertRegex(errors, f"^{name}: error: [^\n]*; {name} --help says what there is\n$")
            self.assertIn("usage: ", run([*command(name), "--help"])[0])
        _, errors = run([*command("release"), program(), "--store=/none", "s=/none"], status=3)
        self.assertEqual(errors.count("\n"), 1)

    def test_steering(self):
        """What is told has nothing that steers a terminal, and JSON means what it meant."""
        self.assertEqual(json.loads(terminal.json_text(json.dumps(
            [STEERING], ensure_ascii=False))), [STEERING])
        told = terminal.json_text(json.dumps([STEERING, "\u00e9 \u00a0"], ensure_ascii=False))
        self.assertTrue(told.replace("\u00a0", " ").isprintable())
        for name, words in (
            ("branches", [f"/none{STEERING}"]), ("release", ["--store=x", f"s=/n{STEERING}"]),
            ("release", ["--store=x", f"{STEERING}"]), ("find", [f"--store=/none{STEERING}"]),
            ("find", ["--store=x", f"--package={STEERING}"]),
        ):
            ran = subprocess.run([*command(name), *words], capture_output=True, check=False)
            self.assertTrue(ran.stderr.decode().replace("\n", "").isprintable(), words)


class Ends(unittest.TestCase):
    """How a command ends."""

    def test_signal(self):
        """A signal that SQLite has made a fault of ends the command as the signal does."""
        def main(words):
            COMMAND.end(int(words[0]), None)

        def swallowing(words):
            try:
                main(words)
            except (SystemExit, KeyboardInterrupt):
                raise Fault("user-defined function raised exception") from None

        for number in COMMAND.ENDING:
            errors = io.StringIO()
            with mock.patch.object(COMMAND, "ENDED", []), mock.patch("sys.stderr", errors):
                status = COMMAND.carried_out("x", swallowing, [str(int(number))])
            self.assertEqual((status, errors.getvalue()), (128 + number, "x: interrupted\n"))
        with mock.patch.object(COMMAND, "ENDED", []):
            self.assertRaises(SystemExit, COMMAND.carried_out, "x", main, [str(int(signal.SIGHUP))])


class Package(unittest.TestCase):
    """The package itself."""

    def test_imports(self):
        """No module imports anything but the standard library and the package."""
        for path in [*PACKAGE.glob("*.py"), *(desks.COMMANDS / name for name in COMMANDS)]:
            names = re.findall(r"^ *(?:from|import) ([\w.]+)", path.read_text(), re.MULTILINE)
            for name in names:
                first = name.split(".")[0]
                self.assertIn(first, {"", "boxhumilwa", *sys.stdlib_module_names}, path)

    def test_warnings(self):
        """With each warning an error, nothing is told."""
        with folder() as place:
            store = f"--store={make_desk(place, DAY)}"
            suite = written(place, "stable.gz", gzip.compress(STABLE.encode()))
            log = written(place, "log.gz", gzip.compress(LOG.encode()))
            for name, *words in (
                ("release", store, program(), f"s={suite}"),
                ("graph", store, program(), f"s={suite}", "1"),
                ("send", store, program(), "--show", "1"), ("branches", log),
                ("count", store, program(), "foo", "2.0-1"),
                ("find", store, program(), "--at=foo/2.0-1", f"--suite=s={suite}"),
                ("mail", f"--folder={place}/mail", store, program(), "--to=control", "--sender="),
            ):
                python, *rest = command(name)
                self.assertEqual(run([python, "-W", "error", *rest, *words])[1], "")

    def test_progress(self):
        """How far it is is told on a terminal, after two seconds."""
        for waits, count in ((0, 0), (terminal.PATIENCE + 1, 1)):
            stream = io.StringIO()
            stream.isatty = lambda: True
            with mock.patch.object(terminal.sys, "stderr", stream):
                progress = terminal.Progress("x")
                now = time.monotonic() + waits
                with mock.patch.object(terminal.time, "monotonic", return_value=now):
                    progress(2, "lists")
                    progress(2, "lists")
            self.assertEqual(stream.getvalue().count("x: 2 of 2 lists\n"), count)


if __name__ == "__main__":
    unittest.main()
