"""Tests of `send` beside a server of the program: its answers are those of the program itself."""

import re
import shlex
import subprocess
import unittest

import desks
from desks import DAY, ROOT, command, folder, make_desk, run, served
from test_branches import CHANGELOG
from test_send_words import EXAMPLES

# Messages in words beyond those examples: refused, stopped, unreadable, and commands of directives.
MESSAGES = (
    "severity 2 grave , retitle it a  b", "close 9", "severity 1 huge , close 1 2.0-1",
    "thanks", "close 1 , thank you , close 2", "a , b , c , d , e , f", "@list foo 1", "# close 1",
    "clone 2 -1 , retitle -1 \u00e9\u2028\u0085\U0001d54f", "affects 1 bar, archive 1", ">",
    "quit,",
    "tags 1 + patch \" ' \\ ",
)
DIRECTIVES = (
    "@report foo 1.0-1 GRAVE  two  blanks ", "@report foo - wishlist \"'\\ \u00e9",
    "@report Foo 1 normal a", "@report foo 1_ normal a", "@report foo 1 huge a",
    "@report foo 1 normal", f"@report foo 1 normal {'x' * 201}", "@branch foo",
    "@branch foo/3 foo/2", "@branch foo/2.0-1 foo/7", "@branch foo/4 foo/4", "@list foo 2.0-1",
    "@list foo bar/3",
    "@branch " + " ".join(f"p/{place}" for place in range(201)), "@list foo .", "@list foo ..",
    "@list g++ 1:2~3+4", "@list Foo 1", "@list Foo 1_", "@list foo 1_", "@list foo foo/",
    "@list f 1",
    "@list foo /1", "@list foo a/b/c", "@list foo? 1", "@list %66oo 1", f"@list {'x' * 9000} 1",
    "@show 1", "@show #1", "@show 007", "@show 99", "@report foo 1 normal \u00a0",
    "@list foo \u00e9",
)
BAD_DIRECTIVES = ("@report foo 1", "@list foo 1 2", "@list f", "@show -1", "@show 1 2", "@show x")


def send(*words, given="", status=0):
    """A run of `send`."""
    return run([*command("send"), *words], given, status)


def send_any(*words):
    """The output and the status of a run of `send`."""
    words = [*command("send"), *words]
    ran = subprocess.run(words, capture_output=True, timeout=desks.TIME_LIMIT)
    return ran.stdout.decode(), ran.returncode


def readme_day():
    """The script of README's release day, and its answers."""
    text = (ROOT / "README.md").read_text(encoding="utf-8")
    chapter = text.partition("\n## A release day\n")[2].partition("\n## ")[0]
    blocks = re.findall("(?:    .*\n)+", chapter)
    return [re.sub("(?m)^    ", "", block) for block in blocks[:2]]


def manual_runs(heading, name):
    """The words of each run of a tool below a heading of the manual, and its answer."""
    text = (ROOT / "docs/MANUAL.md").read_text(encoding="utf-8")
    chapter = re.split("\n##+ ", text.partition(f"\n{heading}\n")[2])[0]
    for line, answer in re.findall(r"(?m)^    \$ (.*)\n((?:    (?!\$).*\n)*)", chapter):
        words = shlex.split(line)
        if words[0] == name:
            yield words[1:], re.sub("(?m)^    ", "", answer)


def words_of(line):
    """The words by which `send` does a line of a script."""
    words = line.split(" ")
    return [f"--{words[0][1:]}", *words[1:]] if line.startswith("@") else words


class BesideServer(unittest.TestCase):
    """What a server is sent, and what the program does with the same over another file."""

    def setUp(self):
        place = folder()
        self.folder = place.__enter__()
        self.addCleanup(place.__exit__, None, None, None)

    def both(self, script=DAY):
        """The option of a desk that a script has made, and that of the port of another such one."""
        store = make_desk(self.folder, script, "here.db")
        server = served(make_desk(self.folder, script, "served.db"))
        port = server.__enter__()
        self.addCleanup(server.__exit__, None, None, None)
        return f"--store={store}", f"--port={port}"

    def program(self, *words, given=""):
        """The output of the program, and its exit status."""
        ran = subprocess.run(
            [desks.program(), *words], input=given.encode(), capture_output=True,
            timeout=desks.TIME_LIMIT)
        return ran.stdout.decode(), ran.returncode

    def test_day(self):
        """The release day of README."""
        script, answers = readme_day()
        with served(make_desk(self.folder, "")) as port:
            options, told = [f"--port={port}", "--from=ann"], ""
            lines = [line for line in script.splitlines() if not line.startswith("@from ")]
            for line in lines:
                told += send(*options, *words_of(line))[0]
        self.assertEqual(len(lines), 7)
        self.assertEqual(told, answers)

    def test_manual(self):
        """The runs of the manual: what they answer, over the desks that the manual has there."""
        for heading, name, script, count in (
            ("### The service", "boxhumilwa-send", "", 4),
            ("## Words to a server", "commands/send", "@report foo 1 minor a\n" * 2, 3),
        ):
            with folder() as place, served(make_desk(place, script)) as port:
                runs = list(manual_runs(heading, name))
                self.assertEqual(len(runs), count)
                for words, answer in runs:
                    words = [word for word in words if not word.startswith("--port=")]
                    output, errors = send(f"--port={port}", *words)
                    self.assertEqual((output if answer else "", errors), (answer, ""))

    def test_words(self):
        """The transcripts and statuses of words are those of the program over a file."""
        store, port = self.both()
        for text in [words for words, _ in EXAMPLES[:6]] + list(MESSAGES):
            with self.subTest(text):
                expected, status = self.program(store, "--from=ann", *text.split(" "))
                output, errors = send(port, "--from=ann", *text.split(" "), status=status)
                self.assertEqual(output, expected)
                self.assertEqual(bool(errors), status == 2 or "> @" in output)

    def test_directives(self):
        """The answers to reports, branches and questions are those to lines of a script."""
        store, port = self.both()
        told = [send_any(port, "--from=bob", *words_of(line)) for line in DIRECTIVES]
        script = "".join(f"{line}\n" for line in ("@from bob", *DIRECTIVES))
        expected, status = self.program(store, "run", given=script)
        self.assertEqual(status, 1)
        self.assertEqual("".join(output for output, _ in told), expected)
        for line, (output, status) in zip(DIRECTIVES, told, strict=True):
            with self.subTest(line):
                self.assertEqual(status, 1 if output.startswith("NO ") else 0)

    def test_bad_directives(self):
        """What the program calls a bad directive has status 2, and is not sent."""
        for line in BAD_DIRECTIVES:
            with self.subTest(line):
                self.assertEqual(
                    self.program("run", given=f"{line}\n"), ("Bad directive.\n", 1))
                send("--port=1", "--from=ann", *words_of(line), status=2)

    def test_standard_input(self):
        """Lines of standard input are a message, or orders where an option says so."""
        _, port = self.both()
        given = "# it\r\nclose 1\r\n\n  severity 2 grave\n@list foo 1\nthanks\nclose 3"
        output, errors = send(port, "--from=ann", given=given, status=1)
        self.assertEqual(output, (
            "> close 1\nOK, no change.\n>   severity 2 grave\nOK 2\n> @list foo 1\n"
            "NO unknown command\n> thanks\nStopped.\n"))
        self.assertIn("is no command", errors)
        branches, _ = run([*command("branches"), "-"], CHANGELOG.replace("foo", "quux"))
        self.assertEqual(send(port, "--branch", given=branches), ("OK\n", ""))
        output, _ = send(port, "--from=ann", "--report", given=(
            "libquux 0.9-1 normal in an old one\n\n@report q1 1_ normal b\n@report q1 1 minor c\n"
        ), status=1)
        self.assertEqual(output, "OK 6\nNO bad version\nOK 7\n")
        self.assertIn("in an old one", send(port, "--list", "libquux", "quux/1.0-2")[0])
        self.assertEqual(send(port, "--from=ann"), ("", ""))

    def test_ids(self):
        """A message in words over the file and one that is sent are the same message."""
        store = f"--store={make_desk(self.folder, DAY)}"
        words = ["--from=ann", "--id=m1", "clone", "2", "-1", ",", "retitle", "-1", "x"]
        expected = ("> clone 2 -1\nOK 6\n> retitle -1 x\nOK 6\n", 0)
        self.assertEqual(self.program(store, *words), expected)
        with served(f"{self.folder}/desk.db") as port:
            port = f"--port={port}"
            self.assertEqual(send(port, *words), (expected[0], ""))
            text = "clone 2 -1\nretitle -1 x"
            self.assertEqual(send(port, *words[:2], given=text), (expected[0], ""))
            self.assertEqual(
                send(port, *words[:2], given=f"{text}\n", status=1), ("NO id in use\n", ""))
            self.assertEqual(
                send(port, "--from=bob", *words[1:], status=1), ("NO id in use\n", ""))
            self.assertEqual(
                send(port, words[0], "--id=auto", *words[2:])[0], expected[0].replace("6", "7"))

    def test_largest(self):
        """A request of 65,536 bytes is sent, and one more is refused before that, with its size."""
        overhead = len('{"from":"ann","message":""}')
        with served(make_desk(self.folder, "")) as port:
            for filler, size in (("x", 1), ("\u00e9", 2), ("\n", 2)):
                count, rest = divmod(65_536 - overhead - 1, size)
                text = "#" + "y" * rest + filler * count
                self.assertEqual(send(f"--port={port}", "--from=ann", given=text), ("", ""))
                output, errors = send(
                    f"--port={desks.free_port()}", "--from=ann", given=f"{text}z", status=2)
                self.assertEqual(output, "")
                self.assertIn("65,537 bytes", errors)

    def test_bad_words(self):
        """Bad words have status 2, and nothing is sent."""
        for words in (
            ["close", "1"], ["--from="], ["--from=a\tb "], [f"--from={'x' * 201}"], ["--port=0"],
            ["--from=ann", "--port=65536"], ["--from=ann", "--port=8080x"], ["--from=ann", "--id="],
            ["--from=ann", "--id=a b"], ["--from=ann", f"--id={'x' * 101}"], ["--from=ann", "-x"],
            ["--from=ann", "close", b"\xff"], ["--from=ann", ","], ["--from=ann", "close", "it"],
            ["--report", "foo", "1", "normal", "a"], ["--list", "--show", "1"], ["--show", "-1"],
            ["--from=ann", "--id=auto", "--report", "foo", "1", "normal", "a"], ["--list", "foo"],
            ["--from=ann", "--report", "foo", "1", "normal", "a\nb"], ["--st", "1"],
        ):
            with self.subTest(words):
                self.assertEqual(send_any(*words), ("", 2))
        given = "@branch foo/2 foo/1\n@from ann\n"
        self.assertIn("@from is not @branch", send("--branch", given=given, status=2)[1])

    def test_faults(self):
        """Input that can't be read, output that can't be written, and no service."""
        _, port = self.both()
        output, errors = send(port, "--from=ann", given=b"close 1\n\xff\n", status=3)
        self.assertEqual(output, "")
        self.assertIn("line 2: not UTF-8", errors)
        words = [str(word) for word in (*command("send"), port, "--from=ann")]
        for script, told in (
            ('"$@" <&-', "standard input can't be read"),
            ('"$@" 0>/dev/null', "standard input can't be read"),
            ('"$@" close 1 >/dev/full', "standard output can't be written"),
        ):
            _, errors = run(["sh", "-c", f"{script}; [ $? -eq 3 ]", "sh", *words])
            self.assertIn(told, errors)
        _, errors = send(f"--port={desks.free_port()}", "--from=ann", "close", "1", status=3)
        self.assertIn("Connection refused", errors)


if __name__ == "__main__":
    unittest.main()
