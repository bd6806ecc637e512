"""Tests of `release` over a desk in a file and over a server of it, with the program."""

import gzip
import json
import os
import pathlib
import random
import re
import signal
import subprocess
import time
import unittest
import unittest.mock

import desks
from desks import DAY, STABLE, TESTING, folder, make_desk, release, run, written
from boxhumilwa import desk_served
from boxhumilwa.answers import SEVERITIES
from boxhumilwa.faults import Fault

# How many random desks there are.
DESKS = int(os.environ.get("DESKS", "3"))
# What the report of the release day says, below its figures.
STABLE_BUGS = """stable: release-critical bugs

foo 1.0-2
          1  grave      done  crashes at start
"""
COMPARED = """Release-critical bugs in stable alone: testing's versions mend them

foo 1.0-2 -> 2.0-1
          1  grave      done  crashes at start

Release-critical bugs in testing alone: testing's versions bring them

bar 2 -> 3
          3  serious    open  eats <b>all</b> & more

zed 7, not in stable
          4  critical   open  burns
"""
# Versions of a source, and the one that dpkg has as the highest.
ORDERS = (
    (("1.0", "1.0~rc1", "0.9"), "1.0"), (("1:0.1", "9"), "1:0.1"),
    (("1.0-1", "1.0-1+b1"), "1.0-1+b1"), (("10", "9", "8"), "10"), (("1.0+b", "1.0-9"), "1.0+b"),
    (("2.0_1", "1", "x/3"), "1"),
)

PACKAGES = ("bar", "foo", "g++", "zed")


def random_day(chance):
    """A script of random bugs, some of which are closed or affect other packages."""
    for package in PACKAGES:
        yield f"@branch {package}/4 {package}/3 {package}/2 {package}/1"
    for _ in range(60):
        severity = chance.choice(SEVERITIES)
        yield f"@report {chance.choice(PACKAGES)} {chance.choice('1234-')} {severity} x"
    for _ in range(120):
        number, version = chance.randint(1, 60), chance.choice("1234")
        yield chance.choice((
            f"close {number} {version}", f"fixed {number} {version}", f"found {number} {version}",
            f"affects {number} {chance.choice(PACKAGES)}"))


def wait_for(path):
    """Waits until a file is there."""
    end = time.monotonic() + desks.TIME_LIMIT
    while not path.exists():
        if time.monotonic() > end:
            raise AssertionError(f"{path} does not come to be")
        time.sleep(0.01)


def manual_blocks():
    """The indented blocks of the manual's chapter, each without its margin."""
    manual = (desks.ROOT / "docs/MANUAL.md").read_text(encoding="utf-8")
    chapter = manual.partition("\n## A release at a glance\n")[2].partition("\n## ")[0]
    blocks = re.findall("(?:(?:    .*)?\n)+", chapter)
    return [re.sub("(?m)^    ", "", block).strip("\n") for block in blocks if block.strip()]


class OverFile(unittest.TestCase):
    """Reports over a desk in a file."""

    def setUp(self):
        place = folder()
        self.folder = place.__enter__()
        self.addCleanup(place.__exit__, None, None, None)

    def day(self):
        """The words of the release day: its desk and its suites."""
        store = make_desk(self.folder, DAY.replace("@report foo - wishlist needs a manual\n", ""))
        return [
            f"--store={store}", f"stable={written(self.folder, 'stable', STABLE)}",
            f"testing={written(self.folder, 'testing', TESTING)}"]

    def test_day(self):
        """The release day: what is in stable, and what testing mends and brings."""
        output, errors = release(*self.day(), "--compare", "stable", "testing")
        self.assertIn(STABLE_BUGS, output)
        self.assertIn(COMPARED, output)
        self.assertEqual(errors, "")

    def test_manual(self):
        """The example of the manual."""
        day, one, two = manual_blocks()[:3]
        store = make_desk(self.folder, day)
        stable, testing = re.findall(r"\$ echo (.*) > \w+", one)
        suites = [f"stable={written(self.folder, 'stable', stable)}",
                  f"testing={written(self.folder, 'testing', testing)}"]
        output, _ = release(f"--store={store}", suites[0])
        told = one[one.index("\nstable: ") + 1 :]
        self.assertEqual(output, f"{told}\n")
        output, _ = release(f"--store={store}", *suites, "--compare", "stable", "testing")
        compared = two[two.index("\nstable and testing compared") + 1 :]
        self.assertTrue(output.endswith(f"\n{compared}\n"))

    def test_fail_on(self):
        """The status goes by the first suite, and by bugs of a severity or graver ones."""
        store, stable, testing = self.day()
        for suites, severity, status in (
            ((stable, testing), "critical", 0), ((stable, testing), "grave", 1),
            ((stable,), "serious", 1), ((testing, stable), "critical", 1),
            ((stable, testing, "--package=bar"), "wishlist", 0),
        ):
            release(store, f"--fail-on={severity}", *suites, status=status)

    def test_page(self):
        """The page has each listed bug as `@show` tells it."""
        store, stable, testing = self.day()
        path = pathlib.Path(self.folder, "page.html")
        release(store, f"--html={path}", stable, testing)
        page = path.read_text()
        shown, _ = run([desks.program(), store, "run"], "@show 3\n")
        told = shown.removeprefix("Bug 3\n").removesuffix("\n")
        told = told.replace("&", "&amp;").replace("<", "&lt;").replace(">", "&gt;")
        self.assertIn(f'<section id="bug-3"><h3>Bug 3</h3><pre>{told}</pre>', page)
        self.assertEqual(re.findall('<section id="bug-([0-9]+)"', page), ["1", "3", "4"])

    def test_refused(self):
        """What the desk refuses is told with its line, and the others are reported."""
        store, _, _ = self.day()
        index = written(self.folder, "index", "foo 1.0-2\nFoo 1\nbar 1_\nzed foo/7\nx 1\nqq é\n")
        output, errors = release(store, f"s={index}")
        self.assertIn("s: 1 package, 2 bugs\n", output)
        self.assertEqual(errors, "".join(
            f"release: {index}:{line}: {words} is left out: NO bad {what}\n"
            for line, words, what in (
                (2, "Foo 1", "package name"), (3, "bar 1_", "version"), (4, "zed foo/7", "version"),
                (5, "x 1", "package name"), (6, "qq é", "version"))))

    def test_highest(self):
        """Of a source that stands twice the highest version counts, by the program's order."""
        store, _, _ = self.day()
        lines = [f"p{place} {version}" for place, (versions, _) in enumerate(ORDERS)
                 for version in versions]
        for chance in range(3):
            random.Random(chance).shuffle(lines)
            index = written(self.folder, "index", "\n".join(lines))
            empty = written(self.folder, "empty", "zzz 1\n")
            output, errors = release(
                store, "--json", f"a={index}", f"b={empty}", "--compare", "a", "b")
            versions = json.loads(output)["comparison"]["versions"]
            expected = {f"p{place}": [highest, None] for place, (_, highest) in enumerate(ORDERS)}
            self.assertEqual(versions, {**expected, "zzz": [None, "1"]})
            self.assertEqual(errors.count("is left out: NO bad version"), 2)

    def test_standard_input(self):
        """An index that is packed and comes by standard input."""
        store, _, _ = self.day()
        packed = gzip.compress(b"Package: foo\nVersion: 1.0-2\n\n")
        output, _ = release(store, "s=-", given=packed)
        self.assertIn("s: 1 package, 2 bugs\n", output)

    def test_faults(self):
        """Each fault of a file, an index or an output has its words, status 3, and no page."""
        store, stable, _ = self.day()
        cut = written(self.folder, "cut", "Package: foo\nVersion: 1\n\nPackage: b")
        none = written(self.folder, "none", "This is\nNo index\n")
        page = written(self.folder, "page", "old")
        for words, told in (
            ((store, f"s={cut}"), "cut:4: it is cut"),
            ((store, f"s={self.folder}"), "Is a directory"),
            ((f"--store={self.folder}/x", stable), "the store's file is not there"),
            ((f"--store={cut}", stable), "the store's file is no desk"),
            ((store, f"s={none}"), "none: the desk takes no package of it"),
        ):
            with self.subTest(words):
                output, errors = release(*words, f"--html={page}", status=3)
                self.assertEqual(output, "")
                self.assertIn(told, errors)
        self.assertEqual(page.read_text(), "old")
        self.assertFalse([name for name in os.listdir(self.folder) if name.startswith(".")])

    def test_other_programs(self):
        """A program that is no desk's is told, and is not read as a desk without bugs."""
        index = written(self.folder, "index", "foo 1\nfoo 2\n")
        one = written(self.folder, "one", "foo 1\n")
        for script, path, told in (
            ("cat", one, "answered '@list foo foo/1'"), (":", one, "answered 'no line'"),
            ("echo 'Bugs in foo at foo/1: 0'; echo", one, "answered ''"),
            ("echo 'Bugs in foo at foo/1: 1'; exit 3", one, "it ended with status 3"),
            ("echo 'Bugs in foo at foo/1: 0'; exit 3", one, "it ended with status 3"),
            ("printf '\\377\\n'", one, "bytes that are not UTF-8"),
            ("for v in 1 2; do echo Bugs in foo at foo/$v: 0; done", index, "order of versions"),
        ):
            program = written(self.folder, "program", f"#!/bin/sh\n{script}\n")
            program.chmod(0o755)
            with self.subTest(script):
                _, errors = release(
                    f"--program={program}", "--store=x", f"s={path}", status=3)
                self.assertIn(told, errors)
        _, errors = release(f"--program={self.folder}/x", "--store=x", f"s={one}", status=3)
        self.assertIn("it can't be run: No such file or directory", errors)

    def test_stopped(self):
        """A report that is stopped as it asks for pages leaves the old page, and no other file."""
        script = 'read -r line; case $line in @list*) echo "Bugs in foo at foo/1: 1";'
        script += ' echo "        1  grave      open  x";; *) echo asked >&2; exec sleep 60;; esac'
        script = script.replace("asked >&2", f"asked >{self.folder}/asked")
        program = written(self.folder, "program", f"#!/bin/sh\n{script}\n")
        program.chmod(0o755)
        page, one = written(self.folder, "page", "old"), written(self.folder, "one", "foo 1\n")
        store = make_desk(self.folder, "")
        words = [*desks.command("release"), f"--program={program}", f"--store={store}"]
        process = subprocess.Popen([*words, f"--html={page}", f"s={one}"])
        wait_for(pathlib.Path(self.folder, "asked"))
        self.assertEqual(len([name for name in os.listdir(self.folder) if name[0] == "."]), 1)
        process.terminate()
        self.assertEqual(process.wait(desks.TIME_LIMIT), 128 + signal.SIGTERM)
        self.assertEqual(page.read_text(), "old")
        self.assertEqual(sorted(os.listdir(self.folder)), [
            "asked", "desk.db", "desk.db-wal", "one", "page", "program"])

    def test_progress(self):
        """On a terminal standard error tells how far a long report is, and elsewhere it doesn't."""
        words = self.day()
        program = written(
            self.folder, "slow", f'#!/bin/sh\nsleep 2.5\nexec "{desks.program()}" "$@"\n')
        program.chmod(0o755)
        terminal, side = os.openpty()
        os.set_blocking(terminal, False)
        release_words = [*desks.command("release"), f"--program={program}"]
        subprocess.run([*release_words, *words], stdout=subprocess.DEVNULL, stderr=side, check=True)
        told = os.read(terminal, 10_000).decode()
        os.close(terminal)
        os.close(side)
        self.assertRegex(told, "^\rrelease: 1 of 5 lists.*\rrelease: 5 of 5 lists\r?\n$")
        self.assertEqual(release(*words)[1], "")

    def test_bad_words(self):
        """Bad words have status 2."""
        store, stable, testing = self.day()
        for words in (
            (stable,), (store,), (store, "stable"), (store, "=x"), (store, stable, stable),
            ("--socket=x", "--port=80", stable), ("--port=0", stable), ("--port=65536", stable),
            (store, stable, "--severity=huge"), (store, stable, "--fail-on=huge"),
            (store, stable, testing, "--compare", "stable", "sid"), (store, "a=-", "b=-"),
        ):
            with self.subTest(words):
                output, errors = release(*words, status=2)
                self.assertEqual(output, "")
                self.assertIn("release: error: ", errors)

    def test_output(self):
        """Output that can't be written has status 3."""
        words = [str(word) for word in (*desks.command("release"), f"--program={desks.program()}")]
        script = '"$@" >/dev/full; [ $? -eq 3 ]'
        _, errors = run(["sh", "-c", script, "sh", *words, *self.day()])
        self.assertIn("standard output can't be written", errors)

    def test_random(self):
        """Over random desks the counts are those of `@list`, counted from its text."""
        chance, repeated = random.Random(8), 0
        for name in range(DESKS):
            store = make_desk(self.folder, "\n".join(random_day(chance)), f"desk.{name}")
            suite = [f"{package} {chance.choice('1234')}" for package in PACKAGES]
            index = written(self.folder, "index", "\n".join(suite))
            output, _ = release(f"--store={store}", "--json", "--severity=wishlist", f"s={index}")
            told = json.loads(output)["suites"][0]
            asked = "".join(f"@list {line}\n" for line in suite)
            listed, _ = run([desks.program(), f"--store={store}", "run"], asked)
            words = [line.split() for line in listed.split("\n") if line.startswith(" ")]
            severities = {row[0]: row[1] for row in words}
            repeated += len(words) - len(severities)
            self.assertEqual(told["bugs"], len(severities))
            self.assertEqual(told["severities"], {
                severity: list(severities.values()).count(severity)
                for severity in SEVERITIES})
            numbers = [str(bug["number"]) for bugs in told["listed"].values() for bug in bugs]
            self.assertEqual(sorted(numbers), sorted(row[0] for row in words))
        self.assertGreater(repeated, 0)


class OverPort(unittest.TestCase):
    """Reports over a server, and over what is none."""

    def test_same(self):
        """A server is asked the same, and the file that it has open is told with a hint."""
        branches = "@branch bar/3 bar/2\n@branch zed/7\n@branch g++/1:2~3+4\n"
        with folder() as place:
            store = make_desk(place, DAY + branches)
            page, index = pathlib.Path(place, "page"), written(place, "s", STABLE + "g++ 1:2~3+4\n")
            words = [f"s={index}", f"t={written(place, 't', TESTING)}", "--compare", "s", "t"]
            words += [f"--html={page}", "--severity=wishlist"]
            over_file, _ = release(f"--store={store}", *words)
            page_over_file = re.sub("Made on .*", "", page.read_text())
            with desks.served(store) as port:
                over_port, errors = release(f"--port={port}", *words)
                told = re.sub('(?s)<h2 id="unseen">.*?(?=<h2)', "", page.read_text())
                told = re.sub("<li><a href=.#unseen.*\n", "", told)
                self.assertEqual(re.sub("Made on .*", "", told), page_over_file)
                self.assertEqual(over_port, over_file)
                self.assertIn("what no branch has is not told", errors)
                over_both = release(f"--port={port}", f"--store={store}", *words)
                self.assertEqual(re.sub("Made on .*", "", page.read_text()), page_over_file)
                self.assertEqual(over_both, (over_file, ""))
                page.unlink()
                output, errors = release(f"--store={store}", *words, status=3)
            self.assertEqual(output, "")
            self.assertIn("the store's file is in use by another process", errors)
            self.assertIn("--port=N", errors)
            self.assertFalse(page.exists())

    def test_refused(self):
        """What a server refuses is told with its line."""
        with folder() as place, desks.served(make_desk(place, DAY)) as port:
            index = written(place, "index", "foo 1.0-2\nFoo 1\nbar 1_\nbar? 1\n%66oo 1\n")
            output, errors = release(f"--port={port}", f"s={index}")
            self.assertIn("s: 1 package, 3 bugs\n", output)
            self.assertEqual(re.findall(":([0-9]):", errors), ["2", "3", "4", "5"])

    def test_ended(self):
        """A server that ends meanwhile."""
        with folder() as place, desks.served(make_desk(place, DAY), "--count=2") as port:
            index = written(place, "index", TESTING)
            output, errors = release(f"--port={port}", f"s={index}", status=3)
            self.assertEqual(output, "")
            self.assertIn(f"port {port}: ", errors)

    def test_something_else(self):
        """What is no desk is told, and is not read as a desk without bugs."""
        body = b"Bugs in aa at aa/0: 0\n"
        head = b"HTTP/1.1 200 OK\r\nContent-Length: "
        for answer, told in (
            (b"HTTP/1.1 404 Not Found\r\nContent-Length: 2\r\n\r\nno", "as no desk does"),
            (b"HTTP/1.1 200 OK\r\nContent-Length: 5\r\n\r\nhello", "as no desk does"),
            (head + b"90\r\n\r\n" + body, "as no desk does"),
            (b"HTTP/1.1 200 OK\r\n\r\n" + body, "as no desk does"),
            (b"SSH-2.0-OpenSSH_9.2\r\n", "as no desk does"),
            (b"", "as no desk does"), (b"\xff" * 100_000, "as no desk does"),
            (None, "no answer within"),
        ):
            with self.subTest(answer), desks.answering(answer) as port:
                with unittest.mock.patch.object(desk_served, "SECONDS", 0.3):
                    with self.assertRaises(Fault) as raised:
                        desk_served.ServedDesk(desk_served.Place(port))
                self.assertIn(told, str(raised.exception))

    def test_dropped(self):
        """A question whose connection is closed without a word is asked again, so often."""
        body = b"Bugs in aa at aa/0: 0\n"
        answer = b"HTTP/1.1 200 OK\r\nContent-Length: %d\r\n\r\n%s" % (len(body), body)
        for dropped, is_desk in ((2, True), (3, False)):
            answers = [b""] * dropped + [answer]
            with self.subTest(dropped), desks.answering(lambda: answers.pop(0)) as port:
                place = desk_served.Place(port)
                if is_desk:
                    desk_served.ServedDesk(place)
                else:
                    self.assertRaises(Fault, desk_served.ServedDesk, place)
                self.assertEqual(len(answers), 0 if is_desk else 1)

    def test_always_alike(self):
        """Something that answers each question as the first one is no desk."""
        body = b"Bugs in aa at aa/0: 0\n"
        answer = b"HTTP/1.1 200 OK\r\nContent-Length: %d\r\n\r\n%s" % (len(body), body)
        with folder() as place, desks.answering(answer) as port:
            index = written(place, "index", TESTING)
            _, errors = release(f"--port={port}", f"s={index}", status=3)
            self.assertIn("as no desk does", errors)

    def test_nothing(self):
        """A port on which nothing listens."""
        with folder() as place:
            index = written(place, "index", TESTING)
            _, errors = release(f"--port={desks.free_port()}", f"s={index}", status=3)
            self.assertIn("Connection refused", errors)


if __name__ == "__main__":
    unittest.main()
