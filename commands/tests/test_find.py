"""Tests of `find`: its answers, their forms, and words that are refused."""

import gzip
import io
import json
import re
import sys
import unittest
import unittest.mock

import desks
from desks import command, folder, make_desk, run, written
from finds import found, on_terminal, output_kept

from boxhumilwa import find, find_words
from boxhumilwa.answers import TAGS

DESK = """@from Ann Other <ann@foo.example>
@branch foo/2.0-1 foo/1.0-2 foo/1.0-1
@report foo 1.0-1 grave crashes at start
@report foo 1.0-2 important loses the last line
@report foo - wishlist needs a manual
@from bob
@report bar 3 serious breaks the build of foo
close 1 2.0-1
tags 1 + patch
tags 2 + patch security
owner 2 ann@foo.example
block 1 by 2
block 4 by 2
affects 4 foo
forwarded 4 https://bar.example/7
@report bar 3 serious breaks the build of foo
forcemerge 4 5
@report zed 7 critical burns
close 6
archive 6
"""
TABLE = """5 bugs

number  severity   state  waiting  package  title
     2  important  open   3        foo      loses the last line
     1  grave      done   0        foo      crashes at start
     3  wishlist   open   0        foo      needs a manual
     4  serious    open   0        bar      breaks the build of foo
     5  serious    open   0        bar      breaks the build of foo
"""

# What each option asks of the desk, and what pairs ask, read from the script by hand.
QUESTIONS = (
    ("--package=foo", [1, 2, 3]), ("--package=foo --package=bar", [1, 2, 3, 4, 5]),
    ("--package=zed", []), ("--affects=foo", [4, 5]), ("--affects=bar --affects=foo", [4, 5]),
    ("--affects=bar", []), ("--severity=grave", [1]), ("--severity=serious", [1, 4, 5]),
    ("--severity=important --severity=grave", [1, 2, 4, 5]),
    ("--severity=wishlist", [1, 2, 3, 4, 5]),
    ("--tag=patch", [1, 2]), ("--tag=security", [2]), ("--tag=patch --tag=security", [1, 2]),
    ("--tag=wontfix --tag=security", [2]), ("--tag=help", []), ("--not-tag=patch", [3, 4, 5]),
    ("--not-tag=security", [1, 3, 4, 5]), ("--not-tag=security --not-tag=patch", [3, 4, 5]),
    ("--tag=patch --not-tag=security", [1]), ("--state=open", [2, 3, 4, 5]), ("--state=done", [1]),
    ("--state=open --state=done", [1, 2, 3, 4, 5]), ("--archived", [6]), ("--archived=yes", [6]),
    ("--archived=no", [1, 2, 3, 4, 5]), ("--archived=both", [1, 2, 3, 4, 5, 6]),
    ("--archived=no --archived=yes", [1, 2, 3, 4, 5, 6]), ("--forwarded", [4, 5]),
    ("--forwarded=no", [1, 2, 3]), ("--merged", [4, 5]), ("--merged=no", [1, 2, 3]),
    ("--merged=both", [1, 2, 3, 4, 5]), ("--blocked", [1, 4, 5]), ("--blocked=no", [2, 3]),
    ("--title=crash*", [1]), ("--title=crash", []), ("--title=*e* --title=*x", [1, 2, 3, 4, 5]),
    ("--title=*a*t*", [1, 2, 4, 5]), ("--title=Crash*", []), ("--title=[bl]* --owner=-", [4, 5]),
    ("--blocked --tag=patch", [1]), ("--package=foo --owner=-", [1, 3]),
    ("--submitter=bob --merged", [4, 5]), ("--submitter=bob --blocked=no", []),
    ("--archived --severity=grave", [6]), ("--archived --package=foo", []),
    ("--title=*e* --title=*x --title=c* --state=done", [1]),
)


class OnDesk(unittest.TestCase):
    """Answers over one desk."""

    def setUp(self):
        place = folder()
        self.folder = place.__enter__()
        self.addCleanup(place.__exit__, None, None, None)
        self.path = make_desk(self.folder, DESK)
        self.store = f"--store={self.path}"

    def numbers(self, *words):
        """The numbers that are found."""
        return [int(number) for number in found(self.store, "--numbers", *words)[0].split()]

    def test_table(self):
        """The table as a command of its own, on a terminal too, which it fits."""
        words = [*command("find"), self.store, "--sort=waiting"]
        self.assertEqual(run(words), (TABLE, ""))
        told = on_terminal(200, self.store, "--sort=waiting")
        self.assertEqual(told, TABLE)
        told = on_terminal(60, self.store, "--title=breaks*", "--archived=both", "--package=bar")
        self.assertEqual(told.split("\n")[3:6], [
            "     4  serious   open   bar      breaks the build of foo",
            "     5  serious   open   bar      breaks the build of foo", ""])
        told = on_terminal(56, self.store, "--title=breaks*")
        self.assertLessEqual(max(map(len, told.split("\n"))), 56)
        self.assertIn("bar      breaks the build of\n" + " " * 34 + "foo\n", told)

    def test_manual(self):
        """The example of the manual, by a shell, on its release day."""
        manual = (desks.ROOT / "docs/MANUAL.md").read_text(encoding="utf-8")
        chapter = manual.partition("\n## Finding bugs\n")[2]
        block = re.search("(?m)^(?:    .*\n|\n)+", chapter[chapter.index("    $ "):])[0]
        lines = re.sub("(?m)^    ", "", block).strip("\n").split("\n")
        make_desk(self.folder, desks.RELEASE_DAY, "manual.db")
        script = "".join(
            f"{line.removeprefix('$ ')}\n" for before, line in zip(["", *lines], lines)
            if line.startswith("$ ") or before.endswith("|"))
        for name in ("find", "send"):
            run_words = " ".join([*command(name), f"--program={desks.program()}"])
            script = script.replace(f"commands/{name}", run_words)
        script = script.replace("./bts", desks.program()).replace(
            "--store=desk.db", f"--store={self.folder}/manual.db")
        told, errors = run(["sh", "-e"], script)
        wanted = [line for before, line in zip(["", *lines], lines)
                  if not line.startswith("$ ") and not before.endswith("|")]
        first = "".join(
            f"> {line}\nOK {line.split()[1]}\n"
            for line in ("tags 2 patch", "owner 2 !", "block 1 by 2", "block 3 by 2"))
        self.assertEqual((told, errors), (first + "\n".join([*wanted, ""]), ""))

    def test_forms(self):
        """A bug in JSON and in CSV, whose lines end as RFC 4180 has it."""
        text = found(self.store, "--json", "--blocked", "--merged=no")[0]
        self.assertEqual(json.loads(text), [{
            "number": 1, "package": "foo", "severity": "grave", "state": "done", "archived": False,
            "title": "crashes at start", "submitter": "Ann Other <ann@foo.example>", "owner": None,
            "forwarded": None, "tags": ["patch"], "affects": [], "found": ["foo/1.0-1"],
            "fixed": ["foo/2.0-1"], "blocked_by": [2], "blocks": [], "merged_with": []}])
        text = found(self.store, "--csv", "--blocked", "--package=bar")[0]
        head = "number,package,severity,state,archived,title,submitter,owner,forwarded,tags,affects"
        self.assertEqual(text, (
            f"{head},found,fixed,blocked_by,blocks,merged_with\r\n"
            "4,bar,serious,open,no,breaks the build of foo,bob,,https://bar.example/7,,foo,bar/3,,"
            "2,,5\r\n"
            "5,bar,serious,open,no,breaks the build of foo,bob,,https://bar.example/7,,foo,bar/3,,"
            "2,,4\r\n"))

    def test_none(self):
        """Where no bug is found the status is 0, and each form says so."""
        for form, wanted in (
            ([], "0 bugs\n"), (["--numbers"], ""), (["--json"], "[\n]\n"),
        ):
            self.assertEqual(found(self.store, *form, "--package=none"), (wanted, ""))
        text, _ = found(self.store, "--csv", "--package=none")
        self.assertEqual(len(text.split("\r\n")), 2)

    def test_each(self):
        """Each option, one that is given several times, and several options."""
        for words, wanted in QUESTIONS:
            with self.subTest(words):
                self.assertEqual(self.numbers(*words.split()), wanted)

    def test_people(self):
        """A person is found by the whole text, the name and the address, in any case."""
        for name in ("Ann Other <ann@foo.example>", "ann OTHER", "ANN@foo.example"):
            self.assertEqual(self.numbers(f"--submitter={name}"), [1, 2, 3])
        for name in ("ann", "Ann Other <", "foo.example", "", "*"):
            self.assertEqual(self.numbers(f"--submitter={name}"), [])
        self.assertEqual(self.numbers("--owner=ann@foo.example"), [2])
        self.assertEqual(self.numbers("--owner=-"), [1, 3, 4, 5])
        self.assertEqual(self.numbers("--owner=-", "--owner=ann@foo.example"), [1, 2, 3, 4, 5])

    def test_maintainers(self):
        """Packages go by a file of maintainers, of which a bad line is told with its number."""
        path = written(self.folder, "m.gz", gzip.compress(
            b"# all\nfoo\tAnn Other <ann@foo.example>\nbar bob@bar.example (Bob)\n\n"
            b"zed  Ann Other\n"))
        for names, wanted in (
            (["ann other"], [1, 2, 3]), (["Bob"], [4, 5]),
            (["bob", "ann@foo.example"], [1, 2, 3, 4, 5]),
        ):
            words = [f"--maintainers={path}", *(f"--maintainer={name}" for name in names)]
            self.assertEqual(self.numbers(*words), wanted)
        output, errors = found(self.store, f"--maintainers={path}", "--maintainer=cy")
        self.assertEqual(output, "0 bugs\n")
        self.assertEqual(errors, f"find: {path}: no package in it is theirs\n")
        for text, told in ((b"foo A\nbar\n", "bar:2: "), (b"\xff\n", "bar:1: not UTF-8")):
            path = written(self.folder, "bar", text)
            output, errors = found(
                self.store, f"--maintainers={path}", "--maintainer=A", status=3)
            self.assertEqual((output, errors.count("\n")), ("", 1))
            self.assertIn(told, errors)

    def test_at(self):
        """Bugs at a version: of its source, or of the packages that are named."""
        for words, wanted in (
            (["--at=foo/1.0-1"], [1, 3]), (["--at=foo/2.0-1"], [2, 3]),
            (["--at=foo/1.0-1", "--at=foo/2.0-1"], [1, 2, 3]),
            (["--at=foo/1.0-2", "--severity=important"], [1, 2]),
            (["--package=foo", "--at=1.0-2"], [1, 2, 3]), (["--at=bar/3"], [4, 5]),
            (["--affects=foo", "--at=bar/3"], [4, 5]), (["--package=bar", "--at=foo/1.0-2"], []),
            (["--package=bar", "--package=foo", "--at=3"], [3, 4, 5]),
            (["--at=zed/7", "--archived=both"], []), (["--at=bar/3", "--archived"], []),
        ):
            with self.subTest(words):
                self.assertEqual(self.numbers(*words), wanted)
        # A bug without a mark, which each version has, but only in the lists of its packages.
        unmarked = "@report bar - minor y\n@from bob\naffects 7 foo\n"
        run([desks.program(), self.store, "run"], unmarked)
        for words, wanted in (
            (["--at=foo/9"], [3, 7]), (["--at=foo/9", "--package=bar"], [7]),
            (["--at=bar/9", "--affects=foo"], [7]), (["--at=zed/7", "--package=bar"], []),
            (["--at=9", "--package=bar", "--affects=foo"], [7]),
        ):
            with self.subTest(words):
                self.assertEqual(self.numbers(*words), wanted)
        for words in (["--at=foo/1_"], ["--at=foo/1", "--at=Foo/1"]):
            output, errors = found(self.store, *words, status=1)
            self.assertEqual(output, "")
            self.assertRegex(errors, "^find: [^\n]*: NO bad (version|package name)\n$")

    def test_suite(self):
        """Bugs of suites, of which what the desk refuses is told and left out."""
        index = written(self.folder, "Packages.gz", gzip.compress(
            b"Package: libfoo1\nSource: foo (1.0-1)\nVersion: 9\n\nPackage: Bar\nVersion: 1\n\n"))
        output, errors = found(self.store, f"--suite=s={index}", "--numbers")
        self.assertEqual(output, "1\n3\n")
        self.assertEqual(errors, f"find: {index}:5: Bar 1 is left out: NO bad package name\n")
        bar = written(self.folder, "bar", "bar 2\nbar 3\n")
        self.assertEqual(self.numbers(f"--suite=s={bar}"), [4, 5])
        bad = written(self.folder, "bad", "Bar 3\n")
        self.assertIn("takes no package of it", found(self.store, f"--suite=s={bad}", status=3)[1])

    def test_numbers_to_send(self):
        """The numbers go to `send`, as words and as the lines of a message."""
        options = f"--program={desks.program()}"
        send = [*command("send"), self.store, options, "--from=ann"]
        numbers = found(self.store, "--numbers", "--tag=patch")[0]
        lines = "".join(f"severity {number} minor\n" for number in numbers.split())
        self.assertEqual(
            run(send, lines)[0], "> severity 1 minor\nOK 1\n> severity 2 minor\nOK 2\n")
        script = '"$@" merge $(cat)'
        numbers = found(self.store, "--numbers", "--title=breaks*")[0]
        told, _ = run(["sh", "-c", script, "sh", *send], numbers)
        self.assertEqual(told, "> merge 4 5\nOK, no change.\n")
        self.assertEqual(self.numbers("--severity=minor", "--package=foo", "--tag=patch"), [1, 2])
        self.assertEqual(self.numbers("--severity=important", "--package=foo"), [])

    def test_tags(self):
        """The tags are those of the program, in its order."""
        tags = f"tags 1 + {' '.join(reversed(TAGS))}"
        script = "\n".join(["@from a", "@report aa - normal x", tags, "@show 1"])
        told, _ = run([desks.program(), "run"], script)
        self.assertIn(f"\nTags: {' '.join(TAGS)}\n", told)
        manual = (desks.ROOT / "docs/MANUAL.md").read_text(encoding="utf-8")
        listed = re.search(r"^The tags are (.*?)\.$", manual, re.MULTILINE | re.DOTALL)[1]
        self.assertEqual(sorted(re.findall("`([a-z0-9-]+)`", listed)), sorted(TAGS))

    def test_completion(self):
        """Completion has the words of each option that has fixed ones."""
        packaging = desks.ROOT / "packaging"
        told = (packaging / "completion-tools").read_text(encoding="utf-8")
        for sign, value in (("@TOOL@", "find"), ("@OPTIONS@", "--sort=")):
            told = told.replace(sign, value)
        script = written(self.folder, "boxhumilwa-find", told)
        written(self.folder, "boxhumilwa", (packaging / "completion").read_bytes())
        parser = find_words.find_parser(None)
        fixed = {it.option_strings[0]: it.choices for it in parser._actions if it.choices}
        lines = [f". {script}", "compopt() { :; }"] + [
            f'COMP_WORDS=(boxhumilwa-find {name} = ""); COMP_CWORD=3; '
            'COMPREPLY=(); _boxhumilwa_tool boxhumilwa-find; echo "${COMPREPLY[*]}"'
            for name in fixed]
        completed, _ = run(["bash"], "\n".join(lines))
        words = [set(line.split()) for line in completed.splitlines()]
        self.assertEqual(words, [set(choices) for choices in fixed.values()])
        self.assertEqual(len(fixed), 9)

    def test_bad_words(self):
        """Bad words have status 2 and a line."""
        port, other = "--port=80", f"--suite=a={self.folder}"
        for words in (
            [], [self.store, "x"], [self.store, "--severity=huge"], [self.store, "--tag=x"],
            [self.store, "--package=Foo"], [self.store, "--affects=a b"], [self.store, "--at=1"],
            [self.store, "--at=foo/1\n@show 1"], [self.store, "--at=foo/ 1"],
            [self.store, "--at=/", "--package=foo"],
            [self.store, "--maintainer=a"], [self.store, "--maintainers=a"], [port, "--socket=x"],
            [self.store, "--json", "--csv"], [self.store, "--last=3"], [port, "--last=0"],
            [port, "--first=5", "--last=4"], [self.store, "--archived=maybe"],
            [self.store, other, other], [self.store, "--suite=x"], [self.store, "--sort=title"],
            [self.store, "--suite=a=-", "--suite=b=-"], [self.store, "--state=closed"],
        ):
            with self.subTest(words), output_kept() as output:
                errors = io.StringIO()
                with unittest.mock.patch.object(sys, "stderr", errors):
                    with self.assertRaises(SystemExit) as ended:
                        find.main(words)
                self.assertEqual((ended.exception.code, output.read()), (2, b""))
                self.assertRegex(errors.getvalue(), "^find: error: [^\n]*\n$")


if __name__ == "__main__":
    unittest.main()
