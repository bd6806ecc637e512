"""Tests of `graph` over desks in files and over servers, with the program."""

import contextlib
import gzip
import io
import os
import pathlib
import random
import re
import subprocess
import unittest
import urllib.request

import desks
from boxhumilwa import graph as GRAPH
from boxhumilwa import picture_text
from desks import RELEASE_DAY, folder, make_desk, run, written

# The release day of the manual with its stable branch, before its archive, and its suites.
DAY = RELEASE_DAY + "@branch foo/1.0-2+s1 foo/1.0-2\n"
# How many random desks there are.
DESKS = int(os.environ.get("DESKS", "2"))
SUITES = {"stable": "foo 1.0-2+s1\n", "testing": "foo 2.0-1\nbar 7\n"}
DAY_TEXT = """Bug 1 in foo: crashes at start
grave, done, listed at 3 of 4 versions

o    2.0-1     fixed, head, in testing
| *  1.0-2+s1  head, in stable
|/
*    1.0-2
*    1.0-1     found

* listed, o not listed
"""
ARCHIVED_TEXT = """Bug 1 in foo: crashes at start
grave, done, archived: it is in no list, so its marks alone are drawn

-    2.0-1     fixed, head
| -  1.0-2+s1  fixed, head
|/
-    1.0-2
-    1.0-1     found

- not asked
"""
# Bugs with less to draw, or with versions of several sources.
OTHERS = """@from ann
@branch foo/3 foo/2 libfoo/1.9 libfoo/1.8 libfoo/1.7
@branch newfoo/4 foo/2
@branch zed/9 zed/8 zed/7
@branch solo/1
@report foo 2 normal renamed
found 1 libfoo/1.8
fixed 1 newfoo/4
found 1 qux/5
found 1 1.9
@report solo 1 normal one of two
@report solo - minor the other one
severity 3 normal
fixed 3 1
merge 2 3
@report bar 3 minor no branch
found 4 2
fixed 4 4
close 4
@report nothing - serious no version
@report foo - serious closed everywhere
close 6
"""
OTHERS_TEXTS = {
    1: """Bug 1 in foo: renamed
normal, open, listed at 6 of 8 versions

*    3           head
| o  newfoo/4    fixed
|/
*    2           found
*    libfoo/1.9
*    libfoo/1.8  found
o    libfoo/1.7

In no branch, each by itself:

*    1.9         found
*    qux/5       found

* listed, o not listed
""",
    2: """Bug 2 in solo: one of two
normal, open, listed at 1 of 1 version, merged with 3

*  1  found, fixed, head

* listed, o not listed
""",
    4: """Bug 4 in bar: no branch
minor, done, listed at 2 of 3 versions
No branch has a version of bar.

In no branch, each by itself:

o  4  fixed
*  3  found
*  2  found

* listed, o not listed
""",
    5: """Bug 5 in nothing: no version
serious, open
No version of nothing is known.
""",
    6: """Bug 6 in foo: closed everywhere
serious, done, listed at 0 of 6 versions

o    3  head
| o  newfoo/4
|/
o    2
o    3 versions, libfoo/1.9 to libfoo/1.7

* listed, o not listed
""",
}
PACKAGES, BUGS = ("foo", "bar"), 5


def graph(*words, given="", status=0):
    """A run of `graph` with the program."""
    tool = [*desks.command("graph"), f"--program={desks.program()}"]
    return run([*tool, *words], given, status)


def picture_of(*words):
    """The picture that these words ask for, and what is told on standard error."""
    errors = io.StringIO()
    with contextlib.redirect_stderr(errors):
        options = GRAPH.read_options([f"--program={desks.program()}", *map(str, words)])
        with GRAPH.desk_to_read("graph", options) as (desk, file):
            picture, refusal = GRAPH.gather(options, desk, file)
    if refusal:
        raise AssertionError(refusal)
    return picture, errors.getvalue()


def drawn(*words):
    """The text of the picture that these words ask for."""
    picture, errors = picture_of(*words)
    if errors:
        raise AssertionError(errors)
    return "".join(f"{line}\n" for line in picture_text.text_lines(picture))


def random_day(chance):
    """A script of random branches of two packages, and of bugs with random marks."""
    for package in PACKAGES:
        for version in range(2, 25):
            base = max(1, version - chance.choice((1, 1, 1, 1, 2, 5)))
            yield f"@branch {package}/{version} {package}/{base}"
    yield "@branch foo/1 lib/1"
    for _ in range(BUGS):
        yield f"@report {chance.choice(PACKAGES)} {chance.choice(('-', '3', '9'))} normal x"
    for _ in range(30):
        node = chance.choice(("", "", "", "foo/", "lib/")) + str(chance.randint(1, 26))
        word = chance.choice(("found", "fixed", "close", "notfound"))
        yield f"{word} {chance.randint(1, BUGS)} {node}"


def random_desk(place, name, script):
    """The file of a desk that has taken what is good of a script."""
    store = pathlib.Path(place, name)
    run([desks.program(), f"--store={store}", "init"])
    subprocess.run(
        [desks.program(), f"--store={store}", "run"], input="\n".join(script).encode(),
        stdout=subprocess.DEVNULL)
    return store


def page_of(store, number):
    """The marks of a bug, found and fixed, and its package, as its page says."""
    told, _ = run([desks.program(), f"--store={store}", "run"], f"@show {number}\n")
    found, fixed, package = (
        re.search(f"^{word}: (.*)$", told, re.M)[1] for word in ("Found", "Fixed", "Package"))
    return set(found.split()) - {"-"}, set(fixed.split()) - {"-"}, package


def expected_nodes(pairs, package, marks):
    """The nodes to be drawn: the marks, and the tree of `foo` and `lib`, that of `bar`, or both."""
    known = {node for pair in pairs for node in pair}
    of_bar = {node for node in known if node.startswith("bar/")}
    wanted = marks | {f"{package}/1"}
    return marks.union(*(tree for tree in (of_bar, known - of_bar) if tree & wanted))


def lists_of(store, package, nodes):
    """The text of the program's list at each node."""
    asked = "".join(f"@list {package} {node}\n" for node in nodes)
    lists, _ = run([desks.program(), f"--store={store}", "run"], asked)
    return lists.split("Bugs in ")[1:]


class InFolder(unittest.TestCase):
    """Tests that have a folder."""

    def setUp(self):
        place = folder()
        self.folder = place.__enter__()
        self.addCleanup(place.__exit__, None, None, None)

    def suites(self):
        """The words of the suites of the release day."""
        return [f"{name}={written(self.folder, name, text)}" for name, text in SUITES.items()]


class OverFile(InFolder):
    """Pictures over a desk in a file."""

    def test_day(self):
        """The release day with its suites, and then its archive."""
        store = make_desk(self.folder, DAY)
        self.assertEqual(graph(f"--store={store}", *self.suites(), "1"), (DAY_TEXT, ""))
        run([desks.program(), f"--store={store}", "run"], "fixed 1 1.0-2+s1\narchive 1\n")
        self.assertEqual(drawn(f"--store={store}", "#001"), ARCHIVED_TEXT)

    def test_others(self):
        """Versions of other sources, of no branch, of one version, and none at all."""
        store = make_desk(self.folder, OTHERS)
        for number, text in OTHERS_TEXTS.items():
            with self.subTest(number):
                self.assertEqual(drawn(f"--store={store}", number), text)
        self.assertNotIn("zed", drawn(f"--store={store}", 1))
        run([desks.program(), f"--store={store}", "run"], "found 1 zed/8\n")
        self.assertIn(
            "\n\n*    zed/9\n*    zed/8       found\no    zed/7\n\n", drawn(f"--store={store}", 1))

    def test_missing(self):
        """A bug that does not exist has status 1 and no picture, and an old one stays."""
        store, old = make_desk(self.folder, DAY), written(self.folder, "old.svg", "old")
        for words in ((), (f"--svg={old}",), (f"--svg={self.folder}/new.svg",)):
            output, errors = graph(f"--store={store}", *words, "9", status=1)
            self.assertEqual((output, errors), ("", "graph: NO no such bug 9\n"))
        self.assertEqual(old.read_text(), "old")
        self.assertFalse(pathlib.Path(self.folder, "new.svg").exists())

    def test_suites(self):
        """Suites: several at a version, the highest version of a source, and what is left out."""
        store = make_desk(self.folder, OTHERS)
        sources = "".join(
            f"Package: {name}\nVersion: {version}\n\n" for name, version in
            (("foo", "2"), ("foo", "3"), ("foo", "2.5"), ("newfoo", "4"), ("foo", "3_")))
        packed = written(self.folder, "packed", gzip.compress(sources.encode()))
        lines = written(self.folder, "lines", "foo 3\nlibfoo 1.8\nzed 9\nnewfoo 77\n")
        other = written(self.folder, "other", "zed 8\n")
        none = written(self.folder, "none", "foo 2.7\n")
        picture, errors = picture_of(
            f"--store={store}", f"a={packed}", f"b={lines}", f"c={other}", f"d={none}", 6)
        self.assertEqual(
            "".join(f"{line}\n" for line in picture_text.text_lines(picture)),
            """Bug 6 in foo: closed everywhere
serious, done, listed at 0 of 7 versions
c has no foo.

o    3           head, in a, in b
| o  newfoo/4    in a
|/
o    2
o    libfoo/1.9
o    libfoo/1.8  in b
o    libfoo/1.7

In no branch, each by itself:

o    2.7         in d

* listed, o not listed
""")
        self.assertEqual(errors, f"graph: {packed}:13: foo 3_ is left out: NO bad version\n")

    def test_kept(self):
        """The file is as before."""
        store = make_desk(self.folder, DAY)
        before = store.read_bytes()
        drawn(f"--store={store}", 1)
        self.assertEqual(store.read_bytes(), before)

    def test_log(self):
        """Branches that are in the log alone, since the program was killed, are drawn."""
        place = pathlib.Path(self.folder, "killed")
        place.mkdir()
        store = make_desk(place, DAY)
        with desks.served(store) as port:
            urllib.request.urlopen(
                f"http://127.0.0.1:{port}/branches", b'{"branch":["foo/3","foo/2.0-1"]}').close()
            for name in ("desk.db", "desk.db-wal"):
                written(self.folder, name, pathlib.Path(place, name).read_bytes())
        self.assertIn("\no    3         head\n", drawn(f"--store={self.folder}/desk.db", 1))

    def test_random(self):
        """On random desks each version is drawn listed as `@list` has it, each mark as the page."""
        chance, folded = random.Random(4), 0
        for name in range(DESKS):
            script = [*random_day(chance)]
            store = random_desk(self.folder, f"desk.{name}", script)
            for number in range(1, BUGS + 1):
                picture, _ = picture_of(f"--store={store}", number)
                self.compare(store, script, number, picture)
                folded += sum(len(row.versions) > 1 for row in picture.rows())
        self.assertGreater(folded, 8)

    def compare(self, store, script, number, picture):
        """Compares a picture with what `@list` and `@show` say, read from their text."""
        found, fixed, package = page_of(store, number)
        pairs = [line.split()[1:] for line in script if line.startswith("@branch")]
        nodes = sorted(expected_nodes(pairs, package, found | fixed))
        lists = lists_of(store, package, nodes)
        heads = {pair[0] for pair in pairs} - {pair[1] for pair in pairs}
        expected = [
            (node, re.search(f"^ +{number}  ", text, re.M) is not None, node in found,
             node in fixed, node in heads and node.startswith(f"{package}/"))
            for node, text in zip(nodes, lists, strict=True)]
        self.assertEqual(sorted(version[:5] for version in picture.versions()), expected)
        singles = {row.versions[0].node for row in picture.rows() if len(row.versions) == 1}
        self.assertLessEqual(found | fixed | (heads & set(nodes)), singles)


class OverPort(InFolder):
    """Pictures over a server, with branches that are handed in."""

    def test_same(self):
        """A server is asked the same, and the file that it has open is told with a hint."""
        store, old = make_desk(self.folder, DAY), written(self.folder, "old.svg", "old")
        day = written(self.folder, "day", DAY)
        with desks.served(store) as port:
            words = [f"--port={port}", f"--branches={day}", *self.suites()]
            self.assertEqual(drawn(*words, 1), DAY_TEXT)
            self.assertEqual(drawn(*words, 3).count("\n*  "), 3)
            output, errors = graph(f"--store={store}", f"--svg={old}", "1", status=3)
            self.assertEqual(output, "")
            self.assertRegex(errors, "^graph: .*: the store's file is in use by another process; "
                                     "a server may have it open: .*--port=N.*\n$")
            _, errors = graph(f"--port={port}", f"--branches={day}", "9", status=1)
            self.assertEqual(errors, "graph: NO no such bug 9\n")
        self.assertEqual(old.read_text(), "old")

    def test_branches(self):
        """Branches that the program refuses are told with their lines, and others are drawn."""
        store = make_desk(self.folder, DAY)
        lines = "# @branch foo/0 foo/7\n@branch foo/2.0-1 foo/1.0-2\n@branch foo/2.0-1 foo/5\n"
        lines += " @branch foo/9\n@branch foo\n@branches foo/8\n"
        lines += "@branch\tfoo/1.0-2 foo/1.0-1\n@branch"
        packed = gzip.compress(lines.encode())
        with desks.served(store) as port:
            output, errors = graph(f"--port={port}", "--branches=-", "1", given=packed)
            self.assertEqual(output, """Bug 1 in foo: crashes at start
grave, done, listed at 2 of 3 versions

o  2.0-1  fixed, head
*  1.0-2
*  1.0-1  found

* listed, o not listed
""")
            self.assertEqual(errors, """graph: -:3: the branch is left out: NO conflict at 0
graph: -:5: the branch is left out: NO bad version
graph: -:8: the branch is left out: NO empty branch
""")
            empty = written(self.folder, "empty", "")
            picture, errors = picture_of(f"--port={port}", f"--branches={empty}", 1)
        self.assertEqual(errors, f"graph: {empty}: there is no @branch line in it\n")
        self.assertEqual(
            [row.versions[0].node for row in picture.alone], ["foo/2.0-1", "foo/1.0-1"])
        self.assertEqual(picture.trees, [])


if __name__ == "__main__":
    unittest.main()
