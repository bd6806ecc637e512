"""Tests of what `release` and `graph` say that they can't see, with the program."""

import json
import os
import random
import re
import subprocess
import unittest

import desks
from desks import folder, make_desk, release, run, written
from boxhumilwa.answers import SEVERITIES

# How many random desks there are.
DESKS = int(os.environ.get("DESKS", "3"))
# Bugs of baz at versions of its branch and at others, one that affects it, and closed ones.
DAY = """@from ann
@branch baz/3 baz/2 baz/1
@report baz 1 grave old
@report baz 2 serious closed by 3
@report baz 4 normal of the upload
@report baz 1+b1 critical of a build
@report foo 5 important crashes baz
@report baz - wishlist everywhere
@report baz 1 minor done everywhere
@report baz 1+b1 normal archived
affects 5 baz
close 2 3
close 7
close 8
archive 8
"""
# What the report says of baz 4, above its figures: bug 3 is marked there, and 6 nowhere; 1, 2, 4
# and 5 are found at other versions.
# Of the open bugs 3, 4 and 5 are found only at versions in no branch, and 3 at this very one.
UNSEEN = """new: 1 package, 2 bugs

new: versions in no branch, where bugs found elsewhere don't count

          4  baz 4

new: open bugs found only at versions in no branch, and not listed

baz 4
          4  critical   open  of a build
             found baz/1+b1
          5  important  open  crashes baz
             found foo/5

  critical                  0
"""
PICTURE_NOTES = [
    "It is found only at versions in no branch, so no version of a branch lists it.",
    "new has baz/4, in no branch: that it is found elsewhere doesn't count.",
]
PACKAGES = ("bar", "foo", "zed")
VERSIONS = ("1", "2", "3", "4", "2+b1", "9")


def random_day(chance):
    """A script of random bugs, of which many are marked at versions that no branch has."""
    yield "@from ann"
    for package in PACKAGES[:2]:
        yield f"@branch {package}/3 {package}/2 {package}/1"
    for _ in range(40):
        version = chance.choice((*VERSIONS, "-"))
        yield f"@report {chance.choice(PACKAGES)} {version} {chance.choice(SEVERITIES)} x"
    for _ in range(80):
        number, version = chance.randint(1, 40), chance.choice(VERSIONS)
        yield chance.choice((
            f"close {number} {version}", f"found {number} {version}", f"close {number}",
            f"fixed {number} {version}", f"affects {number} {chance.choice(PACKAGES)}",
            f"notfound {number} {version}", f"archive {number}", f"reopen {number}"))


def desk_after(place, name, script):
    """The file of a new desk that has taken a script, some of whose lines are refused."""
    store = make_desk(place, "", name)
    words = [desks.program(), f"--store={store}", "run"]
    subprocess.run(words, input="\n".join(script).encode(), stdout=subprocess.DEVNULL, check=False)
    return store


# A plain reading of pages, in words of the manual.


def pages_of(store):
    """What the page of each bug says, by its number."""
    script = "\n".join(f"@show {number}" for number in range(1, 41))
    said, _ = run([desks.program(), f"--store={store}", "run"], script)
    pages = re.split(r"^Bug (\d+)\n", said, flags=re.MULTILINE)[1:]
    return {
        int(number): dict(line.split(": ", 1) for line in text.splitlines())
        for number, text in zip(pages[::2], pages[1::2])}


def nodes_of_branches(script):
    """The versions that the branches of a script have."""
    return {node for line in script if line.startswith("@branch") for node in line.split()[1:]}


def packages_of(page):
    """The packages whose lists may have a bug."""
    return [page["Package"], *page["Affects"].replace(",", " ").split()]


def is_not_counted(page, package, node):
    """Whether a bug is not listed at a version in no branch since it is found elsewhere."""
    found, fixed = page["Found"].split(), page["Fixed"].split()
    return (
        page["Archived"] == "no" and package in packages_of(page)
        and (page["State"] == "open" or fixed != ["-"])
        and found != ["-"] and node not in found and node not in fixed)


def ancestry(node, nodes):
    """A version and its ancestors, by the branches of the script."""
    source, _, version = node.partition("/")
    return [f"{source}/{it}" for it in range(int(version), 0, -1)] if node in nodes else [node]


def is_unplaced(page, package, node, nodes):
    """Whether an open bug is found only at versions in no branch, and no mark decides at this."""
    found = page["Found"].split()
    return (
        page["Archived"] == "no" and page["State"] == "open" and package in packages_of(page)
        and found != ["-"] and not set(found) & nodes
        and not {*found, *page["Fixed"].split()} & set(ancestry(node, nodes)))


class Unseen(unittest.TestCase):
    """Desks that have bugs at versions in no branch."""

    def setUp(self):
        place = folder()
        self.folder = place.__enter__()
        self.addCleanup(place.__exit__, None, None, None)

    def day(self):
        """The words of a desk, and of a suite whose version is in no branch."""
        suite = written(self.folder, "new", "baz 4\n")
        return f"--store={make_desk(self.folder, DAY)}", f"new={suite}"

    def graph(self, *words, status=0):
        """A run of `graph` with the program."""
        return run([*desks.command("graph"), f"--program={desks.program()}", *words], "", status)


class Reports(Unseen):
    """What `release` says of them."""

    def test_text(self):
        """A report says what it doesn't count above its figures, and which bugs no list has."""
        output, errors = release(*self.day())
        self.assertTrue(output.startswith(UNSEEN), output)
        self.assertEqual(errors, "")

    def test_json(self):
        """JSON has the same, with the numbers of the bugs."""
        output, _ = release(*self.day(), "--json")
        unseen = json.loads(output)["suites"][0]["unseen"]
        self.assertEqual(
            unseen["versions"], [{"package": "baz", "version": "4", "numbers": [1, 2, 4, 5]}])
        self.assertEqual(list(unseen["bugs"]), ["baz"])
        self.assertEqual(
            [(bug["number"], bug["found"]) for bug in unseen["bugs"]["baz"]],
            [(4, ["baz/1+b1"]), (5, ["foo/5"])])

    def test_page(self):
        """The page says it above its figures, and its contents lead there."""
        page = written(self.folder, "page.html", "")
        release(*self.day(), f"--html={page}")
        text = page.read_text(encoding="utf-8")
        self.assertIn('<a href="#unseen">', text)
        self.assertLess(text.index('<h2 id="unseen">'), text.index('<h2 id="severities">'))
        part = text[text.index('<h2 id="unseen">') : text.index('<h2 id="severities">')].replace("\n", "")
        self.assertIn('<tr><td class="text">baz<td class="text">4<td class="count">4', part)
        rows = re.findall('<tr><td class="count">([0-9]+)<td>([a-z]+)', part)
        self.assertEqual(rows, [("4", "critical"), ("5", "important")])

    def test_nothing(self):
        """Where a branch has each version, nothing is said."""
        store = make_desk(self.folder, DAY.replace("@report baz 1+b1 ", "@report baz 1 "))
        suite = written(self.folder, "old", "baz 2\n")
        script = "@branch foo/5\n@branch baz/4 baz/3\n"
        run([desks.program(), f"--store={store}", "run"], script)
        page = written(self.folder, "page.html", "")
        words = (f"--store={store}", f"old={suite}", f"--html={page}", "--fail-on-unseen")
        self.assertNotIn("in no branch", release(*words)[0])
        self.assertNotIn("unseen", page.read_text(encoding="utf-8"))

    def test_other_versions(self):
        """Versions without bugs that don't count are told by their number."""
        store, suite = self.day()
        written(self.folder, "new", "baz 4\nqux 1\nzed 2\n")
        self.assertIn("          4  baz 4\n          0  2 other versions\n", release(
            store, suite)[0])
        written(self.folder, "new", "qux 1\n")
        output = release(store, suite, "--fail-on-unseen")[0]
        self.assertIn("          0  1 version\n", output)

    def test_status(self):
        """--fail-on-unseen goes by the first suite, and needs the branches."""
        store, suite = self.day()
        old = written(self.folder, "old", "qux 1\n")
        release(store, "--fail-on-unseen", suite, status=1)
        release(store, "--fail-on-unseen", f"old={old}", suite)
        release(store, suite)
        _, errors = release("--port=80", "--fail-on-unseen", suite, status=2)
        self.assertIn("needs --store", errors)

    def test_served(self):
        """A server tells no branches, which is told; a copy of its file does."""
        store, suite = self.day()
        path = store.partition("=")[2]
        with desks.served(path) as port:
            _, errors = release(f"--port={port}", suite)
            self.assertIn("name the desk's file too", errors)
            output, _ = release(f"--port={port}", suite, "--json")
            self.assertIsNone(json.loads(output)["suites"][0]["unseen"])
            self.assertEqual(release(f"--port={port}", store, suite)[1], "")
            self.assertTrue(release(f"--port={port}", store, suite)[0].startswith(UNSEEN))
            gone = (f"--port={port}", f"--store={path}.gone", suite)
            self.assertIn("the server is asked instead", release(*gone)[1])
            self.assertIn("needs its branches", release(*gone, "--fail-on-unseen", status=3)[1])


class Pictures(Unseen):
    """What `graph` says of them."""

    def test_picture(self):
        """A picture says that no version of a branch lists a bug, and what a suite doesn't."""
        store, suite = self.day()
        value = json.loads(self.graph(store, suite, "--json", "4")[0])
        self.assertEqual(value["notes"], PICTURE_NOTES)
        for number in (3, 6, 7):
            value = json.loads(self.graph(store, suite, "--json", str(number))[0])
            self.assertEqual(value["notes"], PICTURE_NOTES[:1] if number == 3 else [])
        self.assertIn(PICTURE_NOTES[1], self.graph(store, suite, "1")[0])

    def test_served_picture(self):
        """A served desk needs no branches where its file can be read, and says which differ."""
        store, suite = self.day()
        path = store.partition("=")[2]
        drawn = self.graph(store, suite, "4")
        same = written(self.folder, "same", "@branch baz/3 baz/2 baz/1\n")
        other = written(self.folder, "other", "@branch baz/3 baz/1\n@branch baz/8 baz/3\n")
        with desks.served(path) as port:
            words = (f"--port={port}", store, suite, "4")
            self.assertEqual(self.graph(*words), drawn)
            self.assertEqual(self.graph(*words, f"--branches={same}"), drawn)
            output, _ = self.graph(*words, f"--branches={other}")
            self.assertIn(
                "The desk's own branches differ at 3 versions: baz/3, baz/8, baz/2.", output)
            gone = (f"--port={port}", f"--store={path}.gone", "4")
            self.assertIn("give --branches=FILE", self.graph(*gone, status=3)[1])
            self.assertIn("instead", self.graph(*gone, f"--branches={same}")[1])
            self.assertIn("--branches", self.graph(f"--port={port}", "4", status=2)[1])


class RandomDesks(Unseen):
    """What `release` and `find` say of them, beside a plain reading of pages."""

    def test_random(self):
        """Reports of random desks have what a plain reading of all pages has."""
        for seed in range(DESKS):
            with self.subTest(seed=seed):
                self.look_at(random.Random(seed), f"{seed}.db")

    def look_at(self, chance, name):
        """Compares a report with the pages of a random desk."""
        script = list(random_day(chance))
        store = desk_after(self.folder, name, script)
        nodes, pages = nodes_of_branches(script), pages_of(store)
        versions = {package: chance.choice(VERSIONS) for package in PACKAGES}
        lines = "".join(f"{package} {versions[package]}\n" for package in PACKAGES)
        suite = written(self.folder, "new", lines)
        output, _ = release(f"--store={store}", f"new={suite}", "--json")
        unseen = json.loads(output)["suites"][0]["unseen"]
        self.assertEqual(unseen["versions"], [
            {"package": package, "version": version, "numbers": [
                number for number, page in pages.items()
                if is_not_counted(page, package, f"{package}/{version}")]}
            for package, version in versions.items() if f"{package}/{version}" not in nodes])
        missed = {
            package: [number for number, page in pages.items()
                      if is_unplaced(page, package, f"{package}/{version}", nodes)]
            for package, version in versions.items()}
        self.assertEqual(
            {package: [bug["number"] for bug in bugs] for package, bugs in unseen["bugs"].items()},
            {package: numbers for package, numbers in missed.items() if numbers})
        told = {number for numbers in missed.values() for number in numbers}
        told |= {number for it in unseen["versions"] for number in it["numbers"]}
        self.assertEqual(self.found(store, f"--suite=new={suite}"), sorted(told))
        self.look_by_find(store, pages, nodes, chance)

    def look_by_find(self, store, pages, nodes, chance):
        """Compares `find --unseen` with the pages: of all lists, and of one."""
        self.assertEqual(self.found(store), [
            number for number, page in pages.items()
            if is_unplaced(page, page["Package"], "none/0", nodes)])
        source, package = chance.choice(PACKAGES), chance.choice(PACKAGES)
        version = chance.choice(VERSIONS)
        node = f"{source}/{version}"
        for words, own in (
            ((f"--at={node}",), PACKAGES), ((f"--at={node}", f"--package={package}"), [package]),
            ((f"--at={version}", f"--package={source}"), [source]),
        ):
            self.assertEqual(self.found(store, *words), [
                number for number, page in pages.items()
                if page["Package"] in own and (
                    is_unplaced(page, source, node, nodes)
                    or node not in nodes and is_not_counted(page, source, node))])

    def found(self, store, *words):
        """The numbers that `find --unseen` writes."""
        tool = [*desks.command("find"), f"--program={desks.program()}", f"--store={store}"]
        output, _ = run([*tool, "--unseen", "--numbers", *words])
        return [int(number) for number in output.split()]
