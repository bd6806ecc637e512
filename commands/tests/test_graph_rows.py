"""Tests of a picture's rows and of its text, on small trees whose pictures are written by hand."""

import unittest

from boxhumilwa import picture_text, terminal
from boxhumilwa.bug_pages import Page
from boxhumilwa.nodes import joined_sources, wanted_trees
from boxhumilwa.picture_rows import Version, make_picture

PAGE = Page(1, "x", "foo", "normal", "open", False, (), (), ())

# A line that two branches leave at 3, one of which is left at 4; and how it is drawn.
NESTED = ("9 8 7 3 2 1", "6 4 3", "5 4", "3.2 3.1 3")
NESTED_TOLD = {"5": "!", "4": "!", "3.2": "!", "3.1": "!", "3": "!", "2": "!f"}
NESTED_TEXT = """\
o      9    head
o      2 versions, 8 to 7
| o    6    head
| | *  5    head
| |/
| *    4
|/
| *    3.2  head
| *    3.1
|/
*      3
*      2    found
o      1"""
# Chains from the newest version down, and their rows.
# Letters say what is told of a version: h a head, f found, x fixed, s a suite, ! listed.
FOLDS = (
    ("9h 8 7 6 5", ("9", "8-5")),
    ("9h 8 7f 6 5", ("9", "8", "7", "6-5")),
    ("9h 8x 7 6 5", ("9", "8", "7-5")),
    ("9h 8s 7 6", ("9", "8", "7-6")),
    ("9h 8 7 6! 5! 4! 3", ("9", "8-7", "6-4", "3")),
    ("9h 8! 7 6!", ("9", "8", "7", "6")),
    ("9h", ("9",)),
    ("9h 8", ("9", "8")),
    ("9h! 8! 7! 6! 5!", ("9", "8-5")),
)


def tree_parents(branches):
    """What each version is based on, of branches that name their versions from the newest."""
    parents = {}
    pairs = (pair for branch in branches for pair in zip(branch, [*branch[1:], None]))
    for node, parent in pairs:
        parents.setdefault(node, parent)
    return parents


def picture_of(branches, told=None, alone=(), order=None, page=PAGE):
    """The picture of branches, in which `told` has the letters of what is told of a version."""
    told = told or {}
    branches = [[f"foo/{word}" for word in branch.split()] for branch in branches]
    parents = tree_parents(branches)
    bases = set(parents.values())
    nodes = [*parents, *(f"foo/{word}" for word in alone)]
    order = order or sorted(nodes, key=lambda node: [
        int(part) for part in node.partition("/")[2].split(".")])
    versions = {}
    for node in nodes:
        letters = told.get(node.partition("/")[2], "")
        is_end = node in parents and node not in bases
        versions[node] = Version(
            node, "!" in letters, "f" in letters, "x" in letters, is_end, is_end,
            ("testing",) if "s" in letters else ())
    trees = wanted_trees(parents, "foo", ())
    places = {node: place for place, node in enumerate(order)}
    return make_picture(page, parents, trees, versions, places, [])


def drawn(picture):
    """The lines of a picture's text below its heading and above its legend."""
    lines = list(picture_text.text_lines(picture))
    return "\n".join(lines[3:-2])


class Rows(unittest.TestCase):
    """Which versions stand in which row and lane."""

    def test_folds(self):
        """A chain is folded where nothing is told and the state is one, and not otherwise."""
        for chain, expected in FOLDS:
            words = chain.split()
            told = {word.rstrip("hfxs!"): word.lstrip("0123456789") for word in words}
            picture = picture_of([" ".join(told)], told)
            rows = [[version.node.partition("/")[2] for version in row.versions]
                    for row in picture.trees[0]]
            with self.subTest(chain):
                self.assertEqual(tuple(
                    row[0] if len(row) == 1 else f"{row[0]}-{row[-1]}" for row in rows), expected)

    def test_nested(self):
        """Branches that leave a line, and one that leaves a branch."""
        self.assertEqual(drawn(picture_of(NESTED, NESTED_TOLD)), NESTED_TEXT)

    def test_trees(self):
        """Several trees, the one with the highest version first, and versions in no branch."""
        told = {"7": "!s", "30": "f!", "4": "x"}
        self.assertEqual(drawn(picture_of(("8 2", "5", "20 10"), told, ("4", "30", "7"))), """\
o  20  head
o  10

o  8   head
o  2

o  5   head

In no branch, each by itself:

*  30  found
*  7   in testing
o  4   fixed""")

    def test_many_lanes(self):
        """Where each branch leaves the one before it, the longest line goes first."""
        branches = [f"{place + 1} {place}" for place in range(1, 60)]
        branches += [f"{200 - place} {place}" for place in range(1, 60)]
        picture = picture_of(branches)
        self.assertEqual(picture.lanes(), 2)
        self.assertEqual(len(picture.versions()), 119)
        few = picture_of(branches[:10] + branches[59:69])
        self.assertEqual([row.versions[0].node for row in few.trees[0]][:2], ["foo/199", "foo/198"])
        self.assertEqual(few.lanes(), 11)

    def test_long_chain(self):
        """A chain of 3,000 versions, and one of as many marks."""
        chain = " ".join(str(place) for place in range(3_000, 0, -1))
        self.assertEqual(len(picture_of([chain]).trees[0]), 2)
        told = {str(place): "f" for place in range(3_001)}
        self.assertEqual(len(picture_of([chain], told).trees[0]), 3_000)

    def test_circle(self):
        """What is no tree is not drawn, and does not keep the tool."""
        parents = {"foo/1": "foo/2", "foo/2": "foo/1", "foo/3": None}
        self.assertEqual(wanted_trees(parents, "foo", ()), [["foo/3"]])

    def test_wanted(self):
        """The trees of the package and of marks are drawn, whole, and no others."""
        parents = {"foo/1": "lib/1", "lib/1": None, "lib/2": "lib/1", "zed/1": None, "qux/2": None}
        self.assertEqual(wanted_trees(parents, "foo", ["qux/2", "zed/7"]), [
            ["lib/1", "foo/1", "lib/2"], ["qux/2"]])

    def test_sources(self):
        """The sources that branches join, near and far."""
        pairs = [("b", "a"), ("c", "b"), ("x", "y"), ("c", "d")]
        self.assertEqual(joined_sources(pairs, {"a", "z"}), {"a", "b", "c", "d", "z"})


class Text(unittest.TestCase):
    """The text in a terminal of 80 columns."""

    def test_width(self):
        """Each line has 80 columns at most, and no letter is lost."""
        letters = "1234567890" * 10
        for title, version in (
            ("word " * 39, "1"), ("w" * 200, letters[:99]), ("\u4e2d" * 66, letters),
            ("e\u0301" * 60 + " " + "\u4e2d\u6587 " * 9, "1." + letters[:98]),
        ):
            page = PAGE._replace(title=title.strip())
            told = {"2": "fxs!", version: "fxs"}
            picture = picture_of((f"{version}", "2 1"), told, page=page, order=[
                "foo/1", "foo/2", f"foo/{version}"][:3])
            lines = list(picture_text.text_lines(picture))
            wide = [line for line in lines if terminal.columns(line) > 80]
            with self.subTest(title):
                self.assertEqual(wide, [])
                text = "".join(line.replace(" ", "") for line in lines)
                self.assertIn(page.title.replace(" ", ""), text)
                self.assertIn(version, text.replace("|", ""))

    def test_continued(self):
        """A line that goes on has the lines of the lanes beside it."""
        suites = tuple(f"suite-{place}" for place in range(12))
        picture = picture_of(("9 8 7", "8.1 8"), {"8.1": "f"})
        rows = [row if row.versions[0].node != "foo/8.1" else row._replace(versions=(
            row.versions[0]._replace(suites=suites),)) for row in picture.trees[0]]
        picture.trees[0] = rows
        self.assertEqual(drawn(picture), """\
o    9    head
| o  8.1  found, head, in suite-0, in suite-1, in suite-2, in suite-3, in
| |  suite-4, in suite-5, in suite-6, in suite-7, in suite-8, in suite-9, in
| |  suite-10, in suite-11
|/
o    8
o    7""")

    def test_columns(self):
        """How many columns letters take."""
        for text, count in (
            ("abc", 3), ("\u4e2d\u6587", 4), ("e\u0301", 1), ("", 0), ("\uff21", 2),
        ):
            self.assertEqual(terminal.columns(text), count)

    def test_wrapped(self):
        """Lines are cut at blanks, and within a word where it is too long."""
        for text, lines in (
            ("ab cd ef", ["ab cd", "ef"]), ("abcdefgh", ["abcde", "fgh"]), ("", [""]),
            ("abcde fghij", ["abcde", "fghij"]), ("ab cdefghi", ["ab", "cdefg", "hi"]),
            ("\u4e2d\u6587\u4e2d", ["\u4e2d\u6587", "\u4e2d"]),
        ):
            self.assertEqual(terminal.wrapped(text, 5), lines)

    def test_safe(self):
        """What steers a terminal is written out, in titles and names of suites."""
        page = PAGE._replace(title="a\tb \x1b[2J \u202e \x9b")
        self.assertEqual(picture_text.title_of(page), "Bug 1 in foo: a b \\x1b[2J \\u202e \\x9b")
        version = Version("foo/1", True, False, False, False, False, ("a\u202eb",))
        self.assertEqual(list(picture_text.version_words(version)), ["in a\\u202eb"])


if __name__ == "__main__":
    unittest.main()
