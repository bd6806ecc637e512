"""Tests that hostile titles and names steer nothing: no terminal, no page, no command line."""

import json
import pathlib
import unicodedata
import unittest
import xml.etree.ElementTree

import desks
from desks import command, folder, make_desk, run, written

# What would steer a terminal, the direction of writing, a line, a page or a command line.
TITLES = (
    "\x9b2J\u202e \u2028 \u2029 \x85 x", "</title></pre><script>alert('1')</script>&lt;\"' ]]> -->",
    "--json", "-- $(id) `id` ; id", "\\x1b[2J \\u202e", "\ufeff\u200b\U000e0041 %s {0}",
)
DESK = "".join(
    ["@from ann\n", *(f"@report foo 1 grave {title}\n" for title in TITLES)])
# Packages of an index that the desk refuses, each on a line of its own.
PACKAGES = ("--help", "-x", "\x1b[2J", "\u202ea", "<b>", "foo,bar", "$(id)")


class Hostile(unittest.TestCase):
    """The commands over a desk of such titles."""

    def setUp(self):
        place = folder()
        self.folder = place.__enter__()
        self.addCleanup(place.__exit__, None, None, None)
        self.store = f"--store={make_desk(self.folder, DESK)}"
        self.index = written(self.folder, "index", "foo 1\n")

    def told(self, name, *words, status=0):
        """What a command prints, and what it tells, with this status."""
        program = f"--program={desks.program()}"
        return run([*command(name), self.store, program, *words], status=status)

    def assert_steers_nothing(self, text):
        """A text has nothing but line feeds and what can be seen."""
        self.assertTrue(text.replace("\n", "").replace("\u00a0", " ").isprintable(), ascii(text))

    def test_json(self):
        """JSON has each title as it is, and nothing that steers."""
        output, _ = self.told("release", "--json", f"s={self.index}")
        self.assert_steers_nothing(output)
        listed = json.loads(output)["suites"][0]["listed"]["foo"]
        self.assertEqual([bug["title"] for bug in listed], list(TITLES))
        for number, title in enumerate(TITLES, 1):
            output, _ = self.told("graph", "--json", str(number))
            self.assert_steers_nothing(output)
            self.assertEqual(json.loads(output)["title"], title)
            output, _ = self.told("send", "--json", "--show", str(number))
            self.assert_steers_nothing(output)
            self.assertIn(f"\nTitle: {title}\n", json.loads(output)["answer"])

    def test_text(self):
        """Text has a line for each bug, and nothing that steers."""
        output, _ = self.told("release", f"s={self.index}")
        self.assert_steers_nothing(output)
        self.assertEqual(output.count("  grave      open  "), len(TITLES))
        for number in range(1, len(TITLES) + 1):
            for kind in ("--text", "--dot"):
                self.assert_steers_nothing(self.told("graph", kind, str(number))[0])

    def test_pages(self):
        """A page has no element that a title brings, and no control character; a picture is XML.

        What changes the direction of writing ends in a page with the title, which is set apart.
        """
        page = pathlib.Path(self.folder, "page.html")
        self.told("release", f"--html={page}", f"s={self.index}")
        text = page.read_text(encoding="utf-8")
        self.assertNotIn("<script>", text)
        controls = {letter for letter in text if unicodedata.category(letter) == "Cc"}
        self.assertEqual(controls, {"\n"})
        self.assertEqual(text.count("<bdi>"), len(TITLES))
        for number in range(1, len(TITLES) + 1):
            path = pathlib.Path(self.folder, "picture.svg")
            self.told("graph", f"--svg={path}", str(number))
            root = xml.etree.ElementTree.fromstring(path.read_text(encoding="utf-8"))
            names = {element.tag.rpartition("}")[2] for element in root.iter()}
            self.assertNotIn("script", names)
            self.assert_steers_nothing(path.read_text(encoding="utf-8"))

    def test_packages(self):
        """A package that looks like an option or steers is refused, in a harmless line."""
        lines = "".join(f"{name} 1\n" for name in PACKAGES)
        index = written(self.folder, "hostile", f"foo 1\n{lines}")
        output, errors = self.told("release", f"s={index}")
        self.assert_steers_nothing(output + errors)
        self.assertEqual(errors.count(" is left out: "), len(PACKAGES))
        for name in PACKAGES:
            status = 1 if name.isascii() and name.isprintable() else 2
            output, errors = self.told("count", "--", name, "1", status=status)
            self.assert_steers_nothing(errors)
            self.assertEqual((output, errors.count("\n")), ("", 1))

    def test_options(self):
        """A word after the first of an order is no option."""
        self.assertEqual(
            self.told("send", "--list", "foo", "--json")[0], "Bugs in foo at foo/--json: 0\n")
        output, _ = self.told("send", "--from=ann", "--report", "foo", "1", "minor", "--json")
        self.assertEqual(output, f"OK {len(TITLES) + 1}\n")
        output, _ = self.told("send", "--show", str(len(TITLES) + 1))
        self.assertIn("\nTitle: --json\n", output)


if __name__ == "__main__":
    unittest.main()
