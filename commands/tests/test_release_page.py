"""Tests of the page of a report, which an HTML parser reads."""

import html.parser
import os
import pathlib
import unittest

import desks
from boxhumilwa.answers import Bug
from boxhumilwa.faults import Fault
from boxhumilwa.report import Suite, compare
from boxhumilwa.report_page import test_path as probe_path
from boxhumilwa.report_page import write_page

MARKUP = "</td><script>alert('x')</script>&amp;\x9b\u202e<img src=http://a.example/b>\" onload='x"
LONG = "é" * 100
EMPTY_TAGS = {"meta", "rect"}
# The tags whose end may be left out.
OPEN_TAGS = {"td", "th", "tr", "li", "p"}


class Reader(html.parser.HTMLParser):
    """What a page has: its tags, ids, links, and the text of some of its parts."""

    def __init__(self, text):
        super().__init__()
        self.tags, self.ids, self.links, self.attributes = [], [], [], set()
        self.open, self.titles, self.pages, self.rects = [], [], [], []
        self.feed(text)
        self.close()

    def handle_starttag(self, tag, attributes):
        found = dict(attributes)
        self.tags.append(tag)
        self.attributes |= set(found)
        self.ids += [found["id"]] if "id" in found else []
        self.links += [found["href"]] if "href" in found else []
        if tag == "rect":
            self.rects.append((found["class"], int(found["width"])))
        if tag == "bdi":
            self.titles.append("")
        if tag == "pre":
            self.pages.append("")
        if tag not in EMPTY_TAGS:
            self.open.append(tag)

    def handle_startendtag(self, tag, attributes):
        self.handle_starttag(tag, attributes)

    def handle_endtag(self, tag):
        while self.open[-1] != tag and self.open[-1] in OPEN_TAGS:
            self.open.pop()
        if not self.open or self.open.pop() != tag:
            raise AssertionError(f"{tag} ends where it is not open")

    def handle_data(self, data):
        if "bdi" in self.open:
            self.titles[-1] += data
        if "pre" in self.open:
            self.pages[-1] += data


def suite(name, bugs, version="1"):
    """A suite of one package with these bugs, and of one without any."""
    made = Suite(name, "index", {"foo": version, "bar": "1"}, {}, [])
    made.take("foo", bugs, ("critical", "grave", "serious"))
    return made


def page_of(suites, comparison=None, pages=()):
    """The text of a page, and what a reader finds in it."""
    with desks.folder() as folder:
        path = os.path.join(folder, "page.html")
        write_page(path, suites, comparison, "serious", pages)
        text = pathlib.Path(path).read_text(encoding="utf-8")
    return text, Reader(text)


class Page(unittest.TestCase):
    """The page and its file."""

    def test_markup(self):
        """A title of markup is a text in each place, and nothing comes from elsewhere."""
        bugs = [Bug(1, "grave", "open", MARKUP), Bug(2, "serious", "done", LONG)]
        first, second = suite("<b>", bugs), suite("&lt;", bugs[1:], "2")
        pages = [(1, f"Bug 1\nTitle: {MARKUP}\nPackage: foo"), (2, "NO no such bug 2")]
        text, page = page_of([first, second], compare(first, second), pages)
        wanted = MARKUP.replace("\x9b", "\\x9b")
        self.assertEqual(page.titles, [wanted, LONG, LONG, wanted, LONG])
        self.assertEqual(page.pages, [f"Title: {wanted}\nPackage: foo", "NO no such bug 2"])
        self.assertFalse({"script", "img", "link", "iframe", "object", "b"} & set(page.tags))
        self.assertFalse({"src", "style", "srcset"} & page.attributes)
        self.assertFalse([name for name in page.attributes if name.startswith("on")])
        style = text[text.index("<style>") : text.index("</style>")]
        self.assertNotIn("url", style)
        self.assertNotIn("@import", style)

    def test_links(self):
        """Each link leads to a place of the page, each of which is there once."""
        bugs = [Bug(1, "grave", "open", "a"), Bug(7, "serious", "done", "b")]
        first, second = suite("a", bugs), suite("b", [])
        pages = [(1, "Bug 1\nTitle: a"), (7, "Bug 7\nTitle: b")]
        _, page = page_of([first, second], compare(first, second), pages)
        self.assertEqual(len(page.ids), len(set(page.ids)))
        self.assertTrue(all(link.startswith("#") for link in page.links))
        self.assertLessEqual({link[1:] for link in page.links}, set(page.ids))
        self.assertEqual(page.links.count("#bug-7"), 2)
        self.assertEqual(page.open, [])

    def test_bars(self):
        """Bars have one scale for all suites, and none is too short to be seen."""
        few = suite("a", [Bug(1, "grave", "open", "a")])
        many = suite("b", [Bug(number, "minor", "open", "a") for number in range(1, 1_001)])
        half = suite("c", [Bug(number, "normal", "open", "a") for number in range(1, 501)])
        _, page = page_of([few, many, half])
        self.assertEqual(
            [rect for rect in page.rects if rect[1]],
            [("grave", 1), ("minor", 120), ("normal", 60)])
        self.assertEqual(len(page.rects), 21)

    def test_without_bugs(self):
        """A suite without bugs says so."""
        text, page = page_of([suite("a", [])])
        self.assertIn("2 packages, 0 bugs", text)
        self.assertIn("<p>None.</p>", text)
        self.assertNotIn("pre", page.tags)
        self.assertEqual({width for _, width in page.rects}, {0})

    def test_many_versions(self):
        """A long table of versions is folded up, a short one is not."""
        for count, is_open in ((100, True), (101, False)):
            versions = {f"p{place}": "1" for place in range(count)}
            first, second = Suite("a", "i", versions, {}, []), Suite("b", "i", {}, {}, [])
            text, _ = page_of([first, second], compare(first, second))
            self.assertEqual("<details open>" in text, is_open)
            self.assertEqual("<details>" in text, not is_open)

    def test_file(self):
        """The page takes the place of a file, with the rights of a new one."""
        with desks.folder() as folder:
            path = desks.written(folder, "page.html", "old")
            link = pathlib.Path(folder, "link.html")
            link.symlink_to("page.html")
            write_page(str(link), [suite("a", [])], None, "serious", ())
            self.assertTrue(link.is_symlink())
            self.assertTrue(path.read_text().startswith("<!DOCTYPE html>"))
            new = desks.written(folder, "new", "")
            self.assertEqual(path.stat().st_mode, new.stat().st_mode)
            self.assertEqual(sorted(os.listdir(folder)), ["link.html", "new", "page.html"])

    def test_no_half_page(self):
        """Where the pages of bugs end with a fault, the old file stays, and no other one."""
        def pages():
            yield 1, "Bug 1"
            raise Fault("the desk is gone")

        with desks.folder() as folder:
            path = desks.written(folder, "page.html", "old")
            with self.assertRaises(Fault):
                write_page(str(path), [suite("a", [])], None, "serious", pages())
            self.assertEqual(os.listdir(folder), ["page.html"])
            self.assertEqual(path.read_text(), "old")

    def test_paths(self):
        """A folder, a device and a missing folder can't be written to, which is told early."""
        with desks.folder() as folder:
            probe_path(os.path.join(folder, "page.html"))
            for path in (folder, "/dev/null", os.path.join(folder, "x", "page.html")):
                with self.assertRaises(Fault):
                    probe_path(path)


if __name__ == "__main__":
    unittest.main()
