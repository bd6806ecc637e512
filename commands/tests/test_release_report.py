"""Tests of the figures of a report and of its text, over answers that are written here."""

import io
import json
import unittest

from boxhumilwa.answers import SEVERITIES, Bug, Unexpected, read_list, read_page
from boxhumilwa.indexes import Entry
from boxhumilwa.report import Suite, at_least, compare, gather, listed_numbers
from boxhumilwa.report_text import write_json, write_text

ONE = Bug(1, "grave", "done", "crashes")
TWO = Bug(2, "important", "open", "loses")
THREE = Bug(3, "serious", "open", "burns \x1b[1m")
FOUR = Bug(4, "critical", "open", "eats")
# The lists of packages at versions, and what the desk refuses; bug 4 is in two of them.
LISTS = {
    ("bar", "1"): [FOUR, THREE],
    ("foo", "1"): [FOUR, ONE, TWO],
    ("foo", "2"): [TWO],
    ("new", "1"): [THREE],
    ("old", "1"): [],
    ("bad", "_"): "NO bad version",
}
TEXT = """a: 3 packages, 4 bugs

  critical                  1
  grave                     1
  serious                   1
  important                 1
  normal                    0
  minor                     0
  wishlist                  0
  release-critical          3

a: packages with the most release-critical bugs

          2  bar 1
          2  foo 1

a: release-critical bugs

bar 1
          4  critical   open  eats
          3  serious    open  burns \\x1b[1m

foo 1
          4  critical   open  eats
          1  grave      done  crashes

b: 2 packages, 2 bugs

  critical                  0
  grave                     0
  serious                   1
  important                 1
  normal                    0
  minor                     0
  wishlist                  0
  release-critical          1

b: packages with the most release-critical bugs

          1  new 1

b: release-critical bugs

new 1
          3  serious    open  burns \\x1b[1m

a and b compared

                      a alone    b alone       both
  critical                  1          0          0
  grave                     1          0          0
  serious                   0          0          1
  important                 0          0          1
  normal                    0          0          0
  minor                     0          0          0
  wishlist                  0          0          0
  release-critical          2          0          1

Release-critical bugs in a alone: b's versions mend them

bar 1, not in b
          4  critical   open  eats

foo 1 -> 2
          4  critical   open  eats
          1  grave      done  crashes

Release-critical bugs in b alone: b's versions bring them

  none

Release-critical bugs in both a and b

bar 1, not in b
          3  serious    open  burns \\x1b[1m

new 1, not in a
          3  serious    open  burns \\x1b[1m

Packages whose versions differ, in a and in b: 4

  bar 1 -
  foo 1 2
  new - 1
  old 1 -
"""


class Desk:
    """A desk that answers the lists above, and counts how often each is asked for."""

    def __init__(self):
        self.asked = []

    def lists(self, questions):
        for question in questions:
            self.asked.append(question)
            answer = LISTS[question]
            yield ([], answer) if isinstance(answer, str) else (answer, None)


def suite(name, **versions):
    """A suite of these packages, whose lines count from 1."""
    lines = {package: line for line, package in enumerate(versions, 1)}
    return Suite(name, f"{name}.index", versions, lines, [])


def reported(severity, *suites):
    """The suites after their bugs are gathered, and the desk that was asked."""
    desk = Desk()
    gather(desk, suites, at_least(severity), lambda *_: None)
    return desk


class Report(unittest.TestCase):
    """What is told of suites."""

    def test_text(self):
        """The whole text of two suites and their comparison."""
        first, second = suite("a", bar="1", foo="1", old="1"), suite("b", foo="2", new="1")
        reported("serious", first, second)
        output = io.StringIO()
        write_text(output, [first, second], compare(first, second), "serious")
        self.assertEqual(output.getvalue(), TEXT)
        self.assertEqual(listed_numbers([first, second]), [1, 3, 4])

    def test_equal_versions(self):
        """A list that two suites have is asked for once, and its bugs are in both."""
        first, second = suite("a", foo="1", old="1"), suite("b", old="1", foo="1")
        self.assertEqual(reported("wishlist", first, second).asked, [("foo", "1"), ("old", "1")])
        comparison = compare(first, second)
        self.assertEqual((comparison.alone, comparison.brought), ({}, {}))
        self.assertEqual(comparison.common, {"foo": [FOUR, ONE, TWO]})
        self.assertEqual(comparison.differing(), [])

    def test_most(self):
        """The packages with the most release-critical bugs come first, then those by name."""
        counts = {f"p{place:02}": count for place, count in enumerate([1, 2, 1, 3] + [1] * 10)}
        one = suite("a", **dict.fromkeys(counts, "1"))
        for package, count in counts.items():
            one.take(package, [ONE] * count + [TWO] * 5, ())
        names = ["p03", "p01", "p00", "p02", "p04", "p05", "p06", "p07", "p08", "p09"]
        self.assertEqual(one.most(), [(name, counts[name]) for name in names])

    def test_refused(self):
        """What is refused is left out, and told with its line."""
        one = suite("a", foo="2", bad="_")
        one.refused.append((Entry("Bad\x07", "1", 1), "why"))
        reported("serious", one)
        self.assertEqual(one.versions, {"foo": "2"})
        self.assertEqual(list(one.told_refusals()), [
            "a.index:1: Bad\\x07 1 is left out: why",
            "a.index:2: bad _ is left out: NO bad version",
        ])

    def test_listed(self):
        """The severities that are listed change no count."""
        for severity, listed in (
            ("critical", {"foo": [FOUR]}), ("serious", {"foo": [FOUR, ONE]}),
            ("important", {"foo": [FOUR, ONE, TWO]}), ("wishlist", {"foo": [FOUR, ONE, TWO]}),
        ):
            one = suite("a", foo="1")
            reported(severity, one)
            self.assertEqual(one.listed, listed)
            self.assertEqual((one.count(), one.count(at_least("grave"))), (3, 2))
            self.assertEqual(one.most(), [("foo", 2)])

    def test_json(self):
        """JSON has the same figures, and titles as they are."""
        first, second = suite("a", bar="1", foo="1", old="1"), suite("b", foo="2", new="1")
        reported("serious", first, second)
        output = io.StringIO()
        write_json(output, [first, second], compare(first, second), "serious")
        value = json.loads(output.getvalue())
        told = value["suites"][0]
        self.assertEqual((told["packages"], told["bugs"], told["release_critical"]), (3, 4, 3))
        self.assertEqual(list(told["severities"]), list(SEVERITIES))
        self.assertEqual(told["listed"]["bar"][1], {
            "number": 3, "severity": "serious", "state": "open", "title": "burns \x1b[1m"})
        self.assertEqual(told["versions"], {"bar": "1", "foo": "1"})
        comparison = value["comparison"]
        self.assertEqual(
            comparison["severities"]["grave"], {"first_alone": 1, "second_alone": 0, "both": 0})
        self.assertEqual(list(comparison["listed"]["first_alone"]), ["bar", "foo"])
        self.assertEqual(comparison["versions"]["new"], [None, "1"])


class Answers(unittest.TestCase):
    """How the answers of a desk are read."""

    def test_lists(self):
        """A list, an empty one, and a refusal; titles that look like other lines."""
        lines = iter([
            "Bugs in foo at foo/1-1: 2", "123456789  critical   done   Bugs in foo at foo/1-1: 2",
            "        1  wishlist   open  a\tb\u2028c", "Bugs in bar at bar/1: 0", "NO bad version",
        ])
        bugs = [Bug(123456789, "critical", "done", " Bugs in foo at foo/1-1: 2"),
                Bug(1, "wishlist", "open", "a\tb\u2028c")]
        self.assertEqual(read_list(lines, "foo", "1-1"), (bugs, None))
        self.assertEqual(read_list(lines, "bar", "1"), ([], None))
        self.assertEqual(read_list(lines, "bar", "_"), ([], "NO bad version"))

    def test_no_answers(self):
        """What no desk answers is not read as an empty list."""
        for lines in (
            [], [""], ["Bugs in foo at foo/2: 0"], ["Bugs in foo at foo/1: "],
            ["Bugs in foo at foo/1: 1"], ["Bugs in foo at foo/1: 1", "1  grave  closed  a"],
            ["Bugs in foo at foo/1: 1", "1  huge  open  a"], ["Store fault: memory."], ["OK"],
        ):
            with self.subTest(lines), self.assertRaises(Unexpected):
                read_list(iter(lines), "foo", "1")

    def test_pages(self):
        """A page has sixteen lines."""
        page = ["Bug 7", *(f"Line: {place}" for place in range(15))]
        lines = iter([*page, "NO no such bug 8"])
        self.assertEqual(read_page(lines, 7), "\n".join(page))
        self.assertEqual(read_page(lines, 8), "NO no such bug 8")
        for wrong in ([], page[:15], ["Bug 8", *page[1:]]):
            with self.assertRaises(Unexpected):
                read_page(iter(wrong), 7)


if __name__ == "__main__":
    unittest.main()
