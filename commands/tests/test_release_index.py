"""Tests of how `release` reads the packages of a suite."""

import gzip
import lzma
import os
import unittest
import unittest.mock

import desks
from boxhumilwa import indexes
from boxhumilwa.faults import Fault
from boxhumilwa.indexes import candidates
from boxhumilwa.terminal import shown

SOURCES = """Package: foo
Binary: foo, foo-data
Version: 1:1.0-1
Description: one
 Package: not this one
 .
 Version: 9

# a comment
package: bar
VERSION:2.0~rc1
Extra-Source-Only: no


Package: old
Version: 1
Extra-Source-Only: yes

"""
STATUS = """Package: libfoo1
Status: install ok installed
Source: foo (1:1.0-1)
Version: 1:1.0-1+b1

Package: bar
Status: deinstall ok config-files
Version: 5

Package: never
Status: purge ok not-installed

Package: zed
Status: install ok half-configured
Version: 7

Package: zed-data
Status: hold ok installed
Source: zed
Version: 7

"""


class Index(unittest.TestCase):
    """The packages of an index, and what is wrong with one."""

    def read(self, content, packages=()):
        """The candidates of an index, and what is refused."""
        refused = []
        with desks.folder() as folder:
            path = desks.written(folder, "index", content)
            found = candidates(str(path), packages, lambda *told: refused.append(told))
        return found, refused

    def fault(self, content):
        """What is told of an index that can't be read, without its path."""
        with desks.folder() as folder:
            path = desks.written(folder, "index", content)
            with self.assertRaises(Fault) as raised:
                candidates(str(path), (), None)
            return str(raised.exception).removeprefix(str(path))

    def test_sources(self):
        """An index of paragraphs: fields in any case, continued lines, comments, blank lines."""
        expected = {"foo": {"1:1.0-1": 1}, "bar": {"2.0~rc1": 10}}
        self.assertEqual(self.read(SOURCES), (expected, []))

    def test_packed(self):
        """The same, packed, and in two parts of which each is packed."""
        plain = SOURCES.encode()
        for pack in (gzip.compress, lzma.compress):
            self.assertEqual(self.read(pack(plain)), self.read(SOURCES))
            parts = pack(plain[:50]) + pack(plain[50:])
            self.assertEqual(self.read(parts), self.read(SOURCES))

    def test_status(self):
        """The packages of dpkg: their sources, and only those that are installed."""
        expected = {"foo": {"1:1.0-1": 1}, "zed": {"7": 13}}
        self.assertEqual(self.read(STATUS), (expected, []))

    def test_lines(self):
        """Lines of a source and a version, the last one without an end."""
        content = "# sources\nfoo 1\n\n \tbar\t2:1 \r\nfoo 1\nfoo 2\nzed 3"
        expected = {"foo": {"1": 2, "2": 6}, "bar": {"2:1": 4}, "zed": {"3": 7}}
        self.assertEqual(self.read(content), (expected, []))

    def test_packages(self):
        """Packages that are named count alone."""
        self.assertEqual(self.read("foo 1\nbar 2\n", {"bar"}), ({"bar": {"2": 2}}, []))
        self.assertEqual(self.read("foo 1\nbar 2\n", {"zed"}), ({}, []))

    def test_long_words(self):
        """A word that is too long for a question is handed on."""
        found, refused = self.read(f"foo {'1' * 501}\nfoo {'1' * 500}\n{'f' * 501} 1\n")
        self.assertEqual(found, {"foo": {"1" * 500: 2}})
        self.assertEqual([entry.line for entry, _ in refused], [1, 3])

    def test_faults(self):
        """Each index that is cut or none is told with its line."""
        cut = ":4: a paragraph without its package or version: it may be cut"
        no_end = ":5: it is cut: its last line has no end"
        second = ":3: a second field package in its paragraph"
        for content, told in (
            ("", ": there is no package in it"),
            ("\n# nothing\n", ": there is no package in it"),
            ("Package: aa\nVersion: 1\n\nPackage: bb\nVersi", no_end),
            ("Package: aa\nVersion: 1\n\nPackage: bb\n", cut),
            ("Package: aa\nVersion: 1\n\nVersion: 2\n\n", cut),
            ("Package: aa\nVersion: 1\nPackage: bb\n", second),
            ("Package: aa\nVersion\n", ":2: no field of a paragraph"),
            ("aa 1\nbb\n", ":2: neither a source and a version, nor a field"),
            ("aa 1\nbb 1 2\n", ":2: neither a source and a version, nor a field"),
            (b"aa 1\nb\xff 1\n", ":2: not UTF-8"),
            (b"\x1f\x8bno gzip, but as long", ": it can't be unpacked: Unknown compression method"),
        ):
            with self.subTest(content):
                self.assertEqual(self.fault(content), told)

    def test_cut_when_packed(self):
        """Each front of a packed index is cut, and none is read as a shorter index."""
        for pack in (gzip.compress, lzma.compress):
            packed = pack(SOURCES.encode())
            for length in range(1, len(packed)):
                told = self.fault(packed[:length])
                self.assertRegex(told, "^: it (is cut: its packed data|can't be unpacked)")

    def test_paths(self):
        """A folder, and a path where nothing is."""
        with desks.folder() as folder:
            missing = os.path.join(folder, "x")
            for path, told in (
                (folder, "Is a directory"), (missing, "No such file or directory"),
            ):
                with self.assertRaises(Fault) as raised:
                    candidates(path, (), None)
                self.assertEqual(str(raised.exception), f"{path}: it can't be read: {told}")

    def test_large(self):
        """A line without an end, too many packages, too many versions of one."""
        limits = {"LONGEST_LINE": 30, "MOST_PACKAGES": 3, "MOST_VERSIONS": 2}
        with unittest.mock.patch.multiple(indexes, **limits):
            self.assertEqual(self.read(f"aa {'1' * 26}\n")[0], {"aa": {"1" * 26: 1}})
            self.assertEqual(self.fault("aa " + "1" * 28), ":1: longer than 30 bytes")
            self.assertEqual(len(self.read("aa 1\nbb 1\naa 2\naa 1\n")[0]), 2)
            self.assertEqual(self.fault("aa 1\nbb 1\ncc 1\ndd 1"), ":4: more than 3 packages")
            self.assertEqual(self.fault("aa 1\naa 2\naa 3"), ":3: more than 2 versions of a source")

    def test_shown(self):
        """What would steer a terminal is written out, and other text is kept."""
        self.assertEqual(shown("a\x1b[2J\u202eé\x9b\u00a0\t<"), "a\\x1b[2J\\u202eé\\x9b\u00a0\t<")


if __name__ == "__main__":
    unittest.main()
