"""Tests of `branches`, which reads changelogs."""

import gzip
import re
import unittest

from desks import command, folder, run, written

CHANGELOG = """foo (1.1-1) UNRELEASED; urgency=medium

  * New upstream version.

foo (1.0-2) unstable; urgency=medium

  * It no longer crashes (closes: #43).

 -- Ann Maintainer <ann@foo.example>  Tue, 02 Jan 2024 10:00:00 +0000

libfoo (0.9_b-1) unstable; urgency=medium

  * A beta version.

 -- Ann Maintainer <ann@foo.example>  Sun, 31 Dec 2023 10:00:00 +0000

libfoo (0.9-1) unstable; urgency=medium

  * First version.

 -- Ann Maintainer <ann@foo.example>  Sat, 30 Dec 2023 10:00:00 +0000
"""


class Branches(unittest.TestCase):
    """`branches`, which reads changelogs."""

    def test_changelog(self):
        """A changelog, plain and packed: its branch, and what is left out of it."""
        with folder() as place:
            for content in (CHANGELOG.encode(), gzip.compress(CHANGELOG.encode())):
                path = written(place, "changelog", content)
                output, errors = run([*command("branches"), path])
                self.assertEqual(output, "@branch foo/1.0-2 libfoo/0.9-1\n")
                self.assertEqual(re.findall(":([0-9]+): ", errors), ["1", "11"])

    def test_long(self):
        """A changelog of 400 versions gives three lines that hang together."""
        entries = "".join(
            f"foo ({version}) unstable; urgency=low\n\n  * x\n\n -- A <a@b.example>  x\n\n"
            for version in range(400, 0, -1))
        output, _ = run([*command("branches"), "-"], entries)
        lines = [line.split() for line in output.splitlines()]
        self.assertEqual([len(line) - 1 for line in lines], [200, 200, 2])
        self.assertEqual([line[1] for line in lines], ["foo/400", "foo/201", "foo/2"])

    def test_faults(self):
        """A changelog that can't be read, or has no entry."""
        with folder() as place:
            for path in (place, written(place, "empty", "")):
                run([*command("branches"), path], status=1)
        run([*command("branches")], status=2)


if __name__ == "__main__":
    unittest.main()
