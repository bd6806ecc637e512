"""Tests that no title steers a terminal, a spreadsheet, JSON or SQL by what `find` writes."""

import contextlib
import csv
import io
import json
import os
import re
import sqlite3
import subprocess
import unittest

from desks import command, folder, make_desk
from finds import found, on_terminal

# What would steer a terminal, a line, a spreadsheet, JSON or SQL.
TITLES = (
    "\x9b2J\u202e \u2028 \u2029 \x85 x", "=cmd|' /C calc'!A0", "+1", "-1+2", "@SUM(1)",
    '"\u202e", "', "' OR 1 = 1 --", "\\x1b[2J \\u202e", "\ufeff\u200b\U000e0041 %s {0}", "＝1",
    "a,b;c\td", "*[a]?",
)
SPREAD = ("=", "+", "-", "@", "＝")


class Hostile(unittest.TestCase):
    """Titles that would steer something."""

    def setUp(self):
        place = folder()
        self.folder = place.__enter__()
        self.addCleanup(place.__exit__, None, None, None)
        script = "".join(f"@report foo 1 grave {title}\n" for title in TITLES)
        self.store = f"--store={make_desk(self.folder, script)}"

    def assert_steers_nothing(self, text):
        """A text has nothing but line feeds and what can be seen."""
        self.assertTrue(text.replace("\n", "").replace("\t", "").isprintable(), ascii(text))

    def test_terminal(self):
        """On a terminal no form has what would steer it; the table never has it."""
        for form in ([], ["--csv"], ["--json"]):
            self.assert_steers_nothing(on_terminal(80, self.store, *form))
        self.assert_steers_nothing(on_terminal(10, self.store))
        self.assert_steers_nothing(found(self.store)[0])
        self.assertEqual(found(self.store)[0].count("\n"), len(TITLES) + 3)

    def test_json(self):
        """JSON has each title as it is, and nothing that steers."""
        text = found(self.store, "--json")[0]
        self.assert_steers_nothing(text)
        self.assertEqual([bug["title"] for bug in json.loads(text)], list(TITLES))

    def test_csv(self):
        """In a file each title is as it is, but for a sign before what begins a formula."""
        text = found(self.store, "--csv")[0]
        titles = [row["title"] for row in csv.DictReader(io.StringIO(text, newline=""))]
        self.assertEqual(
            titles, [f"'{it}" if it.startswith(SPREAD) else it for it in TITLES])

    def test_patterns(self):
        """A title is no SQL, and each is found by a pattern that quotes its signs."""
        for number, title in enumerate(TITLES, 1):
            pattern = re.sub(r"([*?[])", r"[\1]", title)
            self.assertEqual(
                found(self.store, "--numbers", f"--title={pattern}")[0], f"{number}\n")
        self.assertEqual(found(self.store, "--numbers", "--owner=' OR 1 = 1 --")[0], "")


    def test_words(self):
        """Words that are not UTF-8 are told, and many words are asked at once."""
        for option in ("--owner", "--submitter", "--title", "--maintainer"):
            with self.subTest(option):
                words = [*command("find"), self.store, os.fsencode(f"{option}=") + b"\xff"]
                ran = subprocess.run(words, capture_output=True, text=True, check=False)
                errors = ran.stderr
                self.assertEqual((ran.returncode, ran.stdout, errors.count("\n")), (2, "", 1))
                self.assertIn("is not UTF-8", errors)
        versions = [f"--at=foo/{number}" for number in range(1, 2_001)]
        numbers = "".join(f"{number}\n" for number in range(1, len(TITLES) + 1))
        self.assertEqual(found(self.store, "--numbers", *versions), (numbers, ""))
        owners = [f"--owner=x{number}" for number in range(2_000)]
        self.assertEqual(found(self.store, "--numbers", *owners), ("", ""))

    def test_file(self):
        """Words that another program put into a file steer no terminal."""
        path = self.store.partition("=")[2]
        with contextlib.closing(sqlite3.connect(path)) as connection, connection:
            connection.execute("UPDATE sets SET package = 'a' || char(27) || '[31m'")
        self.assert_steers_nothing(found(self.store)[0])


if __name__ == "__main__":
    unittest.main()
