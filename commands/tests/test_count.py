"""Tests of `count`, which is the example of a command."""

import json
import unittest

import desks
from desks import DAY, command, folder, make_desk, run, served


def count(*words, status=0):
    """The output and the error output of a run of `count` with the program."""
    return run([*command("count"), f"--program={desks.program()}", *words], status=status)


class Count(unittest.TestCase):
    """`count`, over a file and beside a server."""

    def test_numbers(self):
        """A bug that is closed, or that the version hasn't, does not count."""
        with folder() as place:
            store = make_desk(place, DAY)
            wanted = (("1.0-1", "1\n"), ("1.0-2", "2\n"), ("2.0-1", "2\n"), ("9", "1\n"))
            for version, number in wanted:
                self.assertEqual(count(f"--store={store}", "foo", version), (number, ""))
            told = json.loads(count(f"--store={store}", "--json", "bar", "3")[0])
            self.assertEqual(told, {"package": "bar", "version": "3", "open": 1})
            with served(store) as port:
                for version, number in wanted:
                    self.assertEqual(count(f"--port={port}", "foo", version), (number, ""))

    def test_refusals(self):
        """What the desk refuses has status 1, and no word gets into a script of the program."""
        with folder() as place:
            store = make_desk(place, DAY)
            where = f"--store={store}"
            for package, version, told in (
                ("FOO", "1", "bad package name"), ("foo", "1_", "bad version"),
            ):
                self.assertEqual(
                    count(where, package, version, status=1), ("", f"count: NO {told}\n"))
            with served(store) as port:
                self.assertIn("404", count(f"--port={port}", "FOO", "1", status=1)[1])
            for words in (("foo", "1\n@show 1"), ("foo bar", "1"), ("", "1"), ("f\u00f6o", "1")):
                output, errors = count(where, *words, status=2)
                self.assertEqual((output, errors.count("\n")), ("", 1))
            self.assertIn("is not there", count("--store=/none", "foo", "1", status=3)[1])
            self.assertEqual(count("foo", "1", status=2)[0], "")


if __name__ == "__main__":
    unittest.main()
