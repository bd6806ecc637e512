"""Tests of tools that compare the program with the second reading, or read what it left."""

import pathlib
import sqlite3
import unittest

import desks
from desks import ROOT, folder, make_desk, run, written

COMPARE = ROOT / "tools/compare"
# A program that answers nothing, and calls each script good.
SILENT = "#!/bin/sh\ncat >/dev/null\n"


class CheckDesk(unittest.TestCase):
    """`check_desk`, which reads the file of a desk."""

    def test_in_order(self):
        """A desk that the program left is in order, and one with a row less is not."""
        with folder() as place:
            store = make_desk(place, desks.DAY)
            self.assertEqual(run([COMPARE / "check_desk", store])[0], f"{store}: in order\n")
            with sqlite3.connect(store) as connection:
                (count,) = connection.execute("SELECT count(*) FROM nearest").fetchone()
                first = "(SELECT min(rowid) FROM nearest)"
                connection.execute(f"DELETE FROM nearest WHERE rowid = {first}")
            connection.close()
            self.assertGreater(count, 1)
            output, _ = run([COMPARE / "check_desk", store], status=1)
            self.assertEqual(output, f"{store}: nearest: 0 rows too many, 1 missing\n")

    def test_no_desk(self):
        """A file that is missing, and one that is no database, are named before a desk in order."""
        with folder() as place:
            store = make_desk(place, desks.DAY)
            text = written(place, "text", "This is no desk.\n")
            missing = pathlib.Path(place, "missing")
            output, _ = run([COMPARE / "check_desk", missing, text, store], status=1)
            self.assertEqual(
                output,
                f"{missing}: unable to open database file\n{text}: file is not a database\n"
                f"{store}: in order\n",
            )
        run([COMPARE / "check_desk"], status=2)


class Compare(unittest.TestCase):
    """`compare`, which runs the program and the second reading on random scripts."""

    def test_program(self):
        """The program answers as the reading does."""
        words = [f"--program={desks.program()}", "--scripts=200"]
        output, _ = run([COMPARE / "compare", *words])
        self.assertRegex(output, "^200 of 200 scripts without a difference")
        output, _ = run([COMPARE / "compare", "--stored", words[0], "--scripts=20"])
        self.assertRegex(output, "^20 of 20 scripts without a difference")

    def test_wrong_program(self):
        """A program that answers nothing differs, and a short script shows it."""
        with folder() as place:
            program = written(place, "program", SILENT)
            program.chmod(0o755)
            words = [f"--program={program}", "--scripts=2", "--kinds", "mixed"]
            output, _ = run([COMPARE / "compare", *words], status=1)
            shrunk = output.partition("--- shrunk\n")[2].partition("--- program")[0]
            self.assertEqual(shrunk.count("\n"), 1)


class KillDesk(unittest.TestCase):
    """`kill_desk`, which kills the program and looks at the desk that it left."""

    def test_program(self):
        """Some rounds of the program."""
        output, _ = run([COMPARE / "kill_desk", f"--program={desks.program()}", "--rounds=3"])
        self.assertRegex(output, "between lines|with a line kept|ended before")


if __name__ == "__main__":
    unittest.main()
