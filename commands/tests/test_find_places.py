"""Tests of where `find` reads a desk, and of its faults."""

import contextlib
import json
import os
import pathlib
import re
import shutil
import sqlite3
import subprocess
import unittest
import unittest.mock

import desks
from desks import command, folder, make_desk, run, served, written
from finds import answers, found
from test_find import DESK

from boxhumilwa import page_facts

SCHEMAS = desks.ROOT / "crates/example_tables/data/schemas"


class Places(unittest.TestCase):
    """Where a desk is read."""

    def setUp(self):
        place = folder()
        self.folder = place.__enter__()
        self.addCleanup(place.__exit__, None, None, None)

    def test_served(self):
        """A server is read by its pages, and by a copy of its file where that is named."""
        store = make_desk(self.folder, DESK)
        wanted = found(f"--store={store}", "--json", "--archived=both")[0]
        with served(store) as port:
            with unittest.mock.patch.object(page_facts, "MOST_MISSING", 20):
                output, errors = found(f"--port={port}", "--json", "--archived=both")
            self.assertEqual(output, wanted)
            self.assertEqual(errors, (
                f"find: port {port}: the pages of bugs 1 to 26 are read, and no later ones: "
                "the last 20 numbers are missing\n"))
            output, errors = found(f"--port={port}", "--last=6", "--json", "--archived=both")
            self.assertEqual(output, wanted)
            self.assertEqual(errors, f"find: port {port}: the pages of bugs 1 to 6 are read\n")
            output, _ = found(f"--port={port}", "--first=2", "--last=4", "--numbers")
            self.assertEqual(output, "2\n3\n4\n")
            for more in ([], [f"--port={port}"]):
                told = found(f"--store={store}", *more, "--json", "--archived=both")
                self.assertEqual(told, (wanted, ""))
            none = f"{self.folder}/none"
            output, errors = found(f"--port={port}", f"--store={none}", "--last=6", "--json")
            self.assertIn(f"find: {none}: it is not there or not readable", errors)
            self.assertEqual(len(json.loads(output)), 5)
            for where in (["--last=6"], [f"--store={store}"]):
                words = [f"--port={port}", *where, "--numbers", "--at=foo/1.0-1"]
                self.assertEqual(found(*words)[0], "1\n3\n")
            words = [f"--port={port}", "--last=6", "--at=foo/1_"]
            self.assertIn("404", found(*words, status=1)[1])

    def test_socket(self):
        """The same over a Unix socket."""
        with desks.over_socket(make_desk(self.folder, DESK)) as (_, path):
            self.assertEqual(found(f"--socket={path}", "--last=6", "--owner=-")[0].split("\n")[0],
                             "4 bugs")

    def test_first(self):
        """A desk whose numbers begin late, by its pages."""
        store = pathlib.Path(self.folder, "late.db")
        run([desks.program(), f"--store={store}", "--first=1150", "init"])
        run([desks.program(), f"--store={store}", "run"], "@report aa - normal x\n" * 3)
        with served(store) as port:
            output, errors = found(f"--port={port}", "--numbers")
            self.assertEqual(output, "")
            self.assertIn("bugs 1 to 1,000 are read, and no later ones", errors)
            with unittest.mock.patch.object(page_facts, "MOST_MISSING", 20):
                for words in (["--first=1150"], ["--first=1131"], ["--first=1100", "--last=1152"]):
                    told = found(f"--port={port}", "--numbers", *words)[0]
                    self.assertEqual(told, "1150\n1151\n1152\n")
                self.assertEqual(found(f"--port={port}", "--numbers", "--first=1130")[0], "")
                told = found(f"--port={port}", "--numbers", "--first=1131")[1]
                self.assertIn("bugs 1,131 to 1,172 are read, and no later ones", told)

    def test_older(self):
        """Desks of older schemas are read, and stay as they are."""
        for name in ("first", "second"):
            store = shutil.copy(SCHEMAS / f"{name}.db", self.folder)
            bytes_before = pathlib.Path(store).read_bytes()
            copy = shutil.copy(store, f"{store}.copy")
            text = answers(copy, [f"@show {number}" for number in range(1, 100)])
            numbers = re.findall("^Bug ([0-9]+)$", text, re.MULTILINE)
            told = json.loads(found(f"--store={store}", "--json", "--archived=both")[0])
            self.assertEqual([str(bug["number"]) for bug in told], numbers)
            self.assertEqual(
                [" ".join(bug["affects"]) or "-" for bug in told],
                re.findall("^Affects: (.*)$", text, re.MULTILINE))
            self.assertEqual(
                [bug["title"] for bug in told], re.findall("^Title: (.*)$", text, re.MULTILINE))
            self.assertEqual(found(f"--store={store}", "--affects=foo", "--numbers")[1], "")
            found(f"--store={store}", "--at=foo/1")
            self.assertEqual(pathlib.Path(store).read_bytes(), bytes_before)

    def test_faults(self):
        """Each fault has a line that says what to do, status 3 and no output."""
        store = make_desk(self.folder, DESK)
        later = shutil.copy(store, f"{self.folder}/later.db")
        with contextlib.closing(sqlite3.connect(later)) as connection, connection:
            connection.execute("UPDATE meta SET schema = 9")
        other = f"{self.folder}/other.db"
        with contextlib.closing(sqlite3.connect(other)) as connection, connection:
            connection.execute("CREATE TABLE t (x)")
        for words, told in (
            ([f"--store={later}"], "schema 9"), ([f"--store={other}"], "is no desk"),
            ([f"--store={written(self.folder, 'empty', '')}"], "is no desk"),
            ([f"--store={written(self.folder, 'text', 'x' * 9000)}"], "is no desk"),
            ([f"--store={self.folder}/none"], "is not there"),
            ([f"--store={self.folder}"], "no regular file"),
            ([f"--port={desks.free_port()}"], "Connection refused"),
            ([f"--store={store}", "--suite=a=/none"], "/none: "),
        ):
            with self.subTest(words):
                output, errors = found(*words, status=3)
                self.assertEqual((output, errors.count("\n")), ("", 1))
                self.assertIn(told, errors)
        script = '"$@" >/dev/full; [ $? -eq 3 ]'
        _, errors = run(["sh", "-c", script, "sh", *command("find"), f"--store={store}"])
        self.assertIn("standard output can't be written", errors)

    def test_nothing_left(self):
        """Nothing is left in the desk's folder or among temporary files."""
        store = make_desk(self.folder, DESK)
        temporary = pathlib.Path(self.folder, "tmp")
        temporary.mkdir()
        before = sorted(os.listdir(self.folder))
        words = [*command("find"), f"--program={desks.program()}", f"--store={store}"]
        for more, status in (([], 0), (["--at=foo/1"], 0), (["--at=foo/1_"], 1)):
            ran = subprocess.run(
                [*words, *more], env=os.environ | {"TMPDIR": str(temporary)}, capture_output=True,
                check=False)
            self.assertEqual(ran.returncode, status)
        self.assertEqual(sorted(os.listdir(self.folder)), before)
        self.assertEqual(os.listdir(temporary), [])

    def test_bad_pages(self):
        """A page that no desk writes is told, and read as nothing."""
        store = make_desk(self.folder, DESK)
        page = answers(store, ["@show 4"]).removesuffix("\n")
        with served(store) as port:
            for old, new, status in (
                ("", "", 0), ("\nOwner: ", "\nOwned: ", 3), ("Bug 4", "Bug 5", 3),
                ("\nSeverity: serious", "\nSeverity: huge", 3), ("\nBlocks: -", "", 3),
                ("\nBlocks: -", "\nBlocks: x", 3), ("\nTags: -", "\nTags: none", 3),
                ("\nMerged with: 5", "\nMerged with: 5\nMore: x", 3),
            ):
                text = page.replace(old, new)
                with self.subTest(new), unittest.mock.patch.object(
                    page_facts.ServedDesk, "pages", lambda _, numbers, text=text: iter([text]),
                ):
                    output, errors = found(
                        f"--port={port}", "--numbers", "--first=4", "--last=4", status=status)
                self.assertEqual(output, "" if status else "4\n")
                self.assertEqual("as no desk does" in errors, status == 3)


if __name__ == "__main__":
    unittest.main()
