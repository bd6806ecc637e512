"""Tests of `snapshot`: where copies go, which are kept, and that nothing else is touched."""

import json
import os
import pathlib
import re
import time
import unittest
import unittest.mock

from boxhumilwa import copy_places
from boxhumilwa.faults import Fault
from copies import Case, copy, query, state_of_files
from desks import DAY, make_desk, written

MOMENT = re.compile(r"desk-[0-9]{8}T[0-9]{6}Z\.db")


class Places(Case):
    """Where copies go, and which are kept."""

    def setUp(self):
        super().setUp()
        self.store = f"--store={make_desk(self.folder, DAY)}"

    def test_folder(self):
        """In a folder a copy has the name of its moment; two of one second have two names."""
        begin = time.time()
        for words in (self.place, self.place + "/", os.path.join(self.place, ".")):
            copy(self.store, words)
        names = sorted(os.listdir(self.place))
        self.assertEqual(len(names), 3)
        for name in names:
            self.assertRegex(name, MOMENT)
            moment = time.strptime(f"{name[5:-4]} UTC", "%Y%m%dT%H%M%S %Z")
            seconds = time.mktime(moment) - time.timezone
            self.assertTrue(begin - 1 <= seconds <= time.time(), name)
            self.assert_copy(os.path.join(self.place, name), 5)

    def test_keep(self):
        """The last copies of this desk are kept, and nothing else is removed."""
        for year in range(2001, 2006):
            written(self.place, f"desk-{year}0101T000000Z.db", "old")
        others = (
            "desk.db", "desk-20000101T000000Z.db-wal", "desk-20000101T000000Z.db.gz",
            "other-20000101T000000Z.db", "xdesk-20000101T000000Z.db", "desk-2000.db",
            "desk-20000101T000000Z.db\n", "desk-\u0662\u0660000101T000000Z.db")
        for name in others:
            written(self.place, name, "x")
        os.mkdir(os.path.join(self.place, "desk-19990101T000000Z.db"))
        os.symlink(self.folder, os.path.join(self.place, "desk-19980101T000000Z.db"))
        before = set(os.listdir(self.place))
        told = json.loads(copy(self.store, "--keep=3", "--json", self.place)[0])
        removed = [f"desk-{year}0101T000000Z.db" for year in (2001, 2002, 2003)]
        self.assertEqual(told["removed"], [os.path.join(self.place, it) for it in removed])
        self.assertEqual(
            set(os.listdir(self.place)),
            before - set(removed) | {os.path.basename(told["copy"])})
        told = json.loads(copy(self.store, "--keep=1", "--json", self.place)[0])
        self.assertEqual(len(told["removed"]), 3)
        self.assertTrue(set(others) < set(os.listdir(self.place)))

    def test_keep_new(self):
        """The new copy stays, whatever moments others name."""
        written(self.place, "desk-29990101T000000Z.db", "later")
        told = json.loads(copy(self.store, "--keep=1", "--json", self.place)[0])
        self.assertEqual(os.listdir(self.place), [os.path.basename(told["copy"])])

    def test_keep_at_fault(self):
        """Where no copy is made none is removed."""
        for year in (2001, 2002):
            written(self.place, f"none-{year}0101T000000Z.db", "old")
        bad = written(self.folder, "none.db", "no desk")
        self.assert_none(f"--store={bad}", "--keep=1", self.place, told="is no desk")

    def test_taken(self):
        """What is there is replaced only where it is asked, and then at once."""
        copy(self.store, self.target)
        written(self.place, "copy.db", "mine")
        self.assert_none(self.store, self.target, told="there already: .*--force")
        self.assertEqual(pathlib.Path(self.target).read_text(), "mine")
        os.symlink("copy.db", os.path.join(self.place, "link"))
        os.symlink("nothing", os.path.join(self.place, "dangling"))
        self.assert_none(self.store, os.path.join(self.place, "link"), told="there already")
        copy(self.store, "--force", os.path.join(self.place, "link"))
        copy(self.store, os.path.join(self.place, "dangling"))
        self.assertTrue(os.path.islink(os.path.join(self.place, "link")))
        for name in ("link", "dangling"):
            os.unlink(os.path.join(self.place, name))
        self.assert_copy(self.target, 5)
        os.mkfifo(os.path.join(self.place, "fifo"))
        self.assert_none(
            self.store, "--force", os.path.join(self.place, "fifo"), told="no regular file")

    def test_taken_meanwhile(self):
        """What comes to the place while a copy is made stays."""
        place = copy_places.find_place("desk.db", self.target)
        made = written(self.folder, "made", "x")
        written(self.place, "copy.db", "mine")
        with self.assertRaisesRegex(Fault, "there already"):
            copy_places.put(str(made), place, 0o600, False)
        self.assertEqual(pathlib.Path(self.target).read_text(), "mine")

    def test_own_files(self):
        """No copy takes the place of the desk's own files, or of one that has a log beside it."""
        desk = self.store.removeprefix("--store=")
        before = state_of_files(self.folder)
        link = os.path.join(self.place, "link")
        os.symlink(desk, link)
        for path in (desk, f"{desk}-wal", f"{desk}-shm", f"{desk}-journal", link,
                     os.path.join(self.place, "..", "desk.db")):
            self.assert_none(self.store, "--force", path, told="a file of the desk itself")
        self.assertEqual(state_of_files(self.folder), before)
        for part in ("-wal", "-journal"):
            log = written(self.place, f"copy.db{part}", "x")
            self.assert_none(
                self.store, "--force", self.target, told=f"copy.db{part}: this is the log")
            os.unlink(log)

    def test_left(self):
        """What a killed run left is removed by a later one, after hours, and nothing like it."""
        names = (f".boxhumilwa-{'0' * 16}", f".boxhumilwa-{'1' * 16}", ".boxhumilwa-x")
        for name in names:
            os.mkdir(os.path.join(self.place, name))
            written(os.path.join(self.place, name), "desk.db", "x")
        for name in (names[0], names[2]):
            os.utime(os.path.join(self.place, name), (1, 1))
        copy(self.store, self.target)
        self.assertEqual(sorted(os.listdir(self.place)), sorted([*names[1:], "copy.db"]))

    def test_no_links(self):
        """On a file system without second names a copy gets its name too."""
        made = written(self.folder, "made", "x")
        with unittest.mock.patch("os.link", side_effect=PermissionError(1, "no")):
            copy_places.put_new(str(made), self.target)
            self.assertEqual(os.listdir(self.place), ["copy.db"])
            made = written(self.folder, "made", "y")
            with self.assertRaises(PermissionError):
                copy_places.put_new(str(made), self.target)
        self.assertEqual(pathlib.Path(self.target).read_text(), "x")

    def test_names(self):
        """No name steers a terminal or SQLite, or is taken for an option."""
        for name in ("a\x1b[2J\n", "%3f?#mode=memory.db", "-x", ":memory:", "file:x"):
            place = os.path.join(self.folder, "named", name)
            os.makedirs(place)
            store = make_desk(place, DAY, name=f"{name}.db")
            target = os.path.join(place, name)
            output, errors = copy(f"--store={store}", target)
            self.assertTrue(output.removesuffix("\n").isprintable(), ascii(output))
            self.assertEqual(errors, "")
            self.assertEqual(query(pathlib.Path(target).as_uri()[7:], "SELECT count(*) FROM bugs"),
                             [(5,)])
            copy(f"--store={store}", "--keep=1", place)
            self.assertEqual(len(os.listdir(place)), 4)


if __name__ == "__main__":
    unittest.main()
