"""Tests of `snapshot`: what leaves no copy, and nothing else."""

import os
import signal
import subprocess
import threading
import time
import unittest
import unittest.mock

import desks
from boxhumilwa import snapshot
from boxhumilwa.faults import Fault
from copies import Case, as_nobody, change, query, run_here
from desks import DAY, command, make_desk, written


class Faults(Case):
    """What leaves no copy."""

    def test_no_desks(self):
        """What is no desk, or not in order, or of a later schema."""
        for content, told in (
            ("", "is empty"), ("text", "not a database"), ("x" * 5_000, "not a database"),
        ):
            bad = written(self.folder, "bad", content)
            self.assert_none(f"--store={bad}", self.target, told=told)
        for name, changes, told in (
            ("other", ["DROP TABLE meta"], "it has other tables, or none"),
            ("view", ["ALTER TABLE bugs RENAME TO b", "CREATE VIEW bugs AS SELECT * FROM b"],
             "it has no table bugs"),
            ("row", ["DELETE FROM meta"], "does not say its schema"),
            ("rows", ["INSERT INTO meta VALUES (2, 3, 1)"], "does not say its schema"),
            ("zero", ["UPDATE meta SET schema = 0"], "does not say its schema"),
            ("later", ["UPDATE meta SET schema = 4"], "the schema 4 of a later version"),
            ("less", ["DROP TABLE nearest"], "it has no table nearest"),
        ):
            store = make_desk(self.folder, DAY, name=name)
            change(store, *changes)
            self.assert_none(f"--store={store}", self.target, told=told)

    def test_damage(self):
        """A file that is damaged is not copied, and the copies that there are stay."""
        store = make_desk(self.folder, DAY)
        (root,), = query(store, "SELECT rootpage FROM sqlite_master WHERE name = 'bugs_by_set'")
        with open(store, "r+b") as file:
            file.seek((root - 1) * 4096)
            file.write(b"\x0a\x00\x00\x00\x00")
        written(self.place, "desk-20010101T000000Z.db", "old")
        self.assert_none(f"--store={store}", "--keep=1", self.place, told="is damaged: .*; keep")

    def test_no_files(self):
        """What is no file, not there, or not to be read."""
        store = make_desk(self.folder, DAY)
        os.mkfifo(os.path.join(self.folder, "fifo"))
        for path, told in (
            (os.path.join(self.folder, "none"), "is not there"), (self.folder, "no regular file"),
            (os.path.join(self.folder, "fifo"), "no regular file"), ("/dev/null", "no regular"),
            ("", "no regular file"),
        ):
            self.assert_none(f"--store={path}", self.target, told=told)
        self.assert_none(
            f"--store={store}", os.path.join(self.folder, "no/copy"), told="folder is not there")
        self.assert_none(f"--store={store}", "no/", told="folder is not there")
        os.unlink(f"{store}-wal")
        os.mkfifo(f"{store}-wal")
        self.assert_none(f"--store={store}", self.target, told="-wal: it is no regular file")
        os.unlink(f"{store}-wal")
        written(self.folder, "desk.db-journal", "x")
        self.assert_none(f"--store={store}", self.target, told="another program")

    def test_rights(self):
        """A desk that can't be read, and a folder that can't be written, by somebody else."""
        store = make_desk(self.folder, DAY)
        os.chmod(self.folder, 0o755)
        open_place = os.path.join(self.folder, "open")
        os.mkdir(open_place)
        os.chmod(open_place, 0o777)
        for path, rights, place, told in (
            (store, 0, open_place, r"desk\.db: it can't be read: .*needs to read"),
            (f"{store}-wal", 0, open_place, r"desk\.db-wal: it can't be read: .*needs to read"),
            (self.place, 0o555, self.place, "copies: no copy can be made in this folder: "),
        ):
            before = os.stat(path).st_mode
            os.chmod(path, rights)
            status, output, errors = as_nobody(
                lambda: run_here(f"--store={store}", os.path.join(place, "copy.db")))
            os.chmod(path, before)
            self.assertEqual((status, output, errors.count("\n")), (3, "", 1))
            self.assertRegex(errors, f"^snapshot: .*{told}")
            self.assertEqual(os.listdir(place), [])

    def test_words(self):
        """Wrong command lines."""
        store = f"--store={make_desk(self.folder, DAY)}"
        for words in (
            (self.target,), (store,), (store, ""), (store, self.target, "x"),
            (store, "--keep=0", self.place), (store, "--keep=x", self.place),
            (store, "--keep=-1", self.place), (store, "--keep=2", self.target),
            (store, "--mode=8", self.target), (store, "--mode=1777", self.target),
            (store, "--mode=040", self.target), (store, "--port=8080", self.target),
        ):
            self.assert_none(*words, told="^snapshot: ", status=2)

    def test_output(self):
        """Where standard output can't be written, it is told that the copy is made."""
        store = make_desk(self.folder, DAY)
        words = [*command("snapshot"), f"--store={store}", self.target]
        with open("/dev/full", "w", encoding="utf-8") as full:
            ran = subprocess.run(
                words, stdout=full, stderr=subprocess.PIPE, text=True, check=False)
        self.assertEqual((ran.returncode, ran.stderr.count("\n")), (3, 1))
        self.assertIn("the copy is made, but standard output can't be written", ran.stderr)
        self.assertTrue(os.path.exists(self.target))

    def test_too_fast(self):
        """A desk that changes at each try is given up after some."""
        store = make_desk(self.folder, DAY)
        copy_log, tries = snapshot.copy_log, []

        def changing(*words):
            tries.append(words)
            copy_log(*words)
            os.utime(store)

        with unittest.mock.patch.multiple(
            snapshot, copy_log=changing, TRIES=5, HEAD_SECONDS=0.01,
        ), self.assertRaisesRegex(Fault, "changed too fast .* try again"):
            snapshot.copy_pair(str(store), self.target)
        self.assertEqual(len(tries), 5)

    def test_without_head(self):
        """Where a log has no head, a file that just changed is looked at again."""
        store = make_desk(self.folder, DAY)
        for content in (None, b"", b"x" * 31):
            os.unlink(f"{store}-wal")
            if content is not None:
                written(self.folder, "desk.db-wal", content)
            os.utime(store)
            changed = time.time()
            snapshot.first_look(str(store))
            self.assertGreater(time.time() - changed, 0.045)
            with unittest.mock.patch.object(snapshot, "LOOKS", 2):
                os.utime(store)
                with self.assertRaisesRegex(Fault, "changed too fast"):
                    snapshot.first_look(str(store))
            written(self.folder, "desk.db-wal", "")

    def test_look(self):
        """A look at other files, or at others' times or heads, is another one."""
        store = str(make_desk(self.folder, DAY))
        looks = [snapshot.look(store)]
        for change_files in (
            lambda: written(self.folder, "desk.db-wal", b"x" * 31 + b"y" * 9),
            lambda: written(self.folder, "desk.db-wal", b"x" * 32 + b"y" * 9),
            lambda: os.utime(store, (5, 5)), lambda: os.truncate(store, 8_192),
            lambda: os.unlink(f"{store}-wal"),
        ):
            change_files()
            looks.append(snapshot.look(store))
        self.assertEqual(len(set(looks)), len(looks))
        self.assertEqual([len(it.head) for it in looks], [32] * 5 + [0])
        self.assertEqual(looks[1].head[-1:], b"y")
        self.assertEqual(looks[2].head[-1:], b"x")

    def test_exchanged(self):
        """A file that is exchanged for another between the two is copied again."""
        store = make_desk(self.folder, DAY)
        other = make_desk(self.folder, "", name="other.db")
        copy_log, calls = snapshot.copy_log, []

        def exchanging(*words):
            if not calls:
                os.rename(other, store)
                os.rename(f"{other}-wal", f"{store}-wal")
            calls.append(words)
            copy_log(*words)

        with unittest.mock.patch.object(snapshot, "copy_log", exchanging):
            self.assertEqual(snapshot.copy_merged(str(store), self.target), 2)
        self.assert_none_of(self.target)

    def assert_none_of(self, path):
        """A desk has no bugs."""
        self.assertEqual(query(path, "SELECT count(*) FROM bugs"), [(0,)])


class Stopped(Case):
    """Runs that are stopped in the middle."""

    def begin(self, store):
        """A run that has begun and can't end, since the file is touched all the time."""
        is_ended = threading.Event()

        def touch():
            while not is_ended.wait(0.005):
                os.utime(store)

        thread = threading.Thread(target=touch, daemon=True)
        thread.start()
        self.addCleanup(thread.join)
        self.addCleanup(is_ended.set)
        process = subprocess.Popen(
            [*command("snapshot"), f"--store={store}", self.target], stdout=subprocess.PIPE,
            stderr=subprocess.PIPE)
        end = time.monotonic() + desks.TIME_LIMIT
        while not os.listdir(self.place) and time.monotonic() < end:
            time.sleep(0.01)
        self.assertEqual(len(os.listdir(self.place)), 1)
        return process

    def test_signals(self):
        """A signal in the middle leaves no file, and no folder."""
        store = make_desk(self.folder, DAY)
        os.truncate(f"{store}-wal", 0)
        for number in (signal.SIGTERM, signal.SIGINT, signal.SIGHUP):
            process = self.begin(store)
            process.send_signal(number)
            output, _ = process.communicate(timeout=desks.TIME_LIMIT)
            self.assertEqual((process.returncode, output), (128 + number, b""))
            self.assertEqual(os.listdir(self.place), [])

    def test_each_step(self):
        """Whichever step it is stopped in, nothing is left."""
        store = str(make_desk(self.folder, DAY))
        for name in ("make_folder", "copy_file", "copy_log", "look", "merge_log"):
            for stop in (KeyboardInterrupt, SystemExit):
                step = getattr(snapshot, name)

                def stopped(*words):
                    step(*words)
                    raise stop

                with unittest.mock.patch.object(snapshot, name, stopped), \
                        self.assertRaises(stop), snapshot.private_folder(self.place) as place:
                    snapshot.copy_merged(store, os.path.join(place, "desk.db"))
                self.assertEqual(os.listdir(self.place), [])


if __name__ == "__main__":
    unittest.main()
