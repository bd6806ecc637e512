"""Tests of `snapshot`: copies beside a server under full load, and beside one that is killed.

Each copy is opened by sqlite3 and by the program, and has to be the desk at one moment between the
begin and the end of its making.
COPIES of each kind are made, which the environment sets.
"""

import json
import os
import random
import shutil
import tempfile
import threading
import time
import unittest
import unittest.mock

import desks
from boxhumilwa import snapshot
from desks import command, run
from loads import History, Server, complaint, head, memory, pass_checkpoint

COPIES = int(os.environ.get("COPIES", "6"))
# A desk is exchanged for a new one after so many copies, since reading a big one takes long.
COPIES_OF_DESK = 10
FURTHER = 40


def copied(store, path):
    """How many tries a copy took, by a run of the command."""
    return json.loads(run([*command("snapshot"), "--json", f"--store={store}", path])[0])["tries"]


class Load(unittest.TestCase):
    """Copies of a desk in use."""

    def setUp(self):
        place = tempfile.TemporaryDirectory(dir=memory())
        self.addCleanup(place.cleanup)
        self.folder = place.name
        self.count = 0

    def new_desk(self):
        """The file of a new desk, in a folder of its own."""
        self.count += 1
        place = os.path.join(self.folder, str(self.count))
        os.mkdir(place)
        return desks.make_desk(place, "")

    def assert_copy(self, history, store, tries):
        """A copy that is made now is the desk at one moment since now."""
        path = os.path.join(self.folder, "copy.db")
        least = history.done
        tries.append(copied(store, path))
        wrong = complaint(path, least, history.begun)
        self.assertIsNone(wrong)
        for name in ("copy.db", "copy.db-wal"):
            os.unlink(os.path.join(self.folder, name))
        self.assertNotIn(".boxhumilwa-", " ".join(os.listdir(self.folder)))

    def copy_under_load(self, count, tries):
        """Makes so many copies of one desk under load; answers how often the log was emptied."""
        store = self.new_desk()
        server = Server(store)
        heads = {head(store)}
        try:
            with History(server.port) as history:
                history.start(history.step)
                for _ in range(count):
                    self.assert_copy(history, store, tries)
                    heads.add(head(store))
        finally:
            server.kill()
        shutil.rmtree(os.path.dirname(store))
        return len(heads) - 1

    def test_load(self):
        """Each copy under full load is the desk at one moment."""
        left, emptied, tries = COPIES, 0, []
        while left > 0:
            emptied += self.copy_under_load(min(left, COPIES_OF_DESK), tries)
            left -= COPIES_OF_DESK
        self.assertEqual(len(tries), COPIES)
        self.assertGreater(emptied, 0)
        self.tell("under load", tries, f"beside {emptied} other heads of logs")

    def tell(self, what, tries, more):
        """Tells figures where the environment asks for many copies."""
        if "COPIES" in os.environ:
            mean = sum(tries) / len(tries)
            print(f"{len(tries)} copies {what}: {mean:.2f} tries, {max(tries)} at most, {more}")

    def copy_beside_kills(self, count, chance, tries):
        """Makes so many copies of one desk whose server is killed meanwhile; says how often."""
        store = self.new_desk()
        server, is_ended, kills = Server(store), threading.Event(), []

        def kill():
            while not is_ended.wait(chance.random() * 0.3):
                server.kill()
                kills.append(time.monotonic())
                server.start()

        killer = threading.Thread(target=kill, daemon=True)
        try:
            with History(server.port) as history:
                history.start(history.step_at_last)
                killer.start()
                for _ in range(count):
                    self.assert_copy(history, store, tries)
        finally:
            is_ended.set()
            killer.join()
            server.kill()
        shutil.rmtree(os.path.dirname(store))
        return len(kills)

    def test_kills(self):
        """Each copy beside a server that is killed and started anew is the desk at one moment."""
        chance, left, kills, tries = random.Random(7), COPIES, 0, []
        while left > 0:
            kills += self.copy_beside_kills(min(left, COPIES_OF_DESK), chance, tries)
            left -= COPIES_OF_DESK
        self.assertEqual(len(tries), COPIES)
        self.assertGreater(kills, 0)
        self.tell("beside kills", tries, f"beside {kills} kills")

    def copy_over_checkpoint(self):
        """A copy during which the log is emptied between the two files: tries, complaint."""
        store = self.new_desk()
        server = Server(store)
        copy_log, calls = snapshot.copy_log, []
        target = os.path.join(os.path.dirname(store), "copy.db")

        def copy_log_late(*words):
            if not calls:
                pass_checkpoint(history, store, FURTHER)
            calls.append(words)
            copy_log(*words)

        try:
            history = History(server.port)
            pass_checkpoint(history, store, FURTHER)
            least = history.done
            with unittest.mock.patch.object(snapshot, "copy_log", copy_log_late):
                tries = snapshot.copy_pair(str(store), target)
        finally:
            server.kill()
        return tries, complaint(target, least, history.begun)

    def test_checkpoint(self):
        """A copy over whose making the log was emptied is made again."""
        self.assertEqual(self.copy_over_checkpoint(), (2, None))

    def test_without_second_look(self):
        """Without the second look such a copy is none, which these tests tell."""
        same = snapshot.Look(0, 0, 0, 0, 0, b"")
        with unittest.mock.patch.object(snapshot, "look", lambda _: same):
            tries, wrong = self.copy_over_checkpoint()
        self.assertEqual(tries, 1)
        self.assertIsNotNone(wrong)


if __name__ == "__main__":
    unittest.main()
