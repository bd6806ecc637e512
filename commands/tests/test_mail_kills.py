"""Tests that a mail acts once, wherever its delivery is stopped, and whatever else fails then.

A delivery is stopped at a call of the system, before it or after it, and the mail given again until
it is taken: in the child that is the run, Python tells each call of a function that is not its own,
and the one of a chosen number ends it by a signal.
ROUNDS, which the environment sets, says how many deliveries are stopped.
The long tests, which set it, also fill a small disk, and stop as many deliveries by strace, at a
call of the system itself.
"""

import collections
import contextlib
import os
import pathlib
import random
import resource
import signal
import subprocess
import sys
import unittest

import desks
from mail_runs import Gateway, folder, written

IS_LONG = "ROUNDS" in os.environ
ROUNDS = int(os.environ.get("ROUNDS", "10"))
SENDER = "Ann Maintainer <ann@example.org>"
PAGE = 4_096
# Three lines, each of which would do more if it acted twice.
MAIL = written(SENDER, "loses a line", """Package: foo
Version: 1.0-2
Control: clone -1 -2
Control: retitle -2 loses another line
Control: clone -1 -3

It does.
""", "m1")
TRANSCRIPT = ("> clone 4 -2\nOK 5\n> retitle -2 loses another line\nOK 5\n> clone 4 -3\nOK 6\n")
# The functions that reach the system, or another program.
CALLS = {
    "open", "close", "write", "writelines", "flush", "fsync", "rename", "link", "mkdir", "unlink",
    "flock", "execute", "executemany", "executescript", "connect", "sendall", "recv_into",
    "readinto", "read", "__exit__", "fork_exec", "waitpid", "listdir", "scandir", "stat",
}
# Calls by strace, each of which may be the one that a delivery is stopped at.
SYSTEM_CALLS = (
    "openat", "write", "pwrite64", "fsync", "fdatasync", "rename", "link", "mkdir", "unlink",
    "flock", "fcntl", "close", "sendto", "recvfrom", "connect", "ftruncate", "read", "pread64",
    "newfstatat")


def stopper(number, counts=None):
    """What has Python stop this process at a call of this number, or count all calls up to it."""
    seen = 0

    def told(_, event, function):
        nonlocal seen
        if event in ("c_call", "c_return") and getattr(function, "__name__", "") in CALLS:
            seen += 1
            if counts is not None:
                os.pwrite(counts, b"%9d" % seen, 0)
            if seen == number:
                sys.setprofile(None)
                os.kill(os.getpid(), signal.SIGKILL)

    return lambda: sys.setprofile(told)


def calls_of(gateway, words):
    """How many calls a delivery makes that is not stopped."""
    path = pathlib.Path(gateway.place, "counts")
    handle = os.open(path, os.O_RDWR | os.O_CREAT)
    try:
        status, output, errors = gateway.give(MAIL, *words, begin=stopper(0, handle))
        if status:
            raise AssertionError(output + errors)
        return int(os.pread(handle, 9, 0))
    finally:
        os.close(handle)


@contextlib.contextmanager
def at_desk(gateway, is_served):
    """The desk of a gateway, served meanwhile or in its file."""
    if is_served:
        with desks.served(gateway.store) as port:
            gateway.where = f"--port={port}"
            yield
        gateway.where = f"--store={gateway.store}"
    else:
        yield


class Case(unittest.TestCase):
    """Deliveries that are stopped."""

    def assert_once(self, gateway, place):
        """The report is one bug, each line acted once, and each mail is kept once."""
        found = gateway.rows("SELECT number, title, submitter FROM bugs WHERE number > 3")
        self.assertEqual(found, [
            (4, "loses a line", SENDER), (5, "loses another line", SENDER),
            (6, "loses a line", SENDER)], place)
        self.assertEqual([gateway.said(it) for it in range(2, 8)],
                         [(0, 0)] * 2 + [(1, 1)] * 3 + [(0, 0)], place)
        answers = list((gateway.folder / "out").glob("*.eml"))
        self.assertEqual(len(answers), len(gateway.answers()))
        self.assertIn(TRANSCRIPT, gateway.answers()["Bug#4: loses a line"].get_content())
        self.assertEqual(gateway.held(), [])
        leftovers = [it for it in gateway.folder.rglob("*") if it.is_file()
                     and (it.parent.name == "tmp" or it.name.endswith(".part"))]
        self.assertEqual(leftovers, [], place)
        status, output, _ = gateway.job("check")
        self.assertEqual(status, 0, output)

    def give_until_taken(self, gateway):
        """Gives the mail until it is taken, and answers how often it was given."""
        for times in range(1, 20):
            status, _, errors = gateway.give(MAIL, "submit")
            self.assertIn(status, (0, 75), errors)
            if status == 0:
                return times
        raise AssertionError("it is never taken")


class Stopped(Case):
    """A delivery that is stopped at any call."""

    def round(self, chance, is_served, total):
        """One delivery that is stopped, perhaps its second one too, and then another mail's."""
        with folder() as place:
            gateway = Gateway(place)
            with at_desk(gateway, is_served):
                numbers = [chance.randrange(1, total) for _ in range(chance.randrange(1, 3))]
                for number in numbers:
                    status, _, errors = gateway.give(MAIL, "submit", begin=stopper(number))
                    self.assertIn(status, (-signal.SIGKILL, 0, 75), errors)
                if chance.random() < 0.3:
                    gateway.give(written(SENDER, "other", "severity 1 minor\n", "m2"), "control")
                self.give_until_taken(gateway)
            self.assert_once(gateway, (is_served, numbers))

    def test_stopped(self):
        """Over a server and over a file one bug is made, and each line acts once."""
        chance = random.Random(int(os.environ.get("SEED", "4")))
        for is_served in (True, False):
            with folder() as place:
                gateway = Gateway(place)
                with at_desk(gateway, is_served):
                    total = calls_of(gateway, ("submit",))
            self.assertGreater(total, 100)
            for _ in range(ROUNDS // 2):
                self.round(chance, is_served, total)


class Settled(Case):
    """What makes of a report that may have been made one bug."""

    def stopped_at(self, gateway, data, number, is_after=True):
        """A report whose delivery stops after the desk has it, or before; it makes bug `number`."""
        def begin():
            from boxhumilwa import mail_desk
            report = mail_desk.MailDesk.report

            def stopping(self, told):
                if is_after:
                    report(self, told)
                os.kill(os.getpid(), signal.SIGKILL)

            mail_desk.MailDesk.report = stopping

        status, _, errors = gateway.give(data, "submit", begin=begin)
        self.assertEqual((status, gateway.count()), (-signal.SIGKILL, number), errors)

    def test_same_title(self):
        """Another report of the same title and sender is not taken for one that was stopped."""
        text = "Package: foo\n\n"
        first, second = (written(SENDER, "same", text + it, f"m{it}") for it in "12")
        for is_after, wanted in ((True, ("5", "4")), (False, ("4", "5"))):
            with folder() as place:
                gateway = Gateway(place)
                self.stopped_at(gateway, first, 4 if is_after else 3, is_after)
                self.assertEqual(gateway.take(second, "submit"), f"taken: bug {wanted[0]}")
                self.assertEqual(gateway.take(first, "submit"), f"taken: bug {wanted[1]}")
                self.assertEqual(gateway.count(), 5)
                self.assertIn("1", gateway.kept(int(wanted[1]))[0].get_payload())

    def test_older_bug(self):
        """A bug of the same title and sender that was there before is not taken for it."""
        script = f"@from {SENDER}\n@report foo 1 normal same\n"
        with folder() as place:
            gateway = Gateway(place, script)
            data = written(SENDER, "same", "Package: foo\n\nx", "m1")
            self.stopped_at(gateway, data, 2)
            desks.run([desks.program(), gateway.where, "run"], script.replace("same", "other"))
            self.assertEqual(gateway.take(data, "submit"), "taken: bug 2")
            self.assertEqual(gateway.count(), 3)

    def test_first(self):
        """The first bug of a desk that begins at another number is found by --first."""
        with folder() as place:
            gateway = Gateway(place)
            gateway.store = pathlib.Path(place, "late.db")
            desks.run([desks.program(), f"--store={gateway.store}", "--first=700000", "init"])
            data = written(SENDER, "same", "Package: foo\n\nx", "m1")
            with desks.served(gateway.store) as port:
                gateway.where = f"--port={port}"
                for words, number in ((("--first=700000",), 700_000), ((), 700_001)):
                    told = gateway.take(data + str(number).encode(), "submit", *words)
                    self.assertEqual(told, f"taken: bug {number}")

    def stopped_before(self, gateway, data, to, name, *options):
        """A delivery that stops as it is about to call this function of the order of steps."""
        def begin():
            from boxhumilwa import mail_taking
            setattr(mail_taking, name, lambda *_: os.kill(os.getpid(), signal.SIGKILL))

        status, _, errors = gateway.give(data, to, *options, begin=begin)
        self.assertEqual(status, -signal.SIGKILL, errors)

    def test_same_lines(self):
        """A second delivery sends what the first one sent, whatever its files say by then."""
        with folder() as place:
            gateway = Gateway(place)
            packages = desks.written(place, "packages", "foo 9 foo 2.0-1\n")
            words = f"--packages={packages}"
            data = written(SENDER, "x", "Package: foo\nVersion: 9\n\nMended.", "m1")
            self.stopped_before(gateway, data, "1-done", "keep_all", words)
            packages.write_text("foo 9 foo 3\n")
            self.assertEqual(gateway.take(data, "1-done", words), "taken: bug 1")
            self.assertIn("> close 1 foo/2.0-1\nOK 1\n", gateway.answer().get_content())
            self.assertEqual(gateway.page(1)["Fixed"], "foo/2.0-1")

    def test_read_meanwhile(self):
        """A mail that was read before it comes again is not kept a second time."""
        with folder() as place:
            gateway = Gateway(place)
            self.stopped_before(gateway, MAIL, "submit", "write_answer")
            for path in gateway.folder.glob("bugs/*/*/new/*"):
                path.rename(path.parent.parent / "cur" / f"{path.name}:2,S")
            self.give_until_taken(gateway)
            self.assert_once(gateway, "read")

    def test_two_at_once(self):
        """Two deliveries of one mail at a time make one bug, and so do many."""
        with folder() as place:
            gateway = Gateway(place)
            words = [*desks.command("mail"), *gateway.words("submit")]
            runs = [subprocess.Popen(words, stdin=subprocess.PIPE, stdout=subprocess.PIPE,
                                     stderr=subprocess.PIPE) for _ in range(4)]
            for run in runs:
                run.stdin.write(MAIL)
                run.stdin.close()
            told = sorted(run.stdout.read() for run in runs)
            for run in runs:
                self.assertEqual((run.wait(), run.stderr.read()), (0, b""))
                run.stdout.close(), run.stderr.close()
            self.assertEqual(told, [b"taken before\n"] * 3 + [b"taken: bug 4\n"])
            self.assert_once(gateway, "two")


class ServerKilled(Case):
    """A server that is killed while a mail is taken."""

    def test_killed(self):
        """One bug is made, and each line acts once, wherever the server is killed."""
        chance = random.Random(6)
        for _ in range(max(1, ROUNDS // 6)):
            with folder() as place:
                gateway = Gateway(place)
                port = desks.free_port()
                words = [desks.program(), f"--store={gateway.store}", f"--port={port}", "serve"]
                connections = chance.randrange(1, 5)
                first = subprocess.Popen(
                    [*words[:3], f"--count={connections}", "serve"], stdout=subprocess.PIPE)
                first.stdout.readline()
                gateway.where = f"--port={port}"
                killer = self.killing(first, chance.random() * 0.05)
                gateway.give(MAIL, "submit")
                killer()
                second = subprocess.Popen(words, stdout=subprocess.PIPE)
                second.stdout.readline()
                try:
                    self.give_until_taken(gateway)
                finally:
                    for it in (first, second):
                        it.kill(), it.wait(), it.stdout.close()
                gateway.where = f"--store={gateway.store}"
                self.assert_once(gateway, connections)

    def killing(self, server, seconds):
        """Kills a server after some seconds; what is answered waits for that."""
        import threading

        timer = threading.Timer(seconds, server.kill)
        timer.start()
        return lambda: (timer.join(), server.wait())


class NoRoom(Case):
    """A disk on which there is no room, or not for long."""

    def test_sizes(self):
        """What can't be written is tried again, and then all is there once."""
        with folder() as place:
            gateway = Gateway(place)
            data = MAIL + b"x" * 60_000
            with at_desk(gateway, True):
                for size in (1_000, 5_000, 20_000, 30_000, 50_000):
                    status, _, errors = gateway.give(
                        data, "submit", begin=lambda: resource.setrlimit(
                            resource.RLIMIT_FSIZE, (size, size)))
                    self.assertEqual((status, errors.count("\n")), (75, 1), size)
                gateway.take(data, "submit")
            self.assert_once(gateway, "sizes")

    def fill(self, gateway):
        """Gives the mail to a folder that is full, and then has a page more each time."""
        filler, refused, status = gateway.folder / "filler", 0, 75
        state = os.statvfs(gateway.folder)
        size = state.f_bavail * state.f_frsize
        filler.write_bytes(b"x" * size)
        while status and size:
            status, _, errors = gateway.give(MAIL, "submit")
            self.assertIn(status, (0, 75), errors)
            self.assertLessEqual(errors.count("\n"), 1)
            refused, size = refused + (status != 0), max(0, size - PAGE)
            os.truncate(filler, size)
        filler.unlink()
        self.assertEqual((status, refused > 2), (0, True))

    def full(self, is_new):
        """The same on a small disk that is full at first, with a journal or without one."""
        with folder() as place:
            gateway = Gateway(place)
            gateway.folder.mkdir()
            mount = subprocess.run(
                ["mount", "-t", "tmpfs", "-o", "size=400k", "tmpfs", gateway.folder],
                capture_output=True, check=False)
            if mount.returncode:
                self.skipTest(f"a small disk can't be mounted: {mount.stderr.decode().strip()}")
            try:
                if not is_new:
                    gateway.take(written(SENDER, "other", "severity 1 minor\n", "m2"), "control")
                self.fill(gateway)
                self.assert_once(gateway, "full")
            finally:
                subprocess.run(["umount", gateway.folder], check=True)

    if IS_LONG:
        def test_full(self):
            """Nothing is lost on a disk that is full, and nothing is there twice."""
            self.full(True)
            self.full(False)


class StoppedByStrace(Case):
    """A delivery that is stopped at a call of the system."""

    def round(self, chance, is_served, hits):
        """One delivery that is stopped at some call of one kind."""
        call, number = chance.choice(SYSTEM_CALLS), int(chance.paretovariate(0.5))
        with folder() as place:
            gateway = Gateway(place)
            with at_desk(gateway, is_served):
                ran = subprocess.run(
                    ["strace", "-qq", "-o", os.devnull, "-e", f"trace={call}", "-e",
                     f"inject={call}:signal=KILL:when={number}", *desks.command("mail"),
                     *gateway.words("submit")], input=MAIL, capture_output=True, check=False)
                hits[call] += ran.returncode not in (0, 75)
                self.give_until_taken(gateway)
            self.assert_once(gateway, (is_served, call, number))

    if IS_LONG:
        def test_strace(self):
            """One bug is made, and each line acts once, whatever call it was stopped at."""
            chance, hits = random.Random(8), collections.Counter()
            for place in range(ROUNDS):
                self.round(chance, place % 2 == 0, hits)
            print(f"stopped by strace at {dict(sorted(hits.items()))}")
            self.assertGreater(hits.total(), ROUNDS // 4)


if __name__ == "__main__":
    unittest.main()
