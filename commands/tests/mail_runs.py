"""Runs of `mail` for its tests: each in a child of the test, which has all modules already."""

import mailbox
import os
import pathlib
import re
import signal
import sqlite3
import sys
import tempfile

import desks
from boxhumilwa import mail, mail_showing, mail_taking

MAILS = pathlib.Path(__file__).resolve().parent / "mails"
DOMAIN = "bugs.example"
ANN = "ann@example.org"
assert mail_showing and mail_taking
# The release day without its last line, so that bug 1 is open, and a bug of another package.
DAY = """@from ann
@branch foo/2.0-1 foo/1.0-2 foo/1.0-1
@report foo 1.0-1 grave crashes at start
@report foo 1.0-2 important loses the last line
@report foo - wishlist needs a manual
"""


MEMORY = pathlib.Path("/dev/shm")


def folder():
    """A folder that is removed in the end; in memory, since each mail is saved many times."""
    return tempfile.TemporaryDirectory(dir=MEMORY if MEMORY.is_dir() else None)


def fixture(name):
    """The bytes of a mail that a client wrote."""
    return (MAILS / name).read_bytes()


def written(sender, title, text, identity="", *headers):
    """The bytes of a plain mail."""
    lines = [f"From: {sender}", f"Subject: {title}", *headers]
    lines += [f"Message-ID: <{identity}@example.org>"] if identity else []
    return "\n".join([*lines, "", text]).encode()


def forked(words, data=b"", begin=None):
    """The status of a run, its output, and what it told; `begin` is called in the child first.

    A run that a signal ended has its negative number as its status.
    """
    with tempfile.TemporaryFile() as given, tempfile.TemporaryFile() as output, \
            tempfile.TemporaryFile() as errors:
        given.write(data)
        given.seek(0)
        child = os.fork()
        if child == 0:
            become_run(words, (given, output, errors), begin)
        status = os.waitstatus_to_exitcode(os.waitpid(child, 0)[1])
        output.seek(0)
        errors.seek(0)
        return status, output.read().decode(), errors.read().decode()


def become_run(words, files, begin):
    """Makes this child a run of the command; it never returns."""
    status = 99
    try:
        for number, file in enumerate(files):
            os.dup2(file.fileno(), number)
        sys.stdin, sys.stderr = open(0), open(2, "w")
        signal.signal(signal.SIGINT, signal.default_int_handler)
        if begin:
            begin()
        status = mail.main([str(word) for word in words])
        sys.stderr.flush()
    finally:
        os._exit(status)


class Gateway:
    """A desk, in a file or at a port, and the folder of a gateway in front of it."""

    def __init__(self, place, script=DAY):
        self.place = pathlib.Path(place)
        self.store = desks.make_desk(place, script)
        self.folder = self.place / "gateway"
        self.where = f"--store={self.store}"

    def words(self, to, *options, sender=ANN):
        """The words of a delivery."""
        to = to if "@" in to else f"{to}@{DOMAIN}"
        return [self.where, f"--program={desks.program()}", f"--folder={self.folder}",
                f"--to={to}", f"--sender={sender}", *options]

    def give(self, data, to, *options, sender=ANN, begin=None):
        """The status of a delivery, its output, and what it told."""
        return forked(self.words(to, *options, sender=sender), data, begin)

    def take(self, data, to, *options, sender=ANN):
        """What has become of a mail, whose delivery has to end with 0."""
        status, output, errors = self.give(data, to, *options, sender=sender)
        if status or errors:
            raise AssertionError(f"status {status}: {output}{errors}")
        return output.removesuffix("\n")

    def job(self, *words):
        """The status of another job, its output, and what it told."""
        return forked([f"--folder={self.folder}", *words])

    def answers(self):
        """The answers that wait, by their subjects; each subject once."""
        found = [read(path) for path in sorted((self.folder / "out").glob("*.eml"))]
        return {it["subject"]: it for it in found}

    def answer(self):
        """The text of the one answer that waits, which is removed."""
        (path,) = (self.folder / "out").glob("*.eml")
        it = read(path)
        path.unlink()
        return it

    def kept(self, number):
        """The mails of a bug's Maildir, as another reader has them; each is one file."""
        path = self.folder / "bugs" / f"{number % 100:02}" / str(number)
        mails = list(mailbox.Maildir(path, create=False)) if path.is_dir() else []
        files = [*path.glob("new/*"), *path.glob("cur/*")]
        if len(files) != len(mails):
            raise AssertionError(f"bug {number} has {len(mails)} mails in {len(files)} files")
        return mails

    def said(self, number):
        """How many mails and how many transcripts are kept with a bug."""
        transcripts = sum(it["x-boxhumilwa"] == "transcript" for it in self.kept(number))
        return len(self.kept(number)) - transcripts, transcripts

    def held(self):
        """The mails that are held."""
        path = self.folder / "held"
        return list(mailbox.Maildir(path, create=False)) if path.is_dir() else []

    def page(self, number):
        """The page of a bug of a desk in a file that nothing serves."""
        output, _ = desks.run(
            [desks.program(), self.where, "run"], f"@show {number}\n",
            status=0 if self.count() >= number else 1)
        return dict(line.partition(": ")[::2] for line in output.split("\n"))

    def pages(self):
        """The pages of all bugs, by one run."""
        script = "".join(f"@show {number}\n" for number in range(1, self.count() + 1))
        output, _ = desks.run([desks.program(), self.where, "run"], script)
        return re.split(r"^(?=Bug [0-9]+$)", output, flags=re.MULTILINE)[1:]

    def rows(self, query):
        """What a query of the desk's file answers."""
        connection = sqlite3.connect(f"file:{self.store}?mode=ro", uri=True)
        try:
            return connection.execute(query).fetchall()
        finally:
            connection.close()

    def count(self):
        """How many bugs the desk has."""
        return self.rows("SELECT count(*) FROM bugs")[0][0]


def read(path):
    """A mail of a file, as the standard library reads it."""
    import email
    import email.policy

    return email.message_from_bytes(path.read_bytes(), policy=email.policy.default)
