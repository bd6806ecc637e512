"""What the gateway knows of the mails that it took: a SQLite file of its own.

A mail is noted before anything is done at the desk, with what is to be done, so that it is the same
when the mail comes again; a report also with the number that was the desk's next one.
"""

import contextlib
import fcntl
import json
import os
import sqlite3
import time
from collections.abc import Iterator
from typing import Any, NamedTuple

from .faults import Fault

# The states of a mail: it was noted; all was done; it was refused, or it is held.
BEGUN, TAKEN, REFUSED, HELD = "begun", "taken", "refused", "held"
SCHEMA = """
BEGIN IMMEDIATE;
CREATE TABLE IF NOT EXISTS mails (
  key TEXT PRIMARY KEY, state TEXT NOT NULL, time REAL NOT NULL, recipient TEXT NOT NULL,
  sender TEXT NOT NULL, next INTEGER, bug INTEGER, plan TEXT NOT NULL) STRICT;
CREATE INDEX IF NOT EXISTS mails_by_sender ON mails (sender, time);
CREATE INDEX IF NOT EXISTS mails_by_state ON mails (state) WHERE state <> 'taken';
CREATE INDEX IF NOT EXISTS mails_by_bug ON mails (bug);
CREATE TABLE IF NOT EXISTS answers (sender TEXT NOT NULL, time REAL NOT NULL) STRICT;
CREATE INDEX IF NOT EXISTS answers_by_sender ON answers (sender, time);
CREATE TABLE IF NOT EXISTS kept (
  bug INTEGER NOT NULL, name TEXT NOT NULL, bytes INTEGER NOT NULL,
  PRIMARY KEY (bug, name)) STRICT, WITHOUT ROWID;
CREATE TABLE IF NOT EXISTS total (
  id INTEGER PRIMARY KEY CHECK (id = 1), bytes INTEGER NOT NULL) STRICT;
INSERT OR IGNORE INTO total VALUES (1, 0);
PRAGMA user_version = 2;
COMMIT;
"""
VERSION = 2
COLUMNS = "key, state, time, recipient, sender, next, bug, plan"
SECONDS = 10
PAUSE = 0.02


class Row(NamedTuple):
    """What is noted of a mail: `next` is the desk's next number before a report, `bug` its bug."""

    key: str
    state: str
    time: float
    recipient: str
    sender: str
    next: int | None
    bug: int | None
    plan: dict[str, Any]


@contextlib.contextmanager
def locked(folder: str, seconds: float) -> Iterator[int]:
    """One delivery at a time: the lock of the folder, for which it waits no longer than this."""
    path = os.path.join(folder, "lock")
    try:
        os.makedirs(folder, exist_ok=True)
        handle = os.open(path, os.O_RDWR | os.O_CREAT | os.O_CLOEXEC, 0o666)
    except OSError as error:
        raise Fault(f"{path}: it can't be opened: {error.strerror}") from error
    try:
        wait_for_lock(handle, path, seconds)
        yield handle
    finally:
        os.close(handle)


def wait_for_lock(handle: int, path: str, seconds: float) -> None:
    """Takes the lock, as soon as the deliveries that began before have ended."""
    end = time.monotonic() + seconds
    while True:
        try:
            return fcntl.flock(handle, fcntl.LOCK_EX | fcntl.LOCK_NB)
        except BlockingIOError:
            if time.monotonic() > end:
                raise Fault(
                    f"{path}: another delivery has it for more than {seconds:g} seconds") from None
            time.sleep(PAUSE)
        except OSError as error:
            raise Fault(f"{path}: it can't be locked: {error.strerror}") from error


class Journal:
    """The journal of a folder."""

    def __init__(self, folder: str) -> None:
        self.path = os.path.join(folder, "journal.db")
        with self.faults():
            self.connection = sqlite3.connect(self.path, timeout=SECONDS, isolation_level=None)
            # No WAL: on a disk that is nearly full it would grow by each delivery that fails.
            self.connection.execute("PRAGMA locking_mode = EXCLUSIVE")
            self.connection.execute("PRAGMA journal_mode = TRUNCATE")
            self.connection.execute("PRAGMA synchronous = FULL")
            (version,) = self.connection.execute("PRAGMA user_version").fetchone()
            if version < VERSION:
                self.connection.executescript(SCHEMA)
        if version > VERSION:
            raise Fault(f"{self.path}: it is the journal of a later version: use that one")

    @contextlib.contextmanager
    def faults(self) -> Iterator[None]:
        """Tells what SQLite says as a fault."""
        try:
            yield
        except (sqlite3.Error, sqlite3.Warning) as error:
            raise Fault(f"{self.path}: the journal can't be used: {error}") from error

    def rows(self, condition: str, *values: object) -> list[Row]:
        """The mails that meet a condition, the first noted first."""
        with self.faults():
            found = self.connection.execute(
                f"SELECT {COLUMNS} FROM mails WHERE {condition} ORDER BY time, key",
                values).fetchall()
        return [Row._make([*row[:-1], json.loads(row[-1])]) for row in found]

    def change(self, text: str, *values: object) -> int:
        """Carries out a change, and answers how many rows it changed."""
        with self.faults():
            return self.connection.execute(text, values).rowcount

    # Mails.

    def mail(self, key: str) -> Row | None:
        """What is noted of a mail."""
        return next(iter(self.rows("key = ?", key)), None)

    def begin(self, row: Row) -> None:
        """Notes a mail before anything is done; the time of its first delivery stays."""
        self.change(
            f"INSERT INTO mails ({COLUMNS}) VALUES (?, ?, ?, ?, ?, ?, ?, ?) "
            "ON CONFLICT (key) DO UPDATE SET state = excluded.state, next = excluded.next, "
            "bug = excluded.bug, plan = excluded.plan",
            *row[:-1], json.dumps(row.plan))

    def set_bug(self, key: str, bug: int | None) -> None:
        """Notes the number that a report got; None says that it made no bug."""
        self.change(
            "UPDATE mails SET bug = ?, next = CASE WHEN ? IS NULL THEN NULL ELSE next END "
            "WHERE key = ?", bug, bug, key)

    def set_plan(self, key: str, plan: dict[str, Any]) -> None:
        """Notes what was decided of a mail."""
        self.change("UPDATE mails SET plan = ? WHERE key = ?", json.dumps(plan), key)

    def end(self, key: str, state: str) -> None:
        """Notes how a mail ended."""
        self.change("UPDATE mails SET state = ? WHERE key = ?", state, key)

    def pending(self) -> list[Row]:
        """The reports that may have made a bug whose number is not noted."""
        return self.rows("state = ? AND next IS NOT NULL AND bug IS NULL", BEGUN)

    def last_bug(self) -> int:
        """The highest number that is noted."""
        with self.faults():
            (last,) = self.connection.execute("SELECT max(bug) FROM mails").fetchone()
        return last or 0

    def count_of(self, sender: str, since: float, until: float) -> int:
        """How many mails of a sender were noted between two times."""
        with self.faults():
            (count,) = self.connection.execute(
                "SELECT count(*) FROM mails WHERE sender = ? AND time > ? AND time <= ?",
                (sender, since, until)).fetchone()
        return int(count)

    def note_answer(self, sender: str, moment: float) -> None:
        """Notes that an answer goes to a sender, also to a mail that comes again."""
        self.change("INSERT INTO answers VALUES (?, ?)", sender, moment)

    def answers_of(self, sender: str, since: float, until: float) -> int:
        """How many answers went to a sender between two times."""
        with self.faults():
            (count,) = self.connection.execute(
                "SELECT count(*) FROM answers WHERE sender = ? AND time > ? AND time <= ?",
                (sender, since, until)).fetchone()
        return int(count)

    # What is kept.

    def total(self) -> int:
        """The bytes of what is kept with bugs."""
        with self.faults():
            (count,) = self.connection.execute("SELECT bytes FROM total").fetchone()
        return int(count)

    def keep(self, bugs: list[int], files: list[tuple[str, int]]) -> None:
        """Counts once what is kept with bugs, all of which have the same files of these sizes."""
        with self.faults(), self.connection:
            self.connection.execute("BEGIN IMMEDIATE")
            for name, size in files:
                rows = [(bug, name, size if place == 0 else 0) for place, bug in enumerate(bugs)]
                added = self.connection.executemany(
                    "INSERT OR IGNORE INTO kept VALUES (?, ?, ?)", rows).rowcount
                if added == len(rows):
                    self.connection.execute("UPDATE total SET bytes = bytes + ?", (size,))

    def set_total(self, count: int) -> None:
        """Notes how many bytes are kept, as somebody has counted them."""
        self.change("UPDATE total SET bytes = ?", count)

    def close(self) -> None:
        """Closes it."""
        with contextlib.suppress(sqlite3.Error):
            self.connection.close()
