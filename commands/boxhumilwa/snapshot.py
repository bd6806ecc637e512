"""A copy of a desk at one moment, also of one that is in use, made by reading alone.

While a process has a desk open, it changes the file only as it copies the log into it, and after
that the log has a new head before anything in it is written over.
Between two heads the log is only appended to.
So if the file and the head of the log are the same before and after both were copied, the copies
are the desk at one moment: what was being appended just then is cut off, as after a crash.
The head alone tells it, since the log has all that is written to the file under that head; the
file's time tells besides where a log has no head, or where something else writes to the file.

Other commands ask such a copy, which the program and SQLite open:

    with snapshot.private_copy(store) as path:
        desk = FileDesk(program, path)
"""

import contextlib
import errno
import os
import secrets
import shutil
import signal
import sqlite3
import stat
import tempfile
import time
from collections.abc import Callable, Iterator
from typing import IO, NamedTuple

from .faults import Fault

LOG, JOURNAL = "-wal", "-journal"
# How the log begins, with the salts that are new after each copying into the file.
HEAD_BYTES = 32
PIECE = 1 << 20
TRIES = 100
# A kernel's clock of files may stand still for some milliseconds, so a change that follows another
# one as fast is not seen by its time.
QUIET_NANOSECONDS = 50_000_000
LOOKS = 1_000
LOOK_PAUSE, HEAD_PAUSE, HEAD_SECONDS = 0.01, 0.001, 0.2
NO_ROOM = (errno.ENOSPC, errno.EDQUOT, errno.EFBIG)
BLOCKED = {signal.SIGINT, signal.SIGTERM, signal.SIGHUP}
# Is told how many bytes of how many were copied.
Told = Callable[[int, int], None]


# Two files at one moment.


class Look(NamedTuple):
    """What is seen of a desk's files: other values tell that one was changed."""

    changed: int
    touched: int
    size: int
    inode: int
    log_inode: int
    head: bytes


def real_path(store: str) -> str:
    """The path of a desk's file behind all links: its log stands beside that one."""
    return os.path.realpath(store)


def open_to_read(path: str) -> IO[bytes]:
    """Opens a regular file; something else at its place keeps nobody waiting."""
    handle = os.open(path, os.O_RDONLY | os.O_NONBLOCK | os.O_CLOEXEC)
    if not stat.S_ISREG(os.fstat(handle).st_mode):
        os.close(handle)
        raise Fault(f"{path}: it is no regular file: name the file of a desk")
    return open(handle, "rb", buffering=0)


def look_at_log(path: str) -> tuple[int, bytes]:
    """The inode of a log and its head, which are nothing where there is none."""
    try:
        with open_to_read(path + LOG) as log:
            return os.fstat(log.fileno()).st_ino, log.read(HEAD_BYTES)
    except FileNotFoundError:
        return 0, b""


def look(path: str) -> Look:
    """Looks at the files of a desk, beside which no program of another kind may be writing."""
    if os.path.lexists(path + JOURNAL):
        raise Fault(
            f"{path}{JOURNAL}: another program than the desk's writes to the file, or was stopped: "
            "let sqlite3 end that first")
    seen = os.stat(path)
    return Look(
        seen.st_mtime_ns, seen.st_ctime_ns, seen.st_size, seen.st_ino, *look_at_log(path))


def is_certain(seen: Look, now: int) -> bool:
    """Whether each later change shows: by a head, or by the time of a file at rest."""
    return len(seen.head) == HEAD_BYTES or all(
        abs(now - it) > QUIET_NANOSECONDS for it in (seen.changed, seen.touched))


def first_look(path: str) -> Look:
    """Looks at the files of a desk until each later change will show."""
    for _ in range(LOOKS):
        now = time.time_ns()
        seen = look(path)
        if is_certain(seen, now):
            return seen
        time.sleep(LOOK_PAUSE)
    raise too_fast(path)


def wait_for_head(path: str, head: bytes) -> None:
    """Waits a moment until the log has another head: the next one is farthest off then."""
    end = time.monotonic() + HEAD_SECONDS
    while look_at_log(path)[1] == head and time.monotonic() < end:
        time.sleep(HEAD_PAUSE)


def too_fast(path: str) -> Fault:
    """The fault of a desk that does not stand still."""
    return Fault(f"{path}: it changed too fast to be copied: try again when less is sent to it")


def write_piece(handle: int, piece: bytes, target: str) -> None:
    """Writes all of a piece to a copy."""
    left = memoryview(piece)
    try:
        while left:
            left = left[os.write(handle, left):]
    except OSError as error:
        raise cannot_write(folder_of(target), error) from error


def folder_of(target: str) -> str:
    """The folder that a private folder with a copy was made in, which a user knows."""
    return os.path.dirname(os.path.dirname(target))


def no_room(folder: str, reason: object) -> Fault:
    """The fault of a copy that finds no room."""
    return Fault(f"{folder}: there is no room for the copy: {reason}; make room and try again")


def cannot_write(folder: str, error: OSError) -> Fault:
    """The fault of a copy that can't be written into a folder."""
    reason = error.strerror or str(error)
    if error.errno in NO_ROOM:
        return no_room(folder, reason)
    return Fault(f"{folder}: no copy can be made in this folder: {reason}")


def copy_file(source: str, target: str, told: Told) -> None:
    """Copies a file, as long as it is when it is opened."""
    with open_to_read(source) as reading, private_file(target) as writing:
        size = left = os.fstat(reading.fileno()).st_size
        while left and (piece := reading.read(min(left, PIECE))):
            write_piece(writing, piece, target)
            left -= len(piece)
            told(size - left, size)


@contextlib.contextmanager
def private_file(path: str) -> Iterator[int]:
    """A new file that no other user can read, open to be written; one that is there is emptied."""
    try:
        handle = os.open(path, os.O_WRONLY | os.O_CREAT | os.O_TRUNC | os.O_CLOEXEC, 0o600)
    except OSError as error:
        raise cannot_write(folder_of(path), error) from error
    try:
        yield handle
    finally:
        os.close(handle)


def copy_log(path: str, target: str, told: Told) -> None:
    """Copies the log of a desk; where there is none the copy has none."""
    try:
        copy_file(path + LOG, target + LOG, told)
    except FileNotFoundError:
        with contextlib.suppress(FileNotFoundError):
            os.unlink(target + LOG)


def copy_pair(store: str, target: str, told: Told = lambda *_: None) -> int:
    """Copies a desk's file and its log as they are at one moment; answers how many tries it took.

    The copies are `target` and the log beside it.
    """
    path = real_path(store)
    try:
        for attempt in range(1, TRIES + 1):
            before = first_look(path)
            copy_file(path, target, told)
            copy_log(path, target, told)
            after = look(path)
            if after == before:
                return attempt
            wait_for_head(path, after.head)
    except OSError as error:
        raise cannot_read(store, error) from error
    raise too_fast(path)


def cannot_read(store: str, error: OSError) -> Fault:
    """The fault of a desk's file or log that can't be read."""
    path = os.fsdecode(error.filename) if error.filename else store
    if isinstance(error, FileNotFoundError):
        return Fault(f"{path}: the store's file is not there")
    if isinstance(error, PermissionError):
        return Fault(
            f"{path}: it can't be read: {error.strerror}; a copy needs to read the desk's file and "
            "its log")
    return Fault(f"{path}: it can't be read: {error.strerror or error}")


# One file of the two.


def fault_of_copy(store: str, target: str, error: sqlite3.Error) -> Fault:
    """The fault of a copy that SQLite can't work on."""
    if "full" in str(error) or "I/O" in str(error):
        return no_room(folder_of(target), error)
    return Fault(f"{store}: the store's file is no desk: {error}")


def merge_log(store: str, target: str) -> None:
    """Merges the log of a copy into it; the one file is all then, and can be read where it lies.

    In SQLite's other mode, which keeps a log, a reader has to make files beside it.
    """
    try:
        with contextlib.closing(sqlite3.connect(target, isolation_level=None)) as connection:
            connection.execute("PRAGMA synchronous = OFF")
            (mode,) = connection.execute("PRAGMA journal_mode = DELETE").fetchone()
    except sqlite3.Error as error:
        raise fault_of_copy(store, target, error) from error
    if mode != "delete" or os.path.exists(target + LOG):
        raise Fault(f"{store}: the log can't be merged into the copy")


def copy_merged(store: str, target: str, told: Told = lambda *_: None) -> int:
    """Copies a desk at one moment into one file, which only this user can read; says the tries."""
    tries = copy_pair(store, target, told)
    if not os.path.getsize(target):
        raise Fault(f"{store}: the store's file is no desk: it is empty")
    merge_log(store, target)
    return tries


# Places for copies.


@contextlib.contextmanager
def without_signals() -> Iterator[None]:
    """Holds back the signals that end a command, up to the end of the block."""
    before = signal.pthread_sigmask(signal.SIG_BLOCK, BLOCKED)
    try:
        yield
    finally:
        signal.pthread_sigmask(signal.SIG_SETMASK, before)


def make_folder(path: str) -> None:
    """Makes a folder that only this user can enter."""
    try:
        os.mkdir(path, 0o700)
    except OSError as error:
        raise cannot_write(os.path.dirname(path), error) from error


@contextlib.contextmanager
def private_folder(parent: str) -> Iterator[str]:
    """The path of a new folder that only this user can enter, which is removed in the end."""
    path = os.path.join(parent, f".boxhumilwa-{secrets.token_hex(8)}")
    try:
        make_folder(path)
        yield path
    finally:
        with without_signals():
            shutil.rmtree(path, ignore_errors=True)


@contextlib.contextmanager
def private_copy(store: str) -> Iterator[str]:
    """The path of a copy of a desk, in use or not, at one moment, which is removed in the end.

    It is one file in a temporary folder of its own, which the program and SQLite can open, and
    write to as well; nothing is written to the desk's own files.
    A desk that can't be copied is a Fault.
    """
    try:
        parent = tempfile.gettempdir()
    except OSError as error:
        raise Fault("there is no folder for a copy of the desk: name one by TMPDIR") from error
    with private_folder(parent) as folder:
        target = os.path.join(folder, "desk.db")
        copy_merged(store, target)
        yield target
