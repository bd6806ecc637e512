"""Places of copies: one of a given name, or a folder in which each has the name of its moment."""

import contextlib
import errno
import os
import re
import shutil
import stat
import time
from typing import NamedTuple

from .faults import Fault
from .snapshot import JOURNAL, LOG, cannot_write, real_path

# What SQLite and the program take for a part of the file that they stand beside.
PARTS = (LOG, JOURNAL)
NO_LINKS = (errno.EPERM, errno.EOPNOTSUPP, errno.ENOSYS, errno.EMLINK)
PRIVATE = re.compile(r"\.boxhumilwa-[0-9a-f]{16}")
# No copy takes so many seconds: an older private folder is of a run that was killed.
LEFT_SECONDS = 6 * 3600


class Place(NamedTuple):
    """Where a copy goes: its folder, and its name, or none where it is that of the moment."""

    folder: str
    name: str | None
    # What the names of the moments begin with, and what the user called the place.
    stem: str
    told: str

    def path(self) -> str:
        """The path of a copy that is made now."""
        return os.path.join(self.folder, self.name or moment_name(self.stem))

    def shown(self, path: str) -> str:
        """How the user would call that path."""
        return self.told if self.name else os.path.join(self.told, os.path.basename(path))


def moment_name(stem: str) -> str:
    """The name of a copy of this second."""
    return f"{stem}-{time.strftime('%Y%m%dT%H%M%SZ', time.gmtime())}.db"


def stem_of(store: str) -> str:
    """What the names of a desk's copies begin with."""
    return os.path.basename(os.path.abspath(store)).removesuffix(".db")


def find_place(store: str, word: str) -> Place:
    """The place that a word names."""
    path = os.path.realpath(word)
    if os.path.isdir(path) or word.endswith("/"):
        return Place(path, None, stem_of(store), word)
    return Place(os.path.dirname(path), os.path.basename(path), "", word)


def test_place(store: str, place: Place, is_forced: bool) -> None:
    """Tests early that a copy can take its place."""
    if not os.path.isdir(place.folder):
        raise Fault(f"{place.told}: its folder is not there: make it first")
    if place.name is None:
        return
    path, desk = place.path(), real_path(store)
    if path in (desk, *(desk + part for part in (*PARTS, "-shm"))):
        raise Fault(f"{place.told}: this is a file of the desk itself: name another place")
    for part in PARTS:
        if os.path.lexists(path + part):
            raise Fault(
                f"{place.told}{part}: this is the log of an earlier file, and would be taken for "
                "the copy's: remove it, or name another place")
    if os.path.lexists(path):
        test_old(place.told, path, is_forced)


def test_old(told: str, path: str, is_forced: bool) -> None:
    """Tests that what is there already may be replaced."""
    if not stat.S_ISREG(os.lstat(path).st_mode):
        raise Fault(f"{told}: it is no regular file: name another place")
    if not is_forced:
        raise taken(told)


def taken(told: str) -> Fault:
    """The fault of a place that is taken."""
    return Fault(f"{told}: it is there already: name another place, or replace it by --force")


# Putting a copy there.


def sync(path: str) -> None:
    """Has a file or a folder written to the disk."""
    handle = os.open(path, os.O_RDONLY | os.O_CLOEXEC)
    try:
        os.fsync(handle)
    finally:
        os.close(handle)


def put_new(made: str, path: str) -> None:
    """Gives a file its name, which nothing may have."""
    try:
        os.link(made, path)
    except OSError as error:
        # Some file systems have no second names.
        if error.errno not in NO_LINKS or os.path.lexists(path):
            raise
        os.rename(made, path)
    with contextlib.suppress(FileNotFoundError):
        os.unlink(made)


def put_at_moment(made: str, place: Place) -> str:
    """Gives a copy the name of this moment, or of the next second where that is taken."""
    while True:
        path = place.path()
        try:
            put_new(made, path)
            return path
        except FileExistsError:
            time.sleep(0.1)


def put(made: str, place: Place, mode: int, is_forced: bool) -> str:
    """Puts a copy with these rights at its place, synced before and after; answers its path."""
    try:
        os.chmod(made, mode)
        sync(made)
        path = place.path()
        if place.name is None:
            path = put_at_moment(made, place)
        elif is_forced:
            os.replace(made, path)
        else:
            put_new(made, path)
        sync(place.folder)
        return path
    except FileExistsError as error:
        raise taken(place.told) from error
    except OSError as error:
        raise cannot_write(place.folder, error) from error


# Earlier copies.


def is_file(path: str) -> bool:
    """Whether a regular file, and no link, is there."""
    try:
        return stat.S_ISREG(os.lstat(path).st_mode)
    except OSError:
        return False


def earlier(place: Place) -> list[str]:
    """The paths of a desk's copies in a folder that have names of moments, the oldest first."""
    name = re.compile(re.escape(place.stem) + r"-[0-9]{8}T[0-9]{6}Z\.db", re.ASCII)
    paths = (os.path.join(place.folder, it) for it in sorted(os.listdir(place.folder))
             if name.fullmatch(it))
    return [path for path in paths if is_file(path)]


def remove_earlier(place: Place, new: str, keep: int) -> list[str]:
    """Removes the oldest copies, so that with the new one so many are left; says which."""
    try:
        others = [path for path in earlier(place) if path != new]
        old = others[:max(0, len(others) - keep + 1)]
        for path in old:
            with contextlib.suppress(FileNotFoundError):
                os.unlink(path)
        return old
    except OSError as error:
        raise Fault(
            f"{place.told}: the copy is made, but an old one can't be removed: "
            f"{error.strerror}") from error


def remove_left(folder: str) -> None:
    """Removes the private folders of this user's runs that were killed."""
    oldest = time.time() - LEFT_SECONDS
    with contextlib.suppress(OSError), os.scandir(folder) as entries:
        for entry in entries:
            if PRIVATE.fullmatch(entry.name) and entry.is_dir(follow_symlinks=False):
                seen = entry.stat(follow_symlinks=False)
                if seen.st_uid == os.geteuid() and seen.st_mtime < oldest:
                    shutil.rmtree(entry.path, ignore_errors=True)
