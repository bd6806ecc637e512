"""The folders of the gateway: a Maildir for each bug, mails that are held, and answers.

A file is written beside its place and renamed, so that a crash leaves it whole or absent; its name
is made of its mail, so that a second delivery adds nothing.
"""

import contextlib
import os
from collections.abc import Iterable, Iterator

from .faults import Fault

ROOM = 1_000_000_000
PARTS = ("tmp", "new", "cur")


def bug_folder(folder: str, number: int) -> str:
    """The Maildir of a bug."""
    return os.path.join(folder, "bugs", f"{number % 100:02}", str(number))


def sync_folder(path: str) -> None:
    """Has the names of a folder saved."""
    handle = os.open(path, os.O_RDONLY | os.O_DIRECTORY)
    try:
        os.fsync(handle)
    finally:
        os.close(handle)


def missing(path: str) -> list[str]:
    """The folders of a path that are not there, the uppermost first."""
    found: list[str] = []
    while path and not os.path.isdir(path):
        found.insert(0, path)
        path = os.path.dirname(path)
    return found


def make_folders(paths: list[str]) -> None:
    """Makes folders and those above them, and has their names saved."""
    made = [it for path in paths for it in missing(path) if not try_folder(it)]
    for above in dict.fromkeys(os.path.dirname(path) for path in made):
        sync_folder(above)


def try_folder(path: str) -> bool:
    """Makes a folder, and answers whether it was there."""
    try:
        os.mkdir(path)
    except FileExistsError:
        return True
    return False


def write_file(path: str, data: Iterable[bytes]) -> None:
    """Writes a file, and has it saved; nothing is left of it where that fails."""
    try:
        with open(path, "wb") as file:
            file.writelines(data)
            file.flush()
            os.fsync(file.fileno())
    except BaseException:
        with contextlib.suppress(OSError):
            os.unlink(path)
        raise


@contextlib.contextmanager
def told(path: str) -> Iterator[None]:
    """Tells what the system says as a fault."""
    try:
        yield
    except OSError as error:
        raise Fault(f"{path}: it can't be written: {error.strerror}") from error


def is_in(maildir: str, name: str) -> bool:
    """Whether a Maildir has a mail of this name, be it read or not."""
    if os.path.exists(os.path.join(maildir, "new", name)):
        return True
    with contextlib.suppress(FileNotFoundError):
        return any(it.partition(":")[0] == name for it in os.listdir(os.path.join(maildir, "cur")))
    return False


def keep(maildir: str, name: str, data: Iterable[bytes], other: str = "") -> str:
    """Puts a mail into a Maildir, unless it is there, and answers its path.

    Where the same mail is at another path already, it is only given one more name.
    """
    path = os.path.join(maildir, "new", name)
    with told(path):
        if is_in(maildir, name):
            return path
        make_folders([os.path.join(maildir, part) for part in PARTS])
        if other:
            with contextlib.suppress(OSError):
                os.link(other, path)
                sync_folder(os.path.dirname(path))
                return path
        written = os.path.join(maildir, "tmp", name)
        write_file(written, data)
        os.rename(written, path)
        sync_folder(os.path.dirname(path))
    return path


def put(folder: str, name: str, data: bytes) -> str:
    """Puts a file into a plain folder, in the place of one of this name, and answers its path."""
    path = os.path.join(folder, name)
    with told(path):
        make_folders([folder])
        written = os.path.join(folder, f".{name}.part")
        write_file(written, [data])
        os.rename(written, path)
        sync_folder(folder)
    return path


def remove_held(folder: str, key: str) -> None:
    """Removes a mail that was held before it was taken."""
    for path in (os.path.join(folder, "held", part, key) for part in PARTS):
        with contextlib.suppress(FileNotFoundError):
            os.unlink(path)


# Sizes.


def files_of(folder: str) -> Iterator[os.DirEntry[str]]:
    """The files in a folder and in those below it, without those that are being written."""
    waiting = [folder]
    while waiting:
        try:
            entries = list(os.scandir(waiting.pop()))
        except FileNotFoundError:
            continue
        except OSError as error:
            raise Fault(f"{error.filename}: it can't be read: {error.strerror}") from error
        waiting.extend(it.path for it in entries if it.is_dir(follow_symlinks=False))
        yield from (it for it in entries if it.is_file(follow_symlinks=False))


def size_of(folder: str) -> int:
    """The bytes of the files in a folder, each once, however many names it has."""
    sizes = {}
    for entry in files_of(folder):
        with contextlib.suppress(FileNotFoundError):
            state = entry.stat(follow_symlinks=False)
            sizes[state.st_ino] = state.st_size
    return sum(sizes.values())


def kept_mails(folder: str, number: int) -> list[str]:
    """The paths of what is kept with a bug, the first that came first."""
    maildir = bug_folder(folder, number)
    found = []
    for part in ("new", "cur"):
        with contextlib.suppress(FileNotFoundError):
            for entry in os.scandir(os.path.join(maildir, part)):
                if entry.is_file(follow_symlinks=False):
                    found.append((entry.stat().st_mtime_ns, entry.name, entry.path))
    return [path for *_, path in sorted(found)]
