"""Files that a tool makes: each is there whole, or not at all."""

import contextlib
import os
import stat
import tempfile
from collections.abc import Iterable

from .faults import Fault


def test_path(path: str, what: str) -> None:
    """Tests early that a file can take the place of what is there; `what` names it."""
    if os.path.exists(path) and not stat.S_ISREG(os.stat(path).st_mode):
        raise Fault(f"{path}: {what} can't be written: it is no regular file")
    folder = os.path.dirname(os.path.realpath(path))
    if not os.access(folder, os.W_OK | os.X_OK):
        raise Fault(f"{path}: {what} can't be written: its folder is not there or not writable")


def write_lines(path: str, lines: Iterable[str], what: str) -> None:
    """Writes the lines of a file, which is there whole or not at all."""
    place = os.path.realpath(path)
    written = None
    try:
        handle, written = tempfile.mkstemp(dir=os.path.dirname(place), prefix=".boxhumilwa-")
        with open(handle, "w", encoding="utf-8") as file:
            file.writelines(f"{line}\n" for line in lines)
        os.chmod(written, 0o666 & ~umask())
        os.replace(written, place)
        written = None
    except OSError as error:
        raise Fault(f"{path}: {what} can't be written: {error.strerror}") from error
    finally:
        if written:
            with contextlib.suppress(OSError):
                os.unlink(written)


def umask() -> int:
    """The rights that new files of this process don't have."""
    mask = os.umask(0)
    os.umask(mask)
    return mask
