"""A desk of its own that has the branches which are handed in.

`@branch` lines that are handed in are sent to a new desk in a file of its own, whose table is read
then: so the program says which of them are taken.
"""

import pathlib
import re
import subprocess
import tempfile
from collections.abc import Callable, Iterator

from .answers import next_line
from .desk_file import asked, why_ended
from .faults import Fault
from .indexes import numbered_lines

BRANCH = re.compile(r"@branch(?=[ \t\r\n]|$)")
TAKEN = "OK"


def branch_lines(path: str) -> Iterator[tuple[int, str]]:
    """The `@branch` lines of a script, each with its number."""
    for number, line in numbered_lines(path):
        if BRANCH.match(line):
            yield number, line.removesuffix("\n")


def make_desk(program: str, store: str) -> None:
    """Makes the file of a new desk."""
    with tempfile.TemporaryFile() as errors:
        try:
            ran = subprocess.run(
                [program, f"--store={store}", "init"], stdout=subprocess.DEVNULL, stderr=errors)
        except OSError as error:
            raise Fault(f"{program}: it can't be run: {error.strerror}") from error
        if ran.returncode:
            raise Fault(why_ended(program, ran.returncode, errors))


def send_branches(program: str, store: str, path: str, tell: Callable[[str], None]) -> None:
    """Sends the `@branch` lines of a script to a desk, and tells which are left out."""
    lines = list(branch_lines(path))
    answers = asked(
        program, store, (line for _, line in lines),
        lambda answered: (next_line(answered) for _ in lines))
    for (number, _), answer in zip(lines, answers, strict=True):
        if answer != TAKEN:
            tell(f"{path}:{number}: the branch is left out: {answer}")
    if not lines:
        tell(f"{path}: there is no @branch line in it")


class HandedIn:
    """Branches that are handed in: a desk of their own, in a folder that is removed at the end."""

    def __init__(self, program: str, path: str, tell: Callable[[str], None]) -> None:
        self.folder = tempfile.TemporaryDirectory(prefix="graph-")
        self.store = str(pathlib.Path(self.folder.name, "branches.db"))
        try:
            make_desk(program, self.store)
            send_branches(program, self.store, path, tell)
        except BaseException:
            self.close()
            raise

    def close(self) -> None:
        """Removes the folder."""
        self.folder.cleanup()
