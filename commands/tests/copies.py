"""What tests of `snapshot` share: runs of it, also without rights, and what a copy has to be."""

import contextlib
import hashlib
import importlib.machinery
import importlib.util
import io
import json
import os
import pathlib
import shutil
import sqlite3
import unittest
import unittest.mock

import desks
from boxhumilwa import command as shared
from desks import COMMANDS, folder, run

NOBODY = 65_534
PAGE = "Bug 1\nTitle: crashes at start\n"


def load_command():
    """The module of the command, which has no ending."""
    loader = importlib.machinery.SourceFileLoader("snapshot_command", str(COMMANDS / "snapshot"))
    module = importlib.util.module_from_spec(
        importlib.util.spec_from_loader(loader.name, loader))
    loader.exec_module(module)
    return module


def run_here(*words):
    """The exit status, the output and the error output of the command, without a process."""
    lines, errors = [], io.StringIO()
    with contextlib.redirect_stderr(errors), \
            unittest.mock.patch.object(shared, "write_lines", lines.extend):
        try:
            status = shared.carried_out(
                "snapshot", load_command().take, [str(word) for word in words])
        except SystemExit as end:
            status = end.code
    return status, "".join(f"{line}\n" for line in lines), errors.getvalue()


def copy(*words, status=0):
    """The output and the error output of the command, which has to end with this status."""
    ended, output, errors = run_here(*words)
    if ended != status:
        raise AssertionError(f"status {ended} and not {status}: {output}{errors}")
    return output, errors


def as_nobody(work):
    """What a work writes in a process of its own, which has no rights where it may give them up."""
    reader, writer = os.pipe()
    child = os.fork()
    if not child:
        with contextlib.suppress(BaseException):
            if os.geteuid() == 0:
                os.setgroups([])
                os.setgid(NOBODY)
                os.setuid(NOBODY)
            os.write(writer, json.dumps(work()).encode())
        os._exit(0)
    os.close(writer)
    with open(reader, encoding="utf-8") as told:
        text = told.read()
    os.waitpid(child, 0)
    return json.loads(text)


def answer(store, script):
    """What the program answers to a script over a file."""
    return run([desks.program(), f"--store={store}", "run"], script)[0]


def query(path, text):
    """The rows that SQLite gives."""
    connection = sqlite3.connect(f"file:{path}?mode=ro", uri=True)
    try:
        return connection.execute(text).fetchall()
    finally:
        connection.close()


def change(path, *texts):
    """Has SQLite change a file that nothing has open."""
    connection = sqlite3.connect(path, isolation_level=None)
    for text in texts:
        connection.execute(text)
    connection.close()


class Case(unittest.TestCase):
    """Tests with a desk and a folder for copies."""

    def setUp(self):
        place = folder()
        self.folder = place.__enter__()
        self.addCleanup(place.__exit__, None, None, None)
        self.place = os.path.join(self.folder, "copies")
        os.mkdir(self.place)
        self.target = os.path.join(self.place, "copy.db")

    def assert_none(self, *words, told, status=3):
        """A run makes nothing at all, and tells so in one line."""
        before = os.listdir(self.place)
        output, errors = copy(*words, status=status)
        self.assertEqual((output, errors.count("\n")), ("", 1))
        self.assertRegex(errors, told)
        self.assertEqual(os.listdir(self.place), before)

    def assert_copy(self, path, bugs):
        """A file alone is a desk with so many bugs, which SQLite and the program open."""
        place = os.path.dirname(path)
        names = os.listdir(place)
        self.assertIn(os.path.basename(path), names)
        self.assertFalse([it for it in names if it.endswith(("-wal", "-shm", "-journal"))])
        self.assertFalse([it for it in names if it.startswith(".")])
        self.assertEqual(query(path, "PRAGMA integrity_check"), [("ok",)])
        self.assertEqual(query(path, "SELECT count(*) FROM bugs"), [(bugs,)])
        again = os.path.join(self.folder, "again.db")
        shutil.copyfile(path, again)
        script = f"@show 1\n@show {bugs}\n"
        self.assertTrue(answer(again, script).startswith(PAGE))
        os.unlink(again)
        os.unlink(f"{again}-wal")


def state_of_files(place):
    """The state of the files of a folder, without its folders."""
    return {
        name: hashlib.sha256(pathlib.Path(place, name).read_bytes()).hexdigest()
        for name in os.listdir(place) if os.path.isfile(os.path.join(place, name))}
