"""Tests of `snapshot`: what a copy is."""

import hashlib
import json
import os
import pathlib
import re
import subprocess
import unittest

import desks
from boxhumilwa import desk_contents, snapshot
from copies import PAGE, Case, answer, as_nobody, copy, query, run_here, state_of_files
from desks import COMMANDS, DAY, ROOT, command, make_desk, run, served

SCHEMAS = ROOT / "crates/example_tables/data/schemas"


def state(place):
    """What the files of a folder are: their names, bytes, rights and times."""
    return {
        path.name: (hashlib.sha256(path.read_bytes()).hexdigest(), path.stat().st_mode,
                    path.stat().st_mtime_ns)
        for path in pathlib.Path(place).iterdir()}


def killed_desk(place):
    """The file of a desk whose server was killed: all but its first tables is in the log."""
    store = make_desk(place, "")
    with desks.server_of(store) as (port, server):
        run([*command("send"), f"--port={port}", "--from=ann", "--report", "foo", "1.0-1", "grave",
             "crashes at start"])
        server.kill()
        server.wait()
    return store


class Copies(Case):
    """Copies that are made."""

    def test_still_desk(self):
        """A desk that nothing has open, with a log, an empty one, and none."""
        store = make_desk(self.folder, DAY)
        for log in ("as it is", "empty", "none"):
            if log == "empty":
                os.truncate(f"{store}-wal", 0)
            if log == "none":
                os.unlink(f"{store}-wal")
            os.rmdir(self.place)
            before = state(self.folder)
            os.mkdir(self.place)
            with self.subTest(log):
                self.assertEqual(
                    copy(f"--store={store}", self.target), (f"{self.target}: 5 bugs\n", ""))
                self.assert_copy(self.target, 5)
                os.unlink(self.target)
                os.rmdir(self.place)
                self.assertEqual(state(self.folder), before)
                os.mkdir(self.place)

    def test_killed(self):
        """What only the log has is in the copy, also through a link to the file."""
        place = os.path.join(self.folder, "real")
        os.mkdir(place)
        store = killed_desk(place)
        self.assertGreater(os.path.getsize(f"{store}-wal"), 4096)
        before = state(place)
        link = os.path.join(self.folder, "link.db")
        os.symlink(store, link)
        for path in (store, link):
            self.assertEqual(copy(f"--store={path}", "--force", self.target)[0],
                             f"{self.target}: 1 bug\n")
            self.assert_copy(self.target, 1)
        self.assertEqual(state(place), before)

    def test_served(self):
        """A desk in use, of which the copy and the desk go their own ways then."""
        store = make_desk(self.folder, DAY)
        with served(store) as port:
            send = [*command("send"), f"--port={port}", "--from=ann"]
            run([*send, "--id=m1", "retitle", "1", "x"])
            told = json.loads(copy("--json", f"--store={store}", self.target)[0])
            self.assertEqual(told, {
                "copy": self.target, "bugs": 5, "schema": 3, "tries": 1, "removed": []})
            run([*send, "--report", "foo", "-", "minor", "later"])
        self.assertIn("Title: x\n", answer(self.target, "@show 1\n"))
        self.assertEqual(query(self.target, "SELECT id FROM messages"), [("m1",)])
        self.assertEqual(query(self.target, "SELECT count(*) FROM bugs"), [(5,)])
        self.assertEqual(query(store, "SELECT count(*) FROM bugs"), [(6,)])

    def test_schemas(self):
        """Files of earlier schemas stay in theirs, and the program carries their copies over."""
        for number, name, bugs in ((1, "first.db", 4), (2, "second.db", 5)):
            told = json.loads(copy("--json", f"--store={SCHEMAS / name}", self.target)[0])
            self.assertEqual((told["bugs"], told["schema"]), (bugs, number))
            self.assertEqual(query(self.target, "SELECT schema FROM meta"), [(number,)])
            self.assertTrue(answer(self.target, "@show 1\n").startswith(PAGE))
            os.unlink(self.target)
            os.unlink(f"{self.target}-wal")

    def test_newest_schema(self):
        """A new desk of the program has the newest schema and its tables."""
        store = make_desk(self.folder, "")
        self.assertEqual(query(store, "SELECT schema FROM meta"), [(desk_contents.NEWEST,)])
        tables = query(store, "SELECT name FROM sqlite_master WHERE type = 'table'")
        self.assertEqual(
            {name for (name,) in tables}, desk_contents.needed_tables(desk_contents.NEWEST))

    def test_readers(self):
        """Who may only read a desk in use can copy it, and its folder stays as it is."""
        store = make_desk(self.folder, DAY)
        os.chmod(self.folder, 0o755)
        os.chmod(self.place, 0o777)
        with served(store):
            os.chmod(store, 0o444)
            os.chmod(f"{store}-wal", 0o444)
            os.chmod(self.folder, 0o555)
            before = state_of_files(self.folder)
            told = as_nobody(lambda: run_here(f"--store={store}", self.target))
            os.chmod(self.folder, 0o755)
            self.assertEqual(told, [0, f"{self.target}: 5 bugs\n", ""])
            self.assertEqual(state_of_files(self.folder), before)
        self.assert_copy(self.target, 5)

    def test_rights(self):
        """A copy has the rights of the file less the umask, or those that are given."""
        store = make_desk(self.folder, DAY)
        for rights, mask, words, wanted in (
            (0o600, 0o022, (), 0o600), (0o666, 0o027, (), 0o640), (0o755, 0o022, (), 0o644),
            (0o600, 0o077, ("--mode=640",), 0o640), (0o666, 0o022, ("--mode=0400",), 0o400),
        ):
            os.chmod(store, rights)
            before = os.umask(mask)
            try:
                copy(*words, "--force", f"--store={store}", self.target)
            finally:
                os.umask(before)
            self.assertEqual(os.stat(self.target).st_mode & 0o7777, wanted)

    def test_private(self):
        """While it is made nobody else can read it."""
        store = make_desk(self.folder, DAY)
        with snapshot.private_copy(str(store)) as path:
            self.assertEqual(os.stat(os.path.dirname(path)).st_mode & 0o777, 0o700)
            self.assertEqual(os.stat(path).st_mode & 0o777, 0o600)
            self.assertEqual(os.listdir(os.path.dirname(path)), ["desk.db"])
            self.assertEqual(query(path, "SELECT count(*) FROM bugs"), [(5,)])
            answer(path, "@from ann\n@report foo 1 minor x\n")
        self.assertFalse(os.path.exists(os.path.dirname(path)))
        self.assertEqual(query(store, "SELECT count(*) FROM bugs"), [(5,)])

    def test_reading_a_copy(self):
        """Who can't write beside a copy can ask it by SQLite."""
        store = killed_desk(self.folder)
        copy(f"--store={store}", self.target)
        os.chmod(self.folder, 0o755)
        os.chmod(self.target, 0o444)
        os.chmod(self.place, 0o555)
        told = as_nobody(lambda: query(self.target, "SELECT count(*) FROM bugs"))
        os.chmod(self.place, 0o755)
        self.assertEqual(told, [[1]])
        self.assertEqual(os.listdir(self.place), ["copy.db"])


class Manual(Case):
    """The manual's chapter on backup, word for word."""

    def commands_of(self, heading):
        """The commands of a chapter, each with the lines that follow it."""
        text = (ROOT / "docs/MANUAL.md").read_text(encoding="utf-8")
        chapter = re.search(rf"^### {heading}\n(.*?)^##", text, re.MULTILINE | re.DOTALL)[1]
        lines = re.findall(r"^    (.*)$", chapter, re.MULTILINE)
        commands = []
        for line in lines:
            if line.startswith("$ "):
                commands.append((line.removeprefix("$ "), []))
            else:
                commands[-1][1].append(line)
        return commands

    def test_backup(self):
        """Its commands give what it says, beside a server, and the desk is restored."""
        self.folder = os.path.join(self.folder, "manual")
        os.mkdir(self.folder)
        os.symlink(COMMANDS, os.path.join(self.folder, "commands"))
        store = make_desk(self.folder, desks.RELEASE_DAY)
        commands = self.commands_of("Backup")
        self.assertGreater(len(commands), 3)
        before = answer(store, "@show 1\n@show 2\n@show 3\n")
        with served(store) as port:
            for words, lines in commands:
                if words.startswith("rm "):
                    break
                self.check(words, lines)
            run([*command("send"), f"--port={port}", "--from=ann", "retitle", "1", "lost"])
        begin = [words for words, _ in commands].index(words)
        for words, lines in commands[begin:]:
            self.check(words, lines)
        self.assertEqual(answer(store, "@show 1\n@show 2\n@show 3\n"), before)

    def check(self, words, lines):
        """A command prints the lines that follow it in the manual."""
        ran = subprocess.run(
            ["sh", "-c", words], cwd=self.folder, capture_output=True, text=True, check=False,
            env=os.environ | {"PYTHONDONTWRITEBYTECODE": "1"})
        self.assertEqual(ran.returncode, 0, f"{words}: {ran.stderr}")
        moment = r"desk-[0-9]{8}T[0-9]{6}Z"
        told = re.sub(moment, "MOMENT", ran.stdout)
        wanted = "".join(f"{line}\n" for line in lines)
        self.assertEqual(told, re.sub(moment, "MOMENT", wanted), words)


if __name__ == "__main__":
    unittest.main()
