"""Tests of how many statements a command takes over a file, counted by valgrind."""

import collections
import re
import shutil
import subprocess
import unittest

import desks
from desks import folder, make_desk

# Each statement is fetched from those that are compiled, and each transaction ends so.
STATEMENT = "sqlite::cache::Entry::fetch"
ENDS = ("sqlite::connection::Connection::commit", "sqlite_store::store::FileStoreStore::rollback")
SCRIPT = "@from ann\n@report foo 1 normal a\n@report foo 1 normal b\n"
# The next number is read once, so a command on another bug comes first.
BEFORE = "@from ann\nseverity 2 grave\n"


def calls_of(profile):
    """How often each function was called, of what callgrind wrote, whatever it is generic over."""
    names, calls, called = {}, collections.Counter(), ""
    for line in profile.splitlines():
        named = re.match(r"(c?)fn=\((\d+)\)(?: (\S+))?", line)
        if named:
            if named[3]:
                names[named[2]] = named[3].split("::<")[0]
            called = names[named[2]] if named[1] else called
        elif line.startswith("calls="):
            calls[called] += int(line[len("calls="):].split()[0])
    return calls


@unittest.skipUnless(shutil.which("valgrind"), "valgrind counts the calls")
class Statements(unittest.TestCase):
    """A change of the severity of a bug that is in a set by itself."""

    def counts(self, place, store, script):
        """The statements and the transactions of a run over a copy of a file."""
        copy, profile = f"{place}/copy.db", f"{place}/profile"
        shutil.copy(store, copy)
        words = ["valgrind", "--tool=callgrind", f"--callgrind-out-file={profile}"]
        subprocess.run(
            [*words, desks.program(), f"--store={copy}", "run"], input=script.encode(),
            capture_output=True, check=True, timeout=desks.TIME_LIMIT)
        with open(profile, encoding="utf-8") as file:
            calls = calls_of(file.read())
        return calls[STATEMENT], sum(calls[name] for name in ENDS)

    def test_counts(self):
        """Nine statements in two transactions where its set is not known, three in one where it is.

        The first command of a process takes one statement and one transaction more, which read the
        next number.
        """
        with folder() as place:
            store = make_desk(place, SCRIPT)
            scripts = ["@from ann\n", BEFORE]
            for severity in ("grave", "serious"):
                scripts.append(f"{scripts[-1]}severity 1 {severity}\n")
            counts = [self.counts(place, store, script) for script in scripts]
            more = [
                (after[0] - before[0], after[1] - before[1])
                for before, after in zip(counts, counts[1:])]
            self.assertEqual(more, [(10, 3), (9, 2), (3, 1)])


if __name__ == "__main__":
    unittest.main()
