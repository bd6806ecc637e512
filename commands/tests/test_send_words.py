"""Tests that `send` cuts words into lines as the program does.

The program takes random lists of words over a file, each as a message with an id; the text that it
keeps of the message has to be the lines that `send` makes of the words.
LISTS in the environment says how many.
"""

import os
import pathlib
import random
import sqlite3
import subprocess
import tempfile
import unittest

import desks
from compare_words import BAD_BUGS, COMMANDS, NO_STOPS, STOPS, STRANGE, TEXTS, UNKNOWN
from reading_lines import NOTHING, Refused, read_line

from boxhumilwa.faults import BadWords
from boxhumilwa.words import lines_of

LISTS = int(os.environ.get("LISTS", "300"))
MEMORY = pathlib.Path("/dev/shm")
# So many lists go to one desk, since a bigger one takes longer to open.
BATCH = 250
BUGS = ("1", "#2", "007", "-1", "#-3", "43", "999999999")
ITS = ("it", "it", "it", "IT", "It", "it,", "#it", "its")
SEPARATORS = (",", ".", "", ",,", ".,", ",.", " ", "\t", "..")
TAKING = ("merge", "forcemerge", "Block", "unblock", "merge,", "BLOCK", "m\u0435rge")
# Words of examples, with the lines that the manual's rules make of them, or none.
EXAMPLES = (
    ("severity 5 normal , merge it 43 , retitle it blah",
     ["severity 5 normal", "merge 5 43", "retitle 43 blah"]),
    ("reassign 5 foo . retitle it crash", ["reassign 5 foo", "retitle 5 crash"]),
    ("clone 5 -1 , reassign -1 foo", ["clone 5 -1", "reassign -1 foo"]),
    ("block 5 by 6 7 , owner 5 !", ["block 5 by 6 7", "owner 5 !"]),
    ("close 1, close 2", ["close 1", "close 2"]),
    ("block 1 by 2,3 , severity it grave", ["block 1 by 2,3", "severity 1 grave"]),
    ("block 1 by 2 3 , severity it grave", ["block 1 by 2 3", "severity 3 grave"]),
    ("MERGE 4 it", ["MERGE 4 4"]), ("tags 5 it", ["tags 5 it"]), ("it", ["it"]),
    ("close it", None), (", .", None), ("close 1 , a\x0bb", None), ("close 1\n2", None),
)


def random_word(chance):
    """A random word, which may be empty."""
    sort = chance.randrange(12)
    if sort < 4:
        return chance.choice((BUGS, ITS)[sort % 2])
    if sort < 7:
        return chance.choice((SEPARATORS, TAKING, list(COMMANDS))[sort - 4])
    if sort == 7:
        return chance.choice(BUGS) + chance.choice((",", ".", ",,", ""))
    if sort == 8:
        return "".join(chance.choice(STRANGE) for _ in range(chance.randint(1, 3)))
    return chance.choice(chance.choice((BAD_BUGS, TEXTS, UNKNOWN, STOPS, NO_STOPS)))


def random_words(chance):
    """A random list of words that the program takes for a message."""
    while True:
        words = [random_word(chance) for _ in range(chance.randint(1, 12))]
        is_job = len(words) == 1 and words[0] in ("run", "init", "serve")
        if not (words[0].startswith("-") or is_job or any("\x00" in word for word in words)):
            return words


def wanted(words):
    """The text of the message that `send` makes of words, or None."""
    try:
        return "\n".join(lines_of(words))
    except BadWords:
        return None


def has_outcome(line):
    """Whether a line is neither blank nor a comment."""
    try:
        return read_line(line) != NOTHING
    except Refused:
        return True


def taken(store, word, words):
    """The exit status and the output of the program that takes words as a message with an id."""
    ran = subprocess.run(
        [desks.program(), f"--store={store}", "--from=ann", f"--id={word}", *words],
        capture_output=True, timeout=desks.TIME_LIMIT)
    return ran.returncode, ran.stdout.decode()


def kept_texts(store):
    """The texts of the messages that a desk keeps, by their ids."""
    connection = sqlite3.connect(f"file:{store}?mode=ro", uri=True)
    try:
        rows = connection.execute("SELECT id, message FROM messages")
        return {word: message.decode() for word, message in rows}
    finally:
        connection.close()


class Words(unittest.TestCase):
    """The lines of words."""

    def test_examples(self):
        """The examples of the manual, and others by its rules."""
        for words, lines in EXAMPLES:
            with self.subTest(words):
                expected = None if lines is None else "\n".join(lines)
                self.assertEqual(wanted(words.split(" ")), expected)

    def test_random(self):
        """Random lists of words."""
        chance, kept, refused = random.Random(62), 0, 0
        for start in range(0, LISTS, BATCH):
            lists = [random_words(chance) for _ in range(min(BATCH, LISTS - start))]
            with tempfile.TemporaryDirectory(dir=MEMORY if MEMORY.is_dir() else None) as place:
                texts = self.compare(desks.make_desk(place, ""), lists)
            kept += sum(text is not None for text in texts)
            refused += len(texts) - len([text for text in texts if text])
        self.assertGreater(kept, LISTS // 3)
        self.assertGreater(refused, LISTS // 100)

    def compare(self, store, lists):
        """The texts that `send` makes of lists, each of which is that of the program."""
        texts = [wanted(words) for words in lists]
        answers = [taken(store, f"m{place}", words) for place, words in enumerate(lists)]
        told = kept_texts(store)
        for place, (words, text, (status, output)) in enumerate(zip(lists, texts, answers)):
            with self.subTest(words=words):
                self.assertEqual(status == 2, text is None)
                lines = [line for line in (text or "").split("\n") if has_outcome(line)]
                self.assertEqual(told.get(f"m{place}"), text if lines else None)
                self.assertTrue(output.startswith(f"> {lines[0]}\n" if lines else ""))
                self.assertEqual(bool(output), bool(lines))
        return texts


if __name__ == "__main__":
    unittest.main()
