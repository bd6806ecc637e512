"""Tests of `find` over random desks: its answers are those of a plain reading of all pages.

The plain reading goes by the text of the program's pages and lists alone.
The same desk is asked in its file, served by its pages, and served by a copy of its file.
"""

import csv
import io
import itertools
import json
import os
import pathlib
import random
import re
import subprocess
import tempfile
import unittest

import desks
from finds import answers, found

# How many random desks there are, and how many pairs of options over each.
DESKS = int(os.environ.get("DESKS", "2"))
PAIRS = 6
BUGS, LINES = 40, 260
SEVERITIES = ("critical", "grave", "serious", "important", "normal", "minor", "wishlist")
TAGS = ("a11y", "d-i", "help", "moreinfo", "patch", "security", "wontfix")
PACKAGES = ("bar", "foo", "g++", "zed")
VERSIONS = ("1", "2", "3", "4", "2+s1", "9~rc1")
# Texts that name people, and by which names, in lower case, each is found.
PEOPLE = {
    "ann": ["ann"],
    "Ann Other <ann@foo.example>": ["ann other <ann@foo.example>", "ann other", "ann@foo.example"],
    "ANN@foo.example (Ann Öther)": [
        "ann@foo.example (ann öther)", "ann öther", "ann@foo.example"],
    '"Bo, B." <bo@bar.example>': ['"bo, b." <bo@bar.example>', '"bo, b."', "bo, b.",
                                  "bo@bar.example"],
    "bo@bar.example": ["bo@bar.example"],
    "%": ["%"], "Ünï \u202ecode": ["ünï \u202ecode"], "<>": ["<>"],
}
TITLES = (
    "crashes at start", "Crashes: always", "a*b [x]", "-", "=1+1", "x", "über 日本語", '"a", b',
    "tab\tand \u0085 and \u2028 line", "\u202eevil \U0001f41e", "Bug 3", "NO such thing", "it's '",
    "\\", "a]b", "crash \x9b31m")
# Patterns of a shell, and the same said otherwise.
PATTERNS = (
    ("*crash*", lambda title: "crash" in title), ("[Cc]rash*", lambda title: title[1:5] == "rash"),
    ("?", lambda title: len(title) == 1), ("-", lambda title: title == "-"),
    ("*[*]*", lambda title: "*" in title), ("*日本*", lambda title: "日本" in title),
    ("[!a-z]*", lambda title: not "a" <= title[0] <= "z"), ("*\t*", lambda title: "\t" in title),
    ("*", lambda title: True), ("", lambda title: False), ("crashes", lambda title: False),
    ("*a?b*", lambda title: re.search("a.b", title) is not None),
)
COLUMNS = {
    "Title": "title", "Package": "package", "Severity": "severity", "State": "state",
    "Archived": "archived", "Submitter": "submitter", "Owner": "owner", "Forwarded": "forwarded",
    "Tags": "tags", "Affects": "affects", "Found": "found", "Fixed": "fixed",
    "Blocked by": "blocked_by", "Blocks": "blocks", "Merged with": "merged_with"}
LISTS = ("tags", "affects", "found", "fixed", "blocked_by", "blocks", "merged_with")
NUMBERS = ("blocked_by", "blocks", "merged_with")


# Random desks.


def random_line(chance):
    """A line of a message, which the desk may refuse."""
    number, other = chance.randint(1, BUGS + 8), chance.randint(1, BUGS)
    version, person = chance.choice(VERSIONS), chance.choice([*PEOPLE, "-"])
    return chance.choice((
        f"close {number} {version}", f"close {number}", f"fixed {number} {version}",
        f"found {number} {version}", f"reopen {number}", f"owner {number} {person}",
        f"owner {number} {person}", f"submitter {number} {person}", f"noowner {number}",
        f"tags {number} {chance.choice('+-=')} {' '.join(chance.sample(TAGS, 2))}",
        f"tags {number} + {chance.choice(TAGS)}",
        f"forwarded {number} https://x.example/{other}", f"forwarded {number} -",
        f"merge {number} {other}", f"forcemerge {number} {other}", f"unmerge {number}",
        f"block {number} by {other}", f"block {number} by {other} {chance.randint(1, BUGS)}",
        f"unblock {number} by {other}", f"affects {number} {chance.choice(PACKAGES)}",
        f"affects {number} + {chance.choice(PACKAGES)}", f"clone {number} -1", f"archive {number}",
        f"archive {number}", f"unarchive {number}", f"retitle {number} {chance.choice(TITLES)}",
        f"reassign {number} {chance.choice(PACKAGES)}",
        f"severity {number} {chance.choice(SEVERITIES)}"))


def random_desk(chance):
    """A script of random bugs, which have all fields."""
    for package in PACKAGES:
        yield f"@branch {package}/4 {package}/3 {package}/2 {package}/1"
        yield f"@branch {package}/2+s1 {package}/2"
    for _ in range(BUGS):
        yield f"@from {chance.choice([*PEOPLE])}"
        version = chance.choice([*VERSIONS, "-", "-"])
        title, severity = chance.choice(TITLES), chance.choice(SEVERITIES)
        yield f"@report {chance.choice(PACKAGES)} {version} {severity} {title}"
    # Each message is short, since five lines with an unreadable word would end it.
    for number in range(LINES):
        if number % 4 == 0:
            yield "@from ann"
        yield random_line(chance)
    # A bug that is closed without a version is done everywhere, and so may be archived.
    for number in chance.sample(range(1, BUGS + 1), 4):
        yield from ("@from ann", f"reopen {number}", f"close {number}", f"archive {number}")


def made_desk(place, chance, name):
    """The file of a random desk, and how many numbers it has at most."""
    store = pathlib.Path(place, name)
    desks.run([desks.program(), f"--store={store}", "init"])
    script = "\n".join(random_desk(chance)).encode()
    ran = subprocess.run(
        [desks.program(), f"--store={store}", "run"], input=script, stdout=subprocess.PIPE,
        check=False)
    if ran.returncode != 1:
        raise AssertionError(f"status {ran.returncode}: {ran.stdout.decode()[-300:]}")
    return store, BUGS + ran.stdout.decode().count("> clone")


# The plain reading.


def plain_pages(store, last):
    """The fields of all pages, by number."""
    pages = {}
    lines = iter(answers(store, [f"@show {n}" for n in range(1, last + 1)]).split("\n"))
    for number in range(1, last + 1):
        heading = next(lines)
        if heading == f"Bug {number}":
            pages[number] = dict(next(lines).split(": ", 1) for _ in range(15))
        elif heading != f"NO no such bug {number}":
            raise AssertionError(heading)
    return pages


def plain_list(store, package, version):
    """The numbers of a list."""
    text = answers(store, [f"@list {package} {version}"])
    rows = re.findall("^ *([0-9]+)  [a-z]+ +(?:open|done)  ", text, re.MULTILINE)
    return {int(number) for number in rows}


def words_of(value):
    """The words of a field."""
    return [] if value == "-" else value.split(" ")


class Kinds:
    """The kinds of tests, each of which makes words and what they ask of a bug's fields."""

    def __init__(self, chance, store, folder):
        self.chance, self.store, self.folder = chance, store, folder
        self.files = itertools.count()

    def file(self, text):
        """A new file."""
        return desks.written(self.folder, f"file.{next(self.files)}", text)

    def names(self):
        """The names of the kinds."""
        return [name for name in dir(Kinds) if name.startswith("ask_")]

    def some(self, values):
        """One or two of these."""
        values = sorted(values)
        return self.chance.sample(values, min(len(values), self.chance.choice((1, 1, 2))))

    def ask_package(self):
        names = self.some(PACKAGES)
        return [f"--package={name}" for name in names], lambda n, f: f["Package"] in names

    def ask_affects(self):
        names = self.some(PACKAGES)
        return [f"--affects={name}" for name in names], lambda n, f: bool(
            set(names) & set(words_of(f["Affects"])))

    def person(self, option, field):
        names = self.some({name for names in PEOPLE.values() for name in names})
        words = [f"--{option}={self.chance.choice((name, name.upper()))}" for name in names]
        return words, lambda n, f: any(name in PEOPLE.get(f[field], ()) for name in names)

    def ask_submitter(self):
        return self.person("submitter", "Submitter")

    def ask_owner(self):
        return self.person("owner", "Owner")

    def ask_nobody(self):
        return ["--owner=-"], lambda n, f: f["Owner"] == "-"

    def ask_maintainer(self):
        owned = {package: self.chance.choice(list(PEOPLE)) for package in PACKAGES[:3]}
        path = self.file("# who\n\n" + "".join(
            f"{package}{self.chance.choice((' ', chr(9)))}{text}\n"
            for package, text in owned.items()))
        names = self.some({name for text in owned.values() for name in PEOPLE[text]})
        words = [f"--maintainers={path}", *(f"--maintainer={name}" for name in names)]
        return words, lambda n, f: any(
            name in PEOPLE.get(owned.get(f["Package"], "nobody's"), ()) for name in names)

    def ask_severity(self):
        names = self.some(SEVERITIES)
        words = [f"--severity={name}" for name in names]
        return words, lambda n, f: any(
            SEVERITIES.index(f["Severity"]) <= SEVERITIES.index(name) for name in names)

    def ask_tag(self):
        names = self.some(TAGS)
        return [f"--tag={name}" for name in names], lambda n, f: any(
            name in words_of(f["Tags"]) for name in names)

    def ask_not_tag(self):
        names = self.some(TAGS)
        return [f"--not-tag={name}" for name in names], lambda n, f: not any(
            name in words_of(f["Tags"]) for name in names)

    def ask_state(self):
        names = self.some(("open", "done"))
        return [f"--state={name}" for name in names], lambda n, f: f["State"] in names

    def which(self, option, holds):
        word = self.chance.choice(("", "=yes", "=no", "=both"))
        return [f"--{option}{word}"], lambda n, f: word == "=both" or holds(f) == (word != "=no")

    def ask_archived(self):
        return self.which("archived", lambda f: f["Archived"] == "yes")

    def ask_forwarded(self):
        return self.which("forwarded", lambda f: f["Forwarded"] != "-")

    def ask_merged(self):
        return self.which("merged", lambda f: f["Merged with"] != "-")

    def ask_blocked(self):
        return self.which("blocked", lambda f: f["Blocked by"] != "-")

    def ask_title(self):
        chosen = self.some(PATTERNS)
        words = [f"--title={pattern}" for pattern, _ in chosen]
        return words, lambda n, f: any(holds(f["Title"]) for _, holds in chosen)

    def ask_at(self):
        nodes = [f"{self.chance.choice(PACKAGES)}/{v}" for v in self.some(VERSIONS)]
        numbers = set().union(*(plain_list(self.store, node.split("/")[0], node) for node in nodes))
        return [f"--at={node}" for node in nodes], lambda n, f: n in numbers

    def ask_suite(self):
        words, numbers = [], set()
        for name in self.some(("a", "b")):
            entries = [(package, self.chance.choice(VERSIONS)) for package in self.some(PACKAGES)]
            text = "".join(f"{package} {version}\n" for package, version in entries)
            words.append(f"--suite={name}={self.file(text)}")
            numbers.update(*(plain_list(self.store, *entry) for entry in entries))
        return words, lambda n, f: n in numbers


def plain_answer(pages, asked):
    """The numbers of the bugs that meet all tests, archived ones where these are asked for."""
    words, tests = [], []
    for more, test in asked:
        words += more
        tests.append(test)
    if not any(word.startswith("--archived") for word in words):
        tests.append(lambda n, f: f["Archived"] == "no")
    return words, [n for n, f in pages.items() if all(test(n, f) for test in tests)]


def plain_value(column, text):
    """What stands on a page as JSON has it; marks go by their bytes there."""
    if column in LISTS:
        words = words_of(text)
        return [int(it) for it in words] if column in NUMBERS else sorted(words)
    if column == "archived":
        return text == "yes"
    return None if text == "-" and column in ("owner", "forwarded") else text


class RandomDesks(unittest.TestCase):
    """Random desks, each asked in its file, by its pages and by a copy of a served file."""

    def setUp(self):
        place = desks.folder()
        self.folder = place.__enter__()
        self.addCleanup(place.__exit__, None, None, None)

    def questions(self, chance, store, pages):
        """Each kind of test alone, and pairs of them: their words, and the plain answers.

        Two kinds of one option are no pair, since one value of an option is enough.
        """
        kinds = Kinds(chance, store, tempfile.mkdtemp(dir=self.folder))
        pairs = list(itertools.combinations(kinds.names(), 2))
        pairs.remove(("ask_nobody", "ask_owner"))
        for names in [*((name,) for name in kinds.names()), *chance.sample(pairs, PAIRS)]:
            yield plain_answer(pages, [getattr(kinds, name)() for name in names])

    def compare(self, places, questions):
        """Compares all answers at each place."""
        for words, numbers in questions:
            wanted = "".join(f"{number}\n" for number in numbers)
            for place in places:
                with self.subTest(words=words, place=place):
                    told = found(*place, "--numbers", *words)[0]
                    self.assertTrue(told == wanted, f"{told.split()} and not {numbers}")

    def compare_fields(self, place, pages):
        """Compares all that JSON and CSV say of all bugs with all pages."""
        wanted = [
            {"number": n} | {COLUMNS[name]: plain_value(COLUMNS[name], text)
                             for name, text in f.items()}
            for n, f in sorted(pages.items())]
        told = json.loads(found(*place, "--json", "--archived=both")[0])
        self.assertEqual(told, wanted)
        text = found(*place, "--csv", "--archived=both")[0]
        rows = list(csv.DictReader(io.StringIO(text, newline="")))
        for row, bug in zip(rows, wanted, strict=True):
            self.assertEqual(row, {
                name: "yes" if value is True else "no" if value is False
                else " ".join(map(str, value)) if isinstance(value, list)
                else "" if value is None
                else f"'{value}" if name != "number" and value[0] in "=+-@" else str(value)
                for name, value in bug.items()})

    def compare_orders(self, place, pages):
        """Compares the orders of answers."""
        for order, key in (
            ("number", lambda n, f: n), ("severity", lambda n, f: SEVERITIES.index(f["Severity"])),
            ("package", lambda n, f: f["Package"].encode()),
            ("waiting", lambda n, f: -len(words_of(f["Blocks"]))),
        ):
            wanted = sorted(pages, key=lambda n: (key(n, pages[n]), n))
            told = found(*place, "--numbers", "--archived=both", f"--sort={order}")[0]
            self.assertEqual(told, "".join(f"{number}\n" for number in wanted))

    def test_random(self):
        """Answers, fields and orders over random desks."""
        met, partial, asked = set(), 0, 0
        for seed in range(int(os.environ.get("SEED", "1")), DESKS + 1):
            chance = random.Random(seed)
            store, last = made_desk(self.folder, chance, f"desk.{seed}")
            pages = plain_pages(store, last)
            met.update(name for f in pages.values() for name in f if f[name] not in ("-", "no"))
            questions = list(self.questions(chance, store, pages))
            asked += len(questions)
            partial += sum(0 < len(numbers) < len(pages) // 2 for _, numbers in questions)
            by_file = (f"--store={store}",)
            self.compare([by_file], questions)
            self.compare_fields(by_file, pages)
            self.compare_orders(by_file, pages)
            with desks.served(store) as port:
                by_pages = (f"--port={port}", f"--last={last}")
                by_copy = (f"--port={port}", f"--store={store}")
                self.compare([by_pages, by_copy], questions)
                self.compare_fields(by_pages, pages)
                self.compare_orders(by_pages, pages)
        self.assertEqual(met, set(COLUMNS))
        self.assertGreater(partial, asked // 3)


if __name__ == "__main__":
    unittest.main()
