"""Examples of the reading: scripts and the answers that they must have."""

import unittest

from compare_words import BAD_VERSIONS, VERSION_ROWS
from reading_examples import EXAMPLES
from reading_id_examples import ID_EXAMPLES
from reading_ids import IN_USE, NO_ID, new_store, send, words_answer
from reading_lines import Refused, number_word, read_line
from reading_script import read_script, take_directive
from reading_versions import (
    Ancestry,
    BranchRefused,
    compare_nodes,
    compare_versions,
    is_package_name,
    is_version,
    read_node,
    status,
)


# Lines after `affects 1 baz bar`: their answers, and the packages that bug 1 of `foo` then affects.
AFFECTS_ROWS = (
    ("affects 1", "OK 1", "-"),
    ("affects 1 ,", "OK 1", "-"),
    ("affects 1 =", "OK 1", "-"),
    ("affects 1 ,=,", "OK 1", "-"),
    ("affects 1 zed", "OK 1", "bar baz zed"),
    ("affects 1 + zed aa", "OK 1", "aa bar baz zed"),
    ("affects 1 +zed aa", "OK 1", "aa bar baz zed"),
    ("affects 1 +zed,aa", "OK 1", "aa bar baz zed"),
    ("affects 1 , + ,zed , bar,", "OK 1", "bar baz zed"),
    ("affects 1 zed zed", "OK 1", "bar baz zed"),
    ("affects 1 foo", "OK 1", "bar baz foo"),
    ("affects 1 g++", "OK 1", "bar baz g++"),
    ("affects 1 " + "p" * 100, "OK 1", "bar baz " + "p" * 100),
    ("affects 1 bar", "OK, no change.", "bar baz"),
    ("affects 1 + bar baz bar", "OK, no change.", "bar baz"),
    ("affects 1 - bar", "OK 1", "baz"),
    ("affects 1 -bar", "OK 1", "baz"),
    ("affects 1 -bar bar", "OK 1", "baz"),
    ("affects 1 - bar baz", "OK 1", "-"),
    ("affects 1 -bar baz zed", "OK 1", "-"),
    ("affects 1 -zed", "OK, no change.", "bar baz"),
    ("affects 1 = zed bar", "OK 1", "bar zed"),
    ("affects 1 =zed", "OK 1", "zed"),
    ("affects 1 =bar,baz,bar", "OK, no change.", "bar baz"),
    ("AFFECTS #001 - bar", "OK 1", "baz"),
    (" Affects\t1\t=\tzed ", "OK 1", "zed"),
    ("affects 1 src:zed", "OK 1", "bar baz zed"),
    ("affects 1 -src:bar", "OK 1", "baz"),
    ("affects 1 - src:bar src:baz", "OK 1", "-"),
    ("affects 1 =src:zed,src:zed zed", "OK 1", "zed"),
    ("affects 1 src", "OK 1", "bar baz src"),
    ("affects 1 SRC:zed", "NO bad package name", "bar baz"),
    ("affects 1 = Src:zed", "NO bad package name", "bar baz"),
    ("affects 1 src:src:zed", "NO bad package name", "bar baz"),
    ("affects 1 src:", "NO bad package name", "bar baz"),
    ("affects 1 = src: zed", "NO bad package name", "bar baz"),
    ("affects 1 src:-bar", "NO bad package name", "bar baz"),
    ("affects 1 zed -bar", "NO bad package name", "bar baz"),
    ("affects 1 +zed -bar", "NO bad package name", "bar baz"),
    ("affects 1 zed =", "NO bad package name", "bar baz"),
    ("affects 1 = =", "NO bad package name", "bar baz"),
    ("affects 1 - - bar", "NO bad package name", "bar baz"),
    ("affects 1 - -bar", "NO bad package name", "bar baz"),
    ("affects 1 --bar", "NO bad package name", "bar baz"),
    ("affects 1 =-", "NO bad package name", "bar baz"),
    ("affects 1 + -", "NO bad package name", "bar baz"),
    ("affects 1 zed z", "NO bad package name", "bar baz"),
    ("affects 1 zed Bar", "NO bad package name", "bar baz"),
    ("affects 1 foo/1", "NO bad package name", "bar baz"),
    ("affects 1 #zed", "NO bad package name", "bar baz"),
    ("affects 1 " + "p" * 101, "NO bad package name", "bar baz"),
    ("affects 1 zéd", "NO bad package name", "bar baz"),
    ("affects 9 z", "NO bad package name", "bar baz"),
    ("affects -1 zed -", "NO bad package name", "bar baz"),
    ("affects 9 zed", "NO no such bug 9", "bar baz"),
    ("affects 9", "NO no such bug 9", "bar baz"),
    ("affects -1 = zed", "NO no such name -1", "bar baz"),
    ("affects 1 +", "NO malformed command", "bar baz"),
    ("affects 1 -", "NO malformed command", "bar baz"),
    ("affects 1 ,-,", "NO malformed command", "bar baz"),
    ("affects", "NO malformed command", "bar baz"),
    ("affects ,", "NO malformed command", "bar baz"),
    ("affects zed", "NO malformed command", "bar baz"),
    ("affects - 1 zed", "NO malformed command", "bar baz"),
    ("affects 0 zed", "NO malformed command", "bar baz"),
    ("affects 1, zed", "NO malformed command", "bar baz"),
    ("affects 1,zed", "NO malformed command", "bar baz"),
    ("affects x z", "NO malformed command", "bar baz"),
    ("affects 1 zed\x07", "NO malformed command", "bar baz"),
    ("affects 1 z \x7f", "NO malformed command", "bar baz"),
    ("affect 1 zed", "NO unknown command", "bar baz"),
    ("affects,1 zed", "NO unknown command", "bar baz"),
)


def after_step(store, step):
    """The store after a step of an example of ids, what it answered, and what it has to answer."""
    if len(step) == 2:
        desk, _, answer, _ = take_directive(store.desk, "ann", step[0])
        return store._replace(desk=desk), answer, f"{step[1]}\n"
    word, sender, text, answers, *most = step
    store, answer = send(store, word, sender, text, *most)
    if answer in (NO_ID, IN_USE):
        return store, answer, answers
    lines = answer[1].split("\n")[:-1]
    ends = {"Stopped.": "stopped", "Too many unreadable lines.": "unreadable"}
    end = ends.get(answers[-1] if answers else None, "cut" if most else "all")
    told = tuple(line for line in lines if not line.startswith("> "))
    return store, (answer[0], told), (end, answers)


def cut_example(example):
    """The script of an example, and its answers without the echoes of the lines."""
    lines, answers = [], []
    for row in example.strip("\n").split("\n"):
        if not row or row.startswith(" "):
            answers += [row[1:]] if row else []
            continue
        line, _, answer = row.partition(" ->")
        lines.append(line)
        answers += [answer[1:]] if answer else []
    return "".join(f"{line}\n" for line in ["@from ann", *lines]), answers


class Examples(unittest.TestCase):
    """The answers to examples."""

    def test_examples(self):
        """Each example has its answers."""
        for name, example in EXAMPLES.items():
            with self.subTest(name):
                script, answers = cut_example(example)
                output, _ = read_script(script.encode())
                lines = output.decode().split("\n")[:-1]
                self.assertEqual([line for line in lines if not line.startswith("> ")], answers)

    def test_ids(self):
        """Each step of an example of ids has its answer."""
        self.assertGreaterEqual(len(ID_EXAMPLES), 25)
        for name, steps in ID_EXAMPLES.items():
            store = new_store()
            for place, step in enumerate(steps):
                with self.subTest(name, place=place):
                    store, answer, expected = after_step(store, step)
                    self.assertEqual(answer, expected)

    def test_words_with_ids(self):
        """The whole answers of a message in words: the output and the exit status."""
        store, text = new_store(), "clone 1 -1\nretitle -1 x"
        refused = "> clone 1 -1\nNO no such bug 1\n> retitle -1 x\nNO no such name -1\n"
        for word, sender, output in (
            ("m1", "ann", (refused, 1)), ("m1", "ann", (refused, 1)),
            ("m1", "bob", ("NO id in use\n", 1)), ("m 1", "ann", ("", 2)), ("", "ann", ("", 2)),
        ):
            store, answer = send(store, word, sender, text)
            self.assertEqual(words_answer(answer), output)
        for _ in range(2):
            store, answer = send(store, "m2", "ann", " Thanks \r\nx")
            self.assertEqual(answer, ("stopped", ">  Thanks \nStopped.\n"))
            self.assertEqual(words_answer(answer), (">  Thanks \nStopped.\n", 0))

    def test_affects(self):
        """Lines of `affects`, and what the page then says."""
        start = "@report foo 1 normal a\naffects 1 baz bar\n"
        before = ["OK 1", "> affects 1 baz bar", "OK 1"]
        for line, answer, affected in AFFECTS_ROWS:
            with self.subTest(line):
                output, _ = read_script(f"{start}{line}\n@show 1\n".encode())
                lines = output.decode().split("\n")[:-1]
                page = lines[len(before) + 2 :]
                self.assertEqual(lines[: -len(page)], before + [f"> {line}", answer])
                self.assertEqual(len(page), 16)
                self.assertEqual(page[9:11], ["Tags: -", f"Affects: {affected}"])

    def test_whole_scripts(self):
        """Echoes, stops and ends."""
        for script, answer in (
            (b"", (b"", 0)),
            (
                b"@from ann\n@report foo 1.0-1 normal foo crashes\nseverity 1 grave\n"
                b"severity 2 grave\nthanks\nseverity 1 minor\n",
                (
                    b"OK 1\n> severity 1 grave\nOK 1\n> severity 2 grave\nNO no such bug 2\n"
                    b"> thanks\nStopped.\n",
                    1,
                ),
            ),
            (
                b"@from ann\n@report foo 1.0-1 normal foo crashes\n# raise\nseverity 1 grave\n"
                b"close 1\nthanks",
                (
                    b"OK 1\n> severity 1 grave\nOK 1\n> close 1\nOK 1\n> thanks\nStopped.\n",
                    0,
                ),
            ),
            (b"  Thank \t You \r\nx", (b">   Thank \t You \nStopped.\n", 0)),
            (b"#" * 65_536 + b"\n", (b"", 0)),
            (b"@x\nquit\n" + b"#" * 65_537 + b"\n", (b"Bad directive.\n", 3)),
            (b"@x\nquit\n\xff\n@y\n", (b"Bad directive.\n", 3)),
            (b"a\r\r\n\r", (b"> a\r\nNO unknown command\n", 1)),
        ):
            with self.subTest(script[:100]):
                self.assertEqual(read_script(script), answer)

    def test_last_number(self):
        """A desk that begins with the last number."""
        script = b"@report foo 1 normal a\n" * 2 + b"clone 999999999 -1\n"
        answer = b"OK 999999999\nNO no bug number is left\n"
        answer += b"> clone 999999999 -1\nNO no bug number is left\n"
        self.assertEqual(read_script(script, 999_999_999), (answer, 1))

    def test_texts(self):
        """Texts at their limit."""
        start = b"@from ann\n@report foo 1 normal a\n"
        long_text, longest = b"x" * 201, "é".encode() * 100
        output, _ = read_script(start + b"retitle 1 " + long_text)
        self.assertTrue(output.endswith(b"\nNO text too long\n"))
        output, _ = read_script(start + b"retitle 1 " + longest)
        self.assertTrue(output.endswith(b"\nOK 1\n"))

    def test_versions(self):
        """Versions and their order."""
        for left, right, order in (
            ("1.0~rc1", "1.0", -1), ("1.0", "1.0-0", 0), ("1.0-0", "0:1.00", 0),
            ("0:1.00", "1.0-1", -1), ("1.0-1", "1.0+b1", -1), ("~~", "~~a", -1), ("~~a", "~", -1),
            ("a~", "a", -1), ("a", "b", -1), ("Z", "a", -1), ("a", "+", -1), ("1", "a", -1),
        ):
            self.assertEqual(compare_versions(left, right), order, (left, right))
            self.assertEqual(compare_versions(right, left), -order, (left, right))
        for lower, higher in (("0:1.00", "1.0"), ("1.0", "1.0-0")):
            self.assertEqual(compare_nodes(("foo", lower), ("foo", higher)), -1)
        for text in ("", ":1", "1.0-", "1:", "1.0_2", "-1", "1" * 101, "1:1-1:1", "a:1", "é"):
            self.assertFalse(is_version(text), text)
        for text in ("1" * 100, "1:2:3", "1-2-3", "~", "0-+", "00:a"):
            self.assertTrue(is_version(text), text)
        for text in ("a", "Foo", "+x", "", "a" * 101, "a_b"):
            self.assertFalse(is_package_name(text), text)
        for text in ("g++", "0ad", "a" * 100):
            self.assertTrue(is_package_name(text), text)
        self.assertIsNone(read_node("foo"))
        for row in VERSION_ROWS:
            for version in row:
                self.assertEqual(compare_versions(version, row[0]), 0, version)
        for text in BAD_VERSIONS:
            self.assertFalse(is_version(text), text)

    def test_ancestry(self):
        """Branches, lines, heads and status."""
        one, two, three, nine = (("foo", version) for version in "1239")
        side = ("foo", "1+s")
        tree = Ancestry().with_branch([three, two, one]).with_branch([three, one])
        for branch, text in (
            ([two, nine], "conflict at 0"), ([one, three], "conflict at 0"), ([], "empty branch"),
            ([("foo", "8"), two, nine], "conflict at 1"), ([nine, nine], "repeated version at 1"),
            ([nine] * 201, "more than 200 versions"),
        ):
            with self.assertRaises(BranchRefused) as refusal:
                tree.with_branch(branch)
            self.assertEqual(str(refusal.exception), text)
        self.assertEqual(tree.line(three), [three, two, one])
        self.assertEqual(tree.heads("foo"), [three])
        self.assertNotIn(nine, tree.known)
        tree = tree.with_branch([side, one])
        self.assertEqual(tree.heads("foo"), [side, three])
        for node, answer in (
            (one, "Found"), (side, "Found"), (two, "Fixed"), (three, "Fixed"), (nine, "Absent"),
        ):
            self.assertEqual(status(tree, {one}, {two}, False, node), answer)
        self.assertEqual(status(tree, {one}, set(), True, one), "Done")

    def test_lines(self):
        """Single lines."""
        line = read_line("SEVERITY  #007 Grave")
        self.assertEqual((line.word, line.bugs, line.given), ("severity", [7], "grave"))
        self.assertEqual(read_line("tags 1 patch,-help").given, [("+", "patch"), ("-", "help")])
        self.assertEqual(number_word("#000000001"), 1)
        self.assertIsNone(number_word("0000000001"))
        for text in ("thanks a lot", "\x0b", "affected 1 foo"):
            with self.assertRaises(Refused):
                read_line(text)


if __name__ == "__main__":
    unittest.main()
