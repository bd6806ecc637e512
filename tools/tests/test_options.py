"""Tests that `check_options` tells where a command's page lacks an option, and completes all."""

import importlib.machinery
import importlib.util
import unittest
import unittest.mock

import desks
from desks import command, run

TOOL = desks.ROOT / "tools/gate/check_options"


def load_check():
    """The module of `check_options`."""
    loader = importlib.machinery.SourceFileLoader("check_options", str(TOOL))
    module = importlib.util.module_from_spec(importlib.util.spec_from_loader(loader.name, loader))
    loader.exec_module(module)
    return module


CHECK = load_check()
# What is changed in a page, and what has to be told then.
WRONG_PAGES = (
    (".It Fl Fl id Ns = Ns Ar TEXT\n", "", "id"), ("Fl Fl port Ns = Ns Ar N\n", "", "port"),
    (".It Fl Fl show\n", ".It Fl Fl show Ns = Ns Ar N\n", "show"),
    (".It Fl Fl from Ns = Ns Ar TEXT", ".It Fl Fl from Ns = Ns Ar WHO", "from"),
    (".It Fl h , Fl Fl help\n", "", "help"), (".It Fl Fl list\n", ".It Fl Fl lists\n", "lists"),
)
# An option whose value may be left out, and one with two values.
HELP = """usage: x

options:
  -h, --help       show this help message and exit
  --svg [FILE]     draw into this file
  --compare A B    compare two suites
  --package NAME
                   count this --package alone
"""
PAGE = """.It Fl Fl svg Op Ns = Ns Ar FILE
Draws.
.It Fl Fl compare Ar A B
.It Fl Fl package Ns = Ns Ar NAME
.It Fl h , Fl Fl help
"""


class CheckTools(unittest.TestCase):
    """`check_options`, of the tools."""

    def test_send(self):
        """The page of `send` has its options, and wrong ones are told."""
        told, _ = run([*command("send"), "--help"])
        page = CHECK.read("packaging/boxhumilwa-send.1")
        self.assertEqual(CHECK.compare_tool("send", told, page), [])
        for old, new, name in WRONG_PAGES:
            self.assertIn(old, page)
            lines = CHECK.compare_tool("send", told, page.replace(old, new))
            with self.subTest(old):
                self.assertTrue(lines)
                self.assertIn(name, "".join(lines))

    def test_values(self):
        """A value that may be left out, and two values."""
        self.assertEqual(CHECK.compare_tool("x", HELP, PAGE), [])
        self.assertEqual(CHECK.help_of_tool(HELP), {
            "help": [], "svg": ["[FILE]"], "compare": ["A", "B"], "package": ["NAME"]})
        for page in (PAGE.replace("svg Op", "svg"), PAGE.replace("A B", "A")):
            self.assertEqual(len(CHECK.compare_tool("x", HELP, page)), 1)
        self.assertEqual(
            CHECK.completed(CHECK.help_of_tool(HELP)),
            {"--svg", "--svg=", "--compare", "--package=", "--help"})

    def test_all(self):
        """Each command that is there has its page, and its options complete it."""
        self.assertEqual(CHECK.compare_tools(), [])
        for tool in ("branches", "count", "release", "send"):
            self.assertIn(tool, CHECK.COMMANDS)
        self.assertEqual(
            run([TOOL, "--completed=count"])[0],
            "--help --json --port= --program= --socket= --store=\n")
        with unittest.mock.patch.object(CHECK, "COMMANDS", ["none"]):
            self.assertEqual(
                CHECK.compare_tools(), ["packaging/boxhumilwa-none.1: commands/none has no page"])


if __name__ == "__main__":
    unittest.main()
