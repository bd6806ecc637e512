"""Tests of the gate's own tools: each passes what is right and no more."""

import importlib.machinery
import importlib.util
import os
import pathlib
import shutil
import subprocess
import unittest

import check_cited
import check_layers
import desks
from desks import ROOT, folder, run, written

GATE = ROOT / "tools/gate"

# Crates in two layers, and what a document says of them.
LISTED = "# Lowest first.\n# Low\nbase_a: kit\ndebver: base_a\n# High\ntop_b: base_a debver kit\n"
LAYERS = """- **base** (`base_..`, `debver`): stands on no other layer, and never knows
  the top.
- **top** (`top_..`): stands on base; it never knows more.

```mermaid
  subgraph base["Low"]
    base_a
    debver --> base_a
  end
  subgraph top["High"]
    top_b --> debver
  end
```

| Crate | Lines | Holds |
|---|---|---|
| **Low** | | |
| `base_a` | 1 | this |
| `debver` | 1 | that |
| **High** | | |
| `top_b` | 1 | more |

"""


class Gate(unittest.TestCase):
    """`with_minutes` and `checks_at_once`, which the gate runs."""

    def test_minutes(self):
        """All lines but that of the status are handed on, and what is proved has its minutes."""
        said = b"rt: foo proved\nrt: foo: its tests are proved\nrt: bar NOT PROVED\n\xff\n"
        for status in (0, 2):
            given = said + b"1 passed, 1 failed\nstatus %d\n" % status
            command = [GATE / "with_minutes"]
            ran = subprocess.run(command, input=given, capture_output=True, check=False)
            self.assertEqual(ran.returncode, status)
            told = [line for line in ran.stdout.splitlines() if line.startswith(b"gate: ")]
            self.assertEqual(told, [
                b"gate: foo after 0.0 minutes (0.0 without stolen time)",
                b"gate: foo's tests after 0.0 minutes (0.0 without stolen time)",
                b"gate: all after 0.0 minutes (0.0 without stolen time)",
                b"gate: minutes (without stolen time): "
                b"foo 0.0 (0.0), foo's tests 0.0 (0.0), all 0.0 (0.0)"])
            handed = [line for line in ran.stdout.splitlines() if line not in told]
            self.assertEqual(handed, given.splitlines()[:-1])

    def test_cut(self):
        """Where no status comes, the gate fails."""
        self.assertEqual(run([GATE / "with_minutes"], "rt: foo proved\n", 1)[0].count("gate: "), 3)

    def test_stolen_time(self):
        """Of a minute in which the host took a third of the wanted time, 40 seconds are left."""
        loader = importlib.machinery.SourceFileLoader("with_minutes", str(GATE / "with_minutes"))
        spec = importlib.util.spec_from_loader(loader.name, loader)
        module = importlib.util.module_from_spec(spec)
        loader.exec_module(module)
        self.assertEqual(module.processor_times("cpu  1 2 3 100 200 4 5 6 0 0\ncpu0 1\n"), (21, 6))
        clock = module.Clock()
        clock.last = clock.began = clock.last - 60
        clock.times = (0, 0)
        clock.read = lambda: (300, 100)
        minutes, own = clock.minutes()
        self.assertAlmostEqual(minutes, 1.0, 2)
        self.assertAlmostEqual(own, 2 / 3, 2)

    def test_copy(self):
        """A copy has the crates named and all below them, no others, and no wrong bodies."""
        with folder() as place:
            run([GATE / "copy_crates", place, "version_nodes", "base_words"])
            copied = sorted(path.name for path in pathlib.Path(place, "crates").iterdir())
            self.assertEqual(copied, ["base_words", "debver", "version_nodes"])
            listed = pathlib.Path(place, "crates.txt").read_text(encoding="utf-8").splitlines()
            self.assertEqual(sorted(line.split(":")[0] for line in listed), copied)
            parts = {path.name for path in pathlib.Path(place, "crates", "debver").iterdir()}
            self.assertEqual(parts & {"src", "must-fail", "wrong-bodies", "out"}, {"src"})

    def test_layout(self):
        """Files that `rt fmt` would change are told, with their crate."""
        with folder() as place:
            tools = pathlib.Path(place, "tools/gate")
            tools.mkdir(parents=True)
            for name in ("check_layout", "copy_crates"):
                shutil.copy(GATE / name, tools)
            written(place, "HANDLES", "Handles allowed: none.\n")
            written(place, "crates.txt", "one:\ntwo: one\n")
            for name in ("one", "two"):
                source = pathlib.Path(place, "crates", name, "src")
                source.mkdir(parents=True)
                written(source, "lib.rt", "//! Nothing.\n")
            self.assertIn("are laid out", run([tools / "check_layout"])[0])
            written(source, "lib.rt", "//! Nothing.\nfn  nothing( ) {}\n")
            output, _ = run([tools / "check_layout"], status=1)
            self.assertEqual(output.splitlines()[1:], ["two/src/lib.rt"])

    def test_checks(self):
        """At least one check runs, and at most one a processor."""
        output, _ = run([GATE / "checks_at_once"])
        self.assertIn(int(output), range(1, os.cpu_count() + 1))


# Tests of which some pass, one fails, one fails in a part, one is left out, and one is in no order.
SOME_TESTS = """import unittest
class Good(unittest.TestCase):
    def test_one(self):
        pass
    def test_two(self):
        pass
class Bad(unittest.TestCase):
    def test_one(self):
        self.assertEqual(1, 2)
    def test_parts(self):
        for part in range(3):
            with self.subTest(part):
                self.assertEqual(part, 0)
    @unittest.skip("not here")
    def test_skipped(self):
        pass
    def test_three(self):
        pass
"""


class Tests(unittest.TestCase):
    """`test_tools`, over a tree of its own."""

    def ran(self, place, tests, status):
        """What it says of these tests, by the names of their files."""
        for part in ("tools/gate", "tools/tests", "commands/tests"):
            pathlib.Path(place, part).mkdir(parents=True)
        shutil.copy(GATE / "test_tools", pathlib.Path(place, "tools/gate"))
        written(place, "commands/tests/desks.py", "")
        for name, text in tests.items():
            written(place, name, text)
        return run([pathlib.Path(place, "tools/gate/test_tools")], status=status)[0]

    def test_counts(self):
        """Each test is counted once, whatever processor runs it, and what failed is told."""
        with folder() as place:
            said = self.ran(place, {
                "commands/tests/test_some.py": SOME_TESTS,
                "tools/tests/test_more.py": SOME_TESTS.replace("1, 2", "1, 1"),
                "tools/tests/test_none.py": "import nothing_that_is_there"}, 1)
        self.assertEqual(said.splitlines()[-1], "tools: 7 passed, 6 failed")
        self.assertIn("1 != 2", said)
        self.assertIn("nothing_that_is_there", said)

    def test_good(self):
        """It passes where all do, and fails where there is none."""
        good = SOME_TESTS.partition("class Bad")[0]
        with folder() as place:
            said = self.ran(place, {"tools/tests/test_some.py": good}, 0)
        self.assertEqual(said.splitlines()[-1], "tools: 2 passed, 0 failed")
        with folder() as place:
            self.assertIn("tools: 0 passed, 0 failed", self.ran(place, {}, 1))


class CheckLayers(unittest.TestCase):
    """`check_layers`, by which `check_documents` compares layers and names."""

    def assert_told(self, told, *wanted):
        """There are as many complaints as these, each with its text."""
        self.assertEqual(len(told), len(wanted), told)
        for complaint, text in zip(told, wanted):
            self.assertIn(text, complaint)

    def sentences(self, old, new):
        """The complaints of sentences in which a text is another."""
        self.assertIn(old, LISTED + LAYERS)
        told = LISTED.replace(old, new), LAYERS.replace(old, new)
        return list(check_layers.check_sentences(*told))

    def test_sentences(self):
        """What is right has no complaint, and each thing that is wrong has its own."""
        self.assert_told(self.sentences("Low", "Low"))
        self.assert_told(self.sentences("top_b: ", "base_b: "), "`base_b` has no name")
        self.assert_told(self.sentences(", `debver`", ""), "`debver` has no name")
        self.assert_told(self.sentences("`debver`)", "`base_a`, `debver`)"), "has to have a prefix")
        self.assert_told(self.sentences("`debver`)", "`debver`, `bts`)"), "`bts` is no crate")
        self.assert_told(self.sentences("`top_..`", "`tops_..`"), "`tops_..` is no crate")
        self.assert_told(self.sentences("on base;", "on nothing;"), "top stands on base")
        self.assert_told(self.sentences("on no other layer", "on the top"), "not stand on top")
        self.assert_told(self.sentences("knows more", "knows bases"), "top knows base")
        self.assert_told(self.sentences("on base;", "on all below it;"))
        self.assert_told(self.sentences("on base;", "by `top_b` alone on base;"))
        alone = self.sentences("on base;", "by `top_c` alone, which is new, on base;")
        self.assert_told(alone, "`top_b` stands on base too, not `top_c` alone")
        self.assert_told(self.sentences("# High\n", ""), "2 layers have a sentence")

    def test_headings(self):
        """A heading or a crate that stands elsewhere in the drawing or the table is told."""
        for old, new, *wanted in (
            ("Low", "Low"),
            ('["Low"]', '["Lower"]', "layer 1 of the drawing"),
            ("**High**", "**Higher**", "layer 2 of the table"),
            ("| **High** | | |\n", "", "layer 1 of the table", "the table has 1"),
            ("    debver --> base_a\n", "", "layer 1 of the drawing"),
        ):
            told = list(check_layers.check_headings(LISTED, LAYERS.replace(old, new)))
            self.assert_told(told, *wanted)

    def test_edges(self):
        """An edge that follows from others is not drawn, and headings are no crates."""
        drawn = {"base_a": [], "debver": ["base_a"], "top_b": ["debver"]}
        self.assertEqual(check_layers.edges_drawn(LISTED), drawn)

    def test_names(self):
        """Types of one name, and files that differ by a plural."""
        texts = {"a.rt": "pub struct It;\nstruct Own;\n", "b.rt": "pub enum It {}\nenum Own {}\n"}
        self.assert_told(list(check_layers.check_types(texts)), "`It` is a public type of a.rt too")
        files = ["a/job.rt", "a/jobs.rt", "b/job.rt", "c/jobs.rt"]
        self.assert_told(list(check_layers.check_plurals(files)), "a/job.rt:1: it and a/jobs.rt")


class CheckOptions(unittest.TestCase):
    """`check_options`, which compares manual pages and completion with the help."""

    def test_program(self):
        """The program's help has what the manual pages and the completion have."""
        self.assertEqual(run([GATE / "check_options", desks.program()]), ("", ""))

    def test_wrong_help(self):
        """A help without the option of a store differs."""
        told, _ = run([desks.program(), "--help"])
        with folder() as place:
            program = pathlib.Path(place, "program")
            wrong = told.replace("--store", "--stow")
            program.write_text(f"#!/bin/sh\ncat <<'END'\n{wrong}\nEND\n")
            program.chmod(0o755)
            output, _ = run([GATE / "check_options", program], status=1)
            self.assertIn("store", output)


class Cited(unittest.TestCase):
    """`check_cited`, by which `check_documents` looks whether the program makes a call."""

    LINES = "# Low\nlow: kit\n# High\nbts: low\ntest_low: low\n"
    LOW = """/// Calls nothing: other(1).
pub fn one(x: u8) -> u8
    ensures { result ≡ two (x) }
{
    // three(x)
    inner(x).map(handed)
}

fn inner(x: u8) -> Option<u8> {
    Some(x)
}

fn handed(x: u8) -> u8 {
    two::<u8>(x)
}

pub fn two(x: u8) -> u8 {
    x
}

pub fn three(x: u8) -> u8 {
    two(x)
}

pub fn a_law()
    ensures { one ≡ two }
{}
"""

    def told(self, cites, low=LOW):
        """The complaints of documents that cite these calls."""
        with folder() as where:
            root = pathlib.Path(where)
            for name, text in (
                ("crates.txt", self.LINES),
                ("crates/bts/src/main.rt", "fn main() {\n    low::one(1);\n}\n"),
                ("crates/low/src/lib.rt", low),
                ("crates/test_low/src/lib.rt", "fn main() {\n    three(1);\n}\n"),
                ("README.md", f"\n## What is promised\n{cites}\nThe toolchain, LLVM\n"),
                ("docs/PROVED.md", "**The headline.** **Only tested**\n## The headline\n"),
            ):
                (root / name).parent.mkdir(parents=True, exist_ok=True)
                (root / name).write_text(text)
            with (root / "docs/PROVED.md").open("a") as document:
                document.write("A version is its own ancestor")
            return check_cited.complaints(root)

    def test_calls(self):
        """A call that only tests make is told, and so is one that nobody makes."""
        self.assertEqual(self.told("`low::one` `low::two` `low::inner`"), [])
        wanted = "README.md:3: cites low::three, which the program does not call"
        self.assertEqual(self.told("`low::three`"), [wanted])
        self.assertEqual(len(self.told("`low::other` and `low::Type::gone`")), 2)

    def test_exempt(self):
        """Laws, types and the calls of the crate on crashes are exempt."""
        self.assertEqual(self.told("`low::a_law` `low::Type` `table_crashes::crash`"), [])

    def test_tables(self):
        """A table that is not there is told."""
        before = check_cited.TABLES
        check_cited.TABLES = [("README.md", "## Promises", "The toolchain")]
        try:
            wanted = "README.md: has no table from '## Promises' to 'The toolchain'"
            self.assertEqual(self.told("`low::one`"), [wanted])
        finally:
            check_cited.TABLES = before


if __name__ == "__main__":
    unittest.main()
