"""Tests of what goes wrong with `graph`, with its words and its status."""

import contextlib
import io
import os
import sqlite3
import unittest
import unittest.mock

import desks
from desks import make_desk, run, written
from boxhumilwa import nodes
from boxhumilwa.faults import Fault
from test_graph_program import DAY, GRAPH, InFolder, graph


class Faults(InFolder):
    """What goes wrong, with its words and its status."""

    def faults_of(self, *words):
        """What a run with a fault tells."""
        output, errors = graph(*words, status=3)
        self.assertEqual(output, "")
        return errors

    def test_files(self):
        """Files that are no desk, no branches or no index, and places for no picture."""
        store = f"--store={make_desk(self.folder, DAY)}"
        text = written(self.folder, "text", "Package: foo\nVersion: 1\n\nPackage: b")
        for words, told in (
            ((f"--store={self.folder}/none", "1"), "the store's file is not there"),
            ((f"--store={text}", "1"), "the store's file is no desk"),
            ((store, f"a={text}", "1"), "text:4: it is cut"),
            ((store, f"a={self.folder}/none", "1"), "none: it can't be read"),
            ((store, f"--svg={self.folder}", "1"), "it is no regular file"),
            ((store, f"--svg={self.folder}/none/x", "1"), "its folder is not there"),
        ):
            with self.subTest(words):
                self.assertIn(told, self.faults_of(*words))
        self.assertFalse([name for name in os.listdir(self.folder) if name.startswith(".")])

    def test_branches(self):
        """Branches that can't be read, and a port that has no desk."""
        store = make_desk(self.folder, DAY)
        bad = written(self.folder, "bad", b"@branch foo/\xff\n")
        with desks.served(store) as port:
            for path, told in ((bad, "bad:1: not UTF-8"), (self.folder, "Is a directory")):
                words = (f"--port={port}", f"--branches={path}", "1")
                self.assertIn(told, self.faults_of(*words))
        self.assertIn(f"port {port}: ", self.faults_of(f"--port={port}", f"--branches={bad}", "1"))

    def test_other_programs(self):
        """A program that answers something else, or whose bug is changed meanwhile."""
        store = make_desk(self.folder, DAY)
        page = f"{desks.program()} --store={store} run"
        for script, told in (
            ("echo hello", "answered 'hello', as no desk does"),
            (f"{page} | sed 's/^Found:.*/Else: x/'", "its page lacks a line"),
            (f"{page} | sed 's/^Package:.*/Package: \\x1b[2J/'", "its page lacks a line"),
            (f"{page} | sed 's/^Bugs in foo at .*/OK/'", "answered 'OK', as no desk does"),
            (f"{page} | sed \"s/^Tags: .*/Tags: $$/\"", "was changed meanwhile: ask again"),
            ("exit 3", "it ended with status 3"),
        ):
            program = written(self.folder, "program", f"#!/bin/sh\n{script}\n")
            program.chmod(0o755)
            with self.subTest(script):
                told_words = self.faults_of(f"--program={program}", f"--store={store}", "1")
                self.assertIn(told, told_words)

    def test_locked(self):
        """A file that is locked between two questions is told as one in use."""
        store = make_desk(self.folder, DAY)
        with contextlib.closing(sqlite3.connect(store)) as other:
            other.execute("PRAGMA locking_mode = EXCLUSIVE")
            other.execute("BEGIN EXCLUSIVE")
            with unittest.mock.patch.object(nodes, "SECONDS", 0):
                with self.assertRaises(Fault) as raised:
                    nodes.read_nodes(store, {"foo"})
        self.assertIn("in use by another process", str(raised.exception))

    def test_read_only(self):
        """The connection that reads the branches can't change the file."""
        store = make_desk(self.folder, DAY)
        with self.assertRaises(Fault) as raised:
            with nodes.opened(store) as connection:
                connection.execute("DELETE FROM nodes")
        self.assertIn("attempt to write a readonly database", str(raised.exception))

    def test_output(self):
        """Output that can't be written has status 3."""
        store = make_desk(self.folder, DAY)
        words = [*desks.command("graph"), f"--program={desks.program()}", f"--store={store}", 1]
        _, errors = run(["sh", "-c", '"$@" >/dev/full; [ $? -eq 3 ]', "sh", *words])
        self.assertIn("standard output can't be written", errors)

    def test_bad_words(self):
        """Bad words have status 2."""
        for words in (
            ("--store=x",), ("1",), ("--store=x", "1", "2"), ("--store=x", "0"),
            ("--store=x", "-1"), ("--store=x", "1234567890"), ("--store=x", "one"),
            ("--store=x", "=y", "1"),
            ("--socket=x", "--port=80", "1"), ("--port=80", "1"), ("--port=0", "--branches=x", "1"),
            ("--store=x", "--branches=x", "1"), ("--store=x", "a=b", "a=c", "1"),
            ("--port=80", "--branches=-", "a=-", "1"), ("--store=x", "--dot", "--text", "1"),
            ("--store=x", "--svg", "--dot", "1"), ("--store=x", "1", "\u0661"),
        ):
            errors = io.StringIO()
            with self.subTest(words), contextlib.redirect_stderr(errors):
                with self.assertRaises(SystemExit) as raised:
                    GRAPH.read_options(words)
                self.assertEqual(raised.exception.code, 2)
                self.assertIn("graph: error: ", errors.getvalue())

    def test_good_words(self):
        """Options may stand among the words, and --svg has a name for its file."""
        for words, svg in (
            (("a=b", "--svg", "--store=x", "7"), "bug-7.svg"), (("--store=x", "7", "--text"), None),
            (("#007", "--store=x", "--svg=y", "a=b"), "y"),
        ):
            options = GRAPH.read_options(words)
            self.assertEqual((options.number, options.svg, options.store), (7, svg, "x"))


if __name__ == "__main__":
    unittest.main()
