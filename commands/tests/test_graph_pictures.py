"""Tests of pictures as SVG and in the language of dot(1), and of the manual's pictures."""

import os
import pathlib
import re
import unittest
import xml.etree.ElementTree

import desks
from desks import folder, make_desk, run, written
from boxhumilwa import picture_svg, picture_text, terminal
from boxhumilwa.bug_pages import Page
from boxhumilwa.faults import Fault
from boxhumilwa.picture_rows import Version, make_picture
from test_graph_program import DAY, SUITES, graph

SVG = "{http://www.w3.org/2000/svg}"
HOSTILE = 'a <b>&amp;"\\N\\" \' ]]> \x85 \ufffe x -- \u202e y'
# The same with what would steer written out.
HOSTILE_SHOWN = 'a <b>&amp;"\\N\\" \' ]]> \\x85 \\ufffe x -- \\u202e y'
MANUAL = desks.ROOT / "docs/MANUAL.md"
# A quoted text of dot: an escaped letter, or one that is neither a quote nor a backslash.
QUOTED = r'"(?:\\.|[^"\\])*"'


def small_picture(title="x", is_archived=False):
    """A picture of 3 and 2.1, which are based on 2, and that on 1, 0.2 and 0.1, which is marked."""
    page = Page(7, title, "foo", "normal", "open", is_archived, ("foo/0.1",), ("foo/3",), ())
    parents = {"foo/3": "foo/2", "foo/2.1": "foo/2", "foo/2": "foo/1", "foo/1": "foo/0.2",
               "foo/0.2": "foo/0.1", "foo/0.1": None}
    heads = ("foo/3", "foo/2.1")
    nodes = [*parents, "lib/9"]
    versions = {
        node: Version(node, None if is_archived else node not in ("foo/3", "lib/9"),
                      node in page.found, node in page.fixed, node in heads, node in heads,
                      ("a&b", "c") if node == "lib/9" else ()) for node in nodes}
    order = {node: place for place, node in enumerate(sorted(nodes))}
    return make_picture(page, parents, [list(parents)[::-1]], versions, order, [])


def read_dot(lines):
    """The title, the nodes and the edges of a graph, with the texts as dot(1) would show them."""
    title, nodes, edges = None, {}, []
    for line in lines:
        values = {key: shown_by_dot(value) for key, value in re.findall(f"(\\w+)=({QUOTED})", line)}
        rest = re.sub(QUOTED, "", line)
        if re.fullmatch(r"  n\d+ \[[\w=, ]*\];", rest):
            nodes[line.split()[0]] = values
        elif found := re.fullmatch(r"  (n\d+) -> (n\d+);", line):
            edges.append(found.groups())
        elif rest.startswith("  graph ["):
            title = values["label"]
    return title, nodes, edges


def shown_by_dot(quoted):
    """What dot(1) shows of a quoted text that is a label."""
    escapes = {r"\n": "\n", r"\"": '"', r"\\": "\\"}
    text = re.sub(r"\\.", lambda found: escapes[found[0]], quoted[1:-1])
    return re.sub("&(amp|lt|gt|quot|#[0-9]+);", lambda found: {"amp": "&"}[found[1]], text)


class Svg(unittest.TestCase):
    """Pictures as SVG."""

    def drawn(self, picture):
        """The parsed picture."""
        return xml.etree.ElementTree.fromstring("\n".join(picture_svg.svg_lines(picture)))

    def rows(self, picture):
        """What stands in each row: its signs as classes, its words, and what it says."""
        for group in self.drawn(picture).iter(f"{SVG}g"):
            signs = [part for part in group if part.tag in (f"{SVG}circle", f"{SVG}rect")]
            places = [int(part.get("cx") or int(part.get("x")) + int(part.get("width")) // 2)
                      for part in signs]
            self.assertEqual(len(set(places)), 1)
            kinds = [f"{part.tag.removeprefix(SVG)} {part.get('class')}" for part in signs]
            words = [part.text for part in group.iter(f"{SVG}text")]
            yield places[0], kinds, words, group.find(f"{SVG}title").text

    def test_rows(self):
        """Each row has its signs in its lane, its words, and all its versions."""
        left, right = 32, 60
        self.assertEqual(list(self.rows(small_picture())), [
            (left, ["circle clear", "rect fixed"], ["3", "fixed, head"],
             "foo/3: not listed, fixed, head"),
            (right, ["circle listed"], ["2.1", "head"], "foo/2.1: listed, head"),
            (left, ["circle listed"], ["2"], "foo/2: listed"),
            (left, ["rect listed"], ["2 versions, 1 to 0.2"], "foo/1 foo/0.2: listed"),
            (left, ["circle listed", "circle found"], ["0.1", "found"], "foo/0.1: listed, found"),
            (left, ["circle clear"], ["lib/9", "in a&b, in c"], "lib/9: not listed, in a&b, in c")])
        kinds = {kind for row in self.rows(small_picture(is_archived=True)) for kind in row[1]}
        self.assertEqual(kinds, {
            "circle unasked", "rect unasked", "circle found", "rect fixed"})

    def test_lines(self):
        """A line leads from each version down to what it is based on."""
        picture = small_picture()
        root = self.drawn(picture)
        signs = [group[1] for group in root.iter(f"{SVG}g")]
        heights = [int(sign.get("cy") or int(sign.get("y")) + 7) for sign in signs]
        self.assertEqual(heights, sorted(heights))
        paths = [path.get("d") for path in root.iter(f"{SVG}path")]
        ends = [tuple(map(int, re.match(r"M(\d+) (\d+).*V(\d+)$", path).groups()))
                for path in paths]
        self.assertEqual(ends, [
            (32, heights[0], heights[2]), (60, heights[1], heights[2]),
            (32, heights[2], heights[3]), (32, heights[3], heights[4])])
        self.assertIn(f" 32 {heights[1] + 28}V", paths[1])

    def test_inside(self):
        """Nothing reaches beyond the picture, with letters of 8 pixels."""
        for title in ("x", "word " * 39 + "word", "w" * 200, "\u4e2d" * 66):
            root = self.drawn(small_picture(title))
            width, height = int(root.get("width")), int(root.get("height"))
            for text in root.iter(f"{SVG}text"):
                end = int(text.get("x")) + 8 * terminal.columns(text.text)
                self.assertLessEqual(end, width)
                self.assertLessEqual(int(text.get("y")), height)

    def test_hostile(self):
        """A title is text and nothing else, and the picture stays well formed."""
        root = self.drawn(small_picture(HOSTILE))
        self.assertEqual(root.find(f"{SVG}title").text, f"Bug 7 in foo: {HOSTILE_SHOWN}")
        self.assertEqual(root.findall(f".//{SVG}text")[0].text, f"Bug 7 in foo: {HOSTILE_SHOWN}")
        tags = {part.tag.removeprefix(SVG) for part in root.iter()}
        self.assertEqual(tags, {"svg", "title", "style", "rect", "text", "path", "g", "circle"})

    def test_file(self):
        """A picture takes the place of its file when it is whole, with the rights of new files."""
        with folder() as place:
            path = written(place, "x.svg", "old")
            link = pathlib.Path(place, "link.svg")
            link.symlink_to(path)
            picture_svg.write_picture(str(link), ["one", "two"])
            self.assertEqual(path.read_text(), "one\ntwo\n")
            self.assertTrue(link.is_symlink())
            other = written(place, "new", "")
            self.assertEqual(path.stat().st_mode, other.stat().st_mode)

            def broken():
                """Lines that fail in the middle."""
                yield "three"
                raise OSError(28, "No space left on device")

            with self.assertRaises(Fault) as raised:
                picture_svg.write_picture(str(path), broken())
            self.assertIn("x.svg: the picture can't be written: No space", str(raised.exception))
            self.assertEqual(path.read_text(), "one\ntwo\n")
            self.assertEqual(sorted(os.listdir(place)), ["link.svg", "new", "x.svg"])


class Dot(unittest.TestCase):
    """Pictures in the language of dot(1)."""

    def test_graph(self):
        """Each row is a node, and an edge leads to what it is based on."""
        title, nodes, edges = read_dot(picture_text.dot_lines(small_picture(HOSTILE)))
        self.assertEqual(title, f"Bug 7 in foo: {HOSTILE_SHOWN}\nnormal, open, listed at 5 of 7 "
                                "versions\nred: listed, white: not listed")
        self.assertEqual([node["label"] for node in nodes.values()], [
            "3\nfixed, head", "2.1\nhead", "2", "2 versions, 1 to 0.2", "0.1\nfound",
            "lib/9\nin a&b, in c"])
        self.assertEqual(edges, [("n0", "n2"), ("n1", "n2"), ("n2", "n3"), ("n3", "n4")])
        self.assertEqual([node["fillcolor"] for node in nodes.values()], [
            "#ffffff", "#c62828", "#c62828", "#c62828", "#c62828", "#ffffff"])
        self.assertEqual([node["peripheries"] for node in nodes.values()], list("211121"))
        self.assertEqual([node["color"] for node in nodes.values()], [
            "#1b7a2f", "#777777", "#777777", "#777777", "#8b0000", "#777777"])

    def test_whole(self):
        """All lines are of the few forms that dot(1) reads."""
        with folder() as place:
            store = make_desk(place, "@report foo - normal " + '"\\" ]; x -> y //\n')
            output, _ = graph(f"--store={store}", "--dot", "1")
        first, title, *rest = output.split("\n")
        self.assertEqual(first, 'digraph "bug 1" {')
        self.assertRegex(title, f"^  graph \\[label={QUOTED}, labelloc=t, fontname=Courier\\];$")
        self.assertEqual(rest, [
            "  node [shape=box, fontname=Courier];", "  edge [dir=none];", "}", ""])


class Manual(unittest.TestCase):
    """The pictures of the manual are what its commands make."""

    def test_pictures(self):
        """The script of the release day gives the drawn picture, and the text beside it."""
        manual = MANUAL.read_text(encoding="utf-8")
        day = manual.partition("\n## A release day\n")[2].partition("\n## ")[0]
        lines = re.findall(r"(?m)^    ((?:@|close |archive ).*)$", day)
        script = "\n".join(lines[: lines.index("archive 1") + 1])
        suites = re.findall(r"(?m)^    \$ echo (.*) > (\w+)$", day)
        self.assertEqual([name for _, name in suites], ["stable", "testing"])
        words = "--store=desk.db --svg=graph.svg stable=stable testing=testing 1"
        self.assertIn(f"\n    $ commands/graph {words}\n", day)
        told = re.search(
            r"    \$ commands/graph --store=desk.db stable=stable 1\n((?:    .*\n|\n)+)", manual)[1]
        with folder() as place:
            store = pathlib.Path(place, "desk.db")
            run([desks.program(), f"--store={store}", "init"])
            run([desks.program(), f"--store={store}", "run"], script, status=1)
            words = [f"{name}={written(place, name, line)}" for line, name in suites]
            graph(f"--store={store}", f"--svg={place}/graph.svg", *words, "1")
            picture = pathlib.Path(place, "graph.svg").read_text()
            output, _ = graph(f"--store={store}", words[0], "1")
        self.assertEqual(picture, MANUAL.with_name("graph.svg").read_text())
        self.assertEqual(output, re.sub("(?m)^    ", "", told).strip("\n") + "\n")

    def test_default_name(self):
        """--svg alone makes a file that is named after the bug, and tells its name."""
        with folder() as place:
            store = make_desk(place, DAY)
            suites = [f"{name}={written(place, name, text)}" for name, text in SUITES.items()]
            tool = [*desks.command("graph"), f"--program={desks.program()}"]
            words = ["sh", "-c", 'cd "$0" && "$@"', place, *tool, "--svg", f"--store={store}"]
            self.assertEqual(run([*words, *suites, "2"]), ("bug-2.svg\n", ""))
            self.assertIn("loses the last line", pathlib.Path(place, "bug-2.svg").read_text())


if __name__ == "__main__":
    unittest.main()
