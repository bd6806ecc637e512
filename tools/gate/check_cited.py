"""Whether the calls that README and the headline of PROVED cite are calls that the program makes.

A theorem about a call that only tests make says nothing of the program.
So each call that README's table of promises, PROVED's summary and PROVED's table of the headline
name is to be reached from `main`, through the crates that the program stands on.
Laws, which do nothing, and the calls of the crate on crashes are named as such and exempt.

Calls are told by their names alone: a name that stands before a bracket in a function that is
reached, reaches each function of that name.
"""

import pathlib
import re

# The crate whose calls are about crashes, which the program does not make.
OF_CRASHES = "table_crashes"
PROGRAM = "bts"
DEFINED = re.compile(r"^[ \t]*(?:pub(?:\([\w ]+\))? )?(?:const )?(?:final )?fn (\w+)", re.MULTILINE)
CALLED = re.compile(r"\b([a-z_]\w*)(?:::<[^<>()]*>)?\(")
# A function that is handed on by its name.
HANDED = re.compile(r"\(([a-z_]\w+)\)")
CITED = re.compile(r"`([a-z_]\w*(?:::\w+)+)`")
LAW = re.compile(r"^\{\}$", re.MULTILINE)
COMMENT = re.compile(r"//.*$", re.MULTILINE)
# The tables whose calls are looked at: the document, and the words with which they begin and end.
TABLES = [
    ("README.md", "## What is promised", "The toolchain, LLVM"),
    ("docs/PROVED.md", "**The headline.**", "**Only tested**"),
    ("docs/PROVED.md", "\n## The headline", "A version is its own ancestor"),
]


def closure(edges, start):
    """What is reached from a name by these edges, itself among it, of the names that have some."""
    found, open_ones = set(), [start]
    while open_ones:
        name = open_ones.pop()
        if name in edges and name not in found:
            found.add(name)
            open_ones += edges[name]
    return found


def crates_below(text, name):
    """The crates that a crate stands on, itself among them, by the lines of crates.txt."""
    stands_on = {}
    for line in text.splitlines():
        crate, colon, libraries = line.partition(":")
        if colon and not line.startswith("#"):
            stands_on[crate.strip()] = libraries.split()
    return closure(stands_on, name)


def functions(text):
    """The functions of a source file: each one's name, and its text up to the next one."""
    text = COMMENT.sub("", text)
    found = list(DEFINED.finditer(text))
    ends = [match.start() for match in found[1:]] + [len(text)]
    return [(match[1], text[match.end() : end]) for match, end in zip(found, ends)]


def sources(root, crates):
    """The functions of these crates."""
    return [
        function
        for crate in sorted(crates)
        for path in sorted((root / "crates" / crate / "src").rglob("*.rt"))
        for function in functions(path.read_text())
    ]


def reached(defined, start="main"):
    """The names of the functions that a function reaches."""
    calls = {}
    for name, text in defined:
        calls.setdefault(name, set()).update(CALLED.findall(text), HANDED.findall(text))
    return closure(calls, start)


def laws(defined):
    """The names of the functions that do nothing."""
    return {name for name, text in defined if LAW.search(text)}


def cited(text, begins, ends):
    """The calls that stand between these words, each with its place; None where they are gone."""
    start = text.find(begins)
    end = text.find(ends, start)
    if start < 0 or end < 0:
        return None
    return [(match[1], start + match.start()) for match in CITED.finditer(text[start:end])]


def complaints(root=pathlib.Path(__file__).resolve().parent.parent.parent):
    """What is cited and not called, with its document and its line."""
    lines = (root / "crates.txt").read_text()
    defined = sources(root, crates_below(lines, PROGRAM))
    called, are_laws = reached(defined), laws(defined)
    told = []
    for name, begins, ends in TABLES:
        text = (root / name).read_text()
        calls = cited(text, begins, ends)
        if calls is None:
            told.append(f"{name}: has no table from '{begins.strip()}' to '{ends}'")
            continue
        for call, place in calls:
            crate, *_, last = call.split("::")
            if crate == OF_CRASHES or last in are_laws or last[0].isupper() or last in called:
                continue
            line = text.count("\n", 0, place) + 1
            told.append(f"{name}:{line}: cites {call}, which the program does not call")
    return told
