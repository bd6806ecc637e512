"""Which version is based on which, from the table `nodes` of a desk's file.

A version is written source/version here, as the desk writes it, and is called a node.
"""

import contextlib
import pathlib
import sqlite3
from collections.abc import Iterable, Iterator

from .desk_file import IN_USE
from .faults import Fault

# What each node is based on, and the nodes that are based on each; of none where it is None.
Parents = dict[str, str | None]
Children = dict[str | None, list[str]]
SECONDS = 1
# Sources of which a version is based on one of another source.
SOURCES = "SELECT DISTINCT source, parent_source FROM nodes WHERE source <> parent_source"
NODES = """SELECT source || '/' || version, parent_source || '/' || parent_version
FROM nodes WHERE source = ?"""


def source_of(node: str) -> str:
    """The source of a node."""
    return node.partition("/")[0]


# The table of a file.


@contextlib.contextmanager
def opened(path: str) -> Iterator[sqlite3.Connection]:
    """A connection that reads the file of a desk and can't change it."""
    connection = None
    try:
        uri = f"{pathlib.Path(path).resolve().as_uri()}?mode=ro"
        connection = sqlite3.connect(uri, uri=True, timeout=SECONDS)
        yield connection
    except sqlite3.Error as error:
        if "locked" in str(error):
            raise Fault(f"{path}: the store's file is {IN_USE}") from error
        raise Fault(f"{path}: its table of branches can't be read: {error}") from error
    finally:
        if connection:
            connection.close()


def neighbours(pairs: Iterable[tuple[str, str]]) -> dict[str, list[str]]:
    """What each source is paired with."""
    near: dict[str, list[str]] = {}
    for one, other in pairs:
        near.setdefault(one, []).append(other)
        near.setdefault(other, []).append(one)
    return near


def joined_sources(pairs: Iterable[tuple[str, str]], sources: Iterable[str]) -> set[str]:
    """These sources, and all that branches join with them."""
    near = neighbours(pairs)
    found, waiting = set(sources), list(sources)
    while waiting:
        new = set(near.get(waiting.pop(), ())) - found
        found |= new
        waiting.extend(new)
    return found


def read_nodes(path: str, sources: Iterable[str]) -> Parents:
    """What each node is based on, or None, of these sources and of all that are joined to them."""
    with opened(path) as connection:
        pairs = connection.execute(SOURCES).fetchall()
        return {
            node: parent for source in sorted(joined_sources(pairs, sources))
            for node, parent in connection.execute(NODES, (source,))
        }


# Trees.


def children_of(parents: Parents) -> Children:
    """The nodes that are based on each node; those based on none stand under None."""
    children: Children = {}
    for node, parent in parents.items():
        children.setdefault(parent, []).append(node)
    return children


def tree_from(children: Children, root: str) -> list[str]:
    """All nodes of a tree, each after what it is based on."""
    nodes = [root]
    for node in nodes:
        nodes.extend(children.get(node, ()))
    return nodes


def wanted_trees(parents: Parents, package: str, marks: Iterable[str]) -> list[list[str]]:
    """The trees that have a version of the package, or a marked one, each as its nodes."""
    children, marked = children_of(parents), set(marks)
    trees = [tree_from(children, root) for root in children.get(None, ())]
    return [
        tree for tree in trees
        if any(source_of(node) == package or node in marked for node in tree)
    ]
