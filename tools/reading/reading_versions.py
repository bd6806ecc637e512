"""Versions, package names, nodes, their ancestry, and the status of a bug at a node.

The order of versions is that of Debian Policy 5.6.12.
The rules of ancestry and of status are this project's own.
A node is a pair of a source package and a version, both texts.
"""

import functools
import re

NAME_LIMIT = 100
VERSION_LIMIT = 100
BRANCH_LIMIT = 200

DIGITS = frozenset("0123456789")
LOWER_CASE = frozenset("abcdefghijklmnopqrstuvwxyz")
LETTERS = LOWER_CASE | frozenset("ABCDEFGHIJKLMNOPQRSTUVWXYZ")
UPSTREAM = LETTERS | DIGITS | frozenset(".+-~")
REVISION = LETTERS | DIGITS | frozenset("+.~")
NAME_BEGINS = LOWER_CASE | DIGITS
NAME = NAME_BEGINS | frozenset("+-.")


def byte_length(text):
    """The number of bytes of a text."""
    return len(text.encode("utf-8"))


def is_made_of(text, characters):
    """Whether a text is not empty and has no character but these."""
    return text != "" and all(character in characters for character in text)


# Version texts and their order.


@functools.lru_cache(maxsize=None)
def version_parts(text):
    """The epoch, the upstream part and the revision of a version, or None where it is none.

    The epoch precedes the first colon, and the revision follows the last hyphen of the rest.
    An epoch or a revision that is not written is None.
    """
    if not 1 <= byte_length(text) <= VERSION_LIMIT:
        return None
    epoch, rest = text.split(":", 1) if ":" in text else (None, text)
    upstream, revision = rest.rsplit("-", 1) if "-" in rest else (rest, None)
    if epoch is not None and not is_made_of(epoch, DIGITS):
        return None
    if not is_made_of(upstream, UPSTREAM if epoch is None else UPSTREAM | {":"}):
        return None
    if revision is not None and not is_made_of(revision, REVISION):
        return None
    return epoch, upstream, revision


def is_version(text):
    """Whether a text is a version."""
    return version_parts(text) is not None


def weight(character):
    """The weight of a character of a non-digit part, where the end of the part has weight 1."""
    if character == "~":
        return 0
    if character in LETTERS:
        return 2 + ord(character)
    return 300 + ord(character)


@functools.lru_cache(maxsize=None)
def string_key(text):
    """For each non-digit part and the digit part after it: weights, the end, the value."""
    key = []
    for characters, digits in re.findall("([^0-9]*)([0-9]*)", text):
        key += [weight(character) for character in characters]
        key += [1, int(digits) if digits else 0]
    return key


def compare(left, right):
    """Minus one, zero or one as the left value is lower, equal or higher."""
    return (left > right) - (left < right)


def compare_strings(left, right):
    """Compares two strings by their keys, the shorter key continued by 1, 0, 1, 0 and so on."""
    left_key, right_key = string_key(left), string_key(right)
    length = max(len(left_key), len(right_key))
    left_key = left_key + [1, 0] * (length - len(left_key))
    right_key = right_key + [1, 0] * (length - len(right_key))
    return compare(left_key[:length], right_key[:length])


def compare_versions(left, right):
    """The order of Policy 5.6.12: a missing epoch is 0, a missing revision is `0`."""
    left_epoch, left_upstream, left_revision = version_parts(left)
    right_epoch, right_upstream, right_revision = version_parts(right)
    return (
        compare(int(left_epoch or "0"), int(right_epoch or "0"))
        or compare_strings(left_upstream, right_upstream)
        or compare_strings(left_revision or "0", right_revision or "0")
    )


def compare_nodes(left, right):
    """Compares the bytes of the sources, then the versions, then the versions' bytes."""
    (left_source, left_version), (right_source, right_version) = left, right
    return (
        compare(left_source.encode(), right_source.encode())
        or compare_versions(left_version, right_version)
        or compare(left_version.encode(), right_version.encode())
    )


def in_node_order(nodes):
    """The nodes as an ascending list."""
    return sorted(nodes, key=functools.cmp_to_key(compare_nodes))


# Package names and nodes.


def is_package_name(text):
    """Whether a text is a source package name (Policy 5.6.1) of 2 to 100 bytes."""
    return (
        is_made_of(text, NAME) and text[0] in NAME_BEGINS and 2 <= len(text) <= NAME_LIMIT
    )


def read_node(text):
    """The node written as `source/version`, or None where the text is no node."""
    source, slash, version = text.partition("/")
    if slash and is_package_name(source) and is_version(version):
        return source, version
    return None


def read_version_word(text):
    """A source, None where the version is bare, and a version; or None for another word."""
    if "/" in text:
        return read_node(text)
    return (None, text) if is_version(text) else None


def node_for(package, version_word):
    """The node that a version word means for a package."""
    source, version = version_word
    return (package if source is None else source), version


def node_text(node):
    """A node as it is written."""
    return "/".join(node)


# Ancestry.


class BranchRefused(Exception):
    """A changelog branch that changes nothing; its argument is the text of the refusal."""


class Ancestry:
    """The known nodes, and the parent of each known node that has one."""

    def __init__(self, known=(), parents=()):
        self.known = frozenset(known)
        self.parents = dict(parents)

    def line(self, node):
        """The node, its parent, and so on to the root; an unknown node alone."""
        line = [node]
        while line[-1] in self.parents:
            line.append(self.parents[line[-1]])
        return line

    def heads(self, package):
        """The known nodes of a source that are no node's parent, in node order."""
        parents = set(self.parents.values())
        return in_node_order(
            node for node in self.known if node[0] == package and node not in parents
        )

    def with_branch(self, branch):
        """The ancestry after a branch, a list of nodes of which each is based on the next."""
        if not branch:
            raise BranchRefused("empty branch")
        if len(branch) > BRANCH_LIMIT:
            raise BranchRefused("more than 200 versions")
        for place, node in enumerate(branch):
            if node in branch[:place]:
                raise BranchRefused(f"repeated version at {place}")
        after = Ancestry(self.known | set(branch), self.parents)
        for place, (node, parent) in enumerate(zip(branch, branch[1:])):
            if parent in after.line(node)[1:]:
                continue
            if node in after.parents or node in after.line(parent):
                raise BranchRefused(f"conflict at {place}")
            after.parents[node] = parent
        return after


def status(ancestry, found, fixed, closed, node):
    """`Found`, `Fixed`, `Absent` or `Done`: the status of a bug with these marks at a node."""
    if closed and not fixed:
        return "Done"
    for ancestor in ancestry.line(node):
        if ancestor in found:
            return "Found"
        if ancestor in fixed:
            return "Fixed"
    return "Absent" if found else "Found"
