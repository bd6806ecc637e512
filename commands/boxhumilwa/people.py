"""People as texts name them, and which packages are whose, as a file Maintainers says it.

A text names somebody whole, as in `ann`, or by a name and an address: `Ann Other <ann@foo.example>`
or `ann@foo.example (Ann Other)`.
"""

import functools

from .faults import Fault
from .indexes import numbered_lines

SOURCE = "src:"


def parts_of(text: str) -> tuple[str, ...]:
    """The name and the address in a text, in either order, or nothing."""
    if text.endswith(">"):
        return tuple(part.strip(" \t") for part in text[:-1].rpartition("<")[::2])
    address, sign, name = text.partition("(")
    address = address.strip(" \t")
    is_pair = sign and text.endswith(")") and len(address.split()) == 1
    return (name[:-1], address) if is_pair else ()


@functools.lru_cache(maxsize=1 << 16)
def names_in(text: str) -> frozenset[str]:
    """What somebody may be called whom a text names: by all of it, by the name, by the address."""
    names = (text, *parts_of(text))
    return frozenset(
        word.casefold() for name in names for word in (name, name.strip('"')) if word)


def is_person(text: str | None, name: str) -> bool:
    """Whether a text names this person, in any case."""
    return text is not None and name.casefold() in names_in(text)


def maintained(path: str, names: list[str]) -> list[str]:
    """The packages that one of these people maintains, by a file of lines `package address`."""
    packages = set()
    for number, line in numbered_lines(path):
        words = line.split(maxsplit=1)
        if not words or line.startswith("#"):
            continue
        if len(words) != 2:
            raise Fault(f"{path}:{number}: neither a package and an address, nor a comment")
        if any(is_person(words[1].strip(), name) for name in names):
            packages.add(words[0].removeprefix(SOURCE))
    return sorted(packages)
