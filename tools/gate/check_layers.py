"""What `check_documents` tests of the layers of crates, and of the names in their code.

crates.txt has the layers under headings; docs/ARCHITECTURE.md has a sentence for each, a drawing
and a table.
A complaint on these begins with the line of ARCHITECTURE, one on code with its file.
"""

import collections
import re
from typing import NamedTuple

# Names that were known before crates went by layers, and stay.
PINNED = (
    "debver", "ancestry", "bug_core", "control_text", "desk_text", "desk_run", "desk_http",
    "desk_tables", "bts",
)
NAME = re.compile(r"\*\*(\w+)\*\*")
SENTENCE = re.compile(r"^- (\*\*.*?\*\*) \(([^)]*)\): (.*(?:\n  .*)*)", re.MULTILINE)
ALONE = re.compile(r"by `(\w+)` alone(?:, [^,]*,)? on ([^;]*)")
SUBGRAPH = re.compile(r'^  subgraph \w+\["(.*)"\]\n((?:    .*\n)*)  end$', re.MULTILINE)
PUBLIC_TYPE = re.compile(r"^\s*pub (?:struct|enum|trait|type) (\w+)", re.MULTILINE)


class Layer(NamedTuple):
    """A layer: its heading in crates.txt, and what each of its crates names there."""

    heading: str
    crates: dict


class Sentence(NamedTuple):
    """What is said of a layer: at which line, its names, its pinned crates, other layers, and those
    on which one crate stands alone."""

    line: int
    names: list
    pinned: list
    stands_on: set
    never_knows: set
    alone: dict

    def holds(self, crate):
        """Whether a crate of this name may stand in the layer."""
        return crate in self.pinned or crate.split("_")[0] in self.names

    def title(self):
        """The layer's name."""
        return " and ".join(self.names)


def layers_of(text):
    """The layers of crates.txt, lowest first."""
    layers = [Layer("", {})]
    for line in text.splitlines():
        if line.startswith("#"):
            layers.append(Layer(line.lstrip("# "), {}))
        elif line:
            crate, _, words = line.partition(":")
            layers[-1].crates[crate] = words.split()
    return [layer for layer in layers if layer.crates]


# The sentences.


def layers_named(text, names):
    """Which of these layers a text names, in any case and number."""
    return {name for name in names if re.search(rf"\b{name}s?\b", text, re.IGNORECASE)}


def sentences_of(text):
    """The sentences on layers."""
    sentences, below = [], []
    found = list(SENTENCE.finditer(text))
    every = [name for it in found for name in NAME.findall(it[1])]
    for it in found:
        names = NAME.findall(it[1])
        prefixes = {f"{name}_.." for name in names}
        pinned = [word for word in re.findall(r"`([\w.]+)`", it[2]) if word not in prefixes]
        told, _, never = re.sub(r"\s+", " ", it[3]).partition("never knows")
        stands_on = set(below) if "all below" in told else layers_named(told, every)
        alone = {crate: layers_named(rest, every) for crate, rest in ALONE.findall(told)}
        line = text.count("\n", 0, it.start()) + 1
        sentences.append(Sentence(line, names, pinned, stands_on, layers_named(never, every), alone))
        below += names
    return sentences


def check_names(layer, sentence):
    """Each crate of a layer has its prefix, or is pinned there."""
    for crate in layer.crates:
        if not sentence.holds(crate):
            yield f"{sentence.line}: `{crate}` has no name of the layer {sentence.title()}"
    for crate in sentence.pinned:
        if crate not in layer.crates:
            yield f"{sentence.line}: `{crate}` is no crate of the layer {sentence.title()}"
        elif crate not in PINNED:
            yield f"{sentence.line}: `{crate}` has to have a prefix of its layer"


def check_below(layer, sentence, names):
    """A layer stands on those layers that its sentence names, and on none that it never knows."""
    words = set().union(*layer.crates.values())
    stands_on = {name for word in words for name in names.get(word, ())} - set(sentence.names)
    for name in sorted(stands_on ^ sentence.stands_on):
        verb = "stands" if name in stands_on else "does not stand"
        yield f"{sentence.line}: the layer {sentence.title()} {verb} on {name}"
    for name in sorted(stands_on & sentence.never_knows):
        yield f"{sentence.line}: the layer {sentence.title()} knows {name}"


def check_sentences(listed, text):
    """Each layer of crates.txt has a sentence, in their order, that says what is so."""
    layers, sentences = layers_of(listed), sentences_of(text)
    if len(layers) != len(sentences):
        yield f"1: {len(sentences)} layers have a sentence, and there are {len(layers)}"
        return
    pairs = list(zip(layers, sentences))
    names = {crate: sentence.names for layer, sentence in pairs for crate in layer.crates}
    for layer, sentence in pairs:
        yield from check_names(layer, sentence)
        yield from check_below(layer, sentence, names)
        yield from check_alone(layer, sentence, names)


def check_alone(layer, sentence, names):
    """Where a crate is said to stand on a layer alone, no other crate of its layer does."""
    for alone, wanted in sentence.alone.items():
        for crate, words in layer.crates.items():
            known = {name for word in words for name in names.get(word, ())}
            if crate != alone:
                for name in sorted(wanted & known):
                    yield f"{sentence.line}: `{crate}` stands on {name} too, not `{alone}` alone"


# The drawing and the table.


def layers_drawn(text):
    """The layers of the drawing: each heading with its crates."""
    return [(heading, re.findall(r"^    (\w+)", body, re.MULTILINE))
            for heading, body in SUBGRAPH.findall(text)]


def layers_told(text):
    """The layers of the table of crates."""
    start = text.index("| Crate | Lines | Holds |")
    layers = [("", [])]
    for line in text[start : text.index("\n\n", start)].splitlines()[2:]:
        cell = line.split("|")[1].strip()
        if cell.startswith("**"):
            layers.append((cell.strip("*"), []))
        else:
            layers[-1][1].append(cell.strip("`"))
    return [layer for layer in layers if any(layer)]


def check_headings(listed, text):
    """The drawing and the table have the layers of crates.txt, with their crates, in its order."""
    wanted = [(layer.heading, list(layer.crates)) for layer in layers_of(listed)]
    for what, told in (("drawing", layers_drawn(text)), ("table", layers_told(text))):
        for number, (is_so, it) in enumerate(zip(wanted, told), 1):
            if is_so != it:
                yield f"1: layer {number} of the {what} is {it}, and that of crates.txt {is_so}"
        if len(told) != len(wanted):
            yield f"1: the {what} has {len(told)} layers, and crates.txt {len(wanted)}"


def edges_drawn(listed):
    """On which of our crates each one stands, without those that follow from others."""
    named = {crate: words for layer in layers_of(listed) for crate, words in layer.crates.items()}
    below, drawn = {}, {}
    for crate, words in named.items():
        stands_on = [word for word in words if word in named]
        below[crate] = set(stands_on).union(*(below[other] for other in stands_on))
        drawn[crate] = [it for it in stands_on if not any(it in below[on] for on in stands_on)]
    return drawn


# The names in the code.


def check_types(texts):
    """No two public types of these files have the same name."""
    places = collections.defaultdict(list)
    for file, text in texts.items():
        for name in PUBLIC_TYPE.findall(text):
            places[name].append(file)
    for name, files in places.items():
        if len(files) > 1:
            yield f"{files[-1]}:1: `{name}` is a public type of {files[0]} too"


def check_plurals(files):
    """No two of these files differ only by a plural s."""
    for file in files:
        stem, _, ending = file.rpartition(".")
        if f"{stem}s.{ending}" in files:
            yield f"{file}:1: it and {stem}s.{ending} differ only by an s"
