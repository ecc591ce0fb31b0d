"""Holds crates.txt to its layers, the picture of the architecture to crates.txt, and what else is said of each crate and library.

- Each crate stands under exactly one heading (a line `# LAYER: words`), and the crates that it uses are in lower layers or listed
  before it in its own.
- The last two layers are beside the program: the program is made of the crates of all other layers, and of no more.
- The table of docs/architecture.dot has the same crates in the same layers, the highest layer first, and its other texts name no
  crate that isn't there.
- docs/architecture.svg is drawn from that file: each node has the same texts, and the same edges are drawn.
- docs/THIRD-PARTY.md has a row of each library that a crate uses and that isn't the repository's own.
- What .ci/crate_pages.py holds of the crates' READMEs.
"""

import argparse
import html
import importlib
import pathlib
import re
import sys
import xml.etree.ElementTree
from collections.abc import Iterator

BESIDE = ("callers", "tests")
SVG = "{http://www.w3.org/2000/svg}"


def layers_of(text: str) -> list[tuple[str, list[str]]]:
    """The layers of crates.txt with their crates, the lowest first. The crates in front of the first heading are in a layer ''."""
    layers: list[tuple[str, list[str]]] = [("", [])]
    for line in text.splitlines():
        if heading := re.match(r"# (\w+): ", line):
            layers.append((heading[1], []))
        elif crate := re.match(r"(\w+)(?: [^:#]*)?:", line):
            layers[-1][1].append(crate[1])
    return layers


def uses_of(text: str) -> dict[str, list[str]]:
    """What each crate of crates.txt uses."""
    return {name: rest.split() for name, rest in re.findall(r"^(\w+)(?: [^:#\n]*)?:([^#\n]*)", text, re.M)}


def made_of(crate: str, uses: dict[str, list[str]]) -> set[str]:
    """The crates that one is made of, itself among them, without the libraries that crates.txt doesn't list."""
    found: set[str] = set()
    left = [crate]
    while left:
        name = left.pop()
        if name in uses and name not in found:
            found.add(name)
            left += uses[name]
    return found


def line_faults(text: str) -> Iterator[str]:
    """Lines of crates.txt that are neither a crate with what it uses, nor a comment, nor blank."""
    for line in text.splitlines():
        if not re.match(r"\w+(?: [^:#]*)?:|#|$", line):
            yield f"crates.txt: no crate with what it uses: {line}"


def above(crate: str, uses: dict[str, list[str]]) -> list[str]:
    """The crates that are made of one, itself first, in the order of crates.txt: those that a change of it has proved again."""
    return [crate, *(name for name in uses if name != crate and crate in made_of(name, uses))]


def layer_faults(layers: list[tuple[str, list[str]]], uses: dict[str, list[str]]) -> Iterator[str]:
    """Where crates.txt doesn't keep to its layers."""
    place: dict[str, tuple[int, int]] = {}
    heads: set[str] = set()
    for height, (head, crates) in enumerate(layers):
        if head in heads:
            yield f"crates.txt has two headings {head}"
        heads.add(head)
        for across, name in enumerate(crates):
            if not head:
                yield f"crates.txt: {name} has no heading above it"
            if name in place:
                yield f"crates.txt: {name} is listed twice, under {layers[place[name][0]][0]} and {head}"
            place[name] = (height, across)
    for name, lowers in uses.items():
        for lower in lowers:
            if lower in place and place[lower] >= place[name]:
                here, there = layers[place[name][0]][0], layers[place[lower][0]][0]
                yield f"crates.txt: {name} ({here}) uses {lower} ({there}), which isn't listed before it"
    if tuple(head for head, _ in layers[-len(BESIDE):]) != BESIDE:
        yield f"crates.txt: the last layers aren't {' and '.join(BESIDE)}"
    program = made_of("asterix", uses)
    for head, crates in layers:
        for name in crates:
            if head in BESIDE and name in program:
                yield f"crates.txt: {name} is beside the program ({head}), and the program is made of it"
            if head not in BESIDE and name not in program:
                yield f"crates.txt: {name} ({head}) isn't part of the program, so it belongs in {' or '.join(BESIDE)}"


def labels_of(text: str) -> dict[str, list[str]]:
    """The texts of each node of a .dot file, whose labels are all written as HTML."""
    labels = re.findall(r"^ *(\w+) \[[^<\]]*label=<(.*?)>\];$", text, re.M | re.S)
    return {node: [html.unescape(it).strip() for it in re.findall(r">([^<>]+)<", f">{label}<") if it.strip()] for node, label in labels}


def edges_of(text: str) -> set[tuple[str, str]]:
    """The edges of a .dot file that are drawn."""
    found: set[tuple[str, str]] = set()
    for chain, more in re.findall(r"^ *(\w+(?: -> \w+)+)( \[.*\])?;$", text, re.M):
        nodes = chain.split(" -> ")
        if "style=invis" not in more:
            found |= set(zip(nodes, nodes[1:]))
    return found


def drawn(picture: pathlib.Path) -> tuple[dict[str, list[str]], set[tuple[str, str]]]:
    """The texts of each node of a drawing, and its edges."""
    nodes: dict[str, list[str]] = {}
    edges: set[tuple[str, str]] = set()
    for group in xml.etree.ElementTree.parse(picture).iter(f"{SVG}g"):
        title = group.findtext(f"{SVG}title", "")
        if group.get("class") == "node":
            nodes[title] = [(text.text or "").strip() for text in group.iter(f"{SVG}text")]
        elif group.get("class") == "edge":
            first, _, last = title.partition("->")
            edges.add((first, last))
    return nodes, edges


def table_of(text: str) -> list[tuple[str, list[str]]]:
    """The layers of the picture with their crates, in the order of its table: a bold cell begins a layer."""
    table = text.partition("layers [")[2]
    layers: list[tuple[str, list[str]]] = []
    for head, name in re.findall(r"<td[^>]*>(?:<b>(\w+)</b>|(\w+))</td>", table):
        if head:
            layers.append((head, []))
        elif layers:
            layers[-1][1].append(name)
    return layers


def picture_faults(top: pathlib.Path, layers: list[tuple[str, list[str]]]) -> Iterator[str]:
    """Where the picture's text differs from crates.txt, and the drawing from its text."""
    text = (top / "docs/architecture.dot").read_text()
    listed = [(head, crates) for head, crates in reversed(layers) if crates]
    table = table_of(text)
    if [head for head, _ in table] != [head for head, _ in listed]:
        yield f"docs/architecture.dot has the layers {' '.join(head for head, _ in table)}, and crates.txt {' '.join(head for head, _ in listed)}"
    for head, crates in listed:
        there = dict(table).get(head, [])
        for name in crates:
            if name not in there:
                yield f"docs/architecture.dot: {name} isn't in the layer {head}"
        for name in there:
            if name not in crates:
                yield f"docs/architecture.dot: {name} is in the layer {head}, and in crates.txt it isn't"
        if sorted(there) == sorted(crates) and there != crates:
            yield f"docs/architecture.dot: the crates of {head} are in another order than in crates.txt"
    known = {name for _, crates in listed for name in crates}
    for name in sorted(set(re.findall(r"\bax_\w+", text)) - known):
        yield f"docs/architecture.dot names {name}, which crates.txt doesn't have"
    labels, (nodes, edges) = labels_of(text), drawn(top / "docs/architecture.svg")
    for node in sorted(labels.keys() | nodes.keys()):
        if labels.get(node) != nodes.get(node):
            yield f"docs/architecture.svg: the texts of {node} aren't those of docs/architecture.dot: draw it again (CONTRIBUTING.md)"
    for first, last in sorted(edges_of(text) ^ edges):
        yield f"docs/architecture.svg: {first} -> {last} is drawn in only one of it and docs/architecture.dot: draw it again (CONTRIBUTING.md)"


def library_faults(top: pathlib.Path, uses: dict[str, list[str]]) -> Iterator[str]:
    """Libraries that a crate uses and docs/THIRD-PARTY.md has no row of."""
    rows = set(re.findall(r"^\| (\w+) \|", (top / "docs/THIRD-PARTY.md").read_text(), re.M))
    for name in sorted({lower for lowers in uses.values() for lower in lowers} - uses.keys() - rows):
        yield f"docs/THIRD-PARTY.md has no row of {name}, which crates.txt names"


def page_faults(top: pathlib.Path, uses: dict[str, list[str]]) -> list[str]:
    """What .ci/crate_pages.py says of the READMEs of the crates."""
    sys.path.insert(0, str(pathlib.Path(__file__).resolve().parent))
    sys.dont_write_bytecode = True
    try:
        pages = importlib.import_module("crate_pages")
    except ModuleNotFoundError:
        return []
    return pages.faults(top, uses)


def main() -> int:
    """Prints what doesn't hold. The status is 1 if there is something."""
    parser = argparse.ArgumentParser(description=__doc__.splitlines()[0])
    parser.add_argument("top", nargs="?", type=pathlib.Path, default=pathlib.Path(__file__).resolve().parent.parent, help="a clone")
    parser.add_argument("--above", metavar="CRATE", help="print the crates that a change of this one has proved again, and hold nothing")
    words = parser.parse_args()
    top = words.top
    text = (top / "crates.txt").read_text()
    layers, uses = layers_of(text), uses_of(text)
    if words.above:
        if words.above not in uses:
            parser.error(f"crates.txt has no crate {words.above}")
        print(" ".join(above(words.above, uses)))
        return 0
    faults = [*line_faults(text), *layer_faults(layers, uses), *picture_faults(top, layers), *library_faults(top, uses), *page_faults(top, uses)]
    for fault in faults:
        print(f"checks: {fault}", file=sys.stderr)
    return bool(faults)


if __name__ == "__main__":
    sys.exit(main())
