"""Holds every page (.md) of the repository to its rules of length, and its links, paths and names of code to what exists.

- A paragraph has at most 120 words, a cell of a table at most 40. A list item is a paragraph.
- README.md has at most 160 lines, docs/ARCHITECTURE.md at most 1,500 words, docs/PROVED.md at most 2,000 and each record (a paragraph) of
  docs/DECISIONS.md at most 80.
- A relative link leads to a file that exists; where it has a #anchor, a heading there has that anchor (as GitHub makes it).
- A path in backquotes exists: a word with a `/` whose first part is a folder's name, or a word that ends as a file of source does. It is
  enough that the path of some file or folder ends so: `src/gateway.rt` is `crates/ax_app/src/gateway.rt`. In a path `*`, CRATE and NAME
  are any text. One through out/ isn't looked for.
- A name of code in backquotes exists in the code, in a block of the page or as the name of an edit: a word with an underscore inside,
  with `::` or in CamelCase.

A word has a letter or a digit, and words have spaces between them. The content of a block between ``` is never counted. Code in
backquotes and the target of a link aren't counted in a paragraph or a cell. In a page's words and in a record code in backquotes counts.
"""

import fnmatch
import os
import pathlib
import re
import sys
from collections.abc import Iterator
from typing import NamedTuple

TOP = pathlib.Path(__file__).resolve().parent.parent
PARAGRAPH, CELL = 120, 40
LINES = {"README.md": 160}
WORDS = {"docs/ARCHITECTURE.md": 1500, "docs/PROVED.md": 2000}
RECORDS = {"docs/DECISIONS.md": 80}
# Files of which each word is a name of code, and what a path to a file ends in.
CODE = re.compile(r"\.(rt|antt|py|awk|bash|fish|c|h)$|^crates\.txt$|^asterix$|^(tools|\.ci)/[^.]*$")
SOURCE = re.compile(r"\.(rt|antt|py|md|edit|awk|svg|dot|c|h|service)$")
SPAN = re.compile(r"(`+)(.+?)\1", re.S)
LINK = re.compile(r"\]\(([^)\s]+)\)")
ITEM = re.compile(r"\s*([-*+]|\d+\.) ")
CAMEL = re.compile(r"[A-Z][A-Z0-9]*[a-z][a-z0-9]*[A-Z]")


class Part(NamedTuple):
    """A heading, a paragraph or a cell of a page, and the number of its line."""

    kind: str
    line: int
    text: str


class Tree:
    """The files of a repository: their texts, their paths, and the names in its code."""

    def __init__(self, top: pathlib.Path) -> None:
        self.top = top
        self.pages: dict[str, str] = {}
        self.names: set[str] = set()
        self.ends: set[str] = set()
        self.folders: set[str] = set()
        for folder, inside, files in os.walk(top):
            inside[:] = sorted(set(inside) - {".git", "out", "__pycache__"})
            self.folders |= set(inside)
            for name in [*inside, *files]:
                path = os.path.relpath(os.path.join(folder, name), top)
                parts = path.split("/")
                self.ends |= {"/".join(parts[at:]) for at in range(len(parts))}
                if name.endswith(".edit"):
                    self.names.add(name.removesuffix(".edit"))
                elif name in files and (name.endswith(".md") or CODE.search(path)):
                    text = (top / path).read_text(errors="replace")
                    if name.endswith(".md"):
                        self.pages[path] = text
                    else:
                        self.names |= set(re.findall(r"\w+", text))

    def has_path(self, path: str) -> bool:
        """Whether some file or folder has such a path, or such an end of its path."""
        wanted = re.sub(r"\b(CRATE|NAME)\b", "*", path.rstrip("/"))
        return wanted in self.ends or "out" in wanted.split("/") or ("*" in wanted and any(fnmatch.fnmatch(it, wanted) for it in self.ends))


def parts_of(text: str) -> Iterator[Part]:
    """The headings, paragraphs and cells of a page; blocks between ``` are left out."""
    held: list[str] = []
    begun, is_block = 0, False
    for number, line in enumerate([*text.splitlines(), ""], 1):
        fence = line.lstrip().startswith("```")
        is_other = fence or is_block or not line.strip() or line.startswith(("#", "|"))
        if held and (is_other or ITEM.match(line)):
            yield Part("paragraph", begun, "\n".join(held))
            held = []
        if fence:
            is_block = not is_block
        elif is_block:
            pass
        elif line.startswith("#"):
            yield Part("heading", number, line.lstrip("#").strip())
        elif line.startswith("|"):
            for cell in re.split(r"(?<!\\)\|", line.strip().strip("|")):
                yield Part("cell", number, cell.strip())
        elif line.strip():
            begun = begun if held else number
            held.append(line)


def words_of(text: str, with_code: bool = False) -> int:
    """How many words a text has."""
    text = LINK.sub("]", text if with_code else SPAN.sub(" ", text))
    return sum(1 for it in text.split() if re.search(r"\w", it))


def anchors_of(text: str) -> set[str]:
    """The anchors of a page's headings, as GitHub makes them."""
    found: set[str] = set()
    for part in parts_of(text):
        if part.kind == "heading":
            plain = re.sub(r"[^\w\- ]", "", LINK.sub("]", part.text).lower()).replace(" ", "-")
            count = sum(1 for it in found if re.fullmatch(re.escape(plain) + r"(-\d+)?", it))
            found.add(f"{plain}-{count}" if count else plain)
    return found


def lengths(page: str, text: str) -> Iterator[str]:
    """What of a page is too long."""
    parts = list(parts_of(text))
    for part in parts:
        most = {"paragraph": PARAGRAPH, "cell": CELL}.get(part.kind)
        count = words_of(part.text)
        if most and count > most:
            yield f"{page}:{part.line}: a {part.kind} of {count} words; at most {most} are wanted"
        most = RECORDS.get(page)
        count = words_of(part.text, True)
        if most and part.kind == "paragraph" and count > most:
            yield f"{page}:{part.line}: a record of {count} words; at most {most} are wanted"
    count = len(text.splitlines())
    if page in LINES and count > LINES[page]:
        yield f"{page}: {count} lines; at most {LINES[page]} are wanted"
    count = sum(words_of(part.text, True) for part in parts)
    if page in WORDS and count > WORDS[page]:
        yield f"{page}: {count} words; at most {WORDS[page]} are wanted"


def links(tree: Tree, page: str, part: Part) -> Iterator[str]:
    """Links of a part that lead nowhere."""
    for target in LINK.findall(SPAN.sub(" ", part.text)):
        if re.match(r"[a-z]+:", target):
            continue
        path, _, anchor = target.partition("#")
        to = os.path.normpath(os.path.join(os.path.dirname(page), path)) if path else page
        if not (tree.top / to).exists():
            yield f"{page}:{part.line}: the link to {target}: no such file"
        elif anchor and anchor not in anchors_of(tree.pages.get(to, "")):
            yield f"{page}:{part.line}: the link to {target}: no such heading"


def code(tree: Tree, own: set[str], page: str, part: Part) -> Iterator[str]:
    """Paths and names in the code of a part that don't exist. The page's own blocks have some names too."""
    for _, span in SPAN.findall(part.text):
        for word in span.split():
            word = word.strip(",;:()").rstrip(".")
            is_path = ("/" in word and word.split("/")[0] in tree.folders) or SOURCE.search(word)
            if is_path and re.fullmatch(r"[\w.*/-]+", word):
                if not tree.has_path(word):
                    yield f"{page}:{part.line}: `{word}`: no such path"
                continue
            for name in re.findall(r"\w+(?:::\w+)*", "" if "/" in word else word):
                is_name = "::" in name or "_" in name.strip("_") or CAMEL.match(name)
                if is_name and not name[0].isdigit() and not set(name.split("::")) <= tree.names | own:
                    yield f"{page}:{part.line}: `{name}`: no such name in the code"


def faults_of(top: pathlib.Path) -> list[str]:
    """What is wrong with the pages of a repository."""
    tree = Tree(top)
    found: list[str] = []
    for page, text in sorted(tree.pages.items()):
        found += lengths(page, text)
        own = {name for block in re.findall(r"^```.*?^```", text, re.M | re.S) for name in re.findall(r"\w+", block)}
        for part in parts_of(text):
            found += [*links(tree, page, part), *code(tree, own, page, part)]
    return found


if __name__ == "__main__":
    faults = faults_of(TOP)
    for fault in faults:
        print(f"checks: {fault}", file=sys.stderr)
    sys.exit(1 if faults else 0)
