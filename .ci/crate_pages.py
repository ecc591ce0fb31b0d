"""Holds the README.md of each crate to its form and to the code.

Each crate has one, of 10 to 40 lines and at most 400 words, with the headings of `HEADINGS` in this order. The part "Stands on" names
the crates and libraries of the crate's line in crates.txt, and no others. A word in backquotes is held where it is one of these:

- A name of code: it has an underscore, `::`, or a capital letter and a small one. After a leading name of a crate, all names of it
  stand as whole words in one .rt or .antt file of the crate, or of a crate below it; where they are several, not in a lib.rt.
- A name of a crate: it is one of crates.txt. Crates above may be named too.
- A path, which has a `/`: it is there from the crate's folder, or from the top of the repository.
- A name of an edit: it is one of the crate's, in `must-fail/` or in `.ci/edits/`.

`faults` answers what is wrong, for `.ci/crates.py`; run alone, the module prints it.
"""

import pathlib
import re
import sys

LEAST_LINES, MOST_LINES, MOST_WORDS = 10, 40, 400
# Of each file of a crate whether it is its root file, and its words.
FileWords = list[tuple[bool, set[str]]]
HEADINGS = ["Calls", "Proved", "Tested only, or neither", "Must-fail edits", "Stands on"]


def lines_of(top: pathlib.Path) -> dict[str, list[str]]:
    """Each crate of crates.txt, and the names of its line."""
    found = re.findall(r"^(\w+):(.*)$", (top / "crates.txt").read_text(), re.M)
    return {crate: names.split() for crate, names in found}


def reached(crate: str, below: dict[str, list[str]]) -> set[str]:
    """The crate and all crates below it."""
    found: set[str] = set()
    left = [crate]
    while left:
        one = left.pop()
        if one not in found:
            found.add(one)
            left += [name for name in below.get(one, []) if name in below]
    return found


def words_by_file(folder: pathlib.Path) -> FileWords:
    """Of each .rt and .antt file of a crate whether it is its root file, and its words."""
    files = [it for it in sorted(folder.rglob("*")) if it.suffix in (".rt", ".antt") and "out" not in it.parts]
    return [(it.name == "lib.rt", set(re.findall(r"\w+", it.read_text()))) for it in files]


def is_name(piece: str) -> bool:
    """Whether a word in backquotes is a name of code."""
    if not re.fullmatch(r"[A-Za-z_]\w*(::[A-Za-z_]\w*)*", piece):
        return False
    return "_" in piece or "::" in piece or re.search(r"[A-Z]\w*[a-z]|[a-z]\w*[A-Z]", piece) is not None


def quoted(page: str) -> list[str]:
    """The pieces in backquotes that are one word."""
    return [piece for piece in re.findall(r"`([^`\n]+)`", page) if " " not in piece]


def form_faults(page: str) -> list[str]:
    """What is wrong with the length and the headings of a page."""
    said = []
    lines = page.count("\n")
    words = len(re.findall(r"\S*\w\S*", page))
    if not LEAST_LINES <= lines <= MOST_LINES:
        said.append(f"has {lines} lines, and not {LEAST_LINES} to {MOST_LINES}")
    if words > MOST_WORDS:
        said.append(f"has {words} words, more than {MOST_WORDS}")
    headings = re.findall(r"^## (.*)$", page, re.M)
    if headings != HEADINGS:
        said.append(f"has the headings {headings}, and not {HEADINGS}")
    return said


def standing_faults(page: str, names: list[str], below: dict[str, list[str]]) -> list[str]:
    """What is wrong with the part "Stands on"."""
    known = set(below) | {name for line in below.values() for name in line}
    part = page.split("\n## Stands on\n", 1)[-1]
    named = {word for word in re.findall(r"\w+", part) if word in known}
    return [f'names {name} in "Stands on", or doesn\'t, against crates.txt' for name in sorted(named ^ set(names))]


def name_faults(top: pathlib.Path, crate: str, page: str, below: dict[str, list[str]], words: dict[str, FileWords]) -> list[str]:
    """The words in backquotes that name nothing."""
    said = []
    folder = top / "crates" / crate
    edits = {it.stem for it in [*folder.glob("must-fail/*.edit"), *(top / ".ci/edits" / crate).glob("*.edit")]}
    seen = [file for one in sorted(reached(crate, below)) for file in words.get(one, [])]
    for piece in quoted(page):
        if "/" in piece:
            if not (folder / piece).exists() and not (top / piece).exists():
                said.append(f"names the path {piece}, which isn't there")
        elif piece not in below and piece not in edits and is_name(piece):
            names = piece.split("::")
            if len(names) > 1 and names[0] in below:
                names = names[1:]
            # A root file names all that is public, whatever belongs together.
            files = [file for is_root, file in seen if len(names) == 1 or not is_root]
            if not any(all(name in file for name in names) for file in files):
                said.append(f"names {piece}, which is in no file of the crate and of those below it")
    return said


def faults(top: pathlib.Path, below: dict[str, list[str]]) -> list[str]:
    """What is wrong with the pages of the crates. `below` has each crate and the names of its line in crates.txt."""
    said = []
    words = {crate: words_by_file(top / "crates" / crate) for crate in below}
    for crate, names in below.items():
        path = top / "crates" / crate / "README.md"
        if not path.is_file():
            said.append(f"crates/{crate} has no README.md")
            continue
        page = path.read_text()
        found = form_faults(page) + standing_faults(page, names, below) + name_faults(top, crate, page, below, words)
        said += [f"crates/{crate}/README.md {one}" for one in found]
    return said


def main() -> int:
    """Prints what is wrong, and answers the status."""
    top = pathlib.Path(__file__).resolve().parent.parent
    found = faults(top, lines_of(top))
    for one in found:
        print(f"checks: {one}", file=sys.stderr)
    return int(bool(found))


if __name__ == "__main__":
    sys.exit(main())
