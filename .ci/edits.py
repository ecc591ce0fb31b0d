"""Holds the edits of .ci/edits/, which no gate tries, to the files that they change: each text that one replaces stands there once.

    edits.py                    looks at all edits
    edits.py --apply EDIT TOP   writes the files that an edit changes into the copy of the repository at TOP

An edit is of the crate whose folder it stands in. With a line `crate: NAME` it changes that crate below it."""

import argparse
import pathlib
import sys

TOP = pathlib.Path(__file__).resolve().parent.parent


def changed(edit: pathlib.Path, top: pathlib.Path) -> dict[pathlib.Path, str]:
    """The files that an edit changes in the repository at `top`, with their new texts; a ValueError says what is wrong with it."""
    crate, path, old, texts = edit.parent.name, pathlib.Path(), "", {}
    for line in edit.read_text().split("\n"):
        word, _, rest = line.partition(": ")
        if word == "crate":
            crate = rest
        elif word == "file":
            path = top / "crates" / crate / rest
        elif word == "old":
            old = rest
        elif line.startswith("new:"):
            text = texts.get(path) or (path.read_text() if path.is_file() else "")
            if text.count(old) != 1:
                raise ValueError(f"replaces a text that stands {text.count(old)} times in {path.relative_to(top)}")
            texts[path] = text.replace(old, line.removeprefix("new:").removeprefix(" "))
            if texts[path] == text:
                raise ValueError("replaces a text by the same")
    if not texts:
        raise ValueError("changes nothing")
    return texts


def main() -> int:
    words = argparse.ArgumentParser(description="Holds the edits of .ci/edits/ to the files that they change.")
    words.add_argument("--apply", nargs=2, type=pathlib.Path, metavar=("EDIT", "TOP"))
    asked = words.parse_args()
    edits = [asked.apply[0].resolve()] if asked.apply else sorted((TOP / ".ci/edits").glob("*/*.edit"))
    failed = False
    for edit in edits:
        try:
            found = changed(edit, asked.apply[1].resolve() if asked.apply else TOP)
        except ValueError as wrong:
            print(f"checks: .ci/edits/{edit.parent.name}/{edit.name} {wrong}", file=sys.stderr)
            failed = True
            continue
        if asked.apply:
            for path, text in found.items():
                path.write_text(text)
    return failed


if __name__ == "__main__":
    sys.exit(main())
