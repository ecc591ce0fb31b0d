"""Holds categories/RAW.tsv to the category files: it has each element without a content (`raw`), and nothing else. The counts of its
classes are those in categories/README.md. Each path of categories/TSHARK.tsv is one of its files."""

import collections
import pathlib
import re
import sys

TOP = pathlib.Path(__file__).resolve().parent.parent
sys.dont_write_bytecode = True
sys.path.insert(0, str(TOP / "tools"))
import layouts  # noqa: E402


def main() -> int:
    """Compares the two."""
    wanted = set()
    for file in sorted((TOP / "categories").glob("[0-9]*")):
        for path, element in layouts.elements_of(layouts.layout_in(file)):
            if element.content.words == ("raw",):
                wanted.add((file.name, path, element.width))
    rows = [line.split("\t") for line in (TOP / "categories/RAW.tsv").read_text(encoding="utf-8").splitlines()[1:]]
    named = {(file, path, int(bits)) for _, path, bits, files, _ in rows for file in files.split()}
    for file, path, bits in sorted(wanted - named):
        print(f"checks: categories/RAW.tsv lacks {path} of {file}, {bits} bits", file=sys.stderr)
    for file, path, bits in sorted(named - wanted):
        print(f"checks: categories/RAW.tsv has {path} of {file}, {bits} bits, which isn't raw there", file=sys.stderr)
    status = 1 if wanted != named else 0
    page = (TOP / "categories/README.md").read_text(encoding="utf-8")
    told = {name: int(count) for name, count in re.findall(r"^\| `(\w+)` \| (\d+) \|", page, re.M)}
    if told != collections.Counter(row[0] for row in rows) or f"In {len(wanted)} elements" not in page:
        print("checks: categories/README.md has other counts of raw elements than categories/RAW.tsv", file=sys.stderr)
        status = 1
    for line in (TOP / "categories/TSHARK.tsv").read_text(encoding="utf-8").splitlines()[1:]:
        files, path, *_ = line.split("\t")
        for file in files.split():
            names = set(re.findall(r"[A-Z0-9]+", (TOP / "categories" / file).read_text(encoding="utf-8")))
            if path.split("/")[0] != file[:3] or not set(path.split("/")[1:]) <= names:
                print(f"checks: categories/TSHARK.tsv names {path}, which {file} doesn't have", file=sys.stderr)
                status = 1
    return status


if __name__ == "__main__":
    sys.exit(main())
