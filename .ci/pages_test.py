"""Tests pages.py: over a small repository that is made here, a page with each text has to have the fault named, and no other."""

import pathlib
import sys
import tempfile

sys.dont_write_bytecode = True
import pages

# The files of the repository beside the page that is tried.
FILES = {
    "crates/low/src/reader.rt": "pub struct RecordReader; impl RecordReader { pub fn read_one(self) {} }",
    "crates/low/must-fail/one_octet_less.edit": "",
    "crates/low/README.md": "# low\n\n## What it is for\n\nIt reads.\n",
    "docs/OTHER.md": "# Other\n\n## Faults of a `body` (all)\n\n## Twice\n\n## Twice\n",
}
WORD = "word "
# The page, its text, and what is said of it ("" where nothing is).
CASES = [
    ("A.md", WORD * 120, ""),
    ("A.md", WORD * 121, "a paragraph of 121 words"),
    ("A.md", WORD * 60 + "\n" + WORD * 61, "a paragraph of 121 words"),
    ("A.md", WORD * 60 + "\n\n" + WORD * 61, ""),
    ("A.md", WORD * 60 + "\n- " + WORD * 61 + "\n- " + WORD * 61, ""),
    ("A.md", "- a\n- " + WORD * 60 + "\n  " + WORD * 61, "A.md:2: a paragraph of 121 words"),
    ("A.md", WORD * 120 + "`" + WORD + "code` -- = +", ""),
    ("A.md", "```sh\n" + WORD * 121 + "\n```", ""),
    ("A.md", "| a | b |\n|---|---|\n| " + WORD * 40 + "`code` | " + WORD * 40 + " |", ""),
    ("A.md", "| a | b |\n|---|---|\n| a | " + WORD * 41 + " |", "A.md:3: a cell of 41 words"),
    ("README.md", "a\n\n" * 80, ""),
    ("README.md", "a\n\n" * 80 + "a", "161 lines"),
    ("docs/ARCHITECTURE.md", (WORD * 100 + "\n\n") * 15, ""),
    ("docs/ARCHITECTURE.md", (WORD * 100 + "\n\n") * 15 + "`code`", "1501 words"),
    ("docs/PROVED.md", (WORD * 100 + "\n\n") * 20 + "## More", "2001 words"),
    ("docs/DECISIONS.md", WORD * 80 + "\n\n" + WORD * 80, ""),
    ("docs/DECISIONS.md", WORD * 80 + "`code`", "a record of 81 words"),
    ("docs/A.md", "[a](OTHER.md) [b](../crates/low/src/reader.rt) [c](OTHER.md#faults-of-a-body-all) [d](https://there.is/none)", ""),
    ("docs/A.md", "[a](OTHER.md#twice) [b](OTHER.md#twice-1) [c](#here) `[d](none)`\n\n# Here", ""),
    ("docs/A.md", "[a](NONE.md)", "the link to NONE.md: no such file"),
    ("docs/A.md", "![a](none.svg)", "the link to none.svg: no such file"),
    ("docs/A.md", "[a](OTHER.md#bodies)", "no such heading"),
    ("docs/A.md", "[a](OTHER.md#twice-2)", "no such heading"),
    ("docs/A.md", "[a](#there)\n\n# Here", "no such heading"),
    ("A.md", "| a |\n|---|\n| [a](NONE.md) |", "A.md:3: the link to NONE.md"),
    ("A.md", "`crates/low/src/reader.rt` `src/reader.rt` `low/src/*.rt` `crates/CRATE/must-fail/NAME.edit` `reader.rt` `docs/`", ""),
    ("A.md", "`crates/low/out/program` `048/010/SAC` `share/none/there`", ""),
    ("A.md", "`src/writer.rt`", "`src/writer.rt`: no such path"),
    ("A.md", "a list\n- of `docs/NONE`, a path", "A.md:2: `docs/NONE`: no such path"),
    ("A.md", "`writer.rt`", "`writer.rt`: no such path"),
    ("A.md", "`low/src/w*.rt`", "no such path"),
    ("A.md", "`read_one`, `RecordReader::read_one(4)`, `one_octet_less`, `RunsOut 4`?\n```\nRunsOut\n```", ""),
    ("A.md", "`CAT`, `FSPEC`, `2^64`, `--help`, `5_000`, `Reader`, `-> _`", ""),
    ("A.md", "`read_two`", "`read_two`: no such name"),
    ("A.md", "`RecordWriter`", "`RecordWriter`: no such name"),
    ("A.md", "`Vec<RecordWriter>`", "`RecordWriter`: no such name"),
    ("A.md", "`RecordReader::new`", "`RecordReader::new`: no such name"),
]


def main() -> int:
    """Tries each case."""
    failed = False
    for page, text, said in CASES:
        with tempfile.TemporaryDirectory(prefix="asterix-pages-") as folder:
            for path, content in {**FILES, page: text}.items():
                file = pathlib.Path(folder) / path
                file.parent.mkdir(parents=True, exist_ok=True)
                file.write_text(content)
            found = pages.faults_of(pathlib.Path(folder))
        if len(found) != bool(said) or not all(said in it for it in found):
            print(f"checks: pages.py says of {page} with\n{text[:200]}\n{found or 'nothing'}\nand not {said or 'nothing'}", file=sys.stderr)
            failed = True
    return 1 if failed else 0


sys.exit(main())
