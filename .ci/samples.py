"""Compares the files of the folder samples with the constants of the crate ax_vectors."""

import pathlib
import re
import sys

top = pathlib.Path(__file__).resolve().parent.parent
constants = {}
for source in ("samples.rt", "test_files.rt"):
    text = (top / "crates/ax_vectors/src" / source).read_text()
    constants.update(re.findall(r'pub const (\w+): &str = r#"(.*?)"#;', text, re.S))

status = 0
for name, text in constants.items():
    if name == "NESTED_TOO_DEEP":
        continue
    file = name.removeprefix("FILE_").removeprefix("CAT").replace("_", "-")
    path = top / "samples" / file
    if not path.exists() or path.read_text() != text:
        print(f"checks: samples/{file} isn't the text of {name}", file=sys.stderr)
        status = 1
if not constants:
    print("checks: ax_vectors has no sample", file=sys.stderr)
    status = 1
sys.exit(status)
