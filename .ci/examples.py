"""Runs the examples of the pages: each block of commands has to print and to end as its page says.

A block that begins with ```sh holds commands, which bash runs. The next block without a word after its ``` is what they print, on
standard output and standard error together. Where there is none, they print nothing. The words after ```sh say how the commands end:

- no word: each command ends with status 0, and nothing is written on standard error.
- `status N`: each command ends with status 0 or N, and at least one ends with N. Standard error may be written.
- `report`: each command ends with status 0. Standard error may be written.
- `by hand`: the block isn't run.

Each command of a pipe counts, and so does each one in a function, a loop, a subshell, `$(..)` or `<(..)`: bash's ERR trap notes the
statuses of all parts. A command that is killed by SIGPIPE ends with status 141, so an example reads its input to the end (`sed -n`, and
not `head`). The one exception is a command that bash itself asks: after `if`, `while` or `!`, or before `&&` or `||`. It may fail. The
status of the block's last line counts all the same.

A block with another word after its ``` (`text`, `rust`) is only read. The blocks of a page run in order, in one shell and one folder.
In that folder are the files and folders that are at the top of a clone, and `asterix` and the tools are on the PATH. `python3` is the
system's own, which has Debian's pandas, and finds the package of python/.
"""

import argparse
import concurrent.futures
import os
import pathlib
import re
import subprocess
import sys
import tempfile
from typing import NamedTuple

TOP = pathlib.Path(__file__).resolve().parent.parent
# What an example finds beside it.
BESIDE = ("asterix", "categories", "docs", "python", "samples", "tools")
# The Python that has what Debian's packages bring.
PYTHON = "/usr/bin/python3"
# Seconds for the examples of a page.
RUNNING = 120
# What the shell prints after each example.
MARK = "asterix-example-ends-here"
# Before the examples: each failure of a command is noted in the file of its example.
BEGIN = """set -E -o pipefail
trap 'echo "${PIPESTATUS[*]}" >> "$asterix_notes/$asterix_example"' ERR
exec 3>&1
"""
# Around the commands of an example.
EXAMPLE = """asterix_example={number}
exec 2>{errors}
{commands}echo "$?" >> "$asterix_notes/$asterix_example"
echo {mark}
"""


class Example(NamedTuple):
    """A block of commands: its line, its commands, what they print, the status wanted, and whether standard error may be written."""

    line: int
    commands: str
    wanted: str
    status: int
    reports: bool


class BadPage(Exception):
    """A page whose blocks don't follow the rules above."""


def blocks_of(page: str, text: str) -> list[tuple[int, str, str]]:
    """The blocks of a page: the line of each, from 1, the words after its ```, and its content."""
    found: list[tuple[int, str, str]] = []
    begun: tuple[int, str, list[str]] | None = None
    for number, line in enumerate(text.splitlines(), 1):
        if begun is None:
            if line.startswith("```"):
                begun = (number, line[3:].strip(), [])
        elif line == "```":
            found.append((begun[0], begun[1], "".join(f"{it}\n" for it in begun[2])))
            begun = None
        else:
            begun[2].append(line)
    if begun is not None:
        raise BadPage(f"{page}:{begun[0]}: this block has no end")
    return found


def examples_of(page: str, text: str) -> list[Example]:
    """The examples of a page."""
    found: list[Example] = []
    is_open = False
    for line, words, content in blocks_of(page, text):
        is_example = False
        if not words:
            if not is_open:
                raise BadPage(f"{page}:{line}: no block of commands is before this one")
            found[-1] = found[-1]._replace(wanted=content)
        elif words.split()[0] == "sh" and words != "sh by hand":
            ending = re.fullmatch(r"sh(?: status ([1-9]\d{0,2})| (report))?", words)
            if not ending:
                raise BadPage(f"{page}:{line}: a block of commands is sh, sh status N, sh report or sh by hand")
            found.append(Example(line, content, "", int(ending[1] or 0), words != "sh"))
            is_example = True
        is_open = is_example
    return found


def run_in(examples: list[Example], room: pathlib.Path, notes: pathlib.Path) -> list[str]:
    """What each example prints, in one shell, as for someone who types the commands one after another."""
    script = BEGIN + "".join(
        EXAMPLE.format(
            number=number,
            errors="&3" if example.reports else f'"$asterix_notes/{number}.errors"',
            commands=example.commands,
            mark=MARK,
        )
        for number, example in enumerate(examples)
    )
    done = subprocess.run(
        ["bash", "-c", script],
        cwd=room,
        env={
            **os.environ,
            "PATH": f"{room}:{room}/tools:{room}/.bin:{os.environ['PATH']}",
            "PYTHONPATH": str(TOP / "python"),
            "PYTHONDONTWRITEBYTECODE": "1",
            "LC_ALL": "C",
            "asterix_notes": str(notes),
        },
        stdin=subprocess.DEVNULL,
        stdout=subprocess.PIPE,
        stderr=subprocess.STDOUT,
        timeout=RUNNING,
    )
    return done.stdout.decode(errors="backslashreplace").split(f"{MARK}\n")


def faults_of(example: Example, printed: str, statuses: set[int], errors: str) -> list[str]:
    """What an example does otherwise than its page says."""
    found = []
    if errors:
        found.append(f"wrote on standard error\n{errors}")
    if printed != example.wanted:
        found.append(f"printed\n{printed}and not\n{example.wanted}")
    for status in sorted(statuses - {0, example.status}):
        found.append(f"ended with status {status}\n")
    if example.status not in statuses | {0}:
        found.append(f"didn't end with status {example.status}\n")
    return found


def run(page: str, text: str) -> list[str]:
    """Runs the examples of a page, and returns what is wrong with them."""
    try:
        examples = examples_of(page, text)
    except BadPage as fault:
        return [str(fault)]
    if not examples:
        return []
    with tempfile.TemporaryDirectory(prefix="asterix-examples-") as folder:
        room, notes = pathlib.Path(folder) / "room", pathlib.Path(folder) / "notes"
        room.mkdir()
        notes.mkdir()
        for name in BESIDE:
            (room / name).symlink_to(TOP / name)
        (room / ".bin").mkdir()
        (room / ".bin/python3").symlink_to(PYTHON)
        try:
            outputs = run_in(examples, room, notes)
        except subprocess.TimeoutExpired:
            return [f"{page}: the examples take more than {RUNNING} seconds"]
        if len(outputs) != len(examples) + 1:
            return [f"{page}: the shell ended in example {len(outputs)} of {len(examples)}\n{outputs[-1]}"]
        wrong = []
        for number, (example, printed) in enumerate(zip(examples, outputs)):
            noted, errors = notes / str(number), notes / f"{number}.errors"
            statuses = {int(it) for it in noted.read_text().split()}
            said = errors.read_text(errors="backslashreplace") if errors.exists() else ""
            for fault in faults_of(example, printed, statuses, said):
                wrong.append(f"{page}:{example.line}: these commands\n{example.commands}{fault}")
    return wrong


def pages() -> list[str]:
    """The pages of the repository that have a block of commands."""
    found = [it for it in TOP.rglob("*.md") if not {"out", ".git"} & set(it.relative_to(TOP).parts)]
    return sorted(str(it.relative_to(TOP)) for it in found if re.search(r"^```sh", it.read_text(), re.M))


def main() -> int:
    """Runs the examples of the pages named, or of all."""
    parser = argparse.ArgumentParser(description="Runs the examples of the pages.")
    parser.add_argument("page", nargs="*", help="a page, from the top of the clone; without any, all pages")
    names = parser.parse_args().page or pages()
    with concurrent.futures.ThreadPoolExecutor() as pool:
        wrong = [fault for faults in pool.map(lambda name: run(name, (TOP / name).read_text()), names) for fault in faults]
    for fault in wrong:
        print(f"checks: {fault.rstrip()}", file=sys.stderr)
    return 1 if wrong or not names else 0


if __name__ == "__main__":
    sys.exit(main())
