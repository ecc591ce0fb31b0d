"""Holds the completions, the man pages and what --help writes to the tables of commands and of options."""

import pathlib
import re
import shutil
import subprocess
import sys
import tempfile

TOP = pathlib.Path(__file__).resolve().parent.parent
TOOLS = TOP / "tools"


def differing():
    """What the table of commands doesn't agree with."""
    rows = [line.split("\t") for line in (TOOLS / "commands").read_text().splitlines()]
    shapes = [f"asterix {name} {words}" for name, words, _ in rows]
    told = subprocess.run([TOP / "asterix", "--help"], stdin=subprocess.DEVNULL, capture_output=True, text=True).stdout
    if told.splitlines() != shapes:
        yield "what --help writes"
    page = (TOP / "docs/asterix.1").read_text()
    synopsis = re.findall(r"^\\fBasterix (\w+)\\fR ([A-Z. ]*[A-Z.])", page, re.M)
    if synopsis != [(name, words) for name, words, _ in rows]:
        yield "the synopsis of docs/asterix.1"
    described = page.split("\n.SH COMMANDS\n", 1)[1].split("\n.SH ", 1)[0]
    if [name for name in re.findall(r"^\.TP\n\.B (\w+)$", described, re.M)] != [name for name, _, _ in rows]:
        yield "the commands of docs/asterix.1"
    with tempfile.TemporaryDirectory(prefix="asterix-commands-") as room:
        shutil.copytree(TOOLS / "completion", pathlib.Path(room) / "completion")
        shutil.copy(TOOLS / "commands", room)
        shutil.copy(TOOLS / "options", room)
        subprocess.run([sys.executable, pathlib.Path(room) / "completion/make"], check=True)
        for file in (TOOLS / "completion").iterdir():
            if file.is_file() and file.read_text() != (pathlib.Path(room) / "completion" / file.name).read_text():
                yield f"tools/completion/{file.name}"


def options_of(program):
    """The options of a program in the table of options, each with its word and what it does; --help, which each command has, is the last."""
    rows = [line.split("\t") for line in (TOOLS / "options").read_text().splitlines()]
    own = [(", ".join(names.split()), word, what) for of, names, word, what in rows if of.split()[0] == program and names.startswith("-")]
    return [it for it in own if it[0] != "--help"] + [("--help", "", "write this")]


def differing_options():
    """What of the programs that have options doesn't agree with the table."""
    programs = dict.fromkeys(line.split("\t")[0].split()[0] for line in (TOOLS / "options").read_text().splitlines())
    for program in programs:
        wanted = options_of(program)
        told = subprocess.run([TOOLS / program, "--help"], stdin=subprocess.DEVNULL, capture_output=True, text=True).stdout
        if re.findall(r"^ +(-[-a-z, ]*[a-z])(?: ([A-Z]+))?  +(.*)$", told, re.M) != wanted:
            yield f"what {program} --help writes"
        page = (TOP / "docs" / f"{program}.1").read_text().replace("\\-", "-")
        described = re.findall(r"^\.TP\n(\\fB-.*)$", page, re.M)
        shapes = [re.sub(r"\\f.", "", it) for it in described]
        if shapes != [f"{names} {word}".strip() for names, word, _ in wanted]:
            yield f"the options of docs/{program}.1"


wrong = [*(f"{it} isn't that of tools/commands or tools/options" for it in differing()), *(f"{it}: not as tools/options has them" for it in differing_options())]
for what in wrong:
    print(f"checks: {what}", file=sys.stderr)
sys.exit(bool(wrong))
