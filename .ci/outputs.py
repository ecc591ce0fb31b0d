"""Tries where what the program writes goes: outputs and reports that fail, want of memory beside them, both in one pipe, a live pipe, and
a small stack.

Each case runs first where both can be written. What is due where one of them can't is made of that: prefixes of it, by what stands by hand
in the case. An output that fails is /dev/full or a pipe that nobody reads; so is a report.
"""

import itertools
import os
import pathlib
import resource
import select
import subprocess
import sys
import tempfile
import time
import typing

TOP = pathlib.Path(__file__).resolve().parent.parent
PROGRAM = os.environ.get("ASTERIX", str(TOP / "crates/asterix/out/asterix"))
# Seconds for a run, and for what is due of a live pipe.
RUNNING = 60
WAITING = 20
# The octets of stack that the program is to do with: an eighth of what is usual. A block that is split needs the most, less than half of it.
STACK = 1 << 20
FAULT = "fault write\n"
# The least and the greatest address space between which the need of a run is sought, and how exactly it is found.
SOUGHT = (1 << 20, 1 << 28)
STEP = 1 << 16


class Case(typing.NamedTuple):
    """A run: the words, the pieces of the input, and what is due where both streams are good, written by hand."""

    words: list[str]
    pieces: list[bytes]
    status: int
    # The lines of the report, and how many of them stand before the last octets of the output.
    report: list[str]
    leading: int = 0
    # How many of the lines are those of the ending. The ending is lost with them alone.
    own: int = 0
    # The number of the first piece that a line before the last octets is of.
    first: int = 0
    # What stands as standard input in place of the pieces.
    source: str = ""
    # The octets of address space that the run has; as many as it asks for where this is 0.
    memory: int = 0


class Ran(typing.NamedTuple):
    status: int
    output: bytes
    report: bytes


SOUND = bytes.fromhex("300006 80 190C")
DAMAGED = bytes.fromhex("300005 80 19")
CUT = b"\x30\x00"
KEPT = bytes.fromhex("3e000a 0104 01010101 00")
LOSING = bytes.fromhex("3e000b 0104 0101010101 80")
CONVERTED = bytes.fromhex("d10006 80 0100")
UNCONVERTED = bytes.fromhex("d10006 80 0101")
READ = bytes.fromhex("30000a 01010102 03 8005")
UNREAD = bytes.fromhex("30000a 01010102 03 4005")
SHORT = bytes.fromhex("d00005 80 00")
# A record of as many octets as a block has; in the other edition its presence field is longer.
LONGEST = bytes.fromhex("d0ffff 80") + b"\x01" * 65530 + b"\x00"
BUILT = b"block 048 { record { 010 { SAC 25 SIC 12 } } }\n"
MISTAKEN = b"block 048 { record { 010 { SAC 256 SIC 12 } } }\n"
# How often a piece comes in a large input, of which more comes out than is held back.
OFTEN = 40_000

FILES = {
    "J1": 'category 208 edition "J1" items { item 010 "" byfx element 7 raw } uap { 010 }',
    "J2": 'category 208 edition "J2" items { item 010 "" byfx element 7 raw } uap { - - - - - - - 010 }',
}
BESIDE = {
    **{name: f"samples/{name}" for name in ("E", "F", "G1", "G2", "H1", "H2", "X", "Y1", "Y3", "048-P1", "048-P2")},
    "old": "categories/062-1.17",
    "new": "categories/062-1.18",
}


def refused(number: int, bit: int, cause: str) -> str:
    """The line of a block with a fault."""
    return f"refused block {number} bit {bit} {cause}\n"


def cases() -> typing.Iterator[Case]:
    """Each command, with each of its ways to end."""
    yield Case(["--help"], [], 0, [])
    yield Case(["--version"], [], 0, [])
    yield Case(["chek", "E"], [], 1, ["refused usage\n"], own=1)
    yield Case(["check", "E"], [], 0, [])
    flaws = ["flaw file 0 NotOctets 034/010\n", "flaw file 0 RepeatedInUap 034/uap/010\n", "refused file 0 Flawed 2\n"]
    yield Case(["check", "F"], [], 2, flaws, own=3)
    yield Case(["check", "nowhere"], [], 4, ["fault file 0\n"], own=1)
    yield Case(["trial", "E", "1", "10"], [], 0, [])
    yield Case(["canon", "048-P1"], [], 4, ["fault read\n"], own=1, source=".")
    yield Case(["filter", "present 048/011", "048-P1"], [SOUND], 2, ["refused filter UnknownPath token 1\n"], own=1)
    yield Case(["migrate", "old", "E"], [KEPT], 2, ["refused editions 062 034\n"], own=1)
    for words in (["canon", "048-P1"], ["show", "048-P1"], ["text", "048-P1"], ["filter", "present 048/010", "048-P1"]):
        for often in (1, OFTEN):
            yield Case(words, [SOUND] * often, 0, [])
            yield Case(words, [SOUND] * often + [DAMAGED], 3, [refused(often, 32, "RunsOut")], own=1)
            yield Case(words, [SOUND] * often + [CUT], 3, [refused(often, 16, "EndsInHeader")], own=1)
    for often in (1, OFTEN):
        yield Case(["build", "048-P1"], [BUILT] * often, 0, [])
        yield Case(["build", "048-P1"], [BUILT] * often + [MISTAKEN], 3, [f"refused line {often} BadToken token 8\n"], own=1)
        yield from losing(often)
        yield from salvaged(often)


def losing(often: int) -> typing.Iterator[Case]:
    """The commands that tell of a block before they write it."""
    for words, whole, telling, line in (
        (["migrate", "old", "new"], KEPT, LOSING, "lost block {} record 0 062/080/part5\n"),
        (["convert", "Y1", "Y3"], CONVERTED, UNCONVERTED, "unconverted block {} record 0 209/010\n"),
        (["expand", "048-P1", "X"], READ, UNREAD, "unread block {} record 0 bit 1 UndefinedSlot\n"),
    ):
        one, every = [line.format(often)], [line.format(number) for number in range(often)]
        cut = refused(2 * often + 1, 16, "EndsInHeader")
        yield Case(words, [whole] * often, 0, [])
        yield Case(words, [whole] * often + [telling] + [whole] * often, 0, one, 1, 0, often)
        yield Case(words, [whole] * often + [telling] + [whole] * often + [whole[:2]], 3, one + [cut], 1, 1, often)
        if words[0] != "expand":
            yield Case(words, [telling] * often, 0, every, often)
    for command in ("migrate", "convert"):
        too_long = f"refused block {often} MigratedTooLong 65536\n"
        yield Case([command, "J1", "J2"], [SHORT] * often + [LONGEST], 3, [too_long], own=1)


def salvaged(often: int) -> typing.Iterator[Case]:
    """`salvage`, with a damaged block behind all octets, between them and in front of them."""
    words, damaged = ["salvage", "048-P1"], refused(often, 32, "RunsOut")
    yield Case(words, [SOUND] * often, 0, [f"salvaged 048 written {often} refused 0\n"])
    yield Case(words, [SOUND] * often + [DAMAGED], 0, [damaged, f"salvaged 048 written {often} refused 1\n"])
    yield Case(words, [SOUND] * often + [DAMAGED, CUT], 3, [damaged, refused(often + 1, 16, "EndsInHeader")], own=1)
    between = [SOUND] * often + [DAMAGED] + [SOUND] * often
    yield Case(words, between, 0, [damaged, f"salvaged 048 written {2 * often} refused 1\n"], 1, 0, often)


def least_memory(room: str, case: Case) -> int:
    """An address space with which a case ends as it does with any, to a step above the least."""
    too_little, enough = SOUGHT
    while enough - too_little > STEP:
        middle = (too_little + enough) // 2
        if run(room, case._replace(memory=middle), case.pieces).status == case.status:
            enough = middle
        else:
            too_little = middle
    return enough


def without_memory(room: str) -> typing.Iterator[Case]:
    """Want of memory before a block is read, and behind many blocks: at one that needs room of its own."""
    wanting = ["refused memory\n"]
    canon = Case(["canon", "048-P1"], [SOUND], 0, [])
    yield canon._replace(status=5, report=wanting, own=1, memory=least_memory(room, canon) - 2 * STEP)
    body = b"\x01\x20\xff" + b"\x07" * 8 * 255
    large = b"\x30" + (3 + 32 * len(body)).to_bytes(2, "big") + body * 32
    for command, often in itertools.product(("show", "text"), (1, OFTEN)):
        before = Case([command, "048-P1"], [SOUND] * often, 0, [])
        yield Case(before.words, [*before.pieces, large], 5, wanting, own=1, memory=least_memory(room, before))


def closed_pipe() -> int:
    """The end of a pipe that nobody reads."""
    reading, writing = os.pipe()
    os.close(reading)
    return writing


def full() -> int:
    """A device that is full."""
    return os.open("/dev/full", os.O_WRONLY)


def run(room: str, case: Case, pieces: list[bytes], output: int = subprocess.PIPE, report: int = subprocess.PIPE, stack: int = 0) -> Ran:
    """Runs a case's words on these pieces."""
    source = pathlib.Path(room) / "input"
    source.write_bytes(b"".join(pieces))
    limits = [(resource.RLIMIT_STACK, stack), (resource.RLIMIT_AS, case.memory)]

    def limit() -> None:
        for what, most in limits:
            if most:
                resource.setrlimit(what, (most, most))

    standard = os.open(os.path.join(room, case.source) if case.source else source, os.O_RDONLY)
    try:
        done = subprocess.run(
            [PROGRAM, *case.words], cwd=room, stdin=standard, stdout=output, stderr=report, timeout=RUNNING, preexec_fn=limit
        )
    finally:
        os.close(standard)
    return Ran(done.returncode, done.stdout or b"", done.stderr or b"")


def failing(room: str, case: Case, output: bool, report: bool) -> typing.Iterator[tuple[str, Ran]]:
    """Runs of a case in which these of its streams fail, each in both ways."""
    for name, broken in (("a full device", full), ("a closed pipe", closed_pipe)):
        ends = [broken() if fails else subprocess.PIPE for fails in (output, report)]
        yield name, run(room, case, case.pieces, *ends)
        for end, fails in zip(ends, (output, report)):
            if fails:
                os.close(end)


class Faults:
    """What isn't as it is due."""

    def __init__(self) -> None:
        self.found = False

    def tell(self, case: Case, what: str) -> None:
        print(f"checks: outputs: {' '.join(case.words)}, {len(case.pieces)} pieces: {what}", file=sys.stderr)
        self.found = True

    def compare(self, case: Case, what: str, found: object, due: object) -> None:
        if found != due:
            self.tell(case, f"{what}: {shortened(found)} and not {shortened(due)}")


def shortened(value: object) -> str:
    text = repr(value)
    return text if len(text) <= 400 else f"{text[:200]} .. {text[-200:]}"


def try_case(room: str, case: Case, faults: Faults) -> None:
    """Tries each pair of a good stream and a failing one, and two that fail."""
    good = run(room, case, case.pieces)
    whole = "".join(case.report)
    faults.compare(case, "good streams", (good.status, good.report.decode()), (case.status, whole))
    of_blocks = len(case.report) - case.own
    for way, ran in failing(room, case, output=True, report=False):
        if not good.output:
            faults.compare(case, f"output to {way}, of which there is none", (ran.status, ran.report), (good.status, good.report))
            continue
        told = ran.report.decode()
        faults.compare(case, f"the status, output to {way}", ran.status, 4)
        lines, end = told[: -len(FAULT)], told[-len(FAULT):]
        faults.compare(case, f"the last line, output to {way}", end, FAULT)
        if len(good.output) + len(whole) < 131_072:
            faults.compare(case, f"the lines before it, output to {way}", lines, "".join(case.report[: case.leading]))
        elif not "".join(case.report[: case.leading]).startswith(lines) or (lines and not lines.endswith("\n")):
            faults.tell(case, f"output to {way}: {shortened(lines)} aren't lines before the octets")
    before = good.output
    if case.leading:
        before = run(room, case, case.pieces[: case.first]).output
    for way, ran in failing(room, case, output=False, report=True):
        due = 4 if of_blocks else good.status
        faults.compare(case, f"report to {way}", (ran.status, ran.output), (due, before))
    for way, ran in failing(room, case, output=True, report=True):
        faults.compare(case, f"both to {way}", ran.status, 4 if good.output or of_blocks else good.status)
    in_one_pipe(room, case, good, faults)


def in_one_pipe(room: str, case: Case, good: Ran, faults: Faults) -> None:
    """Output and report as one pipe: all of both, and the lines of a block before its octets."""
    both = run(room, case, case.pieces, report=subprocess.STDOUT).output
    whole = "".join(case.report).encode()
    if len(good.output) + len(whole) < 131_072:
        leading = "".join(case.report[: case.leading]).encode()
        faults.compare(case, "both in one pipe", both, leading + good.output + whole[len(leading):])
    elif case.leading == len(case.pieces):
        faults.compare(case, "blocks after their lines, both in one pipe", blocks_after_lines(both, case), True)
    else:
        faults.compare(case, "the octets of both in one pipe", len(both), len(good.output) + len(whole))


def blocks_after_lines(both: bytes, case: Case) -> bool:
    """Whether these are a line and a data block for each piece, the line before the block, and each in order."""
    at, lines, blocks = 0, 0, 0
    while at < len(both):
        line = case.report[lines].encode() if lines < len(case.report) else b""
        if line and both.startswith(line, at):
            at, lines = at + len(line), lines + 1
        elif blocks < lines:
            at, blocks = at + int.from_bytes(both[at + 1 : at + 3], "big"), blocks + 1
        else:
            return False
    return at == len(both) and lines == blocks == len(case.report)


def live(room: str, case: Case, faults: Faults) -> None:
    """Feeds a case piece by piece through a pipe: what is made of a piece is out before the next one comes."""
    ends = [run(room, case, case.pieces[:count]) for count in range(1, len(case.pieces) + 1)]
    # The counts of `salvage` come at the end alone.
    reports = ["".join(it for it in ran.report.decode().splitlines(True) if not it.startswith("salvaged")) for ran in ends]
    with subprocess.Popen(
        [PROGRAM, *case.words], cwd=room, stdin=subprocess.PIPE, stdout=subprocess.PIPE, stderr=subprocess.PIPE, bufsize=0
    ) as child:
        assert child.stdin and child.stdout and child.stderr
        found = {child.stdout: b"", child.stderr: b""}
        for number, piece in enumerate(case.pieces):
            child.stdin.write(piece)
            due = {child.stdout: ends[number].output, child.stderr: reports[number].encode()}
            until = time.monotonic() + WAITING
            while any(len(found[end]) < len(due[end]) for end in due) and time.monotonic() < until:
                for end in select.select(list(due), [], [], 0.1)[0]:
                    found[end] += os.read(end.fileno(), 65536)
            faults.compare(case, f"a live pipe, after piece {number}", list(found.values()), list(due.values()))
        child.stdin.close()
        rest = [found[end] + (end.read() or b"") for end in found]
        status = child.wait(RUNNING)
    faults.compare(case, "a live pipe, at its end", (status, rest), (ends[-1].status, [ends[-1].output, ends[-1].report]))


def live_cases() -> typing.Iterator[Case]:
    """A case of each command that reads blocks or lines; the second piece has a line where one can."""
    for words in (["canon", "048-P1"], ["show", "048-P1"], ["text", "048-P1"], ["filter", "present 048/010", "048-P1"]):
        yield Case(words, [SOUND] * 3, 0, [])
    yield Case(["build", "048-P1"], [BUILT] * 3, 0, [])
    yield Case(["salvage", "048-P1"], [SOUND, DAMAGED, SOUND], 0, [])
    yield Case(["migrate", "old", "new"], [KEPT, LOSING, KEPT], 0, [])
    yield Case(["convert", "Y1", "Y3"], [CONVERTED, UNCONVERTED, CONVERTED], 0, [])
    yield Case(["expand", "048-P1", "X"], [READ, UNREAD, READ], 0, [])


def nested(deep: int, opening: str, closing: str = "}") -> str:
    """A file with an element in so many kinds, each of which stands in the next one."""
    kind = f"{opening} " * deep + "element 8 raw" + f" {closing}" * deep
    return f'category 048 edition "deep" items {{ item 010 "" {kind} }} uap {{ 010 }}'


def nested_expansion(deep: int) -> str:
    """An expansion file with an element in so many counted kinds."""
    kind = "counted { " * deep + "element 8 raw" + " }" * deep
    return f'expansion 048 edition "deep" fx {{ A {kind} }}'


def many(letter: str, kind: str) -> str:
    """126 items or slots of one kind."""
    return " ".join(f"{letter}{number:03} {kind}" for number in range(126))


def rare_files(room: str) -> None:
    """The files of the rare ways: kinds nested as deep as a file may have them, and two editions that share no subitem."""
    subitems, other = f"compound {{ {many('S', 'element 8 raw')} }}", "compound { Z element 8 raw }"
    slots = many("I", "").replace("  ", " ")
    lines = {name: " ".join(f'item I{number:03} "" {kind}' for number in range(126)) for name, kind in (("full", subitems), ("bare", other))}
    texts = {
        "counted": nested(15, "counted {"),
        "compound": nested(15, "compound { A"),
        "group": nested(15, "group { A"),
        "expansion": nested_expansion(15),
        **{name: f'category 048 edition "{name}" items {{ {items} }} uap {{ {slots} }}' for name, items in lines.items()},
        **FILES,
    }
    for name, text in texts.items():
        (pathlib.Path(room) / name).write_text(text)


def rare_cases() -> typing.Iterator[Case]:
    """What needs the most stack, as far as is known."""
    marked = b"\xff" * 17 + b"\xfe"
    body = marked + (marked + b"\7" * 126) * 126
    all_lost = b"\x30" + (len(body) + 3).to_bytes(2, "big") + body
    lines = [f"lost block 0 record 0 048/I{item:03}/S{slot:03}\n" for item, slot in itertools.product(range(126), repeat=2)]
    yield Case(["migrate", "full", "bare"], [all_lost], 0, lines, len(lines))
    yield Case(["convert", "full", "bare"], [all_lost], 0, lines, len(lines))
    split = b"\xc9\xff\xfe" + b"\x80\x01" * 32765 + b"\x00"
    yield Case(["migrate", "G1", "G2"], [split], 0, [])
    yield Case(["convert", "G1", "G2"], [split], 0, [])
    deep = b"\x80" + b"\1" * 15 + b"\7"
    content = b"\1\1\1\2" + bytes([len(deep) + 1]) + deep
    yield Case(["expand", "048-P1", "expansion"], [b"\x30" + (len(content) + 3).to_bytes(2, "big") + content], 0, [])
    yield Case(["filter", "not { " * 16 + "present 048/010" + " }" * 16, "048-P1"], [SOUND], 0, [])
    for name, record in (("counted", b"\x80" + b"\1" * 15 + b"\7"), ("compound", b"\x80" * 16 + b"\7"), ("group", b"\x80\7")):
        block = b"\x30" + (len(record) + 3).to_bytes(2, "big") + record
        for command in ("check", "canon", "show", "text", "salvage"):
            yield Case([command, name], [block], 0, ["salvaged 048 written 1 refused 0\n"] if command == "salvage" else [])
        yield Case(["filter", "present 048/010", name], [block], 0, [])
        yield Case(["migrate", name, name], [block], 0, [])
        yield Case(["convert", name, name], [block], 0, [])
        yield Case(["trial", name, "1", "100"], [], 0, [])


def small_stack(room: str, faults: Faults) -> None:
    """The rare ways with a small stack: the same as with the usual one."""
    for case in rare_cases():
        usual, small = run(room, case, case.pieces), run(room, case, case.pieces, stack=STACK)
        faults.compare(case, "the usual stack", (usual.status, usual.report.decode()), (case.status, "".join(case.report)))
        faults.compare(case, "a small stack", small, usual)
        if case.words[0] == "text":
            build = case._replace(words=["build", *case.words[1:]], pieces=[usual.output])
            faults.compare(build, "a small stack", run(room, build, build.pieces, stack=STACK), Ran(0, case.pieces[0], b""))


def main() -> bool:
    faults = Faults()
    with tempfile.TemporaryDirectory(prefix="asterix-outputs-") as room:
        for name, file in BESIDE.items():
            (pathlib.Path(room) / name).symlink_to(TOP / file)
        rare_files(room)
        for case in cases():
            try_case(room, case, faults)
        for case in without_memory(room):
            try_case(room, case, faults)
        for case in live_cases():
            live(room, case, faults)
        small_stack(room, faults)
    return faults.found


if __name__ == "__main__":
    sys.exit(main())
