#!/usr/bin/env python3
"""worst.py [--mb MB] [--rounds N] [--only WORD] [BINARY]

Measures BINARY (else crates/asterix/out/asterix) on inputs that take a command much time: by their category files, their expression or
their text. It also measures the usual stream, that of make_stream.py under samples/048-P1 and samples/034-P1. The inputs are made here,
in a temporary folder. Each run reads a file and writes to /dev/null, standard error too. --only keeps the rows whose name or command has
WORD, and the usual rows of their commands. A row of the table says:

  name      what is particular in the category files, the expression or the text, and sometimes in the data
  command   of the program; `build` reads what `text` writes of the same data
  in        octets on standard input; category files and expressions aren't counted
  out       octets on standard output and standard error together, counted in a run apart
  seconds   the time on a processor, the least of the rounds, with the reading of the category files. A run that takes more than
            20 of these seconds is stopped, and the row has `> 20 s`
  ns/octet  nanoseconds of that time for each octet of in and out together
  usual     ns/octet as a multiple of that of the usual stream for the same command, in this run. For `migrate` and `convert` these are
            its blocks of category 048, from samples/048-P1 to samples/048-P2; for `filter` the test is `is 048/010/SAC = 25`

Each run has to end with status 0, and to write something."""
import argparse
import os
import pathlib
import resource
import signal
import subprocess
import sys
import tempfile
import typing

sys.dont_write_bytecode = True
from bench import EDITIONS, SAMPLES, blocks_of, written

HERE = pathlib.Path(__file__).resolve().parent
TOP = HERE.parent
# Seconds on a processor that a run may take.
LONGEST = 20
GREATEST_BODY = 65532
ONE = "element 8 raw"


class Case(typing.NamedTuple):
    name: str
    commands: tuple
    # The category files' texts, and the data blocks.
    files: list
    stream: bytes
    expression: str = ""


class Row(typing.NamedTuple):
    name: str
    command: str
    words: list
    input: pathlib.Path


class Measured(typing.NamedTuple):
    octets_in: int
    octets_out: int
    seconds: float

    def nanoseconds(self):
        return self.seconds * 1e9 / (self.octets_in + self.octets_out)


def file_of(items, category=48):
    """A category file with the items in this order, names and kinds, and a slot of the UAP for each."""
    lines = "\n".join(f'item {name} "" {kind}' for name, kind in items)
    names = " ".join(name for name, _ in items)
    return f'category {category:03} edition "worst" items {{\n{lines}\n}} uap {{ {names} }}\n'


def of_one(kind):
    """A category file of one item."""
    return file_of([("I000", kind)])


def many(letter, count, kind):
    """Names and kinds of so many items or slots."""
    return [(f"{letter}{number:03}", kind) for number in range(count)]


def braced(word, members):
    return word + " { " + " ".join(f"{name} {kind}" for name, kind in members) + " }"


def nested(depth, opening, closing="}"):
    """An element in so many kinds, each of which stands in the next one."""
    kind = ONE
    for _ in range(depth):
        kind = f"{opening} {kind} {closing}"
    return kind


def data(record, octets, a_block=GREATEST_BODY, category=48):
    """About so many octets of blocks, in each of which the record stands once, or as often as that many octets of a block allow."""
    body = record * max(1, a_block // len(record))
    whole = bytes([category]) + (len(body) + 3).to_bytes(2, "big") + body
    return whole * max(1, round(octets / len(whole)))


def lost_paths():
    """Two editions: the old one has 126 compounds of 126 subitems, the new one the same compounds and none of these subitems. Records
    of one octet, which lose nothing, and of three, which lose one subitem each; its line has 38 octets or 39."""
    old = file_of(many("I", 126, braced("compound", many("S", 126, ONE))))
    new = file_of(many("I", 126, braced("compound", [("Z", ONE)])))
    editions = [old, new]
    lost = "15,876 lost paths"
    one = b"\x80\x80\7"
    return [
        Case(f"{lost}, none of them in a record", ("migrate", "convert"), editions, data(b"\0", 1_200_000, 12_000)),
        Case(f"{lost}, one in each record, 1,000 records a block", ("migrate", "convert"), editions, data(one, 1_200_000, 3_000)),
        Case(f"{lost}, one in each record, 4,000 records a block", ("migrate", "convert"), editions, data(one, 1_200_000, 12_000)),
    ]


def tables_and_tests():
    entries = " ".join(f'{number} "t"' for number in range(30_000))
    table = of_one(f"counted {{ element 16 table {{ {entries} }} }}")
    last = b"\x80\xff" + (29_999).to_bytes(2, "big") * 255
    first = b"\x80\xff" + b"\0\0" * 255
    fields = [file_of(many("I", 126, ONE))]
    full = b"\xff" * 17 + b"\xfe" + b"\7" * 126
    tests = "all { " + "is 048/I125 = 7 " * 1_000 + "}"
    return [
        Case("a table of 30,000 entries, the last one used", ("show",), [table], data(last, 1_000_000)),
        Case("a table of 30,000 entries, the first one used", ("show",), [table], data(first, 1_000_000)),
        Case("a filter of 1,000 tests, records of 126 items", ("filter",), fields, data(full, 1_300_000), tests),
        Case("a filter of 1 test, records of 126 items", ("filter",), fields, data(full, 4_000_000), "is 048/I125 = 7"),
    ]


def repeated_tests():
    """Filters of 1,000 tests on items that records haven't, on one path, and on many paths."""
    fields = [file_of(many("I", 126, ONE))]
    first = b"\x80\7"
    absent = "not { any { " + "is 048/I125 = 7 " * 1_000 + "} }"
    slots = " ".join(f"is 048/I{number % 126:03} = 8" for number in range(1_000))
    two = [file_of(many("I", 126, ONE)), file_of(many("I", 126, ONE), 62)]
    others = "any { present 048/I000 " + "present 062/I000 " * 1_000 + "}"
    compound = [of_one(braced("compound", many("S", 126, ONE)))]
    subitems = b"\x80" + b"\xff" * 17 + b"\xfe" + b"\7" * 126
    below = " ".join(f"is 048/I000/S125 = {number}" for number in range(8, 1_008))
    pairs = " ".join(f"all {{ is 048/I000/S125 = {number} present 048/I000/S124 }}" for number in range(8, 508))
    counted = [of_one(f"counted {{ {ONE} }}")]
    numbers, asked = range(8, 24), range(64)
    by_turns = " ".join(f"is 048/I000/S{subitem:03} = {number}" for number in numbers for subitem in asked)
    in_rows = " ".join(f"is 048/I000/S{subitem:03} = {number}" for subitem in asked for number in numbers)
    return [
        Case("a filter of 1 test of one absent item", ("filter",), fields, data(first, 2_000_000), "not { is 048/I125 = 7 }"),
        Case("a filter of 1,000 tests of one absent item", ("filter",), fields, data(first, 2_000_000), absent),
        Case("a filter of 1,000 tests of 126 items, one of them there", ("filter",), fields, data(first, 2_000_000), f"not {{ any {{ {slots} }} }}"),
        Case("a filter of 1,000 tests of another category", ("filter",), two, data(first, 2_000_000), others),
        Case("a filter of 1,000 tests of one subitem, 126 there", ("filter",), compound, data(subitems, 2_000_000), f"not {{ any {{ {below} }} }}"),
        Case("a filter of 500 pairs of tests of two subitems", ("filter",), compound, data(subitems, 2_000_000), f"not {{ any {{ {pairs} }} }}"),
        Case("a filter of 1,024 tests of 64 subitems, asked by turns", ("filter",), compound, data(subitems, 2_000_000), f"not {{ any {{ {by_turns} }} }}"),
        Case("a filter of 1,024 tests of 64 subitems, each asked 16 times in a row", ("filter",), compound, data(subitems, 2_000_000), f"not {{ any {{ {in_rows} }} }}"),
        Case("a filter of 1,000 tests of one counted item", ("filter",), counted, data(b"\x80\xff" + b"\7" * 255, 2_000_000), "all { " + "present 048/I000 " * 1_000 + "}"),
    ]


def shared_subitems():
    """Two editions of 126 compounds of 126 subitems, of which the new one has 125, each under the same slot or in the other order; and
    records of all compounds, with no subitem or one."""
    old = file_of(many("I", 126, braced("compound", many("S", 126, ONE))))
    kept = many("S", 125, ONE)
    same = [old, file_of(many("I", 126, braced("compound", kept)))]
    turned = [old, file_of(many("I", 126, braced("compound", kept[::-1])))]
    all_marked = b"\xff" * 17 + b"\xfe"
    none = data(all_marked + b"\0" * 126, 1_000_000)
    one = data(all_marked + b"\x80\7" * 126, 1_000_000)
    last = data(all_marked + (b"\1" * 17 + b"\4\7") * 126, 2_000_000)
    shared = "126 compounds of 125 shared subitems, one lost"
    return [
        Case(f"{shared}, none there", ("migrate",), same, none),
        Case(f"{shared}, the first there", ("migrate",), same, one),
        Case(f"{shared}, the last there", ("migrate",), same, last),
        Case(f"{shared}, turned round, none there", ("migrate",), turned, none),
        Case(f"{shared}, turned round, the first there", ("migrate",), turned, one),
    ]


def slots():
    subitems = many("S", 126, ONE)
    compound = braced("compound", subitems)
    counted = [of_one(f"counted {{ {compound} }}")]
    of_compounds = [file_of(many("I", 126, compound))]
    fields = [file_of(many("I", 126, ONE))]
    all_marked = b"\xff" * 17 + b"\xfe"
    return [
        Case(
            "a counted compound of 126 slots, none marked",
            ("text", "show", "build"),
            counted,
            data(b"\x80\xff" + b"\0" * 255, 1_000_000),
        ),
        Case(
            "126 compounds of 126 slots, all there, none marked",
            ("text", "show", "build"),
            of_compounds,
            data(all_marked + b"\0" * 126, 1_000_000),
        ),
        Case(
            "126 compounds of 126 slots, the last of each marked",
            ("text", "show", "build"),
            of_compounds,
            data(all_marked + (b"\1" * 17 + b"\2\7") * 126, 2_000_000),
        ),
        Case("a UAP of 126 items, slot 1 alone", ("text", "build"), fields, data(b"\x80\7", 1_000_000)),
        Case("a UAP of 126 items, slot 126 alone", ("text", "build"), fields, data(b"\1" * 17 + b"\2\7", 1_000_000)),
        Case(
            "a UAP of 126 items, presence fields of 18 octets, none marked",
            ("canon",),
            fields,
            data(b"\1" * 17 + b"\0", 8_000_000),
        ),
    ]


def long_texts():
    bits = braced("group", [(f"ONEBITWITHANAME{number}", "element 1 raw") for number in range(8)])
    groups = nested(11, "group { A")
    return [
        Case(
            "groups nested 11 deep",
            ("text", "show", "build"),
            [of_one(f"counted {{ {groups} }}")],
            data(b"\x80\xff" + b"\x12" * 255, 400_000),
        ),
        Case(
            "elements of one bit with names of 16 characters, lines of 10 MB",
            ("text", "show", "build"),
            [of_one(f"counted {{ {bits} }}")],
            data(b"\x80\xff" + b"\xaa" * 255, 4 * GREATEST_BODY),
        ),
    ]


def frames_and_nests():
    all_categories = [file_of([("I000", ONE)], category) for category in range(255)]
    compounds = [of_one(nested(12, "compound { A", f"B {ONE} }}"))]
    counters = [of_one(nested(12, "counted {"))]
    twice = [of_one(nested(2, "counted {"))]
    parts = " ".join(f"part {{ A{number} element 7 raw }}" for number in range(20_000))
    extended = [of_one(f"extended {{ {parts} }}")]
    return [
        Case("255 categories, blocks of 4 octets, the last category", ("canon",), all_categories, data(b"\0", 4_000_000, 1, 254)),
        Case("blocks of 4 octets, one category", ("canon",), [of_one(ONE)], data(b"\0", 4_000_000, 1)),
        Case("a counter of 255, 255 counters of 0", ("canon",), twice, data(b"\x80\xff" + b"\0" * 255, 4_000_000)),
        Case(
            "a counter of 254, 254 counters of 255",
            ("canon",),
            twice,
            data(b"\x80\xfe" + (b"\xff" + b"\7" * 255) * 254, 16_000_000),
        ),
        Case("counters nested 12 deep, each of 1", ("canon",), counters, data(b"\x80" + b"\1" * 12 + b"\7", 4_000_000)),
        Case("compounds nested 12 deep", ("canon",), compounds, data(b"\x80" * 13 + b"\7", 4_000_000)),
        Case("20,000 parts, all there", ("canon",), extended, data(b"\x80" + b"\3" * 19_999 + b"\2", 16_000_000)),
        Case(
            "explicit contents of 254 octets",
            ("canon",),
            [of_one("explicit")],
            data(b"\x80\xff" + b"\xab" * 254, 16_000_000),
        ),
    ]


def cases():
    return lost_paths() + shared_subitems() + tables_and_tests() + repeated_tests() + slots() + long_texts() + frames_and_nests()


def words_of(binary, command, expression, files):
    return [binary, command] + ([expression] if command == "filter" else []) + [str(path) for path in files]


def rows_of(room, binary, case, commands):
    """The rows of a case, with their inputs in the folder."""
    room.mkdir()
    files = [room / f"file{number:03}" for number in range(len(case.files))]
    for path, text in zip(files, case.files):
        path.write_text(text)
    stream = room / "stream"
    stream.write_bytes(case.stream)
    for command in commands:
        words = words_of(binary, command, case.expression, files)
        source = written(room / "lines", words_of(binary, "text", "", files), stream) if command == "build" else stream
        yield Row(case.name, command, words, source)


def usual_rows(room, binary, stream, commands, spaced):
    """The usual stream's row of each command; and the same text for build with other blanks, where it is asked for."""
    sources = {}
    for command in ("migrate", "convert"):
        if command in commands:
            sources[command] = blocks_of(48, stream, room / "targets")
    if "build" in commands:
        sources["build"] = written(room / "lines", [binary, "text", *SAMPLES], stream)
    for command in commands:
        files = EDITIONS if command in ("migrate", "convert") else SAMPLES
        words = words_of(binary, command, "is 048/010/SAC = 25", files)
        yield Row("the usual stream", command, words, sources.get(command, stream))
    if spaced:
        text = sources["build"].read_bytes()
        tight = text.replace(b" { ", b"{").replace(b" } ", b"}").replace(b" }", b"}").replace(b"} ", b"}")
        for name, octets in (("two spaces between tokens", text.replace(b" ", b"  ")), ("tabs, none beside braces", tight.replace(b" ", b"\t"))):
            lines = room / name.replace(" ", "_")
            lines.write_bytes(octets)
            yield Row(f"the usual stream's text, {name}", "build", words_of(binary, "build", "", SAMPLES), lines)


def bounded():
    resource.setrlimit(resource.RLIMIT_CORE, (0, 0))
    resource.setrlimit(resource.RLIMIT_CPU, (LONGEST, LONGEST + 1))


def run(row, output):
    """The time on a processor, and the octets that the run wrote where the output is a pipe. None where it took too long."""
    octets = 0
    with open(row.input, "rb") as source:
        child = subprocess.Popen(row.words, stdin=source, stdout=output, stderr=subprocess.STDOUT, preexec_fn=bounded)
        if child.stdout:
            while piece := child.stdout.read(1 << 20):
                octets += len(piece)
            child.stdout.close()
        _, status, usage = os.wait4(child.pid, 0)
    child.returncode = os.waitstatus_to_exitcode(status)
    if child.returncode == -signal.SIGXCPU:
        return None
    if child.returncode != 0:
        sys.exit(f"worst: {row.name}, {row.command}: ended with status {child.returncode}")
    return usage.ru_utime + usage.ru_stime, octets


def measured(row, rounds):
    counted = run(row, subprocess.PIPE)
    if counted is None:
        return None
    if counted[1] == 0:
        sys.exit(f"worst: {row.name}, {row.command}: wrote nothing")
    times = [run(row, subprocess.DEVNULL) for _ in range(rounds)]
    if None in times:
        return None
    return Measured(row.input.stat().st_size, counted[1], min(time for time, _ in times))


def line(row, found, usual):
    if found is None:
        return "%-64s %-7s %9d %9s %8s" % (row.name, row.command, row.input.stat().st_size, "", f"> {LONGEST} s")
    number = found.nanoseconds()
    multiple = f"{number / usual.nanoseconds():8.1f}" if usual else ""
    return "%-64s %-7s %9d %9d %8.3f %8.1f %8s" % (row.name, row.command, *found, number, multiple)


def bench(asked, room):
    stream = written(room / "stream", [sys.executable, str(HERE / "make_stream.py"), str(asked.mb)])
    wanted = [(case, [it for it in case.commands if asked.only in case.name or asked.only in it]) for case in cases()]
    spaced = asked.only in "the usual stream's text, two spaces between tokens" or asked.only in "build"
    needed = {it for _, commands in wanted for it in commands} | ({"build"} if spaced else set())
    commands = [it for it in ("canon", "filter", "migrate", "convert", "text", "show", "build") if it in needed]
    print("%-64s %-7s %9s %9s %8s %8s %8s" % ("", "command", "in", "out", "seconds", "ns/octet", "usual"), flush=True)
    usual = {}
    for row in usual_rows(room, asked.binary, stream, commands, spaced):
        found = measured(row, asked.rounds)
        usual.setdefault(row.command, found)
        print(line(row, found, usual[row.command]), flush=True)
    for number, (case, commands) in enumerate(wanted):
        for row in rows_of(room / str(number), asked.binary, case, commands):
            print(line(row, measured(row, asked.rounds), usual[row.command]), flush=True)


def main():
    words = argparse.ArgumentParser(usage=__doc__)
    words.add_argument("--mb", type=float, default=4)
    words.add_argument("--rounds", type=int, default=3)
    words.add_argument("--only", default="")
    words.add_argument("binary", nargs="?", default=str(TOP / "crates/asterix/out/asterix"))
    asked = words.parse_args()
    if not os.access(asked.binary, os.X_OK):
        sys.exit(f"worst: {asked.binary} isn't there; ./asterix builds the program")
    asked.binary = os.path.abspath(asked.binary)
    with tempfile.TemporaryDirectory(prefix="asterix-worst-") as room:
        bench(asked, pathlib.Path(room))


if __name__ == "__main__":
    main()
