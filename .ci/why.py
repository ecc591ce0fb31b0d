"""Tries asterix-why: it passes input, output, report and status through, and says of each case what stands here."""

import os
import pathlib
import subprocess
import sys
import tempfile

TOP = pathlib.Path(__file__).resolve().parent.parent
MARK = "  | "
# Made in the folder of the cases, before them.
FILES = """
sed 's/SIC element/SIC elment/' 034 > word
printf 'category 48 edition "" items { } uap { - }' > number
printf 'category 048 edition "k" items { item 010 "" group { FOE/FRI element 8 raw } } uap { 010 }' > name
printf 'category 048 edition "k" items { item 010 "" element 08 raw } uap { 010 }' > zero
printf 'category 048 edition "k" items { item 010 "' > cut
printf 'category 048 edition "k\\nitems { } uap { - }' > open
printf 'block 034 { record { } }\\nblock 034 { record { 010 { SAC 256 SIC 12 } } }\\n' > lines
printf '\\x30\\x00\\x07\\x81\\x01\\x19\\x0c' > refused
printf '\\x30\\x00\\x09\\x80\\x19\\x0c' > late
printf '\\x3e\\x00\\x13\\x01\\x04\\x01\\x01\\x01\\x01\\x01\\x80\\x01\\x04\\x01\\x01\\x01\\x01\\x01\\x80' > losing
printf 'expansion 048 edition "k" fixed 16 { A element 8 raw }' > sixteen
printf 'expansion 048 edition "k" fixed 1 { A element 7 raw }' > flawed
printf 'expansion 034 edition "k" fx { A element 8 raw }' > unused
printf '\\x30\\x00\\x0a\\x01\\x01\\x01\\x02\\x03\\x40\\x05\\x30\\x00\\x0b\\x01\\x01\\x01\\x02\\x04\\x80\\x05\\x07' > unread
printf '\\xd1\\x00\\x0c\\x80\\x01\\x00\\x80\\x01\\x01\\x80\\x02\\x00' > seconds
printf '\\xd4\\xc3\\xb2\\xa1\\x02\\x00\\x04\\x00\\x00\\x00\\x00\\x00' > capture
"""
BESIDE = {
    "E": "samples/E",
    "F": "samples/F",
    "048-P1": "samples/048-P1",
    "X": "samples/X",
    "Y1": "samples/Y1",
    "Y3": "samples/Y3",
    "034": "categories/034-1.29",
    "048": "categories/048-1.31",
    "old": "categories/048-1.30",
    "before": "categories/062-1.17",
    "after": "categories/062-1.18",
    "turns": "docs/turns.ast",
}
# The words after `asterix`, and what is said of its report.
CASES = [
    (
        "check word",
        [
            "word:5:7: `elment` can't stand here after `SIC`",
            "could stand here: element group",
            "meant `element`?",
        ],
    ),
    (
        "check number",
        [
            "number:1:10: `48` can't stand here after `category`",
            "could stand here: CATEGORY",
            "CATEGORY: three digits, 000 to 255",
            "meant `048`? A category has three digits",
        ],
    ),
    (
        "check name",
        [
            "name:1:54: `FOE/FRI` can't stand here after `{`",
            "could stand here: } spare NAME",
            "NAME: 1 to 16 capitals and digits",
            "meant `FOEFRI`? A name has capitals and digits alone, 16 at most",
        ],
    ),
    (
        "check zero",
        [
            "zero:1:54: `08` can't stand here after `element`",
            "could stand here: WIDTH",
            "WIDTH: a number of bits, without leading zeros",
            "meant `8`? A number has no leading zeros",
        ],
    ),
    (
        "check cut",
        [
            "cut:1:44: the file's end",
            "the text in double quotes isn't closed before the line ends",
        ],
    ),
    (
        "check open",
        [
            "open:1:24: octet 0x0a",
            "the text in double quotes isn't closed before the line ends",
        ],
    ),
    (
        "check turns",
        [
            "turns:1:2: octet 0x00",
            "this is no text: is it the recording? That goes by `<`, as in `asterix show SPEC < RECORDING`",
        ],
    ),
    (
        "check F",
        [
            "its bits are to be whole octets",
            "F:1:39: `010`, 7 bits",
            "an earlier slot of the UAP has this name",
            "F:1:72: `010`",
            "F: each flaw is named above",
        ],
    ),
    (
        "check nowhere",
        [
            "nowhere: there is no such file",
        ],
    ),
    (
        "check .",
        [
            ".: it is a folder",
        ],
    ),
    (
        "chek E",
        [
            "meant `check`?",
            "asterix check SPEC",
        ],
    ),
    (
        "show --help",
        [
            "no word but --help or --version alone begins with `-`; a file of such a name is `./-name`",
            "this command is: asterix show SPEC...",
        ],
    ),
    (
        "trial E 1",
        [
            "this command is: asterix trial SPEC SEED COUNT",
            "SEED is a whole number below 2^64, COUNT one up to 1000000",
        ],
    ),
    (
        "canon 048 old < turns",
        [
            "old: 048 is of category 048 as well; one file of a category is wanted",
        ],
    ),
    (
        "filter 'is 048/070/MODE3 = 1' 048 < turns",
        [
            "is 048/070/MODE3 = 1",
            "   ^",
            "no such place: near paths: 048/070/MODE3A 048/100/MODEC 048/050/MODE2 048/020/ME 048/055/MODE1 048/070/V",
        ],
    ),
    (
        "filter 'is 048/070 = 1' 048 < turns",
        [
            "is 048/070 = 1",
            "   ^",
            "it is no element; elements below it: 048/070/V 048/070/G 048/070/L 048/070/MODE3A",
        ],
    ),
    (
        "filter 'is 048/070/MODE3A=1' 048 < turns",
        [
            "is 048/070/MODE3A=1",
            "   ^",
            "could stand here: PATH",
            "PATH: a category and names, as 048/010/SAC",
            "no such place: near paths: 048/070/MODE3A 048/100/MODEC 048/055/MODE1 048/050/MODE2 048/020/ME 048/170/MAH",
        ],
    ),
    (
        "filter 'present 034/010' 048 < turns",
        [
            "present 034/010",
            "        ^",
            "no file of category 034 is among the words, but of: 048",
        ],
    ),
    (
        "filter 'present 048/250/MBDATA' 048 < turns",
        [
            "present 048/250/MBDATA",
            "        ^",
            "nothing inside the occurrences of a repeated item has a path",
        ],
    ),
    (
        "filter 048 'present 048/010' < turns",
        [
            "present 048/010: there is no such file",
            "EXPR comes before the files: asterix filter EXPR SPEC...",
        ],
    ),
    (
        "build 034 < lines",
        [
            "line 2 counted from 1, column 32: `256` can't stand here after `010` `{` `SAC`",
            "could stand here: 0..255",
        ],
    ),
    (
        "build 034 < <(cat lines)",
        [
            "line 2 counted from 1 (the input comes by a pipe; from a file, by `<`, the place is shown)",
        ],
    ),
    (
        "build 048 < lines",
        [
            "line 1 counted from 1, column 7: `034` can't stand here after `block`",
            "could stand here: 048",
            "meant `048`?",
            "a block of a category without a file among the words is `opaque`",
        ],
    ),
    (
        "text E < late",
        [
            "block 1 counted from 1: category 048, after 0 octets of the input",
            "its octet 7, bit-8: 30 00 09 80 19 0c []",
            "the input has fewer octets than LEN says",
            "most likely the input isn't bare data blocks, was cut, or lacks a datagram",
        ],
    ),
    (
        "text 048 < refused",
        [
            "block 1 counted from 1: category 048, after 0 octets of the input",
            "its octet 8, bit-8: 30 00 07 81 01 19 0c []",
            "an item, a counter or a length octet begins here, and the block has too few bits left for it",
            "most likely the file is of another edition, or has another UAP, than the sender",
        ],
    ),
    (
        "text 048 < <(cat refused)",
        [
            "block 1 counted from 1",
            "its octet 8, bit-8",
            "an item, a counter or a length octet begins here, and the block has too few bits left for it",
            "most likely the file is of another edition, or has another UAP, than the sender",
        ],
    ),
    (
        "text 048 < capture",
        [
            "block 1 counted from 1: category 212, after 0 octets of the input",
            "its octet 13, bit-8: .. 02 00 04 00 00 00 00 00 []",
            "the input has fewer octets than LEN says",
            "the input looks like a pcap capture: `asterix-pcap FILE | asterix ..` takes the blocks out first",
        ],
    ),
    (
        "migrate 048 034 < turns",
        [
            "048 is of category 048",
            "034 is of category 034",
            "both files of `migrate` are of one category",
        ],
    ),
    (
        "expand E X < turns",
        [
            "E is of category 034",
            "X is of category 048",
            "both files of `expand` are of one category",
        ],
    ),
    ("expand E unused < turns", ["E: no item has the name RE"]),
    (
        "expand 048-P1 sixteen < turns",
        [
            "sixteen:1:33: `16` can't stand here after `fixed`",
            "could stand here: OCTETS",
            "OCTETS: a number of octets, 1 to 15, without leading zeros",
        ],
    ),
    (
        "expand 048-P1 flawed < turns",
        [
            "its bits are to be whole octets",
            "flawed:1:37: `A`, 7 bits",
            "flawed: each flaw is named above",
        ],
    ),
    (
        "expand 048-P1 034 < turns",
        [
            "034:1:1: `category` can't stand here",
            "could stand here: expansion",
        ],
    ),
    ("expand 048-P1 Q < turns", ["Q: there is no such file"]),
    (
        "expand 048-P1 X < unread",
        [
            "block 1, record 1, counted from 1: octet 1 of RE's content, bit-7",
            "a presence bit marks a slot that is spare in the file, or past its last one",
            "(said once of each cause)",
            "block 2, record 1, counted from 1: octet 3 of RE's content, bit-8",
            "octets are left after the last slot that is marked",
        ],
    ),
    (
        "migrate before after < losing",
        [
            "laid out otherwise: before:268:5 `spare`, after:270:5 `SFC`",
            "(said once of each path)",
        ],
    ),
    (
        "convert Y1 Y3 < seconds",
        [
            "a number of it isn't whole there, or doesn't come into its bits: Y1:1:55 `16`, Y3:1:55 `8`",
            "(said once of each path)",
        ],
    ),
    (
        "canon E < turns",
        [
            "block 1 counted from 1: category 034, after 0 octets of the input",
            "its octet 4, bit-4: 22 00 0c [e8] 19 0c 01 3f 48 00 06 00",
            "a presence bit marks a slot that is spare in the file, or past its last one",
            "most likely the file is of another edition, or has another UAP, than the sender",
        ],
    ),
    (
        "text 048 < turns > /dev/full",
        [
            "standard output can't be written: what reads it went away (as `| head` does), or the disk is full",
        ],
    ),
    ("show 048 034 < turns", []),
]


def fill(room):
    for name, file in BESIDE.items():
        (pathlib.Path(room) / name).symlink_to(TOP / file)
    subprocess.run(["bash", "-c", FILES], cwd=room, check=True)


def run(program, words, room):
    script = f"{program} {words}"
    env = {**os.environ, "PATH": f"{TOP}/tools:{TOP}:{os.environ['PATH']}", "ASTERIX": str(TOP / "asterix"), "LC_ALL": "C"}
    done = subprocess.run(["bash", "-c", script], cwd=room, env=env, stdin=subprocess.DEVNULL, capture_output=True, timeout=60)
    return done.returncode, done.stdout, done.stderr.decode()


def main():
    failed = False
    with tempfile.TemporaryDirectory(prefix="asterix-why-") as room:
        fill(room)
        for words, wanted in CASES:
            plain, told = run("asterix", words, room), run("asterix-why", words, room)
            lines = told[2].splitlines(keepends=True)
            rest = "".join(line for line in lines if not line.startswith(MARK))
            said = [line[len(MARK):].rstrip("\n") for line in lines if line.startswith(MARK)]
            if (told[0], told[1], rest) != plain:
                print(f"checks: asterix-why {words}: ends, writes or reports otherwise than asterix", file=sys.stderr)
                failed = True
            if said != wanted:
                print(f"checks: asterix-why {words}: says\n" + "\n".join(said) + "\nand not\n" + "\n".join(wanted), file=sys.stderr)
                failed = True
    return failed


sys.exit(main())
