#!/usr/bin/env python3
"""make_records.py CATEGORY_FILE MEGABYTES [SEED] [--expansion EXPANSION_FILE] [--once] [--without ITEM] > STREAM

Writes a stream of data blocks of one category by its file, in canonical form. Items, subitems and numbers are random: most items of a
record are there, and a third of the subitems of a compound. Two records in a hundred have an RE or SP, whose content is random octets.
With an expansion file of the category one record in three has an RE, whose content is a random one of that file. With --once each item by
FX has one occurrence, and with --without no record has that item. The same words give the same octets under one version of Python."""
import argparse
import pathlib
import random
import struct
import sys
from collections.abc import Callable
from dataclasses import dataclass
from typing import Union

sys.dont_write_bytecode = True
sys.path.insert(0, str(pathlib.Path(__file__).resolve().parent.parent / "tools"))
import layouts  # noqa: E402

# The longest content of an explicit item.
LONGEST = 254


@dataclass(frozen=True)
class Once(layouts.ByFx):
    """An item by FX that has one occurrence."""


class Expanded(layouts.Explicit):
    """An RE, of which an expansion file says what is inside."""

    def __init__(self, slots: layouts.Compound) -> None:
        self.slots = slots


Slots = list[Union[layouts.Kind, None]]


def kinds_of(slots: tuple[tuple[str, layouts.Kind] | None, ...]) -> Slots:
    """The kinds of slots, without their names."""
    return [slot[1] if slot else None for slot in slots]


def marked(slots: Slots, share: Callable[[layouts.Kind], float], chance: random.Random, octets: int | None = None) -> bytes:
    """A presence field, and the values of the slots that it marks. The field has FX, or is so many octets without."""
    there = [i for i, kind in enumerate(slots) if kind and chance.random() < share(kind)]
    there = there or [next(i for i, kind in enumerate(slots) if kind)]
    marks = 8 if octets else 7
    field = bytearray(octets or there[-1] // marks + 1)
    for i in there:
        field[i // marks] |= 0x80 >> i % marks
    for at in range(0 if octets else len(field) - 1):
        field[at] |= 1
    return bytes(field) + b"".join([value(slots[i], chance) for i in there])


def number(bits: int, fx: int, chance: random.Random) -> bytes:
    """Bits by chance and an FX bit after them."""
    return (chance.getrandbits(bits) << 1 | fx).to_bytes((bits + 1) // 8, "big")


def share_of_subitems(kind: layouts.Kind) -> float:
    """How many compounds have a subitem. Counted subitems are the long lists of a message: few have them."""
    return 0.05 if isinstance(kind, layouts.Counted) else 0.33


def value(kind: layouts.Kind, chance: random.Random) -> bytes:
    """A value of a kind, by chance."""
    if isinstance(kind, (layouts.Element, layouts.Group)):
        bits = layouts.bits_of(kind)
        return chance.getrandbits(bits).to_bytes(bits // 8, "big")
    if isinstance(kind, layouts.Parts):
        widths = [layouts.bits_of(part) for part in kind.parts]
        count = 1 + min(int(chance.expovariate(1)), len(widths) - 1)
        made = []
        for i, bits in enumerate(widths[:count]):
            if kind.is_closed and i + 1 == len(widths):
                made.append(chance.getrandbits(bits).to_bytes(bits // 8, "big"))
            else:
                made.append(number(bits, i + 1 < count, chance))
        return b"".join(made)
    if isinstance(kind, layouts.Counted):
        count = chance.randrange(1, 4)
        return count.to_bytes(kind.octets, "big") + b"".join([value(kind.body, chance) for _ in range(count)])
    if isinstance(kind, layouts.ByFx):
        count = chance.randrange(1, 2 if isinstance(kind, Once) else 3)
        return b"".join([number(layouts.bits_of(kind.body), i + 1 < count, chance) for i in range(count)])
    if isinstance(kind, Expanded):
        content = bytes(LONGEST + 1)
        while len(content) > LONGEST:
            content = marked(kinds_of(kind.slots.slots), share_of_subitems, chance, kind.slots.octets)
        return bytes([len(content) + 1]) + content
    if isinstance(kind, layouts.Explicit):
        count = chance.randrange(1, 8)
        return bytes([count + 1]) + chance.randbytes(count)
    return marked(kinds_of(kind.slots), share_of_subitems, chance)


def share_of_items(kind: layouts.Kind) -> float:
    """How many records have an item. Explicit items are RE and SP: few messages have them."""
    if isinstance(kind, Expanded):
        return 0.33
    return 0.02 if isinstance(kind, layouts.Explicit) else 0.7


def with_expansion(layout: layouts.Layout, slots: Slots, file: pathlib.Path) -> Slots:
    """The slots of a category file, RE by an expansion file."""
    category, inside = layouts.expansion_in(file)
    if category != layout.category:
        sys.exit("make_records.py: the two files are of two categories")
    return [Expanded(inside) if slot and slot[0] == "RE" else kind for slot, kind in zip(layout.slots, slots)]


def main() -> None:
    """Writes the stream."""
    parser = argparse.ArgumentParser(description=__doc__, formatter_class=argparse.RawDescriptionHelpFormatter)
    parser.add_argument("file", metavar="CATEGORY_FILE", type=pathlib.Path)
    parser.add_argument("megabytes", metavar="MEGABYTES", type=float)
    parser.add_argument("seed", metavar="SEED", nargs="?", type=int, default=1)
    parser.add_argument("--expansion", metavar="EXPANSION_FILE", type=pathlib.Path)
    parser.add_argument("--once", action="store_true")
    parser.add_argument("--without", metavar="ITEM")
    words = parser.parse_args()
    layout = layouts.layout_in(words.file)
    slots = kinds_of(layout.slots)
    if words.once:
        slots = [Once(kind.body) if isinstance(kind, layouts.ByFx) else kind for kind in slots]
    slots = [None if slot and slot[0] == words.without else kind for slot, kind in zip(layout.slots, slots)]
    if words.expansion:
        slots = with_expansion(layout, slots, words.expansion)
    chance = random.Random(words.seed)
    left = int(words.megabytes * 1_000_000)
    while left > 0:
        body = b"".join([marked(slots, share_of_items, chance) for _ in range(chance.randrange(1, 9))])
        sys.stdout.buffer.write(struct.pack(">BH", int(layout.category), len(body) + 3) + body)
        left -= len(body) + 3


if __name__ == "__main__":
    try:
        main()
    except (OSError, layouts.BadLayout) as fault:
        sys.exit(f"make_records.py: {fault}")
