#!/usr/bin/env python3
"""make_stream.py MEGABYTES [SEED] [--redundant P] > STREAM

Writes a stream of data blocks under samples/048-P1 and samples/034-P1, as a radar would send them. Each turn of the antenna has a north
marker and 32 sector messages of category 034. After each sector message are the reports of the targets in that sector: blocks of
category 048 with 1 to 14 records. The same words give the same octets under one version of Python. Without --redundant the stream is in
canonical form. With it a record gets with probability P a presence octet that marks nothing, if its presence field has room."""
import argparse
import functools
import math
import random
import struct
import sys

UAP_048 = (
    "010 140 020 040 070 090 130 220 240 250 161 042 200 170 "
    "210 030 080 100 110 120 230 260 055 050 065 060 SP RE"
).split()
UAP_034 = "010 000 030 020 041 050 060 070 100 110 120 090 RE SP".split()
SOURCE = bytes([25, 12])
# Times are in 1/128 s. The antenna turns once in four seconds.
TURN, DAY = 4 * 128, 86400 * 128
SECTORS, SECTOR_WIDTH = 32, 65536 // 32
TARGETS = 400
# How many in a hundred targets are of each kind, and TYP of item 020 for it.
KINDS = {"mode s": (60, 5), "ssr": (15, 2), "primary": (12, 1), "combined": (9, 7), "military": (4, 2)}
NEAREST, FARTHEST = 2 * 256, 250 * 256
# Whole numbers, so that the least digits of a machine's sine don't get into the stream.
SINES = [round(32768 * math.sin(2 * math.pi * i / 1024)) for i in range(1024)]


@functools.lru_cache(maxsize=None)
def presence(slots, octets):
    """A presence field of so many octets that marks the slots, counted from 0."""
    field = bytearray(octets)
    for slot in slots:
        field[slot // 7] |= 0x80 >> slot % 7
    for at in range(octets - 1):
        field[at] |= 1
    return bytes(field)


def record(uap, items, chance, redundant):
    slots = tuple(slot for slot, name in enumerate(uap) if name in items)
    octets = slots[-1] // 7 + 1
    if redundant and octets < len(uap) // 7 and chance.random() < redundant:
        octets += 1
    return presence(slots, octets) + b"".join([items[uap[slot]] for slot in slots])


def block(category, body):
    return struct.pack(">BH", category, len(body) + 3) + body


def marked(**subitems):
    """A compound of seven slots: the subitems by the numbers of their slots, as s1=.., in ascending order."""
    slots = tuple(int(name[1:]) - 1 for name in subitems)
    return presence(slots, 1) + b"".join(subitems.values())


def identification(chance):
    """An airline's three letters and a flight number, padded with spaces, in six bits a character."""
    letters = [chance.randrange(1, 27) for _ in range(3)]
    digits = [chance.randrange(48, 58) for _ in range(chance.randrange(2, 5))]
    number = 0
    for code in (letters + digits + [32] * 8)[:8]:
        number = number << 6 | code
    return number.to_bytes(6, "big")


def descriptor(chance, kind):
    first = KINDS[kind][1] << 5 | chance.randrange(2) << 3
    if kind == "military":
        return bytes([first | 1, chance.choice([0x02, 0x0A])])
    if chance.random() < 0.1:
        return bytes([first | 1, chance.choice([0, 0x08, 0x10, 0x80])])
    return bytes([first])


class Target:
    """A flight: what stays the same in its reports, and where it is in this turn."""

    def __init__(self, chance, number):
        self.chance, self.number = chance, number
        self.kind = chance.choices(list(KINDS), [share for share, _ in KINDS.values()])[0]
        self.has_transponder = self.kind != "primary"
        self.is_mode_s = self.kind in ("mode s", "combined")
        self.is_seen_by_primary = self.kind in ("primary", "combined")
        self.rho, self.theta = chance.randrange(NEAREST, FARTHEST), chance.randrange(65536)
        self.rho_step, self.theta_step = chance.randrange(-140, 141), chance.randrange(-60, 61)
        self.level, self.climb = chance.randrange(120, 1640), chance.choice([0, 0, 0, 0, 0, 2, -2])
        self.velocity = struct.pack(">HH", chance.randrange(300, 2300), chance.randrange(65536))
        self.same = self.constant_items()

    def constant_items(self):
        chance = self.chance
        items = {"010": SOURCE, "020": descriptor(chance, self.kind)}
        if self.has_transponder:
            items["070"] = struct.pack(">H", chance.randrange(4096))
        if self.is_mode_s:
            items["220"] = chance.randbytes(3)
            items["240"] = identification(chance)
            items["230"] = bytes([0x20, 0xFD])
        if self.kind == "military":
            items["055"], items["065"] = bytes([chance.randrange(32)]), b"\0"
            items["050"], items["060"] = struct.pack(">H", chance.randrange(4096)), b"\0\0"
        return items

    def move(self):
        self.rho += self.rho_step
        self.theta = (self.theta + self.theta_step) % 65536
        self.level = min(max(self.level + self.climb, 0), 1800)

    def is_in_range(self):
        return NEAREST <= self.rho < FARTHEST

    def report(self, turn_begin):
        """The items of this turn's report."""
        items = dict(self.same)
        time = (turn_begin + self.theta * TURN // 65536) % DAY
        items["140"] = time.to_bytes(3, "big")
        items["040"] = struct.pack(">HH", self.rho, self.theta)
        items["130"] = self.plot()
        if self.has_transponder:
            items["090"] = struct.pack(">H", self.level)
        if self.is_mode_s:
            self.add_registers(items)
        if self.is_seen_by_primary:
            self.add_primary(items)
        self.add_track(items)
        if self.chance.random() < 0.05:
            self.add_rare(items)
        return items

    def plot(self):
        """Item 130: replies to the secondary radar, the primary radar's plot, or both and their differences."""
        octet = self.chance.randbytes(7)
        replies = {"s1": octet[:1], "s2": octet[1:2], "s3": octet[2:3]}
        own = {"s4": octet[3:4], "s5": octet[4:5]}
        if self.kind == "combined":
            return marked(**replies, **own, s6=octet[5:6], s7=octet[6:7])
        return marked(**(own if self.kind == "primary" else replies))

    def add_registers(self, items):
        count = self.chance.choice([0, 1, 1, 2, 2, 3])
        if count:
            registers = [self.chance.randbytes(7) + bytes([bds]) for bds in (0x40, 0x50, 0x60)[:count]]
            items["250"] = bytes([count]) + b"".join(registers)

    def add_primary(self, items):
        chance = self.chance
        items["110"] = struct.pack(">H", self.level)
        if chance.random() < 0.5:
            items["120"] = marked(s1=chance.randbytes(2))
        elif chance.random() < 0.2:
            count = chance.randrange(1, 3)
            items["120"] = marked(s2=bytes([count]) + chance.randbytes(6 * count))

    def add_track(self, items):
        angle = self.theta >> 6
        east, north = self.rho * SINES[angle], self.rho * SINES[(angle + 256) % 1024]
        items["161"] = struct.pack(">H", self.number)
        items["042"] = struct.pack(">hh", east >> 16, north >> 16)
        items["200"] = self.velocity
        status = 0x40 | (self.climb > 0) << 1 | (self.climb < 0) << 2
        items["170"] = bytes([status]) if self.rho_step % 4 else bytes([status | 1, 0x10])
        if self.kind == "combined":
            items["210"] = self.chance.randbytes(4)

    def add_rare(self, items):
        """Warnings, a doubtful code, a resolution advisory, or a field of this radar's own."""
        chance = self.chance
        which = chance.randrange(5)
        if which == 0:
            items["030"] = chance.choice([bytes([16 << 1]), bytes([2 << 1 | 1, 17 << 1])])
        elif which == 1 and self.has_transponder:
            items["080"], items["100"] = chance.randbytes(2), chance.randbytes(4)
        elif which == 2 and self.is_mode_s:
            items["260"] = b"\x30" + chance.randbytes(6)
        elif which == 3:
            items["SP"] = bytes([5]) + chance.randbytes(4)
        else:
            items["RE"] = bytes([9]) + chance.randbytes(8)


def north_marker(chance, turn, time):
    """The message at north, with the radar's state; in each fifteenth turn also with what seldom changes."""
    items = {"010": SOURCE, "000": b"\1", "030": time, "041": struct.pack(">H", TURN)}
    items["050"] = marked(s1=b"\0", s4=b"\x40", s5=b"\x40", s6=b"\x40\0")
    items["060"] = marked(s1=b"\0", s4=b"\0", s5=b"\0", s6=b"\0")
    counts = [kind << 11 | chance.randrange(400) for kind in (1, 2, 4, 5)]
    items["070"] = bytes([len(counts)]) + struct.pack(">4H", *counts)
    if turn % 15 == 0:
        items["100"], items["110"] = struct.pack(">4H", 0, FARTHEST, 0, 65535), b"\1"
        items["120"], items["090"] = bytes.fromhex("0078228f0d06d3a1"), b"\xff\2"
        items["RE"], items["SP"] = b"\1", b"\3\1\2"
    return items


def sector_message(sector, time):
    return {"010": SOURCE, "000": b"\2", "030": time, "020": bytes([sector * 256 // SECTORS])}


def by_sector(targets):
    sectors = [[] for _ in range(SECTORS)]
    for target in sorted(targets, key=lambda it: it.theta):
        sectors[target.theta // SECTOR_WIDTH].append(target)
    return sectors


def turn_of(chance, targets, turn, redundant):
    """The data blocks of a turn, in the order in which the antenna comes to them."""
    begin = turn * TURN

    def service(items):
        return block(34, record(UAP_034, items, chance, redundant))

    def time_at(sector):
        return ((begin + sector * TURN // SECTORS) % DAY).to_bytes(3, "big")

    yield service(north_marker(chance, turn, time_at(0)))
    for sector, waiting in enumerate(by_sector(targets)):
        yield service(sector_message(sector, time_at(sector)))
        while waiting:
            count = chance.randrange(1, 15)
            reports = [record(UAP_048, it.report(begin), chance, redundant) for it in waiting[:count]]
            yield block(48, b"".join(reports))
            del waiting[:count]


def blocks(seed, redundant):
    chance = random.Random(seed)
    targets = [Target(chance, number) for number in range(TARGETS)]
    # The first turn is that of a morning, when the sky has filled.
    turn = 7 * 3600 * 128 // TURN
    while True:
        yield from turn_of(chance, targets, turn, redundant)
        for number, target in enumerate(targets):
            target.move()
            if not target.is_in_range():
                targets[number] = Target(chance, number)
        turn += 1


def main():
    words = argparse.ArgumentParser(usage=__doc__)
    words.add_argument("megabytes", type=float)
    words.add_argument("seed", type=int, nargs="?", default=1)
    words.add_argument("--redundant", type=float, default=0.0)
    asked = words.parse_args()
    left = asked.megabytes * 1e6
    for each in blocks(asked.seed, asked.redundant):
        if left <= 0:
            break
        sys.stdout.buffer.write(each)
        left -= len(each)


if __name__ == "__main__":
    main()
