"""Frames, packets and capture files, octet by octet: what captures for trials are made of.

Nothing here is read from a capture, so a trial knows what is in one that it made. Addresses are texts of IPv4 or IPv6, times are whole
nanoseconds since 1970, UTC.
"""

import ipaddress
import struct
from collections.abc import Iterable, Sequence
from typing import NamedTuple

UDP = 17
SECOND = 1_000_000_000
# Numbers of link types in capture files.
ETHERNET, RAW, NULL, LOOP, COOKED, COOKED_2, IP4, IP6 = 1, 101, 0, 108, 113, 276, 228, 229
# How long a frame may be where nothing cuts it.
SNAPSHOT = 262_144


class Ends(NamedTuple):
    """Source and destination of a datagram."""

    source: str = "10.0.0.1"
    source_port: int = 5000
    destination: str = "232.1.1.1"
    destination_port: int = 8600


class Frame(NamedTuple):
    """A frame of a capture: its time, its octets, how many the capture keeps of them, and its interface."""

    time: int
    octets: bytes
    kept: int = SNAPSHOT
    interface: int = 0


def sum_of(octets: bytes) -> int:
    """The sum of 16-bit numbers in ones' complement, of which the checksums of IP and UDP are the complement."""
    octets += bytes(len(octets) % 2)
    total = sum(struct.unpack(f">{len(octets) // 2}H", octets))
    while total >> 16:
        total = (total & 0xFFFF) + (total >> 16)
    return total


def is_ip4(address: str) -> bool:
    return ipaddress.ip_address(address).version == 4


def packed(address: str) -> bytes:
    return ipaddress.ip_address(address).packed


def udp(payload: bytes, ends: Ends = Ends(), checksum: int | None = None) -> bytes:
    """A UDP datagram. A checksum that is given stands there instead of the right one; 0 is none."""
    length = 8 + len(payload)
    head = struct.pack(">HHH", ends.source_port, ends.destination_port, length)
    if checksum is None:
        pseudo = packed(ends.source) + packed(ends.destination) + struct.pack(">HH", UDP, length)
        checksum = (0xFFFF - sum_of(pseudo + head + payload)) or 0xFFFF
    return head + struct.pack(">H", checksum) + payload


def unfilled(payload: bytes, ends: Ends = Ends()) -> bytes:
    """A UDP datagram as a sending machine hands it to a network card that fills in checksums."""
    pseudo = packed(ends.source) + packed(ends.destination) + struct.pack(">HH", UDP, 8 + len(payload))
    return udp(payload, ends, sum_of(pseudo))


def pieces(body: bytes, most: int) -> list[tuple[int, bytes]]:
    """A body in pieces of at most so many octets, with the place of each. All but the last have a multiple of 8."""
    step = most // 8 * 8
    if len(body) <= most:
        return [(0, body)]
    return [(at, body[at : at + step]) for at in range(0, len(body), step)]


def ip4(body: bytes, ends: Ends = Ends(), *, protocol: int = UDP, number: int = 1, mtu: int = 65_535, options: bytes = b"", checksum: int | None = None) -> list[bytes]:
    """The IPv4 packets of a body: one, or the fragments that an MTU needs."""
    made = []
    head_octets = 20 + len(options)
    for at, piece in pieces(body, mtu - head_octets):
        more = 0x2000 if at + len(piece) < len(body) else 0
        head = struct.pack(">BBHHHBB", 0x40 | head_octets // 4, 0, head_octets + len(piece), number, more | at // 8, 64, protocol)
        ends_octets = packed(ends.source) + packed(ends.destination) + options
        right = 0xFFFF - sum_of(head + ends_octets)
        made.append(head + struct.pack(">H", right if checksum is None else checksum) + ends_octets + piece)
    return made


def ip6(body: bytes, ends: Ends, *, protocol: int = UDP, number: int = 1, mtu: int = 65_575, before: Sequence[tuple[int, bytes]] = (), inside: Sequence[tuple[int, bytes]] = ()) -> list[bytes]:
    """The IPv6 packets of a body. `before` are extension headers (number, octets without the next header) of each packet, `inside` those
    that stand behind the header of a fragment."""
    first, body = chained(inside, protocol, body)
    made = []
    cut = pieces(body, mtu - 40 - 8 - sum(1 + len(octets) for _, octets in before)) if len(body) > mtu - 40 else [(0, body)]
    for at, piece in cut:
        next_header, rest = first, piece
        if len(cut) > 1:
            more = at + len(piece) < len(body)
            next_header, rest = 44, struct.pack(">BBHI", first, 0, at | more, number) + piece
        next_header, rest = chained(before, next_header, rest)
        made.append(struct.pack(">IHBB", 6 << 28, len(rest), next_header, 64) + packed(ends.source) + packed(ends.destination) + rest)
    return made


def chained(headers: Sequence[tuple[int, bytes]], protocol: int, body: bytes) -> tuple[int, bytes]:
    """Extension headers in front of a body: the number of the first one, and all octets."""
    for number, octets in reversed(headers):
        body = bytes([protocol]) + octets + body
        protocol = number
    return protocol, body


def packets(payload: bytes, ends: Ends = Ends(), **how: int) -> list[bytes]:
    """The IP packets of a datagram, by the version of its addresses."""
    body = udp(payload, ends)
    return ip4(body, ends, **how) if is_ip4(ends.source) else ip6(body, ends, **how)


def ether_type(packet: bytes) -> int:
    return 0x0800 if packet[0] >> 4 == 4 else 0x86DD


def ethernet(packet: bytes, tags: Sequence[tuple[int, int]] = ()) -> bytes:
    """An Ethernet frame, with VLAN tags (type and number), padded to the least length."""
    head = bytes.fromhex("01005e010101 020000000001")
    for kind, vlan in tags:
        head += struct.pack(">HH", kind, vlan)
    return (head + struct.pack(">H", ether_type(packet)) + packet).ljust(60, b"\0")


def framed(link: int, packet: bytes) -> bytes:
    """A frame of a link type."""
    kind = struct.pack(">H", ether_type(packet))
    family = 2 if packet[0] >> 4 == 4 else 24
    heads = {
        ETHERNET: b"",
        RAW: b"",
        IP4: b"",
        IP6: b"",
        NULL: struct.pack("<I", family),
        LOOP: struct.pack(">I", family),
        COOKED: struct.pack(">HHH8s", 0, 1, 6, bytes.fromhex("0200000000010000")) + kind,
        COOKED_2: kind + struct.pack(">HIHBB8s", 0, 2, 1, 0, 6, bytes.fromhex("0200000000010000")),
    }
    return ethernet(packet) if link == ETHERNET else heads[link] + packet


def pcap(frames: Iterable[Frame], link: int = ETHERNET, *, nanoseconds: bool = True, order: str = "<") -> bytes:
    """A capture file of pcap, with times in nanoseconds or microseconds, in an order of octets."""
    magic = 0xA1B23C4D if nanoseconds else 0xA1B2C3D4
    made = [struct.pack(order + "IHHiIII", magic, 2, 4, 0, 0, SNAPSHOT, link)]
    unit = 1 if nanoseconds else 1000
    for frame in frames:
        kept = frame.octets[: frame.kept]
        made += [struct.pack(order + "IIII", frame.time // SECOND, frame.time % SECOND // unit, len(kept), len(frame.octets)), kept]
    return b"".join(made)


def block(kind: int, body: bytes, order: str) -> bytes:
    """A block of pcapng."""
    body += bytes(-len(body) % 4)
    length = struct.pack(order + "I", len(body) + 12)
    return struct.pack(order + "I", kind) + length + body + length


def interface(link: int, snapshot: int, resolution: int, order: str) -> bytes:
    """The block of an interface whose times have so many decimals of a second."""
    options = struct.pack(order + "HHB3x", 9, 1, resolution) + struct.pack(order + "HH", 0, 0)
    return block(1, struct.pack(order + "HHI", link, 0, snapshot) + options, order)


def pcapng(frames: Iterable[Frame], links: Sequence[int] = (ETHERNET,), *, resolution: int = 9, order: str = "<", snapshots: Sequence[int] = ()) -> bytes:
    """A capture file of pcapng, one section with an interface for each link type."""
    snapshots = snapshots or [SNAPSHOT] * len(links)
    made = [block(0x0A0D0D0A, struct.pack(order + "IHHq", 0x1A2B3C4D, 1, 0, -1), order)]
    made += [interface(link, snapshot, resolution, order) for link, snapshot in zip(links, snapshots)]
    for frame in frames:
        kept, ticks = frame.octets[: frame.kept], frame.time * 10**resolution // SECOND
        head = struct.pack(order + "IIIII", frame.interface, ticks >> 32, ticks & 0xFFFFFFFF, len(kept), len(frame.octets))
        made.append(block(6, head + kept, order))
    return b"".join(made)


def simple_packet(octets: bytes, order: str = "<") -> bytes:
    """A packet of pcapng that has neither time nor interface."""
    return block(3, struct.pack(order + "I", len(octets)) + octets, order)


def blocks_of(stream: bytes) -> list[bytes]:
    """The data blocks of a stream. A stream that isn't whole data blocks is a ValueError."""
    found, at = [], 0
    while at < len(stream):
        length = int.from_bytes(stream[at + 1 : at + 3], "big")
        if length < 4 or at + length > len(stream):
            raise ValueError(f"octet {at}: no whole data block begins there")
        found.append(stream[at : at + length])
        at += length
    return found
