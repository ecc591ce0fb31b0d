"""asterix-pcap: what comes out of captures that are made here, octet by octet."""

import gzip
import os
import pathlib
import pty
import random
import shutil
import struct
import subprocess

import frames
import pytest
from frames import Ends, Frame
from running import BUILT, HANGS, TOP, block, run

TIME = 1_795_683_600 * frames.SECOND  # 2026-11-26T09:00:00Z
SIX = Ends("2001:db8::1", 5000, "ff0e::114", 8600)
ONE, TWO, THREE = block(48, 40), block(62, 200, 7), block(34, 11, 90)


def ethernet(payload: bytes, time: int = TIME, ends: Ends = Ends()) -> Frame:
    """A frame with a datagram, of one fragment."""
    (packet,) = frames.packets(payload, ends)
    return Frame(time, frames.ethernet(packet))


def written(*words: str | pathlib.Path) -> bytes:
    """What a run writes that has nothing to say."""
    ran = run("pcap", *words)
    assert (ran.status, ran.lines) == (0, [])
    return ran.output


def refused(count: int, *words: str | pathlib.Path, status: int = 3) -> tuple[bytes, str]:
    """What a run writes that has so many lines to say, and these lines."""
    ran = run("pcap", *words)
    assert (ran.status, len(ran.lines)) == (status, count), ran.lines
    return ran.output, "\n".join(ran.lines)


LINKS = [frames.ETHERNET, frames.RAW, frames.NULL, frames.LOOP, frames.COOKED, frames.COOKED_2]


@pytest.mark.parametrize("ends", [Ends(), SIX], ids=["4", "6"])
@pytest.mark.parametrize("link", [*LINKS, frames.IP4, frames.IP6])
def test_each_link_type(made, link, ends):
    if (link, ends) in [(frames.IP4, SIX), (frames.IP6, Ends())]:
        link = frames.RAW
    sent = [Frame(TIME + at, frames.framed(link, *frames.packets(it, ends))) for at, it in enumerate((ONE, TWO, THREE))]
    assert written(made(frames.pcap(sent, link))) == ONE + TWO + THREE
    assert written(made(frames.pcapng(sent, [link]))) == ONE + TWO + THREE


def test_families_of_loopback(made):
    for family in (10, 24, 28, 30):
        (packet,) = frames.packets(ONE, SIX)
        for order in "<>":
            sent = [Frame(TIME, struct.pack(order + "I", family) + packet)]
            assert written(made(frames.pcap(sent, frames.NULL))) == ONE


@pytest.mark.parametrize("tags", [[(0x8100, 5)], [(0x88A8, 9), (0x8100, 5)], [(0x9100, 9), (0x8100, 5), (0x8100, 6)]])
def test_vlan(made, tags):
    (packet,) = frames.packets(ONE)
    assert written(made(frames.pcap([Frame(TIME, frames.ethernet(packet, tags))]))) == ONE


def test_vlan_in_cooked(made):
    (packet,) = frames.packets(ONE)
    head = frames.framed(frames.COOKED, packet)[:14] + struct.pack(">HHH", 0x8100, 5, 0x0800)
    assert written(made(frames.pcap([Frame(TIME, head + packet)], frames.COOKED))) == ONE


@pytest.mark.parametrize("order", "<>")
@pytest.mark.parametrize("nanoseconds", [True, False])
def test_times_of_pcap(made, tmp_path, order, nanoseconds):
    sent = [ethernet(ONE, TIME + 123_456_789), ethernet(TWO + THREE, TIME + 86_400 * frames.SECOND)]
    table = tmp_path / "times"
    assert written("--times", table, made(frames.pcap(sent, nanoseconds=nanoseconds, order=order))) == ONE + TWO + THREE
    first = "123456789" if nanoseconds else "123456000"
    ends = "10.0.0.1:5000\t232.1.1.1:8600"
    assert table.read_text().splitlines() == [
        "block\ttime\tsource\tdestination",
        f"0\t2026-11-26T09:00:00.{first}Z\t{ends}",
        f"1\t2026-11-27T09:00:00.000000000Z\t{ends}",
        f"2\t2026-11-27T09:00:00.000000000Z\t{ends}",
    ]


@pytest.mark.parametrize("order", "<>")
@pytest.mark.parametrize("resolution, decimals", [(9, "123456789"), (6, "123456000"), (3, "123000000")])
def test_times_of_pcapng(made, tmp_path, order, resolution, decimals):
    sent = [ethernet(ONE, TIME + 123_456_789, SIX)]
    table = tmp_path / "times"
    written("--times", table, made(frames.pcapng(sent, resolution=resolution, order=order)))
    assert table.read_text().splitlines()[1] == f"0\t2026-11-26T09:00:00.{decimals}Z\t[2001:db8::1]:5000\t[ff0e::114]:8600"


def test_time_that_no_calendar_has(made, tmp_path):
    """Times in whole seconds, the greatest that a capture can have."""
    table = tmp_path / "times"
    written("--times", table, made(frames.pcapng([ethernet(ONE, (2**63 - 1) * frames.SECOND)], resolution=0)))
    assert table.read_text().splitlines()[1].split("\t")[1] == f"@{2**63 - 1}.000000000Z"


@pytest.mark.parametrize("order", "<>")
def test_unlike_interfaces(made, order):
    """Each link type, each with a snapshot length of its own, in one file."""
    payloads = [block(48, 40 + at, at) for at in range(len(LINKS))]
    sent = [Frame(TIME + at, frames.framed(link, *frames.packets(payloads[at])), interface=at) for at, link in enumerate(LINKS)]
    capture = frames.pcapng(sent, LINKS, order=order, snapshots=[65_535 + at for at in range(len(LINKS))])
    assert written(made(capture)) == b"".join(payloads)


def test_unread_interface(made):
    """Frames of a link type that isn't read are told once in a row, and others are read."""
    strange = [Frame(TIME, b"\1\2\3\4", interface=1)] * 3
    capture = frames.pcapng([ethernet(ONE), *strange, ethernet(TWO)], [frames.ETHERNET, 195])
    output, said = refused(1, made(capture))
    assert output == ONE + TWO
    assert "frame 2" in said and "link type 195" in said


def test_sections_and_simple_packets(made):
    first = frames.pcapng([ethernet(ONE)])
    simple = frames.simple_packet(ethernet(TWO).octets)
    assert written(made(first + simple + frames.pcapng([ethernet(THREE)]))) == ONE + TWO + THREE


def test_old_packets(made):
    octets = ethernet(ONE).octets
    old = frames.block(2, struct.pack("<HHIIII", 0, 0, 0, 0, len(octets), len(octets)) + octets, "<")
    assert written(made(frames.pcapng([]) + old)) == ONE


@pytest.mark.parametrize("make", [frames.pcap, frames.pcapng])
def test_gzip(made, make):
    assert written(made(gzip.compress(make([ethernet(ONE), ethernet(TWO)])))) == ONE + TWO


def test_standard_input(made):
    for make in (frames.pcap, frames.pcapng):
        ran = run("pcap", "-", given=gzip.compress(make([ethernet(ONE)])))
        assert (ran.status, ran.output, ran.lines) == (0, ONE, [])


@pytest.mark.parametrize("ends, mtu", [(Ends(), 100), (Ends(), 1500), (SIX, 1280)])
def test_fragments(made, ends, mtu):
    payload = b"".join(block(48, 700, at) for at in range(9))
    cut = frames.packets(payload, ends, mtu=mtu)
    assert len(cut) > 4
    for order in (cut, cut[::-1], random.Random(7).sample(cut, len(cut)), [cut[0], *cut]):
        sent = [Frame(TIME + at, frames.ethernet(it)) for at, it in enumerate([*order, *frames.packets(ONE, ends)])]
        assert written(made(frames.pcap(sent))) == payload + ONE


def test_fragments_of_several_datagrams_and_captures(made):
    """Datagrams whose fragments are mixed, and whose last ones are in another capture."""
    payloads = [block(48, 3000, at) for at in range(5)]
    cut = [frames.packets(it, number=at, mtu=1500) for at, it in enumerate(payloads)]
    rows = [Frame(TIME, frames.ethernet(piece)) for row in zip(*cut) for piece in row]
    first, second = made(frames.pcap(rows[:8]), "first"), made(frames.pcap(rows[8:]), "second")
    assert written(first, second) == b"".join(payloads)


def test_fragment_without_its_others(made):
    cut = frames.packets(block(48, 4000), mtu=1500)
    for missing in range(len(cut)):
        some = [Frame(TIME, frames.ethernet(it)) for at, it in enumerate(cut) if at != missing]
        output, said = refused(1, made(frames.pcap([*some, ethernet(ONE)])))
        assert output == ONE
        assert "frame 1 2026-11-26T09:00:00.000000000Z" in said and "fragment without its others" in said


def test_fragments_wait_for_half_a_minute(made):
    cut = frames.packets(block(48, 2000), mtu=1500)
    late = [Frame(TIME, frames.ethernet(cut[0])), Frame(TIME + 31 * frames.SECOND, frames.ethernet(cut[1]))]
    output, said = refused(2, made(frames.pcap(late)))
    assert output == b"" and said.count("fragment without its others") == 2


def test_fragments_whose_times_are_centuries_apart(made):
    cut = [frames.ethernet(it) for it in frames.packets(block(48, 2000), mtu=1500)]
    late = [Frame(0, cut[0]), Frame((2**63 - 1) * frames.SECOND, cut[1])]
    output, said = refused(2, made(frames.pcapng(late, resolution=0)))
    assert output == b"" and said.count("fragment without its others") == 2


def test_fragments_that_contradict(made):
    """A number of a datagram that comes again: the older datagram is told, and the newer one is whole."""
    old, new = (frames.packets(block(48, 2000, at), mtu=1500) for at in (0, 9))
    output, said = refused(1, made(frames.pcap([Frame(TIME, frames.ethernet(it)) for it in (old[0], *new)])))
    assert output == block(48, 2000, 9) and "contradicts" in said


def test_more_incomplete_datagrams_than_are_kept(made):
    """Each datagram lacks its last fragment. All are told, however many there are."""
    firsts = [frames.packets(block(48, 2000), number=at, mtu=1500)[0] for at in range(1000)]
    output, said = refused(1000, made(frames.pcap([Frame(TIME, frames.ethernet(it)) for it in firsts])))
    assert output == b"" and all(f"frame {at} " in said for at in (1, 500, 1000))


def test_filter_is_asked_of_whole_datagrams(made):
    """Later fragments have no ports. Their datagrams pass all the same."""
    other = Ends(destination_port=8601)
    payload = block(48, 4000)
    sent = [*frames.packets(block(62, 4000), other, number=7, mtu=1500), *frames.packets(payload, mtu=1500), *frames.packets(b"no block", other)]
    capture = made(frames.pcap([Frame(TIME, frames.ethernet(it)) for it in sent]))
    assert written("-f", "udp and dst host 232.1.1.1 and dst port 8600", capture) == payload
    assert written("-f", "udp[8] = 48", capture) == payload
    assert written("-f", "greater 4028 and dst port 8600", capture) == payload
    assert written("-f", "dst port 9999", capture) == b""


def test_filter_of_ip6(made):
    """Extension headers stand before UDP, in each fragment and inside; the filter sees UDP."""
    hop, destination = (0, bytes([0, 1, 4, 0, 0, 0, 0])), (60, bytes([0, 1, 4, 0, 0, 0, 0]))
    payload = block(48, 4000)
    whole = frames.ip6(frames.udp(ONE, SIX), SIX, before=[hop], inside=[destination])
    cut = frames.ip6(frames.udp(payload, SIX), SIX, before=[hop], inside=[destination], mtu=1280)
    single = frames.ip6(frames.chained([], frames.UDP, frames.udp(TWO, SIX))[1], SIX, before=[(44, bytes([0, 0, 0, 0, 0, 0, 9]))])
    capture = made(frames.pcap([Frame(TIME, frames.ethernet(it)) for it in (*whole, *cut, *single)]))
    assert written("-f", "ip6 and udp dst port 8600 and dst host ff0e::114", capture) == ONE + payload + TWO
    assert written("-f", "udp dst port 8601", capture) == b""


def test_incomplete_datagram_that_the_filter_takes_not(made):
    first = frames.packets(block(48, 4000), Ends(destination_port=8601), mtu=1500)[0]
    assert written("-f", "dst port 8600", made(frames.pcap([Frame(TIME, frames.ethernet(first)), ethernet(ONE)]))) == ONE


def test_filters_that_are_none(made):
    capture = made(frames.pcap([ethernet(ONE)]))
    for expression in ("port", "dst port x y", "ether host 02:00:00:00:00:01"):
        output, said = refused(1, "-f", expression, capture, status=2)
        assert output == b"" and said.startswith("asterix-pcap: the filter is refused: ")


FOREIGN = {
    b"": "it has no octets",
    b"hello, world": "octet 0: LEN is 25964, and 12 octets are left",
    b"\x30\x00": "octet 0: it ends inside CAT and LEN",
    b"\x30\x00\x03": "octet 0: LEN is 3",
    b"\x30\x00\x00\x00": "octet 0: LEN is 0",
    ONE + b"\0": "octet 40: it ends inside CAT and LEN",
    ONE + TWO[:-1]: "octet 40: LEN is 200, and 199 octets are left",
}


@pytest.mark.parametrize("payload", FOREIGN)
def test_something_else(made, payload):
    capture = made(frames.pcap([ethernet(ONE), ethernet(payload, TIME + 1), ethernet(TWO)]), "some.pcap")
    output, said = refused(1, capture)
    assert output == ONE + TWO
    assert said == (
        f"asterix-pcap: {capture}: frame 2 2026-11-26T09:00:00.000000001Z 10.0.0.1:5000 > 232.1.1.1:8600: "
        f"left out: not whole data blocks: {FOREIGN[payload]}"
    )
    assert written("--as-is", capture) == ONE + payload + TWO


def test_least_block(made):
    assert written(made(frames.pcap([ethernet(b"\x30\x00\x04\x00")]))) == b"\x30\x00\x04\x00"


@pytest.mark.parametrize("ends, most", [(Ends(), 65_507), (SIX, 65_527)])
def test_longest_datagram(made, ends, most):
    payload = block(48, most)
    assert written(made(frames.pcap([Frame(TIME, frames.ethernet(it)) for it in frames.packets(payload, ends, mtu=1500)]))) == payload


@pytest.mark.parametrize("as_is", [[], ["--as-is"]])
def test_cut_frames(made, as_is):
    """Whatever the snapshot length leaves of a frame, its datagram isn't passed, and it is told."""
    for ends, headers in ((Ends(), 42), (SIX, 62)):
        whole = ethernet(TWO, ends=ends).octets
        for kept in (0, 13, 14, 33, headers - 5, headers - 1, headers, len(whole) - 1):
            capture = made(frames.pcap([ethernet(ONE), Frame(TIME, whole, kept), ethernet(ONE)]))
            output, said = refused(1, *as_is, "-f", "udp dst port 8600", capture)
            assert output == ONE + ONE and "frame 2 " in said and "cut by the snapshot length" in said, kept


def test_cut_padding(made):
    """Ethernet's padding isn't the datagram's: a frame that lacks it has a whole one."""
    frame = ethernet(THREE)
    assert len(frame.octets) == 60
    assert written(made(frames.pcap([frame._replace(kept=53)]))) == THREE


def test_cut_fragment(made):
    cut = [frames.ethernet(it) for it in frames.packets(block(48, 2000), mtu=1500)]
    output, said = refused(2, made(frames.pcap([Frame(TIME, cut[0], 1000), Frame(TIME, cut[1])])))
    assert output == b"" and "a fragment that is cut by the snapshot length" in said and "a fragment without its others" in said


def test_packet_longer_than_its_frame(made):
    (packet,) = frames.packets(TWO)
    output, said = refused(1, made(frames.pcap([Frame(TIME, frames.ethernet(packet[:-9]))])))
    assert output == b"" and "longer than its frame" in said


WRONG = 0x1234


@pytest.mark.parametrize("as_is", [[], ["--as-is"]])
@pytest.mark.parametrize("ends", [Ends(), SIX], ids=["4", "6"])
def test_wrong_checksums(made, ends, as_is):
    pack = frames.ip4 if ends.source[0] == "1" else frames.ip6
    sent = [pack(frames.udp(TWO, ends, WRONG), ends)[0], pack(frames.unfilled(TWO, ends), ends)[0]]
    capture = made(frames.pcap([ethernet(ONE, ends=ends), *(Frame(TIME, frames.ethernet(it)) for it in sent)]))
    output, said = refused(2, *as_is, capture)
    assert output == ONE
    assert "frame 2 " in said and "its checksum is wrong" in said
    assert "frame 3 " in said and "its checksum wasn't filled in yet" in said
    assert written("--no-checksums", capture) == ONE + TWO + TWO


def test_wrong_checksum_of_a_header(made):
    (packet,) = frames.ip4(frames.udp(TWO), checksum=WRONG)
    capture = made(frames.pcap([Frame(TIME, frames.ethernet(packet)), ethernet(ONE)]))
    output, said = refused(1, capture)
    assert output == ONE and "the checksum of the IPv4 header is wrong" in said
    assert written("-f", "dst port 8601", capture) == b""


def test_wrong_extension_headers(made):
    """One that is longer than its packet hides what follows, so it is told, whole or in fragments, whatever the filter asks."""
    wrong = (60, bytes([200, 1, 4, 0, 0, 0, 0]))
    whole = frames.ip6(frames.udp(TWO, SIX), SIX, before=[wrong])
    cut = frames.ip6(frames.udp(block(48, 1400), SIX), SIX, inside=[wrong], mtu=1280)
    for packets in (whole, cut):
        capture = made(frames.pcap([*(Frame(TIME, frames.ethernet(it)) for it in packets), ethernet(ONE)]))
        output, said = refused(1, "-f", "dst port 8600", capture)
        assert output == ONE and "an extension header of IPv6 is longer than its packet" in said


def test_other_protocols_of_ip6_are_passed_over(made):
    """TCP, ICMP, OSPF, no next header; fragments of TCP, and one without its others."""
    sent = [packet for protocol in (6, 58, 89, 59) for packet in frames.ip6(bytes(40), SIX, protocol=protocol)]
    sent += frames.ip6(bytes(2000), SIX, protocol=6, mtu=1280)[:1]
    assert written(made(frames.pcap([*(Frame(TIME, frames.ethernet(it)) for it in sent), ethernet(ONE)]))) == ONE


def test_no_checksum(made):
    """IPv4 allows a datagram without a checksum, IPv6 doesn't."""
    assert written(made(frames.pcap([Frame(TIME, frames.ethernet(*frames.ip4(frames.udp(ONE, checksum=0))))]))) == ONE
    six = frames.ethernet(*frames.ip6(frames.udp(ONE, SIX, 0), SIX))
    output, said = refused(1, made(frames.pcap([Frame(TIME, six)])))
    assert output == b"" and "no checksum" in said


def test_checksum_of_fragments(made):
    sound, wrong = frames.udp(block(48, 3000)), frames.udp(block(48, 3000), checksum=WRONG)
    sent = [*frames.ip4(sound, number=1, mtu=1500), *frames.ip4(wrong, number=2, mtu=1500)]
    output, said = refused(1, made(frames.pcap([Frame(TIME, frames.ethernet(it)) for it in sent])))
    assert output == block(48, 3000) and "frame 6 " in said and "its checksum is wrong" in said


def test_wrong_lengths_of_udp(made):
    for length in (0, 7, 999):
        datagram = bytearray(frames.udp(ONE, checksum=0))
        datagram[4:6] = length.to_bytes(2, "big")
        output, said = refused(1, made(frames.pcap([Frame(TIME, frames.ethernet(*frames.ip4(bytes(datagram))))])))
        assert output == b"" and "its length in the header of UDP is wrong" in said


def test_options_of_ip4(made):
    (packet,) = frames.ip4(frames.udp(ONE), options=bytes([1, 1, 1, 0]))
    assert written("-f", "udp dst port 8600", made(frames.pcap([Frame(TIME, frames.ethernet(packet))]))) == ONE


def test_what_is_no_udp_is_passed_over(made):
    (tcp,) = frames.ip4(b"\0" * 20, protocol=6)
    cut = frames.ip4(b"\0" * 2000, protocol=6, mtu=1500)
    arp = b"\xff" * 6 + b"\2" * 6 + b"\x08\x06" + bytes(46)
    sent = [Frame(TIME, arp), *(Frame(TIME, frames.ethernet(it)) for it in (tcp, *cut)), ethernet(ONE)]
    assert written(made(frames.pcap(sent))) == ONE


def test_several_captures(made, tmp_path):
    """They make one stream, whose blocks are numbered through."""
    first, second = made(frames.pcap([ethernet(ONE)]), "a"), made(frames.pcapng([ethernet(TWO), ethernet(THREE)]), "b")
    table = tmp_path / "times"
    assert written("--times", table, first, second) == ONE + TWO + THREE
    assert [line.split("\t")[0] for line in table.read_text().splitlines()] == ["block", "0", "1", "2"]


def test_left_out_blocks_have_no_number(made, tmp_path):
    table = tmp_path / "times"
    refused(1, "--times", table, made(frames.pcap([ethernet(ONE), ethernet(b"no"), ethernet(TWO, TIME + 5)])))
    assert [line.split("\t")[:2] for line in table.read_text().splitlines()[1:]] == [
        ["0", "2026-11-26T09:00:00.000000000Z"],
        ["1", "2026-11-26T09:00:00.000000005Z"],
    ]


def test_no_capture(made, tmp_path):
    sound = made(frames.pcap([ethernet(ONE)]), "sound")
    for path in (tmp_path / "nothing", tmp_path, made(b"", "empty"), made(b"0\0\4\0", "short"), made(ONE + TWO, "blocks")):
        output, said = refused(1, path, status=4)
        assert output == b"" and said.startswith(f"asterix-pcap: {path}: no capture is read: ")
    output, _ = refused(1, sound, tmp_path / "nothing", status=4)
    assert output == b""


def test_cut_captures(made):
    """A capture that ends inside a frame: what is before it is written, and the status is 3."""
    for make in (frames.pcap, frames.pcapng):
        whole = make([ethernet(ONE), ethernet(TWO)])
        for octets in (whole[:-1], whole[:-150]):
            output, said = refused(1, made(octets))
            assert output == ONE and "the end of the capture lacks or is damaged" in said
        output, said = refused(1, made(gzip.compress(whole)[:-20]))
        assert output in (b"", ONE, ONE + TWO) and "what gzip wrote is cut" in said


def test_damaged_gzip(made):
    """What was unpacked well before the fault is written: gzip's own sum, at the end, says that there is one."""
    packed = bytearray(gzip.compress(frames.pcap([ethernet(ONE)] * 20_000)))
    packed[-6] ^= 0xFF
    output, said = refused(1, made(bytes(packed)), status=4)
    assert len(output) > 0 and (ONE * 20_000).startswith(output) and "it can't be read to its end" in said


def test_wrong_words(made, tmp_path):
    capture = made(frames.pcap([ethernet(ONE)]))
    for words in ([], ["--times"], ["--nothing", capture], ["--as-is", "--times", tmp_path / "t", capture], ["--times", capture, capture]):
        output, said = refused(1, *words, status=1)
        assert output == b"" and said.startswith("asterix-pcap: ")
    assert capture.read_bytes() == frames.pcap([ethernet(ONE)])


def test_outputs_that_fail(made, tmp_path):
    capture = made(frames.pcap([ethernet(ONE)]))
    with open("/dev/full", "wb") as full:
        done = subprocess.run([BUILT / "asterix-pcap", capture], stdout=full, stderr=subprocess.PIPE, timeout=HANGS)
    assert (done.returncode, done.stderr) == (4, b"asterix-pcap: standard output can't be written: No space left on device\n")
    for table in ("/dev/full", tmp_path / "no" / "folder"):
        _, said = refused(1, "--times", table, capture, status=4)
        assert "the times can't be written" in said
    reads, writes = os.pipe()
    os.close(reads)
    done = subprocess.run([BUILT / "asterix-pcap", capture], stdout=writes, stderr=subprocess.PIPE, timeout=HANGS)
    os.close(writes)
    assert (done.returncode, done.stderr) == (4, b"asterix-pcap: the reader of standard output is gone\n")


def test_closed_output(made, tmp_path):
    """No block goes into the table of times."""
    table = tmp_path / "times"
    words = ["bash", "-c", 'exec "$@" >&-', "bash", BUILT / "asterix-pcap", "--times", table, made(frames.pcap([ethernet(ONE)]))]
    done = subprocess.run(words, capture_output=True, timeout=HANGS)
    assert (done.returncode, done.stderr) == (4, b"asterix-pcap: standard output can't be written: Bad file descriptor\n")
    assert table.read_text().splitlines()[0] == "block\ttime\tsource\tdestination"


def test_damaged_octets(made):
    """Captures with random damage end with a status that is known, and write whole blocks alone."""
    chance = random.Random(5)
    sent = [Frame(TIME, frames.ethernet(it)) for it in frames.packets(block(48, 3000), mtu=1500)] + [ethernet(ONE), ethernet(TWO, ends=SIX)]
    for make in (frames.pcap, frames.pcapng):
        whole = make(sent)
        for _ in range(150):
            octets = bytearray(whole)
            for _ in range(chance.randrange(1, 8)):
                octets[chance.randrange(len(octets))] = chance.randrange(256)
            ran = run("pcap", made(bytes(octets)))
            assert ran.status in (0, 3, 4), ran
            assert (ran.status == 0) == (ran.lines == [])
            frames.blocks_of(ran.output)


def peak(*words: str | pathlib.Path) -> int:
    """The most memory that a run had in use, in kB."""
    child = os.posix_spawn(BUILT / "asterix-pcap", ["asterix-pcap", *map(str, words)], os.environ, file_actions=[(os.POSIX_SPAWN_OPEN, 1, "/dev/null", os.O_WRONLY, 0)])
    _, status, usage = os.wait4(child, 0)
    assert status == 0
    return usage.ru_maxrss


def test_memory_does_not_grow(made, tmp_path):
    """Eight times the capture, with fragments and a table of times, in the same memory."""
    sent = [Frame(TIME, frames.ethernet(it)) for at in range(500) for it in frames.packets(block(48, 4000), number=at, mtu=1500)]
    few = made(frames.pcap(sent), "few")
    many = made(frames.pcap(sent * 8), "many")
    for words in ([], ["--times", tmp_path / "times"]):
        assert abs(peak(*words, many) - peak(*words, few)) < 1000


def test_silent_where_no_terminal_is(made):
    assert run("pcap", made(frames.pcap([ethernet(ONE)]))).lines == []


def read_terminal(master: int) -> bytes:
    """All that was written on a terminal, until nobody has it open."""
    found = b""
    while True:
        try:
            octets = os.read(master, 65_536)
        except OSError:  # so Linux tells the end
            return found
        if not octets:
            return found
        found += octets


def test_progress_on_a_terminal(tmp_path):
    """A capture that comes slowly through a pipe: progress is written and taken away again."""
    pipe = tmp_path / "pipe"
    os.mkfifo(pipe)
    master, terminal = pty.openpty()
    ran = subprocess.Popen([BUILT / "asterix-pcap", pipe], stdout=subprocess.DEVNULL, stderr=terminal)
    os.close(terminal)
    octets = frames.pcap([ethernet(TWO)] * 20_000)
    with open(pipe, "wb", buffering=0) as writes:
        for at in range(0, len(octets), len(octets) // 8):
            writes.write(octets[at : at + len(octets) // 8])
            subprocess.run(["sleep", "0.3"], check=True)
    found = read_terminal(master)
    os.close(master)
    assert ran.wait(HANGS) == 0
    assert b" MB/s" in found and found.endswith(b"\r\x1b[K")


def test_turns_capture():
    """The capture that comes with the recording has its blocks and no others."""
    assert written(TOP / "docs/turns.pcap") == (TOP / "docs/turns.ast").read_bytes()


tshark = pytest.mark.skipif(shutil.which("tshark") is None, reason="tshark isn't there")


@tshark
@pytest.mark.parametrize("link", LINKS)
def test_as_tshark(made, link):
    """Times, addresses and payloads as tshark has them, fragments and IPv6 among them."""
    sent = []
    for at in range(20):
        ends = SIX if at % 3 == 0 else Ends(source_port=5000 + at)
        for packet in frames.packets(block(48, 60 * at + 10, at), ends, number=at, mtu=1280 if ends is SIX else 576):
            sent.append(Frame(TIME + len(sent) * 1_234_567, frames.framed(link, packet)))
    capture, table = made(frames.pcap(sent, link)), made(b"", "times")
    payloads = written("--times", table, capture)
    fields = "frame.time_epoch ip.src ipv6.src udp.srcport ip.dst ipv6.dst udp.dstport udp.payload".split()
    words = ["tshark", "--disable-protocol", "asterix", "-r", capture, "-Y", "udp", "-T", "fields", *(it for field in fields for it in ("-e", field))]
    rows = [line.split("\t") for line in subprocess.run(words, capture_output=True, text=True, check=True, timeout=HANGS).stdout.splitlines()]
    assert payloads == b"".join(bytes.fromhex(row[7]) for row in rows) and len(rows) == 20
    lines = [line.split("\t") for line in table.read_text().splitlines()[1:]]
    for line, (time, four, six, port, to_four, to_six, to_port, _) in zip(lines, rows, strict=True):
        assert line[1].endswith(f".{time.split('.')[1]}Z")
        assert line[2:] == [f"{four}:{port}" if four else f"[{six}]:{port}", f"{to_four}:{to_port}" if to_four else f"[{to_six}]:{to_port}"]
