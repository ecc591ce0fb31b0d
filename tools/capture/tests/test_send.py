"""asterix-net send: what is sent of data blocks, in network namespaces without a way out."""

import os
import signal
import socket
import subprocess

import pytest
from network import HANGS, IP_RECVTTL, Namespace, stopped
from running import BUILT, block

ONE, TWO, THREE = block(48, 40), block(62, 200, 7), block(34, 11, 90)
TO = "127.0.0.1:8600"


def received(at: socket.socket, count: int) -> list[bytes]:
    """So many datagrams, and no more: all are there once the sender has ended."""
    found = [at.recv(65_536) for _ in range(count)]
    at.setblocking(False)
    with pytest.raises(BlockingIOError):
        at.recv(65_536)
    at.settimeout(HANGS)
    return found


def test_each_block_in_a_datagram(space):
    at = space.socket("127.0.0.1", 8600)
    assert space.run("net", "send", TO, given=ONE + TWO + THREE) == (0, b"", [])
    assert received(at, 3) == [ONE, TWO, THREE]


def test_nothing(space):
    assert space.run("net", "send", TO) == (0, b"", [])


def test_live(space):
    """A block is sent as soon as it is whole, and not before."""
    at, process = space.socket("127.0.0.1", 8600), space.start("net", "send", TO)
    for piece, wanted in ((ONE + TWO[:100], [ONE]), (TWO[100:], [TWO]), (THREE, [THREE])):
        process.stdin.write(piece)
        process.stdin.flush()
        assert received(at, 1) == wanted
    process.stdin.close()
    assert process.wait(HANGS) == 0


def packed(blocks: list[bytes], most: int) -> list[bytes]:
    """Blocks in rows of at most so many octets, each as long as it can be. A longer block is alone."""
    rows = [b""]
    for it in blocks:
        if rows[-1] and len(rows[-1]) + len(it) > most:
            rows.append(b"")
        rows[-1] += it
    return rows


@pytest.mark.parametrize("mtu, headers, to", [(1500, 28, "127.0.0.1"), (576, 28, "127.0.0.1"), (1280, 48, "::1")])
def test_several_blocks_in_a_datagram(space, tmp_path, mtu, headers, to):
    at = space.socket(to, 8600)
    blocks = [block(48, 50 + 37 * (number % 11), number) for number in range(100)] + [block(48, 3000)] + [ONE] * 3
    (tmp_path / "stream").write_bytes(b"".join(blocks))
    with open(tmp_path / "stream", "rb") as stream:
        process = space.start("net", "send", f"[{to}]:8600" if ":" in to else f"{to}:8600", "--mtu", str(mtu), stdin=stream)
    assert process.wait(HANGS) == 0
    wanted = packed(blocks, mtu - headers)
    assert received(at, len(wanted)) == wanted


def test_several_blocks_wait_for_none(space):
    """With --mtu too, a block is sent as soon as it is there."""
    at, process = space.socket("127.0.0.1", 8600), space.start("net", "send", TO, "--mtu", "1500")
    for payload in (ONE, TWO):
        process.stdin.write(payload)
        process.stdin.flush()
        assert at.recv(65_536) == payload


@pytest.mark.parametrize("octets", [65_507, 65_508, 65_535])
def test_longest_blocks(space, octets):
    at = space.socket("127.0.0.1", 8600)
    at.setsockopt(socket.SOL_SOCKET, socket.SO_RCVBUF, 1 << 20)
    status, output, lines = space.run("net", "send", TO, given=ONE + block(48, octets) + TWO)
    if octets == 65_507:
        assert (status, lines) == (0, []) and received(at, 3) == [ONE, block(48, octets), TWO]
    else:
        assert (status, received(at, 2)) == (3, [ONE, TWO])
        assert lines == [f"asterix-net: block 1: left out: it has {octets} octets, and a datagram has at most 65507"]


@pytest.mark.parametrize("words", [[], ["--mtu", "1500"]])
def test_bad_framing(space, words):
    at = space.socket("127.0.0.1", 8600)
    for rest, line in (
        (b"\x30\x00\x03" + TWO, "block 2, octet 80 of the input: LEN is 3, so nothing from here on is sent"),
        (TWO[:-1], "block 2, octet 80 of the input: the input ends inside it"),
        (b"\x30", "block 2, octet 80 of the input: the input ends inside it"),
    ):
        assert space.run("net", "send", TO, *words, given=ONE + ONE + rest) == (3, b"", [f"asterix-net: {line}"])
        assert received(at, 1 if words else 2) == ([ONE + ONE] if words else [ONE, ONE])


def test_refused_sends(space):
    """Nobody receives there. Each datagram is sent all the same, and the lines say how many came back."""
    status, _, lines = space.run("net", "send", TO, given=ONE * 100)
    assert status == 3 and len(lines) == 2
    assert lines[0] == "asterix-net: block 1: refused by the network, to 127.0.0.1:8600: nobody receives there (an earlier datagram came back)"
    assert lines[1] == "asterix-net: 99 more refused by the network, to 127.0.0.1:8600: nobody receives there (an earlier datagram came back)"


def test_receiver_that_comes_late(space):
    """Refusals don't keep later blocks back."""
    process = space.start("net", "send", TO)
    for _ in range(3):
        process.stdin.write(ONE)
        process.stdin.flush()
    told = process.stderr.readline()
    at = space.socket("127.0.0.1", 8600)
    process.stdin.write(TWO)
    process.stdin.flush()
    while at.recv(65_536) != TWO:
        pass
    process.stdin.close()
    assert process.wait(HANGS) == 3 and b"nobody receives there" in told


def test_packet_that_may_not_go(space):
    """A send that the system itself refuses is left out, and told."""
    space.ip("route", "add", "prohibit", "10.7.0.1")
    status, output, lines = space.run("net", "send", "10.7.0.1:8600", given=ONE)
    assert (status, len(lines)) == (4, 1) and lines[0].startswith("asterix-net: 10.7.0.1:8600: nothing can be sent there: ")


def test_what_is_not_there(space):
    assert space.run("net", "send", "10.9.0.1:8600", given=ONE) == (
        4,
        b"",
        ["asterix-net: 10.9.0.1:8600: nothing can be sent there: Network is unreachable"],
    )
    assert space.run("net", "send", TO, "--interface", "none0", given=ONE) == (4, b"", ["asterix-net: there is no interface none0"])


@pytest.mark.parametrize("words", [["--mtu", "67"], ["--mtu", "65536"], ["--ttl", "0"], ["--ttl", "256"], ["--loop"], ["--source", "127.0.0.1"]], ids=" ".join)
def test_wrong_words(space, words):
    status, output, lines = space.run("net", "send", TO, *words)
    assert (status, output, len(lines)) == (1, b"", 1) and lines[0].endswith("(--help tells the words)")


def test_first_word(space):
    for words in ([], ["get", TO]):
        assert space.run("net", *words) == (1, b"", ["asterix-net: the first word is receive or send (--help tells the words)"])


def hops(at: socket.socket) -> int:
    """The TTL with which a datagram came."""
    _, notes, _, _ = at.recvmsg(65_536, 256)
    return int.from_bytes(next(octets for level, kind, octets in notes if (level, kind) == (0, 2)), "little")


def test_ttl(space):
    space.interface("trial", "10.9.0.1/24")
    for to, words, wanted in (("127.0.0.1", ["--ttl", "7"], 7), ("239.1.1.1", ["--ttl", "9"], 9), ("239.1.1.1", [], 1)):
        at = group_member(space, to) if to != "127.0.0.1" else space.socket(to, 8600)
        at.setsockopt(socket.IPPROTO_IP, IP_RECVTTL, 1)
        more = ["--interface", "trial"] if to != "127.0.0.1" else []
        assert space.run("net", "send", f"{to}:8600", *words, *more, given=ONE) == (0, b"", [])
        assert hops(at) == wanted
        at.close()


def test_broadcast(space):
    space.interface("trial", "10.9.0.1/24")
    at = space.socket("10.9.0.255", 8600)
    assert space.run("net", "send", "10.9.0.255:8600", given=ONE) == (0, b"", [])
    assert received(at, 1) == [ONE]


@pytest.mark.parametrize("stream", ["<&-", "2>&-"])
def test_closed_streams(space, stream):
    """A stream that is closed isn't mistaken for the socket: no line goes over the network."""
    at = space.socket("127.0.0.1", 8600)
    words = space.words("bash", "-c", f'exec "$@" {stream}', "bash", BUILT / "asterix-net", "send", TO)
    done = subprocess.run(words, input=ONE + b"\x30\0\0", capture_output=True, timeout=HANGS)
    if stream == "<&-":
        assert (done.returncode, done.stderr) == (4, b"asterix-net: standard input can't be read: Bad file descriptor\n")
        assert received(at, 0) == []
    else:
        assert (done.returncode, received(at, 1)) == (3, [ONE])


def group_member(space: Namespace, group: str, interface: str = "trial") -> socket.socket:
    """A socket that is in a group by an interface."""
    it = space.socket(group, 8600)
    with space.entered():
        index = socket.if_nametoindex(interface)
    it.setsockopt(socket.IPPROTO_IP, socket.IP_ADD_MEMBERSHIP, socket.inet_aton(group) + bytes(4) + index.to_bytes(4, "little"))
    return it


def test_interface_of_a_group(space, other_space):
    """Two interfaces lead to another namespace. A datagram goes out by the one that is named."""
    space.join(other_space, "one", "10.1.0.1/24", "10.1.0.2/24")
    space.join(other_space, "two", "10.2.0.1/24", "10.2.0.2/24")
    for name in ("one", "two"):
        at = group_member(other_space, "239.1.1.1", name)
        assert space.run("net", "send", "239.1.1.1:8600", "--interface", name, given=ONE) == (0, b"", [])
        assert at.recvfrom(65_536)[0] == ONE
        at.close()


def test_interface_of_ip6(space):
    space.interface("trial", "fe80::1/64", "fd00::1/64")
    process = space.receive("[ff02::1]:8600", "--interface", "trial")
    assert space.run("net", "send", "[ff02::1]:8600", "--interface", "trial", "--ttl", "3", given=ONE) == (0, b"", [])
    assert process.stdout.read(40) == ONE
    assert stopped(process) == (0, b"", [])


def test_no_loop(space):
    space.interface("trial", "10.9.0.1/24")
    at = group_member(space, "239.1.1.1")
    for words, count in ((["--no-loop"], 0), ([], 1)):
        assert space.run("net", "send", "239.1.1.1:8600", "--interface", "trial", *words, given=ONE) == (0, b"", [])
        assert received(at, count) == [ONE] * count


@pytest.mark.parametrize("number", [signal.SIGTERM, signal.SIGINT])
def test_signals(space, number):
    """The blocks that were whole are sent, and the run ends."""
    at, process = space.socket("127.0.0.1", 8600), space.start("net", "send", TO)
    process.stdin.write(ONE + TWO[:50])
    process.stdin.flush()
    assert at.recv(65_536) == ONE
    process.send_signal(number)
    assert process.wait(HANGS) == 0 and process.stderr.read() == b""


def test_input_that_fails(space, tmp_path):
    folder = os.open(tmp_path, os.O_RDONLY)
    process = space.start("net", "send", TO, stdin=folder)
    os.close(folder)
    assert process.wait(HANGS) == 4
    assert process.stderr.read() == b"asterix-net: standard input can't be read: Is a directory\n"
