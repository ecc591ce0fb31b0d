"""asterix-net receive: what is written of datagrams that are sent to it, in network namespaces without a way out."""

import os
import re
import signal
import socket
import subprocess
import time

import pytest
from network import HANGS, SOON, Namespace, beside_limit, read, stopped, until
from running import block

ONE, TWO, THREE = block(48, 40), block(62, 200, 7), block(34, 11, 90)
AT = "127.0.0.1:8600"


def test_each_datagram_at_once(space):
    """What was sent is there before anything more is sent."""
    process, sender = space.receive(AT), space.socket()
    for payload in (ONE, TWO + THREE, block(48, 65_507)):
        sender.sendto(payload, ("127.0.0.1", 8600))
        assert read(process.stdout, len(payload)) == payload
    assert stopped(process) == (0, b"", [])


def test_each_datagram_in_one_write(space):
    """Standard output is a socket that keeps the bounds of writes."""
    own, given = socket.socketpair(socket.AF_UNIX, socket.SOCK_SEQPACKET)
    own.settimeout(HANGS)
    process, sender = space.receive(AT, stdout=given), space.socket()
    payloads = [ONE, TWO + THREE, block(48, 9000), ONE]
    for payload in payloads:
        sender.sendto(payload, ("127.0.0.1", 8600))
    assert [own.recv(65_536) for _ in payloads] == payloads
    assert stopped(process) == (0, b"", [])


def test_payloads_of_something_else(space):
    process, sender = space.receive(AT), space.socket("127.0.0.1", 5000)
    for payload in (ONE, b"hello, world", b"", ONE + b"\0", TWO):
        sender.sendto(payload, ("127.0.0.1", 8600))
    assert read(process.stdout, 240) == ONE + TWO
    status, output, lines = stopped(process)
    assert (status, output, len(lines)) == (3, b"", 3)
    reasons = ["octet 0: LEN is 25964, and 12 octets are left", "it has no octets", "octet 40: it ends inside CAT and LEN"]
    for number, (line, reason) in enumerate(zip(lines, reasons), 1):
        pattern = rf"asterix-net: datagram {number} \d{{4}}-\d\d-\d\dT[\d:]+\.\d{{9}}Z 127\.0\.0\.1:5000 > 127\.0\.0\.1:8600: left out: not whole data blocks: "
        assert re.fullmatch(pattern + re.escape(reason), line)


def test_times(space, tmp_path):
    table = tmp_path / "times"
    process, sender = space.receive(AT, "--times", table), space.socket("127.0.0.1", 5000)
    begin = time.time()
    sender.sendto(ONE + TWO, ("127.0.0.1", 8600))
    sender.sendto(THREE, ("127.0.0.1", 8600))
    read(process.stdout, 251)
    assert stopped(process)[0] == 0
    head, *rows = [line.split("\t") for line in table.read_text().splitlines()]
    assert head == ["block", "time", "source", "destination"]
    assert [[number, *ends] for number, _, *ends in rows] == [[str(at), "127.0.0.1:5000", AT] for at in range(3)]
    stamps = [time.strptime(stamp[:19], "%Y-%m-%dT%H:%M:%S") for _, stamp, *_ in rows]
    assert all(-2 < time.mktime((*it[:8], 0)) - time.timezone - begin < SOON for it in stamps)
    assert rows[0][1] == rows[1][1] <= rows[2][1]


def group_sender(space: Namespace, source: str, interface: str = "trial") -> socket.socket:
    """A socket that sends to groups by the interface."""
    it = space.socket(source)
    with space.entered():
        index = socket.if_nametoindex(interface)
    if ":" in source:
        it.setsockopt(socket.IPPROTO_IPV6, socket.IPV6_MULTICAST_IF, index)
    else:
        it.setsockopt(socket.IPPROTO_IP, socket.IP_MULTICAST_IF, bytes(8) + index.to_bytes(4, "little"))
    return it


def test_group(space):
    """The group's datagrams come by the interface; another group's, to the same port, don't."""
    space.interface("trial", "10.9.0.1/24")
    process = space.receive("239.1.1.1:8600", "--interface", "trial")
    another = space.receive("239.1.1.2:8600", "--interface", "trial")
    sender = group_sender(space, "10.9.0.1")
    sender.sendto(TWO, ("239.1.1.2", 8600))
    sender.sendto(ONE, ("239.1.1.1", 8600))
    assert read(process.stdout, 40) == ONE and read(another.stdout, 200) == TWO
    assert stopped(process) == (0, b"", []) and stopped(another) == (0, b"", [])


def test_group_by_its_interface_alone(space):
    """What comes to the group by another interface, on which another program joined, isn't taken."""
    space.interface("trial", "10.9.0.1/24")
    space.interface("other", "10.8.0.1/24")
    process = space.receive("239.1.1.1:8600", "--interface", "trial")
    another = space.receive("239.1.1.1:8600", "--interface", "other")
    group_sender(space, "10.8.0.1", "other").sendto(TWO, ("239.1.1.1", 8600))
    group_sender(space, "10.9.0.1").sendto(ONE, ("239.1.1.1", 8600))
    assert read(process.stdout, 40) == ONE and read(another.stdout, 200) == TWO
    assert stopped(process) == (0, b"", []) and stopped(another) == (0, b"", [])


def test_group_of_a_source(space):
    space.interface("trial", "10.9.0.1/24", "10.9.0.2/24")
    process = space.receive("232.1.1.1:8600", "--interface", "trial", "--source", "10.9.0.2")
    for source, payload in (("10.9.0.1", ONE), ("10.9.0.2", TWO), ("10.9.0.1", ONE), ("10.9.0.2", THREE)):
        group_sender(space, source).sendto(payload, ("232.1.1.1", 8600))
    assert read(process.stdout, 211) == TWO + THREE
    assert stopped(process) == (0, b"", [])


def test_address_of_a_source(space):
    space.ip("addr", "add", "127.0.0.2/8", "dev", "lo")
    process = space.receive(AT, "--source", "127.0.0.2")
    for source, payload in (("127.0.0.1", ONE), ("127.0.0.2", TWO)):
        space.socket(source).sendto(payload, ("127.0.0.1", 8600))
    assert read(process.stdout, 200) == TWO
    assert stopped(process) == (0, b"", [])


def test_group_of_ip6(space):
    space.interface("trial", "fe80::1/64", "fd00::1/64", "fd00::2/64")
    process = space.receive("[ff02::1]:8600", "--interface", "trial")
    sourced = space.receive("[ff3e::99]:8601", "--interface", "trial", "--source", "fd00::2")
    with space.entered():
        index = socket.if_nametoindex("trial")
    group_sender(space, "fd00::1").sendto(ONE, ("ff02::1", 8600, 0, index))
    group_sender(space, "fd00::1").sendto(ONE, ("ff3e::99", 8601, 0, index))
    group_sender(space, "fd00::2").sendto(TWO, ("ff3e::99", 8601, 0, index))
    assert read(process.stdout, 40) == ONE and read(sourced.stdout, 200) == TWO
    assert stopped(process) == (0, b"", []) and stopped(sourced) == (0, b"", [])


def test_address_of_ip6(space):
    process = space.receive("[::1]:8600")
    space.socket("::1").sendto(ONE, ("::1", 8600))
    assert read(process.stdout, 40) == ONE
    assert stopped(process) == (0, b"", [])


def refused(space: Namespace, *words: str, status: int = 4) -> str:
    """The one line of a run that can't begin."""
    found, output, lines = space.run("net", "receive", *words)
    assert (found, output, len(lines)) == (status, b"", 1), lines
    return lines[0].removeprefix("asterix-net: ")


def test_what_is_not_there(space):
    space.interface("trial", "10.9.0.1/24")
    assert refused(space, "10.9.9.9:8600") == "10.9.9.9:8600: no interface of this machine has the address"
    assert refused(space, "[fd00::9]:8600") == "[fd00::9]:8600: no interface of this machine has the address"
    assert refused(space, "239.1.1.1:8600", "--interface", "none0") == "there is no interface none0"
    assert refused(space, "239.1.1.1:8600") == "239.1.1.1:8600: no route leads to the group; name an interface by --interface"


@pytest.mark.parametrize("at", [AT, "239.1.1.1:8600", "[::1]:8600"])
def test_port_in_use(space, at, tmp_path):
    space.ip("route", "add", "239.0.0.0/8", "dev", "lo")
    held = space.socket("::1" if "[" in at else "0.0.0.0", 8600)
    (tmp_path / "times").write_text("kept")
    assert refused(space, at, "--times", str(tmp_path / "times")) == f"{at}: another program has the port"
    assert (tmp_path / "times").read_text() == "kept"
    held.close()


WRONG_WORDS = [
    [],
    ["8600"],
    ["127.0.0.1"],
    ["127.0.0.1:0"],
    ["127.0.0.1:65536"],
    ["127.0.0.1:86x"],
    ["::1:8600"],
    ["[127.0.0.1]:8600"],
    ["localhost:8600"],
    [AT, AT],
    [AT, "--buffer", "0"],
    [AT, "--buffer", "8MB"],
    [AT, "--buffer", "8G"],
    [AT, "--source", "::1"],
    [AT, "--source", "me"],
    [AT, "--mtu", "1500"],
    [AT, "--interface"],
]


@pytest.mark.parametrize("words", WRONG_WORDS, ids=" ".join)
def test_wrong_words(space, words):
    assert refused(space, *words, status=1).endswith("(--help tells the words)")


@pytest.mark.parametrize("number", [signal.SIGTERM, signal.SIGINT])
def test_signals(space, number):
    """What was received before the signal is written whole."""
    process, sender = space.receive(AT), space.socket()
    payloads = [block(48, 1000, at) for at in range(50)]
    for payload in payloads:
        sender.sendto(payload, ("127.0.0.1", 8600))
    assert stopped(process, number) == (0, b"".join(payloads), [])


def test_signal_while_nobody_reads(space):
    """A pipe that is full: the run ends all the same, with a line."""
    process, sender = space.receive(AT), space.socket()
    for _ in range(8):
        sender.sendto(block(48, 60_000), ("127.0.0.1", 8600))
    until(lambda: in_write(process))
    process.send_signal(signal.SIGTERM)
    assert process.wait(HANGS) == 4
    assert process.stderr.read() == b"asterix-net: the reader of standard output doesn't read: the last datagram isn't written whole\n"


def in_write(process: subprocess.Popen[bytes]) -> bool:
    """Whether a process waits in the system's call `write`, whose number is 1 on x86-64 and 64 on others."""
    with open(f"/proc/{process.pid}/syscall") as call:
        return call.read().split()[0] in ("1", "64")


def test_reader_that_goes_away(space):
    """Also if nothing comes any more."""
    for comes in (True, False):
        process = space.receive(AT)
        process.stdout.close()
        if comes:
            space.socket().sendto(ONE, ("127.0.0.1", 8600))
        assert process.wait(HANGS) == 4
        assert process.stderr.read() == b"asterix-net: the reader of standard output is gone\n"


def test_full_device(space):
    with open("/dev/full", "wb") as full:
        process = space.receive(AT, stdout=full)
    space.socket().sendto(ONE, ("127.0.0.1", 8600))
    assert process.wait(HANGS) == 4
    assert process.stderr.read() == b"asterix-net: standard output can't be written: No space left on device\n"


BURST, OCTETS, RATE = 10_000, 1000, 200e6


def send_burst(space: Namespace) -> list[bytes]:
    """10,000 datagrams of 1,000 octets at 200 Mbit/s."""
    sender = space.socket()
    payloads = [block(48, OCTETS, at) for at in range(256)]
    begin = time.perf_counter()
    for at in range(BURST):
        while time.perf_counter() - begin < at * OCTETS * 8 / RATE:
            pass
        sender.sendto(payloads[at & 0xFF], ("127.0.0.1", 8600))
    return [payloads[at & 0xFF] for at in range(BURST)]


def test_burst_with_a_buffer(space, tmp_path):
    with open(tmp_path / "stream", "wb") as stream:
        process = space.receive(AT, "--buffer", "8M", stdout=stream)
    sent = send_burst(space)
    status, _, lines = stopped(process)
    assert (status, beside_limit(lines)) == (0, [])
    assert (tmp_path / "stream").read_bytes() == b"".join(sent)


@pytest.mark.parametrize("follows", [True, False], ids=["one follows", "none follows"])
def test_burst_that_is_too_much(space, tmp_path, follows):
    """The program is stopped while the burst comes. So the kernel keeps what its own buffer holds, and drops the rest."""
    with open(tmp_path / "stream", "wb") as stream:
        process = space.receive(AT, stdout=stream)
    process.send_signal(signal.SIGSTOP)
    send_burst(space)
    process.send_signal(signal.SIGCONT)
    until(lambda: os.stat(tmp_path / "stream").st_size > 0)
    if follows:
        time.sleep(0.5)
        space.socket().sendto(ONE, ("127.0.0.1", 8600))
    told = process.stderr.readline().decode()
    status, _, lines = stopped(process)
    came = (os.stat(tmp_path / "stream").st_size - 40 * follows) // OCTETS
    assert 0 < came < BURST and status == 3 and lines == []
    assert told == f"asterix-net: before block {came}: {BURST - came} datagrams are lost, since the kernel's buffer was full ({BURST - came} in all)\n"


def test_losses_are_told_again(space, tmp_path):
    """Two bursts: two lines, each with its own number, and the last with both."""
    with open(tmp_path / "stream", "wb") as stream:
        process = space.receive(AT, stdout=stream)
    numbers = []
    for _ in range(2):
        process.send_signal(signal.SIGSTOP)
        send_burst(space)
        process.send_signal(signal.SIGCONT)
        numbers.append([int(it) for it in re.findall(r"(\d+) (?:datagrams|in all)", process.stderr.readline().decode())])
    assert stopped(process)[0] == 3
    (first, first_all), (second, both) = numbers
    assert first == first_all and both == first + second
    assert os.stat(tmp_path / "stream").st_size == (2 * BURST - both) * OCTETS
