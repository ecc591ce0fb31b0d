"""asterix-replay: a capture sent again, with its own gaps, in network namespaces without a way out."""

import ctypes
import random
import re
import signal
import statistics
import subprocess

import frames
import pytest
from frames import Ends, Frame
from network import HANGS, SO_TIMESTAMPNS, kernel_time
from running import TOP, block

TIME = 1_795_683_600 * frames.SECOND
TO = "127.0.0.1:8600"
# How often gaps are tried: on a busy machine a program may be late.
TRIES = 10
SENT = re.compile(r"asterix-replay: (\d+) datagrams sent in ([\d.]+) s; off by ([\d.]+) ms in the median and ([\d.]+) ms at most")


def captured(payloads: list[bytes], times: list[int], ends: Ends = Ends()) -> bytes:
    """A capture of datagrams, with times in nanoseconds after the first."""
    return frames.pcap([Frame(TIME + at, frames.ethernet(it)) for payload, at in zip(payloads, times) for it in frames.packets(payload, ends)])


def replayed(space, made, capture: bytes, *words: str) -> tuple[int, list[bytes], list[int], list[str]]:
    """A run's status, the datagrams that came, when each came (nanoseconds after the first), and the lines."""
    at = space.socket("127.0.0.1", 8600)
    at.setsockopt(1, SO_TIMESTAMPNS, 1)
    status, output, lines = space.run("replay", *words, made(capture), TO)
    assert output == b""
    at.setblocking(False)
    payloads, times = [], []
    while True:
        try:
            payload, notes, _, _ = at.recvmsg(65_536, 256)
        except BlockingIOError:
            break
        payloads.append(payload)
        times.append(kernel_time(notes))
    at.close()
    return status, payloads, [time - times[0] for time in times], lines


@pytest.mark.parametrize("speed", [None, 2, 0.5, 10])
def test_gaps(space, made, speed):
    """Each datagram comes when it is due, to 10 ms, and the program says how far off it was."""
    chance = random.Random(3)
    gaps = [0, 0, *(chance.randrange(1_000_000, 60_000_000) for _ in range(20))]
    due = [sum(gaps[: at + 1]) for at in range(len(gaps))]
    payloads = [block(48, 40 + at, at) for at in range(len(gaps))]
    words = ["--speed", str(speed)] if speed else []
    worst = []
    for _ in range(TRIES):
        status, came, times, lines = replayed(space, made, captured(payloads, due), *words)
        assert (status, came, len(lines)) == (0, payloads, 1)
        count, seconds, median, most = map(float, SENT.fullmatch(lines[0]).groups())
        assert count == len(payloads) and median <= most
        off = [abs(time - wanted / (speed or 1)) for time, wanted in zip(times, due)]
        # The first datagram is the one from which times count here, and it may itself be late.
        assert max(off) / 1e6 <= 2 * most + 1 and seconds * 1e9 >= times[-1] - 1e6
        worst.append(max(off) / 1e6)
        if worst[-1] < 10:
            return
    pytest.fail(f"gaps were off by {worst} ms")


def test_payloads_as_captured(space, made):
    """A datagram of several blocks, and one that came in fragments, are sent in one."""
    payloads = [block(48, 40) + block(62, 70), block(48, 5000)]
    cut = [it for payload in payloads for it in frames.packets(payload, mtu=1500)]
    status, came, _, _ = replayed(space, made, frames.pcap([Frame(TIME, frames.ethernet(it)) for it in cut]))
    assert (status, came) == (0, payloads)


def test_filter(space, made):
    one, two = block(48, 40), block(62, 70)
    sent = [*frames.packets(one), *frames.packets(two, Ends(destination_port=8601))]
    status, came, _, _ = replayed(space, made, frames.pcap([Frame(TIME, frames.ethernet(it)) for it in sent]), "-f", "dst port 8601")
    assert (status, came) == (0, [two])


def test_out_of_time_order(space, made):
    """A frame that is before an earlier one is sent at once, and told; the gaps of the others stay."""
    payloads = [block(48, 40 + at) for at in range(5)]
    order = [0, 300_000_000, 200_000_000, 100_000_000, 400_000_000]
    for _ in range(TRIES):
        status, came, times, lines = replayed(space, made, captured(payloads, order))
        assert (status, came, len(lines)) == (3, payloads, 3)
        assert lines[0].endswith("frame 3 is 0.100000000 s before an earlier one: it is sent at once, and so are later ones of that kind")
        assert lines[1] == "asterix-replay: 2 datagrams were before earlier ones"
        off = [abs(time - wanted) for time, wanted in zip(times, [0, 300_000_000, 300_000_000, 300_000_000, 400_000_000])]
        if max(off) < 10_000_000:
            return
    pytest.fail(f"gaps were off by {off} ns")


def test_something_else(space, made):
    status, came, _, lines = replayed(space, made, captured([block(48, 40), b"hello, world", block(34, 11)], [0, 0, 0]))
    assert (status, came) == (3, [block(48, 40), block(34, 11)])
    assert "frame 2 " in lines[0] and "not whole data blocks" in lines[0] and SENT.fullmatch(lines[1])


def test_unfilled_checksums(space, made):
    """What was captured where it was sent."""
    packet = frames.ip4(frames.unfilled(block(48, 40)))[0]
    capture = frames.pcap([Frame(TIME, frames.ethernet(packet))])
    assert replayed(space, made, capture)[:2] == (3, [])
    assert replayed(space, made, capture, "--no-checksums")[:2] == (0, [block(48, 40)])


def test_nothing(space, made):
    status, _, lines = space.run("replay", made(frames.pcap([])), TO)
    assert (status, lines) == (0, ["asterix-replay: 0 datagrams sent in 0.000000 s; off by 0.000 ms in the median and 0.000 ms at most"])


@pytest.mark.parametrize("speed", ["0", "-1", "0.0", "nan", "inf", "fast", "", "1x", "1e-9"])
def test_speeds_that_are_none(space, made, speed):
    status, output, lines = space.run("replay", "--speed", speed, made(frames.pcap([])), TO)
    assert (status, output) == (1, b"")
    assert lines == [f"asterix-replay: --speed: {speed} isn't a number above 0, from 0.001 to 1e+09 (--help tells the words)"]


def test_what_is_not_there(space, made, tmp_path):
    status, _, lines = space.run("replay", tmp_path / "nothing", TO)
    assert (status, lines) == (4, [f"asterix-replay: {tmp_path}/nothing: no capture is read: No such file or directory"])
    sound = made(captured([block(48, 40)], [0]))
    assert space.run("replay", sound, "10.9.0.1:8600")[0] == 4
    assert space.run("replay", "--interface", "none0", sound, TO)[0] == 4
    for words in ([], [sound], [sound, "127.0.0.1"], [sound, sound, TO]):
        status, _, lines = space.run("replay", *words)
        assert (status, len(lines)) == (1, 1)


def test_nobody_receives(space, made):
    status, _, lines = space.run("replay", made(captured([block(48, 40)] * 3, [0, 0, 0])), TO)
    assert status == 3 and "nobody receives there" in lines[0] and SENT.fullmatch(lines[-1])


@pytest.mark.parametrize("number", [signal.SIGTERM, signal.SIGINT])
def test_signals(space, made, number):
    """A wait of a day ends at once."""
    at = space.socket("127.0.0.1", 8600)
    process = space.start("replay", made(captured([block(48, 40), block(48, 41)], [0, 86_400 * frames.SECOND])), TO)
    assert at.recv(65_536) == block(48, 40)
    process.send_signal(number)
    assert process.wait(HANGS) == 3
    told, sent = process.stderr.read().decode().splitlines()
    assert told == "asterix-replay: a signal ended it: what was left of the capture isn't sent" and SENT.fullmatch(sent)[1] == "1"


def test_turns_at_a_hundred_times_the_speed(space, tmp_path):
    """The capture that comes with the recording, over the network and back."""
    with open(tmp_path / "stream", "wb") as stream:
        process = space.receive(TO, stdout=stream)
    assert space.run("replay", "--speed", "100", TOP / "docs/turns.pcap", TO)[0] == 0
    process.send_signal(signal.SIGTERM)
    assert process.wait(HANGS) == 0
    assert (tmp_path / "stream").read_bytes() == (TOP / "docs/turns.ast").read_bytes()


def test_median(tmp_path):
    """spread.c's median is the one of the sorted numbers, at most 1 % less."""
    library = tmp_path / "spread.so"
    subprocess.run(["cc", "-shared", "-fPIC", "-o", library, TOP / "tools/capture/spread.c"], check=True)
    spread = ctypes.CDLL(str(library))
    spread.spread_median.restype = ctypes.c_uint64
    chance = random.Random(2)
    for most in (1, 100, 1000, 10**6, 10**10, 2**64 - 1):
        numbers = [chance.randrange(most) for _ in range(999)] + [most]
        room = ctypes.create_string_buffer(1 << 20)
        for number in numbers:
            spread.spread_add(room, ctypes.c_uint64(number))
        wanted = statistics.median_low(numbers)
        assert wanted * 0.99 <= spread.spread_median(room) <= wanted
        assert int.from_bytes(room[8:16], "little") == most
