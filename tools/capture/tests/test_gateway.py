"""The gateway: receive, salvage, migrate and send between two namespaces, and its unit for systemd."""

import os
import pathlib
import re
import shutil
import signal
import subprocess
import time

import frames
import pytest
from frames import Ends, Frame
from network import HANGS, Namespace, beside_limit, read, receives, until
from running import TOP

GATEWAY = TOP / "tools/gateway"
OLD, NEW = TOP / "categories/062-1.17", TOP / "categories/062-1.18"
GROUP, DISPLAY = "239.1.1.1:8600", "10.2.0.1:8601"
# How many blocks go through, at how many a second, and within how many seconds.
BLOCKS, PACE, LIMIT = 100_000, 10_000, 60


def sent(number: int) -> bytes:
    """A block of category 062, edition 1.17: items 010 and 070, which has the number, and 080 in six parts."""
    return bytes.fromhex("3e0010 9104 190c") + number.to_bytes(3, "big") + bytes.fromhex("010101010180")


def wanted(number: int) -> bytes:
    """The same in edition 1.18, in which the sixth part has another layout: it is lost, and so the fifth one is the last."""
    return bytes.fromhex("3e000f 9104 190c") + number.to_bytes(3, "big") + bytes.fromhex("0101010100")


DAMAGED = bytes.fromhex("3e0010 9104 190c 000001 010101010181")


@pytest.fixture
def radar(space: Namespace, other_space: Namespace) -> Namespace:
    """The namespace of a radar and a display, with an interface for each that leads to the gateway's."""
    space.join(other_space, "radar", "10.1.0.1/24", "10.1.0.2/24")
    space.join(other_space, "display", "10.2.0.1/24", "10.2.0.2/24")
    return space


def gateway(space: Namespace, room: pathlib.Path, **settings: str) -> subprocess.Popen[bytes]:
    """Starts a gateway, and waits until it receives."""
    words = {
        "receive": f"{GROUP} --interface radar --buffer 8M",
        "salvage": str(OLD),
        "program": f"migrate {OLD} {NEW}",
        "send": DISPLAY,
        **settings,
    }
    (room / "settings").write_text("".join(f"{name}=({value})\n" for name, value in words.items()))
    (room / "tmp").mkdir(exist_ok=True)
    with open(room / "report", "wb") as report:
        process = subprocess.Popen(
            space.words(GATEWAY / "asterix-gateway", room / "settings"),
            stdin=subprocess.DEVNULL,
            stderr=report,
            env={**os.environ, "TMPDIR": str(room / "tmp")},
        )
    space.started.append(process)
    until(lambda: receives(process, GROUP))
    return process


def ended(process: subprocess.Popen[bytes], room: pathlib.Path) -> tuple[int, list[str]]:
    """How a gateway ended, and its report. It leaves no files."""
    status = process.wait(HANGS)
    assert list((room / "tmp").iterdir()) == []
    return status, beside_limit((room / "report").read_text().splitlines())


def test_a_hundred_thousand_blocks(radar, other_space, made, tmp_path):
    """None is lost, and each is changed as the two editions differ, and not otherwise."""
    ends = Ends("10.1.0.1", 5000, "239.1.1.1", 8600)
    times = range(0, BLOCKS * frames.SECOND // PACE, frames.SECOND // PACE)
    capture = made(frames.pcap(Frame(at, frames.ethernet(*frames.packets(sent(number), ends))) for number, at in enumerate(times)))
    with open(tmp_path / "stream", "wb") as stream:
        display = radar.receive(DISPLAY, "--buffer", "8M", stdout=stream)
    process = gateway(other_space, tmp_path)
    begin = time.monotonic()
    status, _, lines = radar.run("replay", capture, GROUP, "--interface", "radar")
    assert status == 0, lines
    octets = BLOCKS * len(wanted(0))
    until(lambda: os.stat(tmp_path / "stream").st_size >= octets)
    assert time.monotonic() - begin < LIMIT
    process.send_signal(signal.SIGTERM)
    status, report = ended(process, tmp_path)
    assert status == 0
    assert report[-1] == f"salvaged 062 written {BLOCKS} refused 0" and set(report[:-1]) == {
        f"lost block {number} record 0 062/080/part5" for number in range(BLOCKS)
    }
    display.send_signal(signal.SIGTERM)
    assert (display.wait(HANGS), beside_limit(display.stderr.read().decode().splitlines())) == (0, [])
    assert (tmp_path / "stream").read_bytes() == b"".join(map(wanted, range(BLOCKS)))


def send(radar: Namespace, *blocks: bytes) -> None:
    for block in blocks:
        assert radar.run("net", "send", GROUP, "--interface", "radar", given=block) == (0, b"", [])


def test_damaged_block_with_salvage(radar, other_space, tmp_path):
    """A damaged block is left out and told, and the stream goes on."""
    display, process = radar.receive(DISPLAY), gateway(other_space, tmp_path)
    send(radar, sent(1), DAMAGED, sent(2))
    assert read(display.stdout, 30) == wanted(1) + wanted(2)
    process.send_signal(signal.SIGTERM)
    status, report = ended(process, tmp_path)
    assert status == 0 and "refused block 1 bit 127 ExtensionPastEnd" in report
    assert "salvaged 062 written 2 refused 1" in report


def test_damaged_block_without_salvage(radar, other_space, tmp_path):
    """It ends the program with a named fault, and so the gateway, also if nothing comes any more. What was before it is sent."""
    display, process = radar.receive(DISPLAY), gateway(other_space, tmp_path, salvage="")
    send(radar, sent(1), DAMAGED)
    status, report = ended(process, tmp_path)
    assert status == 3 and "refused block 1 bit 127 ExtensionPastEnd" in report
    assert read(display.stdout, 15) == wanted(1)
    again = gateway(other_space, tmp_path, salvage="")
    send(radar, sent(2))
    assert read(display.stdout, 15) == wanted(2)
    again.send_signal(signal.SIGINT)
    assert ended(again, tmp_path)[0] == 0


@pytest.mark.parametrize(
    "settings, status, line",
    [
        ({"send": "10.9.0.1:1"}, 4, "asterix-net: 10.9.0.1:1: nothing can be sent there: Network is unreachable"),
        ({"receive": "10.9.0.1:1"}, 4, "asterix-net: 10.9.0.1:1: no interface of this machine has the address"),
        ({"program": f"migrate {OLD} nothing"}, 4, "fault file 1"),
        ({"program": f"migrate {OLD} {TOP}/categories/048-1.31"}, 2, "refused editions 062 048"),
        ({"program": "migrate"}, 1, "refused usage"),
        ({"send": f"{DISPLAY} --ttl 0"}, 1, "asterix-net: --ttl: 0 isn't a whole number from 1 to 255 (--help tells the words)"),
        ({"program": "show x"}, 1, "asterix-gateway: SETTINGS: program=(show ..): it is migrate, filter, canon or convert"),
        ({"receive": ""}, 1, "asterix-gateway: SETTINGS: receive=(..) is missing or empty"),
    ],
    ids=str,
)
def test_what_is_wrong(radar, other_space, tmp_path, settings, status, line):
    """Each part that can't begin ends the gateway with its own line and status."""
    process = gateway(other_space, tmp_path, **settings)
    found, report = ended(process, tmp_path)
    assert found == status and line.replace("SETTINGS", str(tmp_path / "settings")) in report


@pytest.mark.skipif(shutil.which("systemd-analyze") is None, reason="systemd isn't there")
def test_unit(tmp_path):
    """systemd reads the unit, and finds that little is left open. The script is named where it stands here."""
    text = (GATEWAY / "asterix-gateway@.service").read_text()
    unit = tmp_path / "asterix-gateway@trial.service"
    unit.write_text(text.replace("/usr/libexec/asterix/asterix-gateway", str(GATEWAY / "asterix-gateway")))
    assert unit.read_text() != text
    done = subprocess.run(["systemd-analyze", "verify", "--man=no", unit], capture_output=True, text=True, timeout=HANGS)
    assert (done.returncode, done.stdout, done.stderr) == (0, "", "")
    done = subprocess.run(["systemd-analyze", "security", "--offline=yes", unit], capture_output=True, text=True, timeout=HANGS)
    exposure = re.search(r"Overall exposure level for .*: ([\d.]+)", done.stdout)
    assert done.returncode == 0 and float(exposure[1]) < 2


def test_settings_that_come_with_it():
    """They are bash, set each of the four, and name files that are installed there."""
    settings = GATEWAY / "example.conf"
    shown = 'set -u; . "$1"; printf "%s\\n" "${receive[0]}" "${salvage[0]}" "${program[@]}" "${send[0]}"'
    done = subprocess.run(["bash", "-c", shown, "bash", settings], capture_output=True, text=True, check=True)
    words = done.stdout.split()
    assert words[2] == "migrate" and all((TOP / word.removeprefix("/usr/share/asterix/")).exists() for word in (words[1], *words[3:5]))
