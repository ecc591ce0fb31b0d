"""Network namespaces that a trial makes, without a way out, and sockets and programs in them.

A namespace stays while a process is in it: `cat`, which ends with the trial, since its input ends then. The trials need the rights of
the administrator, or a namespace of users in which they have them (.ci/captures makes one).
"""

import contextlib
import ctypes
import ipaddress
import json
import os
import pathlib
import re
import select
import signal
import socket
import struct
import subprocess
import time
from collections.abc import Callable, Iterator
from typing import IO

from running import BUILT, HANGS

CLONE_NEWNET = 0x40000000
LIBC = ctypes.CDLL(None, use_errno=True)
# Seconds for what a process is about to do, as to bind a socket.
SOON = 30
IP_RECVTTL = 12
SO_TIMESTAMPNS = 35


class Namespace:
    """A network namespace with its loopback up."""

    def __init__(self) -> None:
        own = os.readlink("/proc/self/ns/net")
        self.holder = subprocess.Popen(["unshare", "--net", "cat"], stdin=subprocess.PIPE, stdout=subprocess.DEVNULL)
        self.path = f"/proc/{self.holder.pid}/ns/net"
        until(lambda: os.readlink(self.path) != own and self.holder.poll() is None)
        self.started: list[subprocess.Popen[bytes]] = []
        self.ip("link", "set", "lo", "up")

    def end(self) -> None:
        """Ends what was started here, and the namespace with it."""
        for process in self.started:
            process.kill()
            process.wait()
        # What these had started, as the parts of a gateway, is still in the namespace if a trial failed.
        for number in self.inside():
            with contextlib.suppress(ProcessLookupError):
                os.kill(number, signal.SIGKILL)
        for process in self.started:
            for stream in (process.stdin, process.stdout, process.stderr):
                with contextlib.suppress(BrokenPipeError):
                    stream and stream.close()
        self.holder.communicate()

    def inside(self) -> list[int]:
        """The processes in the namespace, but for the one that holds it."""
        found = []
        for entry in pathlib.Path("/proc").glob("[0-9]*"):
            with contextlib.suppress(OSError):
                if os.readlink(entry / "ns/net") == os.readlink(self.path) and int(entry.name) != self.holder.pid:
                    found.append(int(entry.name))
        return found

    def words(self, *words: str | pathlib.Path) -> list[str]:
        return ["nsenter", f"--net={self.path}", *map(str, words)]

    def ip(self, *words: str) -> None:
        subprocess.run(self.words("ip", *words), check=True, timeout=HANGS)

    def start(self, program: str, *words: str | pathlib.Path, **streams: object) -> subprocess.Popen[bytes]:
        """Starts asterix-PROGRAM here, with all of its streams in pipes unless they are given."""
        given = {"stdin": subprocess.PIPE, "stdout": subprocess.PIPE, "stderr": subprocess.PIPE, **streams}
        process = subprocess.Popen(self.words(BUILT / f"asterix-{program}", *words), **given)
        self.started.append(process)
        return process

    def receive(self, at: str, *words: str | pathlib.Path, **streams: object) -> subprocess.Popen[bytes]:
        """Starts `asterix-net receive`, and waits until it receives."""
        before = members(self.holder.pid, at)
        process = self.start("net", "receive", at, *words, **streams)
        until(lambda: receives(process, at, before))
        return process

    def run(self, program: str, *words: str | pathlib.Path, given: bytes = b"") -> tuple[int, bytes, list[str]]:
        """Runs asterix-PROGRAM here to its end: its status, its output and its lines."""
        output, lines = self.start(program, *words).communicate(given, HANGS)
        return self.started[-1].returncode, output, lines.decode().splitlines()

    @contextlib.contextmanager
    def entered(self) -> Iterator[None]:
        """This thread, in the namespace: a socket that it makes is of the namespace for ever."""
        with open("/proc/thread-self/ns/net") as own, open(self.path) as other:
            if LIBC.setns(other.fileno(), CLONE_NEWNET) != 0:
                raise OSError(ctypes.get_errno(), "setns")
            try:
                yield
            finally:
                LIBC.setns(own.fileno(), CLONE_NEWNET)

    def socket(self, address: str = "127.0.0.1", port: int = 0) -> socket.socket:
        """A UDP socket of the namespace that is bound to the address."""
        family = socket.AF_INET6 if ":" in address else socket.AF_INET
        with self.entered():
            it = socket.socket(family, socket.SOCK_DGRAM)
        it.settimeout(HANGS)
        it.bind((address, port))
        return it

    def interface(self, name: str, *addresses: str) -> None:
        """An interface that leads to another one in the same namespace, and so nowhere else."""
        self.ip("link", "add", name, "type", "veth", "peer", "name", f"{name}-peer")
        for one in (name, f"{name}-peer"):
            self.ip("link", "set", one, "addrgenmode", "none")
            self.ip("link", "set", one, "up", "multicast", "on")
        for address in addresses:
            self.ip("addr", "add", address, "dev", name, *(["nodad"] if ":" in address else []))
        until(self.is_up)

    def join(self, other: "Namespace", name: str, own: str, others: str) -> None:
        """An interface of this name in both namespaces, each with an address, which lead to each other."""
        self.ip("link", "add", name, "type", "veth", "peer", "name", name, "netns", str(other.holder.pid))
        for it, address in ((self, own), (other, others)):
            it.ip("addr", "add", address, "dev", name)
            it.ip("link", "set", name, "up")
        until(lambda: self.is_up() and other.is_up())

    def is_up(self) -> bool:
        """Whether each interface sends what it is given: the kernel takes up to a second for that after both ends are set up."""
        told = subprocess.run(self.words("ip", "-json", "link"), check=True, capture_output=True, timeout=HANGS).stdout
        return all(it["qdisc"] != "noop" and it["operstate"] == "UP" for it in json.loads(told) if it["ifname"] != "lo")


def until(holds: Callable[[], bool]) -> None:
    """Waits for something that is about to be."""
    end = time.monotonic() + SOON
    while not holds():
        assert time.monotonic() < end, "what was waited for didn't come"
        time.sleep(0.01)


def members(number: int, at: str) -> int:
    """How many sockets are bound to the address, or have joined the group, in the namespace of a process."""
    host, _, port = at.rpartition(":")
    address = ipaddress.ip_address(host.strip("[]"))
    tables = {name: (pathlib.Path(f"/proc/{number}/net") / name).read_text().lower() for name in ("udp", "udp6", "igmp", "igmp6")}
    bound = (tables["udp"] + tables["udp6"]).count(f":{int(port):04x} ")
    if not address.is_multicast:
        return bound
    # A line of igmp begins with the group, one of igmp6 with the interface; then come the sockets that have joined.
    group = address.packed[::-1].hex() if address.version == 4 else address.packed.hex()
    joined = re.findall(rf"\b{group}\s+(\d+)", tables["igmp"] + tables["igmp6"])
    return min(bound, sum(map(int, joined)))


def receives(process: subprocess.Popen[bytes], at: str, before: int = 0) -> bool:
    """Whether more sockets than before receive at the address, in the namespace of a process; or the process has ended."""
    return process.poll() is not None or members(process.pid, at) > before


def stopped(process: subprocess.Popen[bytes], number: int = signal.SIGTERM) -> tuple[int, bytes, list[str]]:
    """Sends a signal: how the process ends, its output and its lines."""
    process.send_signal(number)
    output, lines = process.communicate(timeout=HANGS)
    return process.returncode, output or b"", lines.decode().splitlines()


def beside_limit(lines: list[str]) -> list[str]:
    """A report without the line that says that --buffer is limited. It comes without the administrator's rights alone, and with the
    system's limit."""
    limit = pathlib.Path("/proc/sys/net/core/rmem_max").read_text().strip()
    line = f"asterix-net: --buffer: the kernel gives {limit} octets and not {8 << 20}; sysctl net.core.rmem_max is the limit"
    return [it for it in lines if it != line]


def read(stream: IO[bytes], count: int) -> bytes:
    """So many octets of a pipe, as soon as they are there."""
    found = b""
    while len(found) < count:
        assert select.select([stream], [], [], SOON)[0], f"no more came after {len(found)} octets of {count}"
        octets = os.read(stream.fileno(), count - len(found))
        assert octets, f"it ended after {len(found)} octets of {count}"
        found += octets
    return found


def kernel_time(notes: list[tuple[int, int, bytes]]) -> int:
    """When the kernel had a datagram, in nanoseconds, of what recvmsg tells beside it."""
    (octets,) = [octets for level, kind, octets in notes if (level, kind) == (socket.SOL_SOCKET, SO_TIMESTAMPNS)]
    seconds, rest = struct.unpack("qq", octets[:16])
    return seconds * 1_000_000_000 + rest
