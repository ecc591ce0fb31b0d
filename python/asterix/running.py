"""The program `asterix` as a child process: its listing in pieces, and what it says at its end."""

from __future__ import annotations

import contextlib
import io
import os
import subprocess
import tempfile
import threading
from collections.abc import Iterator, Sequence
from typing import IO, BinaryIO, Union

from .errors import AsterixError, error_of

Source = Union[str, "os.PathLike[str]", BinaryIO]
Command = Union[str, "os.PathLike[str]", Sequence[str]]

# Octets of the listing that are read at once, and octets of a file object that are passed on at once.
_PIECE = 1 << 20
_PASSED = 1 << 16


def command_words(command: Command | None) -> list[str]:
    """The words that start the program.

    Without a command it is the environment variable ASTERIX, else `asterix` on the PATH.
    """
    if command is None:
        return [os.environ.get("ASTERIX", "asterix")]
    if isinstance(command, (str, os.PathLike)):
        return [os.fspath(command)]
    return list(command)


def names_of(specs: str | os.PathLike[str] | Sequence[str | os.PathLike[str]]) -> list[str]:
    """The names of one category file or of several."""
    if isinstance(specs, (str, os.PathLike)):
        return [os.fspath(specs)]
    return [os.fspath(spec) for spec in specs]


class _Feeder(threading.Thread):
    """Passes a file object on to the program's standard input.

    Attributes:
        failed: what `read` raised, if it raised something.
    """

    def __init__(self, source: BinaryIO, sink: IO[bytes]) -> None:
        super().__init__(daemon=True)
        self.source = source
        self.sink = sink
        self.failed: BaseException | None = None

    def run(self) -> None:
        # A program that has ended reads no more: that is told by its status.
        with contextlib.suppress(BrokenPipeError), self.sink:
            try:
                while piece := self.source.read(_PASSED):
                    self.sink.write(piece)
            except BrokenPipeError:
                raise
            except BaseException as error:
                self.failed = error


def _is_plain_file(source: BinaryIO) -> bool:
    """Whether the child can read the file by itself: no decompressing reader, and nothing of it is held in a buffer for good."""
    raw = source.raw if isinstance(source, io.BufferedReader) else source
    return isinstance(raw, io.FileIO) and source.seekable()


def listed_lines(source: Source, specs: Sequence[str], command: Command | None) -> Iterator[list[str]]:
    """The lines of `asterix show SPEC... < source`, in lists of some thousand, without their line feeds.

    The child ends with the iterator, however that ends.

    Raises:
        AsterixError: after the last line, where the program's status isn't 0; `error_of` says which.
        FileNotFoundError: there is no such recording, or no such program.
    """
    with contextlib.ExitStack() as kept:
        given: int | IO[bytes] = subprocess.PIPE
        if isinstance(source, (str, os.PathLike)):
            given = kept.enter_context(open(source, "rb"))
        elif _is_plain_file(source):
            os.lseek(source.fileno(), source.tell(), os.SEEK_SET)
            given = source
        said = kept.enter_context(tempfile.TemporaryFile())
        child = subprocess.Popen([*command_words(command), "show", *specs], stdin=given, stdout=subprocess.PIPE, stderr=said)
        kept.callback(_end, child)
        feeder = _Feeder(source, child.stdin) if child.stdin else None  # type: ignore[arg-type]
        if feeder:
            feeder.start()
        yield from _lines(child.stdout)  # type: ignore[arg-type]
        status = child.wait()
        if feeder:
            feeder.join()
            if feeder.failed:
                raise feeder.failed
        if status:
            said.seek(0)
            raise error_of(status, said.read().decode("utf-8", "replace"), specs)


def _end(child: subprocess.Popen[bytes]) -> None:
    """Ends the child, where it runs still, and takes its status."""
    if child.poll() is None:
        child.kill()
    if child.stdout:
        child.stdout.close()
    child.wait()


def _lines(output: IO[bytes]) -> Iterator[list[str]]:
    """The whole lines of an output, in lists. The listing is printable ASCII, so that each octet is a character."""
    rest = ""
    while piece := os.read(output.fileno(), _PIECE):
        lines = (rest + piece.decode("latin-1")).split("\n")
        rest = lines.pop()
        yield lines
    if rest:
        raise AsterixError("the listing ends within a line", rest)
