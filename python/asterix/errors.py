"""What may be raised while a recording is read.

The program `asterix` tells each refusal and each fault in lines on standard error. These exceptions carry those lines, taken apart.
Blocks, files and bits are counted from 0.
"""

from __future__ import annotations

import re
from collections.abc import Sequence


class AsterixError(Exception):
    """The program didn't come to the end of its input.

    Attributes:
        line: the last line that the program wrote on standard error; empty if it wrote none.
        status: the program's exit status; negative if a signal ended it.
    """

    def __init__(self, message: str, line: str = "", status: int = 0) -> None:
        super().__init__(message)
        self.line = line
        self.status = status


class RefusedFile(AsterixError):
    """A category file is refused, and nothing was read of the recording.

    Attributes:
        number: which of the files it is, from 0.
        name: the file's name.
        cause: the rest of the line, as `BadToken token 7` or `Flawed 2`.
        flaws: the lines of the file's flaws, where the cause is `Flawed`.
    """

    def __init__(self, line: str, status: int, number: int, name: str, cause: str, flaws: Sequence[str]) -> None:
        super().__init__("; ".join([f"{name}: {cause}", *flaws]), line, status)
        self.number = number
        self.name = name
        self.cause = cause
        self.flaws = list(flaws)


class RefusedBlock(AsterixError):
    """A data block is refused. All records of the blocks before it were given.

    Attributes:
        block: the block's number, from 0.
        bit: the bit of the block at which the fault is, from 0; bit 24 is the first bit of the body.
        cause: the fault's name, as `RunsOut` or `BadLen`.
    """

    def __init__(self, line: str, status: int, block: int, bit: int, cause: str) -> None:
        super().__init__(f"block {block}, bit {bit}: {cause}", line, status)
        self.block = block
        self.bit = bit
        self.cause = cause


class MissingFile(AsterixError):
    """A category file can't be loaded.

    Attributes:
        number: which of the files it is, from 0.
        name: the file's name.
    """

    def __init__(self, line: str, status: int, number: int, name: str) -> None:
        super().__init__(f"{name}: it can't be read", line, status)
        self.number = number
        self.name = name


_FILE = re.compile(r"refused file (\d+) (.+)")
_BLOCK = re.compile(r"refused block (\d+) bit (\d+) (\w+)")
_LOADED = re.compile(r"fault file (\d+)")


def error_of(status: int, said: str, specs: Sequence[str]) -> AsterixError:
    """The exception for a run that ended with `status`, not 0, and wrote `said` on standard error.

    Args:
        status: the exit status, as `subprocess` has it.
        said: all of standard error.
        specs: the names of the category files, in the order in which the program was given them.
    """
    lines = said.splitlines()
    line = lines[-1] if lines else ""
    if found := _BLOCK.fullmatch(line):
        return RefusedBlock(line, status, int(found[1]), int(found[2]), found[3])
    if (found := _FILE.fullmatch(line)) and int(found[1]) < len(specs):
        flaws = [one for one in lines if one.startswith(f"flaw file {found[1]} ")]
        return RefusedFile(line, status, int(found[1]), specs[int(found[1])], found[2], flaws)
    if (found := _LOADED.fullmatch(line)) and int(found[1]) < len(specs):
        return MissingFile(line, status, int(found[1]), specs[int(found[1])])
    if status < 0:
        return AsterixError(f"signal {-status} ended the program", line, status)
    return AsterixError(line or f"the program ended with status {status}", line, status)
