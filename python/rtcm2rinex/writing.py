"""A RINEX file that a call writes: to a file that gets its name when it is whole, or as bytes in memory."""

from __future__ import annotations

import errno
import io
import os
import stat
from contextlib import contextmanager
from dataclasses import dataclass, field
from itertools import count
from pathlib import Path
from typing import IO, BinaryIO, Iterator, Optional, Sequence, Tuple, cast

from .headers import Header
from .inputs import Input, Name, is_open, text_of
from .rinex import Epoch, Observation, epochs, header, observations


@dataclass(frozen=True)
class Written:
    """A RINEX file that was written. Either `output` is its path, or `text` has its bytes."""

    text: Optional[bytes] = field(repr=False)
    output: Optional[Path]

    def open(self) -> BinaryIO:
        """Opens the file for reading."""
        return io.BytesIO(self.text or b"") if self.output is None else open(self.output, "rb")

    def header(self) -> Header:
        """Reads the header of the file."""
        with self.open() as file:
            return header(file)

    def epochs(self) -> Iterator[Epoch]:
        """Gives the records of the file, one after another."""
        with self.open() as file:
            yield from epochs(file)

    def observations(self) -> Iterator[Observation]:
        """Gives the observations of the file as rows: see `rtcm2rinex.observations`."""
        with self.open() as file:
            yield from observations(file)


def is_same(one: Path, other: Input) -> bool:
    """Whether both are names of one file that is there."""
    try:
        return not is_open(other) and os.path.samefile(one, text_of(cast(Name, other)))
    except OSError:
        return False


@contextmanager
def output_of(output: Optional[Name], force: bool, given: Sequence[Input]) -> Iterator[Optional[IO[bytes]]]:
    """A file beside the output, which gets the name of the output at the end, unless an exception comes."""
    if output is None:
        yield None
        return
    path = Path(output)
    if any(is_same(path, it) for it in given):
        raise ValueError(f"the output {path} is one of the inputs")
    if os.path.lexists(path):
        if not stat.S_ISREG(os.lstat(path).st_mode):  # as a device or a link, which the program leaves too
            raise FileExistsError(errno.EEXIST, "the output is there and is no regular file", str(path))
        if not force:
            raise FileExistsError(errno.EEXIST, "the file is there, and force=True would replace it", str(path))
    part, file = part_of(path)
    try:
        with file:
            yield file
        os.replace(part, path)
    except BaseException:
        part.unlink()
        raise


def part_of(path: Path) -> Tuple[Path, IO[bytes]]:
    """A new file beside this one."""
    for number in count():
        part = path.with_name(f"{path.name}.part{number or ''}")
        try:
            return part, open(part, "xb")
        except FileExistsError:
            pass
    raise AssertionError("the numbers do not end")
