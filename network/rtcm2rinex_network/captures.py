"""The captures of a station, and sizes and sums of files.

Sums are dear, so a list notes what `stat` said of a file before its sum was taken. A file of which `stat` says the same again has the
same bytes: each write sets the time of change to that of the clock, and no program can set it back.
"""

from __future__ import annotations

import errno
import os
import stat
import zlib
from pathlib import Path
from typing import BinaryIO, Iterable, Iterator, List, NamedTuple, Optional, cast

from .ends import Refused
from .names import LINKS, capture_name
from .times import Span

PIECE = 1 << 20  # bytes
NOWHERE = (errno.ENOENT, errno.ENOTDIR, errno.ELOOP)  # how `stat` fails at a name that leads to nothing
TICK = 5  # seconds; no later write shares the tick of a time that is older


class Capture(NamedTuple):
    """A capture that is there: the name that lists have, its file, and its link and hour. The name ends in .gz if there is a plain capture
    too."""

    name: str
    path: Path
    link: int
    hour: int

    @property
    def seen_name(self) -> str:
        """The name of its file below the folder of the station."""
        return self.first_name + (".gz" if self.path.suffix == ".gz" else "")

    @property
    def is_second(self) -> bool:
        """Whether it lies beside a plain capture."""
        return self.name.endswith(".gz")

    @property
    def first_name(self) -> str:
        """The name of the plain capture."""
        return first_name(self.name)


class Sum(NamedTuple):
    """The size of a file in bytes, and the SHA-256 of its bytes; of a gzipped capture both as it came."""

    size: int
    digest: str

    def __str__(self) -> str:
        return f"{self.size} {self.digest}"


class Unread(Exception):
    """A capture can't be read."""


class Broken(Unread):
    """A gzip file is not whole, which no other try mends."""


def first_name(name: str) -> str:
    """The name that a capture has in lists if it is plain, or if no plain one is there."""
    return name.removesuffix(".gz")


def find_captures(directory: Path, span: Span) -> List[Capture]:
    """The captures of the hours of a span, link by link and hour by hour."""
    found = []
    for link in LINKS:
        folder = directory / f"link{link}"
        if not folder.is_dir():
            continue
        if not os.access(folder, os.R_OK | os.X_OK):
            raise Refused(f"{folder} may not be read")
        for hour in span.hours:
            found += captures_of(directory, capture_name(link, hour), link, hour)
    return found


def captures_of(directory: Path, name: str, link: int, hour: int) -> List[Capture]:
    """The capture of a link and an hour. A plain and a gzipped one may be there, as while it is compressed; if nothing of the name is a
    file, what is there can't be read."""
    paths = [directory / name, directory / f"{name}.gz"]
    files = [it for it in paths if it.is_file()]
    for path in files:
        if not os.access(path, os.R_OK):
            raise Refused(f"{path} may not be read")
    there = files or [it for it in paths if os.path.lexists(it)][:1]
    return [Capture(it, path, link, hour) for it, path in zip((name, f"{name}.gz"), there)]


def opened(path: Path) -> BinaryIO:
    """Opens a file, of which a gzipped one is read as it was before."""
    if path.suffix != ".gz":
        return open(path, "rb")
    import gzip  # here, because most runs do without it, and it would take a part of their time

    return cast(BinaryIO, gzip.open(path))


def pieces_of(path: Path) -> Iterator[bytes]:
    """The bytes of a file, of a gzipped one as they were before. Raises `Unread`."""
    try:
        with opened(path) as file:
            while piece := file.read(PIECE):
                yield piece
    except (EOFError, zlib.error) as fault:
        raise Broken(f"can't read {path}: {fault}") from None
    except OSError as fault:
        raise (Unread if fault.errno else Broken)(f"can't read {path}: {fault.strerror or fault}") from None


def first_bytes(path: Path, size: int) -> Iterator[bytes]:
    """The first bytes of a file, as many as it has of so many. Raises `Unread`."""
    for piece in pieces_of(path):
        yield piece[:size]
        size -= min(size, len(piece))
        if not size:
            break


def sum_of_pieces(pieces: Iterable[bytes]) -> Sum:
    """Size and sum of what comes in pieces."""
    import hashlib  # here, because most runs do without it, and it would take a part of their time

    size, digest = 0, hashlib.sha256()
    for piece in pieces:
        size += len(piece)
        digest.update(piece)
    return Sum(size, digest.hexdigest())


def sum_of(path: Path) -> Sum:
    """Size and sum of a file. Raises `Unread`."""
    return sum_of_pieces(pieces_of(path))


def has_grown(path: Path, before: Sum) -> bool:
    """Whether a capture begins with all the bytes that it had before."""
    try:
        return sum_of_pieces(first_bytes(path, before.size)) == before
    except Unread:
        return False


def look_at(path: Path) -> Optional[str]:
    """What `stat` says of a file, as lists have it: size, inode, and the times of its last write and change. None if it is gone, or if links
    lead nowhere."""
    try:
        it = os.stat(path)
    except OSError as fault:
        if fault.errno not in NOWHERE:
            raise
        return None
    times = (f"{ns // 10**9}.{ns % 10**9:09}" for ns in (it.st_mtime_ns, it.st_ctime_ns))
    return f"{it.st_size} {it.st_ino} {' '.join(times)}" if stat.S_ISREG(it.st_mode) else None


def is_capture(path: Path) -> bool:
    """Whether a capture is there, or was compressed, or a link that leads nowhere has its name."""
    return os.path.lexists(path) or os.path.lexists(f"{path}.gz")


def went(path: Path) -> bool:
    """Whether a capture was a file when it was found, and is gone. Something else, as a link that leads nowhere, is no file that went."""
    try:
        return stat.S_ISREG(os.lstat(path).st_mode)
    except FileNotFoundError:
        return True


def is_old(looked: str, now: float) -> bool:
    """Whether no later write can share the times of a file."""
    return all(float(word) < now - TICK for word in looked.split()[2:])
