"""What a run of the program reads: files by their names, and open files through pipes."""

from __future__ import annotations

import errno
import fcntl
import os
import signal
import subprocess
import threading
from types import TracebackType
from typing import Iterator, List, Optional, Protocol, Sequence, Tuple, Type, Union, cast

PIECE = 65_536  # bytes
PATIENCE = 1.0  # seconds to wait for a file that is no longer needed


class Readable(Protocol):
    """An open binary file: its method `read` gives at most so many bytes, and none at the end."""

    def read(self, __size: int) -> bytes:
        """Gives at most so many bytes."""


Name = Union[str, "os.PathLike[str]"]
Input = Union[str, "os.PathLike[str]", Readable]


def is_open(given: Input) -> bool:
    """Whether this is an open file and no name."""
    return hasattr(given, "read")


def text_of(name: Name) -> str:
    """The name as a text. Bytes are no name: they may be what a file holds."""
    text = os.fspath(name)
    if not isinstance(text, str):
        raise TypeError("a file is a name or an open binary file, and not bytes; io.BytesIO(it) opens bytes")
    return text


def word_of(name: Name) -> str:
    """The name as a word of the command line, where it is neither an option nor standard input."""
    text = text_of(name)
    return f"./{text}" if text.startswith("-") or text == "stdin" else text


def listed(given: Union[Input, Sequence[Input]]) -> List[Input]:
    """One input or several, as a list."""
    if isinstance(given, (str, bytes, os.PathLike)) or is_open(cast(Input, given)):
        return [cast(Input, given)]
    return list(cast(Sequence[Input], given))


def pieces_of(source: Readable) -> Iterator[bytes]:
    """The bytes of an open file to its end. A file that does not wait gives None where nothing has come yet, which is no end."""
    while piece := source.read(PIECE):
        yield piece
    if piece is None:
        raise BlockingIOError(errno.EAGAIN, "the open file does not wait for its bytes, so its end is not known")


def write_all(descriptor: int, piece: bytes) -> None:
    """Writes all of these bytes."""
    left = memoryview(piece)
    while left:
        left = left[os.write(descriptor, left) :]


def above_standard(descriptor: int) -> int:
    """The same end of a pipe with another number than those of standard input, output and error, which the program gets anew. An end has
    such a number where Python was started without these three."""
    if descriptor > 2:
        return descriptor
    try:
        return fcntl.fcntl(descriptor, fcntl.F_DUPFD_CLOEXEC, 3)
    finally:
        os.close(descriptor)


class Pipe:
    """A pipe that the program reads. Each end is closed once."""

    def __init__(self) -> None:
        reading, writing = os.pipe()
        self.reading, self.writing = above_standard(reading), above_standard(writing)

    def close_reading(self) -> None:
        """Closes the end of the program, which has a copy of it."""
        if self.reading >= 0:
            os.close(self.reading)
        self.reading = -1

    def close_writing(self) -> None:
        """Closes the other end, so that the program comes to the end of its input."""
        if self.writing >= 0:
            os.close(self.writing)
        self.writing = -1


class Pump(threading.Thread):
    """Copies an open file into a pipe, while the program reads the pipe."""

    def __init__(self, source: Readable) -> None:
        super().__init__(daemon=True)
        self.source, self.pipe = source, Pipe()
        self.fault: Optional[BaseException] = None

    def run(self) -> None:
        """Copies to the end. A program that has ended reads no more, which is no fault here, and does not end a script whose SIGPIPE has
        its first meaning again."""
        signal.pthread_sigmask(signal.SIG_BLOCK, [signal.SIGPIPE])  # of this thread
        try:
            for piece in pieces_of(self.source):
                write_all(self.pipe.writing, piece)
        except BrokenPipeError:
            pass
        except BaseException as fault:  # `finish` raises it where the caller is
            self.fault = fault
        finally:
            self.pipe.close_writing()


class Inputs:
    """The inputs of one run. The first open file is standard input, and each further one a pipe that the program opens by its number."""

    def __init__(self, given: Sequence[Input]) -> None:
        self.pumps: List[Pump] = []
        self.words: List[str] = []
        try:
            for it in given:
                self.words.append(self.open_word(cast(Readable, it)) if is_open(it) else word_of(cast(Name, it)))
        except BaseException:
            self.close()
            raise

    def open_word(self, source: Readable) -> str:
        """The word by which the program opens this file."""
        self.pumps.append(Pump(source))
        return f"/dev/fd/{self.pumps[-1].pipe.reading}" if len(self.pumps) > 1 else "stdin"

    @property
    def standard(self) -> int:
        """What the program gets as standard input."""
        return self.pumps[0].pipe.reading if self.pumps else subprocess.DEVNULL

    @property
    def passed(self) -> Tuple[int, ...]:
        """The pipes that the program gets beside standard input."""
        return tuple(pump.pipe.reading for pump in self.pumps[1:])

    def begin(self) -> None:
        """Begins to copy, once the program has the ends that it reads."""
        for pump in self.pumps:
            pump.pipe.close_reading()
            pump.start()

    def finish(self) -> None:
        """Waits until all is copied, and raises the fault of an open file that could not be read."""
        for pump in self.pumps:
            pump.join()
            if pump.fault:
                raise pump.fault

    def __enter__(self) -> Inputs:
        return self

    def __exit__(self, kind: Optional[Type[BaseException]], fault: Optional[BaseException], trace: Optional[TracebackType]) -> None:
        self.close()

    def close(self) -> None:
        """Closes all ends. Once a program has ended, a thread closes its end with its next write, and may wait for its file until then."""
        for pump in self.pumps:
            pump.pipe.close_reading()
            if pump.ident is None:  # it was never started
                pump.pipe.close_writing()
            else:
                pump.join(PATIENCE)
