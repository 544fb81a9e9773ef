"""Converts the bytes of a station while they come."""

from __future__ import annotations

import errno
import io
import subprocess
import threading
from queue import Empty, SimpleQueue
from types import TracebackType
from typing import IO, Iterator, Optional, Type, cast

from .converting import convert_words
from .faults import Error, FormError
from .headers import Header, Lines, read_header
from .inputs import PIECE, Inputs
from .program import Location, fail, lines_of, start
from .reports import Report, read_report
from .rinex import Epoch, read_epochs
from .words import Channels, Codes, Kinds, Time


class Fed:
    """An open file for the program: what is fed, in its order. `read` waits until something is fed."""

    def __init__(self) -> None:
        self.pieces: SimpleQueue[bytes] = SimpleQueue()
        self.has_ended = False

    def put(self, piece: bytes) -> None:
        """Keeps these bytes until they are read, and never waits."""
        if piece:
            self.pieces.put(piece)

    def end(self) -> None:
        """Says that nothing more comes."""
        if not self.has_ended:
            self.pieces.put(b"")
        self.has_ended = True

    def read(self, __size: int) -> bytes:
        """Gives what was fed next, or nothing at the end."""
        return self.pieces.get()


class Outlet(threading.Thread):
    """Reads the file that the program writes, so that the program never waits, and keeps the records until they are taken."""

    def __init__(self, source: IO[bytes], copy: Optional[IO[bytes]]) -> None:
        super().__init__(daemon=True)
        self.source, self.copy = source, copy
        self.header: Optional[Header] = None
        self.records: SimpleQueue[Optional[Epoch]] = SimpleQueue()
        self.fault: Optional[FormError] = None
        self.fault_of_copy: Optional[BaseException] = None

    def run(self) -> None:
        """Reads to the end, also after a fault, which `Converter` raises where the caller is. The last of the records is None."""
        try:
            lines = Lines(self.next_line)
            self.header = read_header(lines)
            for epoch in read_epochs(lines, self.header):
                self.records.put(epoch)
        except FormError as fault:
            self.fault = fault
            while self.next_line(PIECE):
                pass
        finally:
            self.records.put(None)

    def next_line(self, limit: int) -> bytes:
        """The next line, which is also written to the copy at once. After a fault of the copy nothing more is written to it."""
        line = self.source.readline(limit)
        try:
            if self.copy is not None and line and self.fault_of_copy is None:
                write_whole(self.copy, line)
        except Exception as fault:
            self.fault_of_copy = fault
        return line


def write_whole(file: IO[bytes], text: bytes) -> None:
    """Writes all of a text to an open file and flushes it. A file without a buffer may take a part at a time, or nothing if it does not
    wait."""
    while text:
        taken = file.write(text)
        if taken is None and isinstance(file, io.RawIOBase):
            raise BlockingIOError(errno.EAGAIN, "the output does not wait until there is room")
        text = text[len(text) if taken is None else taken :]
    file.flush()


class Told(threading.Thread):
    """Reads standard error of the program."""

    def __init__(self, source: IO[bytes]) -> None:
        super().__init__(daemon=True)
        self.source, self.text = source, ""

    def run(self) -> None:
        """Reads to the end."""
        self.text = self.source.read().decode(errors="surrogateescape")


class Converter:
    """Converts the bytes of a station while they come, and gives each record as soon as its epoch is no longer open.

    It is a context manager::

        with Converter(station=2003, near=now, marker="BASE", codes="1C,2W", window=2) as converter:
            for piece in pieces:
                converter.feed(piece)
                for epoch in converter.records():
                    print(epoch.time, len(epoch.observations))
            report = converter.finish()

    The options are those of `convert`. `links` is the number of links, which count from 1, as in the report. With a window of N epochs,
    a record stands once N newer epochs came. `output` is an open binary file that gets the RINEX file as it grows.

    Neither `feed` nor the program ever waits for the other: what is fed and the records that nobody takes are kept in memory. With
    several links the program waits for the link that is behind, so call `end` when a link ends. If the block ends by an exception, the
    program is ended. Ctrl+C in a terminal does not end it, so after a `KeyboardInterrupt` in the block `finish` still gives the last
    records. One converter may be fed and read by several threads.
    """

    def __init__(self, *, station: int, near: Time, marker: str, codes: Codes, made: Optional[Time] = None, window: int = 64,
                 msm: Kinds = 4, channels: Optional[Channels] = None, leap_seconds: Optional[int] = None, with_1012: bool = False,
                 doppler: bool = False, links: int = 1, output: Optional[IO[bytes]] = None, program: Optional[Location] = None) -> None:
        self._words = convert_words(station, near, made, marker, codes, window, msm, channels, leap_seconds, with_1012,
            doppler)
        self._links = [Fed() for _ in range(links)]
        self._output, self._program = output, program
        self._process: Optional[subprocess.Popen[bytes]] = None
        self._report: Optional[Report] = None

    def __enter__(self) -> Converter:
        if self._process is not None:
            raise Error("a converter converts once")
        self._inputs = Inputs(self._links)
        try:
            self._process = start(self._program, self._words, self._inputs, subprocess.PIPE, is_apart=True)
        except BaseException:
            self._inputs.close()
            raise
        self._outlet = Outlet(cast("IO[bytes]", self._process.stdout), self._output)
        self._told = Told(cast("IO[bytes]", self._process.stderr))
        try:
            self._inputs.begin()
            self._outlet.start()
            self._told.start()
        except BaseException:  # as where there are too many threads
            self._close()
            raise
        return self

    def __exit__(self, kind: Optional[Type[BaseException]], fault: Optional[BaseException], trace: Optional[TracebackType]) -> None:
        try:
            if fault is None:
                self.finish()
        finally:
            self._close()

    @property
    def header(self) -> Optional[Header]:
        """The header of the file. It is None until the first record or the end has come, since the program writes both together."""
        self._running()
        return self._outlet.header

    def feed(self, piece: bytes, link: int = 1) -> None:
        """Hands over bytes that came on a link, and returns at once.

        Raises `ValueError` if the link has ended or there is no such link, the fault of the program if the program has ended with one, and
        the fault of `output` if it cannot be written.
        """
        fed = self._fed(link)
        if fed.has_ended:
            raise ValueError(f"link {link} has ended")
        if self._running().poll():
            self._wait()
        if self._outlet.fault_of_copy is not None:
            raise self._outlet.fault_of_copy
        fed.put(memoryview(piece).tobytes())

    def end(self, link: int = 1) -> None:
        """Says that nothing more comes on a link. Raises `ValueError` if there is no such link."""
        self._fed(link).end()

    def records(self, wait: Optional[float] = 0.0) -> Iterator[Epoch]:
        """Gives the records that have come out and were not given yet.

        It ends if no record comes for `wait` seconds (s), and always at the end of the file. With None it waits for the end. Raises the
        fault of the program if the program has ended with one.
        """
        self._running()
        records = self._outlet.records
        while True:
            try:
                epoch = records.get(timeout=wait) if wait is None or wait > 0 else records.get_nowait()
            except Empty:
                return
            if epoch is None:
                records.put(None)
                self._wait()
                return
            yield epoch

    def finish(self) -> Report:
        """Ends all links, waits until the file is whole, and gives the report. `records` then gives the last records.

        Raises `WorkError` or `WordsError` if the program ends with a fault.
        """
        for link in self._links:
            link.end()
        return self._wait()

    def _fed(self, link: int) -> Fed:
        """The link with this number."""
        if not 1 <= link <= len(self._links):
            raise ValueError(f"there is no link {link}: the links are 1 to {len(self._links)}")
        return self._links[link - 1]

    def _running(self) -> subprocess.Popen[bytes]:
        """The process of the program."""
        if self._process is None:
            raise Error("a converter is used in a `with` block")
        return self._process

    def _wait(self) -> Report:
        """Waits for the end of the program, and raises its fault, or the fault of the file."""
        if self._report is None:
            status = self._running().wait()
            self._outlet.join()
            self._told.join()
            if status:
                fail(status, self._told.text)
            for fault in (self._outlet.fault_of_copy, self._outlet.fault):
                if fault is not None:
                    raise fault
            self._report = read_report(lines_of(self._told.text))
        return self._report

    def _close(self) -> None:
        """Ends the program if it still runs, and closes all ends."""
        process = self._running()
        process.kill()
        process.wait()
        for link in self._links:
            link.end()
        self._inputs.close()
        for thread in (*self._inputs.pumps, self._outlet, self._told):
            if thread.ident is not None:  # it was started
                thread.join()
        for source in (process.stdout, process.stderr):
            if source is not None:
                source.close()
