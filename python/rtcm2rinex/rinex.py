"""Reads the RINEX files that the program writes: their headers, their records, and their observations as rows.

A text that is not of the program's form is a fault with the number of its first wrong line, as `check` and `quality` name it.
"""

from __future__ import annotations

import re
from contextlib import contextmanager
from datetime import datetime
from typing import Iterator, List, NamedTuple, Optional, Protocol, Sequence, Tuple, Union, cast

from .faults import FormError
from .headers import Header, Lines, digits_in, moment_in, read_header
from .inputs import Name, text_of
from .systems import GLONASS, PLACES, Columns, columns_of, count_of_satellites

CELL = 48  # columns of range, phase and strength
WIDE_CELL = 64  # with columns of Doppler before those of the strength
VALUE = r"( {0,10}-?[0-9]{1,10}\.[0-9]{3})"
VALUES = re.compile(rf"(?:{VALUE} ([1-9 ])| {{16}})(?:{VALUE}([ 123])([1-9 ])| {{16}})(?:{VALUE}  | {{16}})")
SHIFT = re.compile(rf"{VALUE}  | {{16}}")
EPOCH = re.compile(r"> ([0-9]{4}) ([0-9]{2}) ([0-9]{2}) ([0-9]{2}) ([0-9]{2})(.{11})  0(.{3})")


class ReadableLines(Protocol):
    """An open binary file that is read line by line."""

    def readline(self, __limit: int) -> bytes:
        """Gives the next line, or at most so many bytes of it."""


class Observation(NamedTuple):
    """What the file has of one satellite and code at one epoch. A value that the file lacks is None."""

    time: datetime
    """The GPS time of the epoch, without a time zone."""
    satellite: str
    """The satellite, such as `G05`, which begins with the letter of its system."""
    code: str
    """The signal, such as `1C`, without the letter of the system."""
    range: Optional[float]
    """The pseudorange in metres (m)."""
    phase: Optional[float]
    """The carrier phase in cycles of its carrier."""
    strength: Optional[float]
    """The carrier-to-noise density ratio C/N0 in dB-Hz."""
    loss_of_lock: bool
    """Whether bit 0 of the loss-of-lock digit is set: the receiver lost count of the cycles since the phase before."""
    half_cycle: bool
    """Whether bit 1 of the loss-of-lock digit is set: the phase may be wrong by half a cycle."""
    doppler: Optional[float] = None
    """The Doppler shift in hertz (Hz), which is positive while the satellite comes nearer."""


class Epoch(NamedTuple):
    """A record of a file: the GPS time of the epoch, and its observations in the order of the file."""

    time: datetime
    observations: Tuple[Observation, ...]


@contextmanager
def opened(file: Union[Name, ReadableLines]) -> Iterator[ReadableLines]:
    """The open file, or one that is opened by its name and closed at the end."""
    if hasattr(file, "readline"):
        yield cast(ReadableLines, file)
    else:
        with open(text_of(cast(Name, file)), "rb") as named:
            yield named


def header(file: Union[Name, ReadableLines]) -> Header:
    """Reads the header of a RINEX file of this program.

    `file` is a name or an open binary file. Raises `FormError` if the header is not as the program writes it.
    """
    with opened(file) as text:
        return read_header(Lines(text.readline))


def epochs(file: Union[Name, ReadableLines]) -> Iterator[Epoch]:
    """Gives the records of a RINEX file of this program, one after another, so that a long file takes little memory.

    `file` is a name or an open binary file, also of `gzip.open`. Raises `FormError` at the first line that is not as the program
    writes it, after the records above this line.
    """
    with opened(file) as text:
        lines = Lines(text.readline)
        yield from read_epochs(lines, read_header(lines))


def observations(file: Union[Name, ReadableLines]) -> Iterator[Observation]:
    """Gives the observations of a RINEX file of this program as rows, in the order of the file.

    A row has one satellite and code at one epoch: `time` (GPS time), `satellite`, `code`, `range` (m), `phase` (cycles), `strength`
    (dB-Hz), `loss_of_lock`, `half_cycle` and `doppler` (Hz). A code without any value has no row.

    `file` is a name or an open binary file. Raises `FormError` as `epochs` does.
    """
    for epoch in epochs(file):
        yield from epoch.observations


def read_epochs(lines: Lines, head: Header) -> Iterator[Epoch]:
    """The records behind a header. The first is at the time of first observation, and each other is later than the one before."""
    columns = columns_of(head.codes)
    most = count_of_satellites(columns)
    width = WIDE_CELL if head.doppler else CELL
    last: Optional[datetime] = None
    while (line := lines.next_or_end()) is not None:
        time, count = epoch_line(lines, line, most)
        lines.want(time == head.first if last is None else time > last, "C4 Order")
        last, place, rows = time, 0, []
        for _ in range(count):
            line = lines.next()
            place = place_of(lines, line, place, columns, width)
            cells = cells_of(lines, line, time, columns[line[0]], width)
            if line[0] == GLONASS and int(line[1:3]) not in head.channels:
                lines.want(all(it.phase is None and it.doppler is None for it in cells), "C3 Value")
            rows += cells
        yield Epoch(time, tuple(rows))


def epoch_line(lines: Lines, line: str, most: int) -> Tuple[datetime, int]:
    """The time of an epoch line, and its count of satellite lines, of which there are at most so many."""
    match = EPOCH.fullmatch(line)
    time = moment_in(match.groups()[:5], match[6]) if match else None
    count = digits_in(match[7]) if match else None
    if time is None or count is None or not 1 <= count <= most:
        raise lines.fault("C2 Columns")
    return time, count


def place_of(lines: Lines, line: str, before: int, columns: Columns, width: int) -> int:
    """The place of the satellite of a line among all satellites, which is greater than the one before."""
    codes, place = columns.get(line[:1], ()), PLACES.get(line[:3], 0)
    lines.want(codes and place and not line.endswith(" ") and len(line) <= 3 + width * len(codes), "C2 Columns")
    lines.want(place > before, "C4 Order")
    return place


def cells_of(lines: Lines, line: str, time: datetime, codes: Sequence[str], width: int) -> List[Observation]:
    """The observations of a satellite line, of which there is at least one. A code has so many columns."""
    columns = line[3:].ljust(width * len(codes))
    rows = []
    for at, code in enumerate(codes):
        cell = columns[width * at : width * (at + 1)]
        if cell.strip(" "):
            values = values_of(lines, cell[:32] + cell[-16:])
            rows.append(Observation(time, line[:3], code, *values, shift_of(lines, cell[32:-16])))
    lines.want(rows, "C3 Value")
    return rows


def values_of(lines: Lines, cell: str) -> Tuple[Optional[float], Optional[float], Optional[float], bool, bool]:
    """Range, phase, strength and the two marks of the columns of a code."""
    match = VALUES.fullmatch(cell)
    if match is None:
        raise lines.fault("C3 Value")
    value, digit, phase, marks, phase_digit, strength = match.groups()
    due = strength_digit(lines, strength)
    lines.want(digit in (None, due) and phase_digit in (None, due), "C3 Value")
    mark = int(marks or 0) if marks != " " else 0
    return number_of(lines, value), number_of(lines, phase), number_of(lines, strength), bool(mark & 1), bool(mark & 2)


def shift_of(lines: Lines, columns: str) -> Optional[float]:
    """The Doppler shift of the columns of a code, which a file without Doppler does not have. It has no digits."""
    match = SHIFT.fullmatch(columns) if columns else None
    lines.want(match or not columns, "C3 Value")
    return number_of(lines, match[1]) if match else None


def strength_digit(lines: Lines, strength: Optional[str]) -> str:
    """The digit of a strength in steps of 6 dB-Hz. A strength is from 0.25 to 63.75 dB-Hz, in steps of 0.25."""
    if strength is None:
        return " "
    thousandths = int(strength.replace(".", ""))
    lines.want(250 <= thousandths <= 63_750 and thousandths % 250 == 0, "C3 Value")
    return str(min(max(thousandths // 6000, 1), 9))


def number_of(lines: Lines, columns: Optional[str]) -> Optional[float]:
    """The number of these 14 columns, which is not 0 and has no 0 before its other digits."""
    if columns is None:
        return None
    text = columns.lstrip(" ")
    number = float(text)
    digits = text.lstrip("-")
    lines.want(len(columns) == 14 and number != 0 and (digits[0] != "0" or digits[1] == "."), "C3 Value")
    return number
