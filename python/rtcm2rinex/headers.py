"""The header of a RINEX file of the program, with the fields that `label` fills in."""

from __future__ import annotations

import re
from dataclasses import dataclass, field
from datetime import datetime, timedelta
from typing import Callable, Dict, List, Optional, Sequence, Tuple

from .faults import FormError
from .systems import GLONASS, SYSTEMS, names_of

SEVERAL = "M"  # in place of the letter of one system
TYPES, UNIT, SLOTS = "SYS / # / OBS TYPES", "SIGNAL STRENGTH UNIT", "GLONASS SLOT / FRQ #"
SLOT = re.compile("R([0-9]{2}) ( [0-6]|-[1-7]) ")
INTERVAL, LAST = "INTERVAL", "TIME OF LAST OBS"
LONGEST = 1000  # bytes of a line; a line of the program has at most 772
FIRST_DAY, LAST_YEAR = datetime(1980, 1, 6), 2100
OFFSET = re.compile(r" *([+-][0-9]{1,4}\.[0-9]{4})")


@dataclass(frozen=True)
class Header:
    """The header of a RINEX file.

    `marker` is the name of the marker, and `made` the UTC time of making. `position` has x, y and z of the antenna reference point in
    metres (ECEF), or zeros if the station told none. `antenna_delta` says how far the antenna stands above the marker, and east and
    north of it, in metres. `codes` has the signals in the order of the columns, by the names that `convert` takes: `1C` is a code of
    GPS, and `E1X` a code of Galileo. `first` is the GPS time of the first record.

    A file with codes of GLONASS has `channels`, the frequency channels by slots, and `leap_seconds`. Without these codes `channels` is
    empty and `leap_seconds` is None. `doppler` says whether each code has Doppler between its phase and its strength.

    The other fields are those that `label` fills in. A field that the file leaves blank is an empty text. `interval`, in seconds, and
    `last`, a GPS time, are None if the file does not have their lines.
    """

    marker: str
    made: datetime
    position: Tuple[float, float, float]
    antenna_delta: Tuple[float, float, float]
    codes: Tuple[str, ...]
    first: datetime
    run_by: str = ""
    marker_number: str = ""
    observer: str = ""
    agency: str = ""
    receiver_number: str = ""
    receiver_type: str = ""
    receiver_version: str = ""
    antenna_number: str = ""
    antenna_type: str = ""
    channels: Dict[int, int] = field(default_factory=dict, hash=False)
    leap_seconds: Optional[int] = None
    interval: Optional[float] = None
    last: Optional[datetime] = None
    doppler: bool = False


class Lines:
    """The lines of a text, from the front, with the number of the last one that was read."""

    def __init__(self, readline: Callable[[int], bytes]) -> None:
        self.readline = readline
        self.number = 0

    def fault(self, what: str) -> FormError:
        """What is wrong with the line that was read last."""
        return FormError(self.number, what)

    def want(self, is_so: object, what: str) -> None:
        """Raises the fault unless this is so."""
        if not is_so:
            raise self.fault(what)

    def next_or_end(self) -> Optional[str]:
        """The next line without its line feed, or None at the end of the text."""
        text = self.readline(LONGEST)
        if not text:
            return None
        self.number += 1
        self.want(text.endswith(b"\n") or len(text) == LONGEST, "C5 Truncated")
        return text.decode("latin-1").rstrip("\n")

    def next(self) -> str:
        """The next line, which must be there."""
        line = self.next_or_end()
        if line is None:
            self.number += 1
            raise self.fault("C5 Truncated")
        return line

    def header(self, *labels: str) -> Tuple[str, str]:
        """The 60 columns of a line of the header, and its label, which is one of these."""
        line = self.next()
        label = line[60:].rstrip(" ")
        self.want(len(line) == 80 and label in labels, "C1 HeaderLine")
        return line[:60], label

    def fixed(self, label: str, columns: str) -> None:
        """A line of the header with these columns."""
        self.want(self.header(label)[0] == f"{columns:60}", "C1 HeaderLine")

    def fields(self, columns: str, *widths: int) -> List[str]:
        """The texts that fill these columns: printable characters, of which neither the first nor the last is a blank."""
        texts, at = [], 0
        for width in widths:
            texts.append(columns[at : at + width].rstrip(" "))
            at += width
            self.want(re.fullmatch("(?:[!-~][ -~]*)?", texts[-1]), "C1 HeaderLine")
        return texts


def digits_in(columns: str) -> Optional[int]:
    """The whole number that is written to the right of these columns."""
    return int(columns) if re.fullmatch(" *(?:0|[1-9][0-9]*)", columns) else None


def number_in(columns: str, decimals: int) -> Optional[int]:
    """The number of these columns, in units of its last decimal."""
    match = re.fullmatch(rf" *(-?)(0|[1-9][0-9]*)\.([0-9]{{{decimals}}})", columns)
    value = int(match[1] + match[2] + match[3]) if match else 0
    return None if match is None or (match[1] and value == 0) else value


def moment_in(date: Sequence[str], seconds: str) -> Optional[datetime]:
    """The time of a date with hour and minute, and of seconds with seven decimals: a whole millisecond of 1980-01-06 to 2100."""
    second = number_in(seconds, 7)
    if second is None or second % 10_000 or not 0 <= second < 600_000_000:
        return None
    try:
        year, month, day, hour, minute = map(int, date)
        time = datetime(year, month, day, hour, minute) + timedelta(milliseconds=second // 10_000)
    except (ValueError, OverflowError):
        return None
    return time if FIRST_DAY <= time and time.year <= LAST_YEAR else None


def read_header(lines: Lines) -> Header:
    """Reads the lines of a header to its end."""
    columns, _ = lines.header("RINEX VERSION / TYPE")
    letter = columns[40]
    lines.want(columns == f"{'3.05':>9}{'':11}{'OBSERVATION DATA':20}{letter:20}" and letter in (*SYSTEMS, SEVERAL), "C1 HeaderLine")
    run_by, made = read_program(lines)
    marker, _ = lines.header("MARKER NAME")
    lines.want(re.fullmatch("[!-~][ -~]*", marker), "C1 HeaderLine")
    number, label = lines.header("MARKER NUMBER", "MARKER TYPE")
    marker_number = ""
    if label == "MARKER NUMBER":
        (marker_number, _) = lines.fields(number, 20, 40)
        lines.want(marker_number and number == f"{marker_number:60}", "C1 HeaderLine")
        number, _ = lines.header("MARKER TYPE")
    lines.want(number == f"{'GEODETIC':60}", "C1 HeaderLine")
    observer, agency = lines.fields(lines.header("OBSERVER / AGENCY")[0], 20, 40)
    receiver = lines.fields(lines.header("REC # / TYPE / VERS")[0], 20, 20, 20)
    antenna = lines.fields(lines.header("ANT # / TYPE")[0], 20, 20, 20)
    lines.want(not antenna[2], "C1 HeaderLine")
    position = read_position(lines)
    delta = read_delta(lines)
    interval, last, columns = read_times(lines)
    doppler = columns[15] == "D"  # the third type of the first system says it for all
    codes = read_codes(lines, letter, columns, doppler)
    first = read_first(lines)
    for letter in codes:
        lines.fixed("SYS / PHASE SHIFT", letter)
    channels: Dict[int, int] = {}
    leap_seconds: Optional[int] = None
    if GLONASS in codes:
        channels, leap_seconds = read_glonass(lines)
    lines.fixed("END OF HEADER", "")
    return Header(marker.rstrip(" "), made, position, delta, names_of(codes), first, run_by, marker_number, observer, agency,
        receiver[0], receiver[1], receiver[2], antenna[0], antenna[1], channels, leap_seconds, interval, last, doppler)


def read_program(lines: Lines) -> Tuple[str, datetime]:
    """Who ran the program, and the time of making."""
    columns, _ = lines.header("PGM / RUN BY / DATE")
    _, run_by = lines.fields(columns, 20, 20)
    match = re.fullmatch(r"([0-9]{4})([0-9]{2})([0-9]{2}) ([0-9]{2})([0-9]{2})([0-9]{2}) UTC ", columns[40:])
    made = moment_in(match.groups()[:5], f"{int(match[6])}.0000000") if match else None
    if made is None or columns[:20] != f"{'rtcm2rinex':20}":
        raise lines.fault("C1 HeaderLine")
    return run_by, made


def read_position(lines: Lines) -> Tuple[float, float, float]:
    """The position in metres. A coordinate has 38 bits with its sign, in units of 0.0001 m."""
    columns, _ = lines.header("APPROX POSITION XYZ")
    found = [number_in(columns[at : at + 14], 4) for at in (0, 14, 28)]
    values = [it / 10_000 for it in found if it is not None and -(2**37) <= it < 2**37]
    lines.want(len(values) == 3 and columns[42:] == " " * 18, "C1 HeaderLine")
    return values[0], values[1], values[2]


def read_delta(lines: Lines) -> Tuple[float, float, float]:
    """Height, east and north in metres. The station tells a height without a sign, and a label has offsets with a sign."""
    columns, _ = lines.header("ANTENNA: DELTA H/E/N")
    values = []
    for at in (0, 14, 28):
        told = number_in(columns[at : at + 14], 4)
        signed = OFFSET.fullmatch(columns[at : at + 14])
        lines.want(signed or (told is not None and 0 <= told < (2**16 if at == 0 else 1)), "C1 HeaderLine")
        values.append(float(columns[at : at + 14]))
    lines.want(columns[42:] == " " * 18, "C1 HeaderLine")
    return values[0], values[1], values[2]


def read_times(lines: Lines) -> Tuple[Optional[float], Optional[datetime], str]:
    """The interval and the time of the last record, if their lines are there, and the columns of the line behind them."""
    interval: Optional[float] = None
    last: Optional[datetime] = None
    columns, label = lines.header(INTERVAL, LAST, TYPES)
    if label == INTERVAL:
        found = number_in(columns[:10], 3)
        if not found or columns[10:] != " " * 50:
            raise lines.fault("C1 HeaderLine")
        interval = found / 1000
        columns, label = lines.header(LAST, TYPES)
    if label == LAST:
        last = read_moment(lines, columns)
        columns, label = lines.header(TYPES)
    return interval, last, columns


def read_codes(lines: Lines, letter: str, columns: str, doppler: bool) -> Dict[str, Tuple[str, ...]]:
    """The codes of the systems by their letters, and the line of the unit, which ends them. A file of several systems has at least two,
    in their order. The first of their lines has these columns."""
    due = list(SYSTEMS) if letter == SEVERAL else [letter]
    codes: Dict[str, Tuple[str, ...]] = {}
    label = TYPES
    while label == TYPES:
        lines.want(columns[0] in due, "C1 HeaderLine")
        due = due[due.index(columns[0]) + 1 :]
        lines.want(due or codes or letter != SEVERAL, "C1 HeaderLine")  # the last system is not the first of several
        codes[columns[0]] = read_types(lines, columns, "CLDS" if doppler else "CLS")
        columns, label = lines.header(TYPES, UNIT)
    lines.want(len(codes) >= (2 if letter == SEVERAL else 1) and columns == f"{'DBHZ':60}", "C1 HeaderLine")
    return codes


def read_types(lines: Lines, columns: str, kinds: str) -> Tuple[str, ...]:
    """The codes of the system that these columns begin with, each of which has types of these kinds in this order. A line has thirteen
    types."""
    known = SYSTEMS[columns[0]].codes
    count, each = digits_in(columns[3:6]), len(kinds)
    if columns[1:3] != "  " or count is None or count not in range(each, each * len(known) + 1, each):
        raise lines.fault("C1 HeaderLine")
    codes: List[str] = []
    for row in range(0, count, 13):
        if row:
            columns, _ = lines.header(TYPES)
        shown = range(row, min(row + 13, count))
        codes += [columns[8 + 4 * (at - row) :][:2] for at in shown if at % each == 0]
        due = (" " * 6 if row else columns[:6]) + "".join(f" {kinds[at % each]}{codes[at // each]}" for at in shown)
        lines.want(columns == f"{due:60}" and len(set(codes) & set(known)) == len(codes), "C1 HeaderLine")
    return tuple(codes)


def read_glonass(lines: Lines) -> Tuple[Dict[int, int], int]:
    """The frequency channels by slots, and the leap seconds."""
    channels = read_slots(lines)
    lines.fixed("GLONASS COD/PHS/BIS", "")
    columns, _ = lines.header("LEAP SECONDS")
    leap_seconds = digits_in(columns[:6])
    if leap_seconds is None or leap_seconds > 99 or columns[6:] != " " * 54:
        raise lines.fault("C1 HeaderLine")
    return channels, leap_seconds


def read_slots(lines: Lines) -> Dict[int, int]:
    """The frequency channels by slots, of which a line has eight. The slots rise, and leave room for those that are still due."""
    greatest = SYSTEMS[GLONASS].numbers[-1]
    channels: Dict[int, int] = {}
    columns, _ = lines.header(SLOTS)
    count, last = digits_in(columns[:3]), 0
    if count is None or count > greatest:
        raise lines.fault("C1 HeaderLine")
    for row in range(0, max(count, 1), 8):
        if row:
            columns, _ = lines.header(SLOTS)
        due = " " * 4 if row else f"{count:3} "
        for at in range(row, min(row + 8, count)):
            word = columns[4 + 7 * (at - row) :][:7]
            match = SLOT.fullmatch(word)
            if match is None or not last < int(match[1]) <= greatest - (count - 1 - at):
                raise lines.fault("C1 HeaderLine")
            last, due = int(match[1]), due + word
            channels[last] = int(match[2])
        lines.want(columns == f"{due:60}", "C1 HeaderLine")
    return channels


def read_first(lines: Lines) -> datetime:
    """The GPS time of the first record."""
    return read_moment(lines, lines.header("TIME OF FIRST OBS")[0])


def read_moment(lines: Lines, columns: str) -> datetime:
    """The GPS time in the columns of the line that was read last."""
    date = [columns[at : at + 6] for at in range(0, 30, 6)]
    time = moment_in(date, columns[30:43]) if all(digits_in(it) is not None for it in date) else None
    if time is None or columns[43:] != f"{'     GPS':17}":
        raise lines.fault("C1 HeaderLine")
    return time
