"""The slow model, fifth part: the first line of a text with which it is no file, and why.

The text is read from the front, and what follows the first wrong line is not looked at. The causes of
a line are looked for in this order: it isn't there or has no LF; it is no line of the header; it is
out of form; it is out of order; it has a wrong value. Lines are made by the model and compared.
"""
# refuses: a checker that is wrong in the same way as its definition, over 7,500 damaged files
# pins: IsFault

from __future__ import annotations

import re
from datetime import datetime, timedelta
from typing import Sequence

from messages import CODES, fixed
from model import FIRST_DAY, columns_of

TRUNCATED, HEADER_LINE, COLUMNS = "C5 Truncated", "C1 HeaderLine", "C2 Columns"
ORDER, VALUE = "C4 Order", "C3 Value"

FOUR, TWO = "([0-9]{4})", "([0-9]{2})"  # digits


class Wrong(Exception):
    """The line that was read last is wrong."""


def want(is_so: object, cause: str) -> None:
    if not is_so:
        raise Wrong(cause)


class Lines:
    """The lines of a text, from the front."""

    def __init__(self, text: bytes) -> None:
        self.text = text.decode("latin-1")
        self.place = 0
        self.number = 0

    def are_read(self) -> bool:
        return self.place == len(self.text)

    def next(self) -> str:
        """The next line without its LF."""
        self.number += 1
        end = self.text.find("\n", self.place)
        want(end >= 0, TRUNCATED)
        line = self.text[self.place : end]
        self.place = end + 1
        return line

    def header(self, label: str) -> str:
        """The 60 columns before the label of the next line."""
        line = self.next()
        want(len(line) == 80 and line[60:] == f"{label:20}", HEADER_LINE)
        return line[:60]


def fault(text: bytes) -> tuple[int, str] | None:
    """The number of the first wrong line and the cause; nothing if the text is a file."""
    lines = Lines(text)
    try:
        codes, first = read_header(lines)
        read_records(lines, codes, first)
    except Wrong as wrong:
        return lines.number, str(wrong)
    return None


def number_in(columns: str, decimals: int) -> int | None:
    """The number in units of its last decimal, if these columns are how it is written."""
    match = re.fullmatch(r" *(-?[0-9]+)\.([0-9]+)", columns)
    value = int(match[1] + match[2]) if match else 0
    return value if columns == fixed(value, decimals).rjust(len(columns)) else None


def whole_in(columns: str) -> int | None:
    """The same of a number without decimals or sign."""
    return int(columns) if re.fullmatch(" *(0|[1-9][0-9]*)", columns) else None


def moment_of(date: Sequence[object], second: int | None) -> int | None:
    """The time of a date with hour and minute, and of a second in units of its seventh decimal: a
    whole ms from the first day of GPS to the end of 2100."""
    if second is None or second % 10_000 or not 0 <= second < 600_000_000:
        return None
    try:
        minute = datetime(*(int(str(part)) for part in date))
    except ValueError:
        return None
    time = (minute - FIRST_DAY) // timedelta(milliseconds=1) + second // 10_000
    return time if minute >= FIRST_DAY and minute.year <= 2100 else None


def want_line(lines: Lines, label: str, text: str) -> None:
    want(lines.header(label) == f"{text:60}", HEADER_LINE)


def read_header(lines: Lines) -> tuple[int, int]:
    """The number of codes and the time of the first observation."""
    want_line(lines, "RINEX VERSION / TYPE", f"{'3.05':>9}{'':11}{'OBSERVATION DATA':20}G")
    read_station(lines)
    codes = read_types(lines)
    want_line(lines, "SIGNAL STRENGTH UNIT", "DBHZ")
    columns = lines.header("TIME OF FIRST OBS")
    date = [whole_in(columns[at : at + 6]) for at in range(0, 30, 6)]
    first = moment_of(date, number_in(columns[30:43], 7))
    want(first is not None and columns[43:] == f"{'     GPS':17}", HEADER_LINE)
    want_line(lines, "SYS / PHASE SHIFT", "G")
    want_line(lines, "END OF HEADER", "")
    return codes, first


def read_station(lines: Lines) -> None:
    """The second line to the ninth one."""
    columns = lines.header("PGM / RUN BY / DATE")
    made = re.fullmatch(f"{'rtcm2rinex':40}{FOUR}{TWO}{TWO} {TWO}{TWO}{TWO} UTC ", columns)
    want(made and moment_of(made.groups()[:5], 10_000_000 * int(made[6])) is not None, HEADER_LINE)
    want(re.fullmatch("[!-~][ -~]*", lines.header("MARKER NAME")), HEADER_LINE)
    want_line(lines, "MARKER TYPE", "GEODETIC")
    for label in ("OBSERVER / AGENCY", "REC # / TYPE / VERS", "ANT # / TYPE"):
        want_line(lines, label, "")
    columns = lines.header("APPROX POSITION XYZ")
    position = [number_in(columns[at : at + 14], 4) for at in (0, 14, 28)]
    want(all(it is not None and -(2**37) <= it < 2**37 for it in position), HEADER_LINE)
    want(columns[42:] == " " * 18, HEADER_LINE)
    columns = lines.header("ANTENNA: DELTA H/E/N")
    height = number_in(columns[:14], 4)
    want(height is not None and 0 <= height < 2**16, HEADER_LINE)
    want(columns[14:] == f"{'0.0000':>14}{'0.0000':>14}{'':18}", HEADER_LINE)


def read_types(lines: Lines) -> int:
    """The number of codes: 1 to 16, each with three types; thirteen types on a line. The first type
    of a code tells which code it is, and the others repeat it."""
    label = "SYS / # / OBS TYPES"
    columns = lines.header(label)
    types = whole_in(columns[3:6])
    want(columns[:3] == "G  " and types in range(3, 49, 3), HEADER_LINE)
    codes: list[str] = []
    for row in range(0, types, 13):
        if row > 0:
            columns = lines.header(label)
        begin = columns[:6] if row == 0 else " " * 6
        shown = range(row, min(row + 13, types))
        codes += [columns[8 + 4 * (at - row) :][:2] for at in shown if at % 3 == 0]
        due = begin + "".join(f" {'CLS'[at % 3]}{codes[at // 3]}" for at in shown)
        want(columns == f"{due:60}" and len(codes) == len(set(codes) & set(CODES)), HEADER_LINE)
    return len(codes)


def read_records(lines: Lines, codes: int, first: int) -> None:
    """The records; the first is at the time of the first observation, and each other is later than
    the one before."""
    last = None
    while not lines.are_read():
        time, count = read_epoch_line(lines.next())
        want(time == first if last is None else time > last, ORDER)
        last, satellite = time, 0
        for _ in range(count):
            satellite = read_satellite_line(lines.next(), codes, satellite)


def read_epoch_line(line: str) -> tuple[int, int]:
    """The time, and the count of satellites, which is 1 to 32."""
    match = re.fullmatch(f"> {FOUR} {TWO} {TWO} {TWO} {TWO}(.{{11}})  0(.{{3}})", line)
    want(match, COLUMNS)
    time = moment_of(match.groups()[:5], number_in(match[6], 7))
    count = whole_in(match[7])
    want(time is not None and count in range(1, 33), COLUMNS)
    return time, count


def read_satellite_line(line: str, codes: int, last: int) -> int:
    """The satellite, 1 to 32, which is greater than the last one of its record; its line has one
    observation at least."""
    is_long = len(line) > 3 + 48 * codes
    want(re.match("G[0-3][0-9]", line) and not line.endswith(" ") and not is_long, COLUMNS)
    satellite = int(line[1:3])
    want(1 <= satellite <= 32, COLUMNS)
    want(satellite > last, ORDER)
    columns = line[3:].ljust(48 * codes)
    want(all(is_shown(columns[at : at + 48]) for at in range(0, 48 * codes, 48)), VALUE)
    want(columns.strip(" "), VALUE)
    return satellite


def is_shown(columns: str) -> bool:
    """Range, phase and strength of a code: each blank, or an allowed value with the digits due."""
    value, phase, strength = (number_in(columns[at : at + 14], 3) for at in (0, 16, 32))
    lli = columns[30]
    is_allowed = lli in " 123" and (strength is None or strength in range(250, 64_000, 250))
    return is_allowed and columns == columns_of(value, phase, strength, lli)
