"""Times as users, names of files and the program write them, and the lengths of spans."""

from __future__ import annotations

import re
import time
from typing import NamedTuple, Optional

from .settings import DAY, HOUR

LENGTHS = {"15M": 900, "01H": HOUR, "01D": DAY}  # seconds
MONTHS = (31, 28, 31, 30, 31, 30, 31, 31, 30, 31, 30, 31)  # days
FIRST_YEAR = 1970
UNITS = {"S": 1_000, "M": 60_000, "H": 3_600_000, "D": 86_400_000}  # ms
RATES = {"Z": 1_000, "C": 10}  # ms: so many epochs stand in it


def is_leap(year: int) -> bool:
    """Whether a year has 366 days."""
    return year % 4 == 0 and (year % 100 != 0 or year % 400 == 0)


def days_before(year: int) -> int:
    """The days from the first year up to the begin of a year. Modules of Python that know dates take a good part of a run to be read."""
    last = year - 1
    leaps = (it // 4 - it // 100 + it // 400 for it in (last, FIRST_YEAR - 1))
    return (year - FIRST_YEAR) * 365 + next(leaps) - next(leaps)


def time_of(text: str) -> Optional[int]:
    """The time of a text like 2024-05-17T12:00:00 or 2024-05-17; None if it is no such text."""
    match = re.fullmatch(r"(\d{4})-(\d\d)-(\d\d)(?:T(\d\d):(\d\d):(\d\d))?", text, re.ASCII)
    if not match:
        return None
    year, month, day, hour, minute, second = (int(it or 0) for it in match.groups())
    if not (year and 1 <= month <= 12 and hour < 24 and minute < 60 and second < 60):
        return None
    if not 1 <= day <= MONTHS[month - 1] + (month == 2 and is_leap(year)):
        return None
    days = days_before(year) + sum(MONTHS[:month - 1]) + (month > 2 and is_leap(year)) + day - 1
    return days * DAY + hour * HOUR + minute * 60 + second


def text_of(seconds: float) -> str:
    """A time like 2024-05-17T12:00:00."""
    return time.strftime("%Y-%m-%dT%H:%M:%S", time.gmtime(seconds))


def stamp_of(seconds: float) -> str:
    """A time as names of files have it, 20241381200."""
    return time.strftime("%Y%j%H%M", time.gmtime(seconds))


def time_of_stamp(stamp: str) -> int:
    """The time of a name. Raises a ValueError if there is no such day or hour."""
    year, day, hour, minute = (int(it) for it in (stamp[:4], stamp[4:7], stamp[7:9], stamp[9:]))
    if not (year and 1 <= day <= 365 + is_leap(year) and hour < 24 and minute < 60):
        raise ValueError(f"there is no time {stamp}")
    return (days_before(year) + day - 1) * DAY + hour * HOUR + minute * 60


def ms_of(interval: str) -> Optional[int]:
    """An interval as the names of RINEX 3.05 files have it, in ms: 01S, 05M, 01H, 01D, 10Z for 10 Hz, 01C for 100 Hz."""
    match = re.fullmatch(r"([0-9][1-9]|[1-9]0)([SMHDZC])", interval, re.ASCII)
    if not match:
        return None
    count, unit = int(match[1]), match[2]
    if unit in UNITS:
        return count * UNITS[unit]
    return None if RATES[unit] % count else RATES[unit] // count


def interval_of(ms: int) -> str:
    """The interval of so many ms as the names of files have it; nothing if they can't have it."""
    for unit, size in reversed(UNITS.items()):
        if ms % size == 0 and 0 < ms // size < 100:
            return f"{ms // size:02}{unit}"
    return f"{1000 // ms:02}Z" if 0 < ms < 1000 and 1000 % ms == 0 and 1000 // ms < 100 else ""


def age_of(seconds: float) -> str:
    """A time that went by, for a person."""
    for unit, size in (("d", DAY), ("h", HOUR), ("min", 60)):
        if seconds >= 2 * size:
            return f"{int(seconds // size)} {unit}"
    return f"{int(seconds)} s"


class Span(NamedTuple):
    """A span: its begin, and its length as names have it."""

    begin: int
    length: str

    @property
    def end(self) -> int:
        """The first second that is no longer of the span."""
        return self.begin + LENGTHS[self.length]

    @property
    def start(self) -> str:
        """The begin, as the commands take it."""
        return text_of(self.begin)

    @property
    def own_hours(self) -> range:
        """The begins of the hours whose captures have bytes of the span."""
        return range(self.begin // HOUR * HOUR, self.end, HOUR)

    @property
    def hours(self) -> range:
        """The same with the hour before, which brings the position and the last phases, and the hour after, which brings what came
        late."""
        own = self.own_hours
        return range(own[0] - HOUR, own[-1] + 2 * HOUR, HOUR)

    def __str__(self) -> str:
        return f"{self.start} {self.length}"


def span_of(start: str, length: str) -> Optional[Span]:
    """The span with these words; None if a span of this length does not begin there."""
    begin = time_of(start) if "T" in start else None
    if begin is None or begin % LENGTHS[length]:
        return None
    return Span(begin, length)
