"""The slow model of several systems, second part: the GPS time of each system's clock."""

from __future__ import annotations

from model import dated, moment
from systems import BEIDOU, GLONASS, System
from wire import WEEK_MS

DAY_MS = 86_400_000
MOSCOW_MS = 10_800_000  # Moscow is so far ahead of UTC
UNKNOWN_DAY = 7

# The days of UTC from which on GPS is so many seconds ahead of it.
LEAP_DAYS = (
    ("1981-07-01", 1), ("1982-07-01", 2), ("1983-07-01", 3), ("1985-07-01", 4), ("1988-01-01", 5), ("1990-01-01", 6),
    ("1991-01-01", 7), ("1992-07-01", 8), ("1993-07-01", 9), ("1994-07-01", 10), ("1996-01-01", 11), ("1997-07-01", 12),
    ("1999-01-01", 13), ("2006-01-01", 14), ("2009-01-01", 15), ("2012-07-01", 16), ("2015-07-01", 17), ("2017-01-01", 18),
)  # fmt: skip
# The same in GPS time: the first moment, and the leap seconds.
LEAP_ROWS = [(moment(day) + 1000 * leap, leap) for day, leap in LEAP_DAYS]


def leap_seconds_at(time: int) -> int:
    return max((leap for first, leap in LEAP_ROWS if first <= time), default=0)


def glonass_parts(clock: int) -> tuple[int, int]:
    """The day of the week in Moscow, 0 for Sunday, and the time of day there in ms."""
    return divmod(clock, 1 << 27)


def glonass_clock(day: int, time_of_day: int) -> int:
    return day << 27 | time_of_day


def is_clock(system: System, clock: int, takes_unknown_day: bool = False) -> bool:
    """Whether the 30 bits of a clock tell a moment. A leap second is the second after the last one of a day."""
    if system is not GLONASS:
        return clock < WEEK_MS
    day, time_of_day = glonass_parts(clock)
    return time_of_day < DAY_MS + 1000 and (day != UNKNOWN_DAY or takes_unknown_day)


def _dated_of_day(near: int, time_of_day: int) -> int:
    """The moment with this time of day, from half a day before the reference on."""
    first = near - DAY_MS // 2
    return first + (time_of_day - first) % DAY_MS


def glonass_moment(clock: int, near: int, leap: int) -> int:
    """The GPS time of a clock of GLONASS if GPS is so many seconds ahead of UTC."""
    day, time_of_day = glonass_parts(clock)
    utc = time_of_day - MOSCOW_MS
    if day == UNKNOWN_DAY:
        return _dated_of_day(near, (utc + 1000 * leap) % DAY_MS)
    return dated(near, (DAY_MS * day + utc + 1000 * leap) % WEEK_MS)


def moment_of(system: System, clock: int, near: int, leap: int | None = None) -> int:
    """The GPS time of a clock near a reference. The leap seconds are given, or else those that hold at the moment itself."""
    if system is BEIDOU:
        return dated(near, (clock + 14_000) % WEEK_MS)
    if system is not GLONASS:
        return dated(near, clock)
    if leap is not None:
        return glonass_moment(clock, near, leap)
    for first, row in reversed(LEAP_ROWS):
        time = glonass_moment(clock, near, row)
        if time >= first:
            return time
    return glonass_moment(clock, near, 0)


def clock_of(system: System, time: int) -> int:
    """The clock of a system at a GPS time."""
    if system is BEIDOU:
        return (time - 14_000) % WEEK_MS
    if system is not GLONASS:
        return time % WEEK_MS
    in_moscow = time - 1000 * leap_seconds_at(time) + MOSCOW_MS
    return glonass_clock(in_moscow % WEEK_MS // DAY_MS, in_moscow % DAY_MS)


def near_of_span(first: int, last: int) -> int | None:
    """A reference, in whole seconds, by which clocks without a day are dated right from the first to the last epoch: their middle,
    rounded up, or down where the first one needs it; nothing if there is none."""
    half = DAY_MS // 2
    doubled = first + last
    near = -(-doubled // 2000) * 1000
    if first < near - half:
        near = doubled // 2000 * 1000
    return near if last < near + half else None
