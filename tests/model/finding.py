"""The slow model: what captures of a station tell that their conversion wants to be told.

All messages of a capture are read first. A date is then carried from the epoch that it tells to the first one, epoch by epoch;
a conversion's file is looked at by no rule here.

    python3 finding.py NOW CAPTURE..     what is found, for a person; NOW is 2024-05-17T12:00:00
"""

from __future__ import annotations

import sys
from collections import Counter
from functools import lru_cache
from itertools import combinations
from math import dist
from pathlib import Path
from typing import NamedTuple

from chains import parted
from channels import orbit_of
from choosing import Allowed, Chosen, Sent, Wanted, choose, has_value_of_1012, leap_of
from clock_spans import DAY, Far, Going, Marked, clock_of_message, followed, placed
from clocks import leap_seconds_at, near_of_span
from equipment import equipment_of
from messages import Refusal, frames_of
from model import civil, moment
from msm import letter_of, read_frame
from systems import GLONASS, LETTERS
from valued import cells_in, has_value, letter_of_name, name_of_code, names_in
from wire import WEEK_MS, BitReader, Fields, Message, table

DAY_MS = 86_400_000
HALF_WEEK_MS = WEEK_MS // 2
FIRST_DAY = 44_244  # the Modified Julian Day of 1980-01-06
FIRST_NEAR, LAST_NEAR = moment("1980-01-13T00:00:00"), moment("2099-12-31T23:59:59") + 999
MOST_LINKS = 16
METRES_100 = 1_000_000  # in 0.0001 m

# ---------------------------------------------------------------- messages with a date

SYSTEM_PARAMETERS = table("number:u12 station:u12 day:u16 second:u17 announced:u5 leap_seconds:u8")
ANNOUNCED = table("message:u12 synchronous:u1 interval:u16")
TEXT = table("number:u12 station:u12 day:u16 second:u17 characters:u7 code_units:u8")
EPHEMERIS = table(
    "number:u12 satellite:u6 week:u10 accuracy:u4 code_on_l2:u2 idot:i14 iode:u8 toc:u16 af2:i8 af1:i16 af0:i22 iodc:u10"
    " crs:i16 delta_n:i16 m0:i32 cuc:i16 e:u32 cus:i16 root_a:u32 toe:u16 cic:i16 omega0:i32 cis:i16 i0:i32 crc:i16 omega:i32"
    " omega_dot:i24 tgd:i8 health:u6 l2p_flag:u1 fit:u1"
)
BEIDOU_EPHEMERIS = table(
    "number:u12 satellite:u6 system_week:u13 accuracy:u4 idot:i14 aode:u5 toc:u17 a2:i11 a1:i22 a0:i24 aodc:u5 crs:i18"
    " delta_n:i16 m0:i32 cuc:i18 e:u32 cus:i18 root_a:u32 toe:u17 cic:i18 omega0:i32 cis:i18 i0:i32 crc:i18 omega:i32"
    " omega_dot:i24 tgd1:i10 tgd2:i10 health:u1"
)
GALILEO = (
    "number:u12 satellite:u6 system_week:u12 iod:u10 accuracy:u8 idot:i14 toc:u14 af2:i6 af1:i21 af0:i31 crs:i16 delta_n:i16"
    " m0:i32 cuc:i16 e:u32 cus:i16 root_a:u32 toe:u14 cic:i16 omega0:i32 cis:i16 i0:i32 crc:i16 omega:i32 omega_dot:i24 bgd_e5a:i10"
)
# the messages of BeiDou, and of Galileo by F/NAV and by I/NAV: the fields, the unit of the reference time in ms, how many weeks
# its field tells apart, and the week of GPS that is week 0 of the system
OTHER_EPHEMERIDES = {
    1042: (BEIDOU_EPHEMERIS, 8000, 1 << 13, 1356),
    1045: (table(f"{GALILEO} health:u2 invalid:u1 reserved:u7"), 60_000, 1 << 12, 1024),
    1046: (table(f"{GALILEO} bgd_e5b:i10 health_e5b:u2 invalid_e5b:u1 health_e1b:u2 invalid_e1b:u1 reserved:u2"), 60_000, 1 << 12, 1024),
}


def date_of(payload: bytes) -> Fields | None:
    """The fields of a 1013, 1029, 1019, 1042, 1045 or 1046; None for another message, and for one that is cut short."""
    bits = BitReader(payload)
    try:
        number = BitReader(payload).take(12)
        if number == 1013:
            fields = bits.take_row(SYSTEM_PARAMETERS)
            for _ in range(fields["announced"]):
                bits.take_row(ANNOUNCED)
        elif number == 1029:
            fields = bits.take_row(TEXT)
            for _ in range(fields["code_units"]):
                bits.take(8)
        elif number == 1019:
            fields = bits.take_row(EPHEMERIS)
        elif number in OTHER_EPHEMERIDES:
            fields = bits.take_row(OTHER_EPHEMERIDES[number][0])
        else:
            return None
    except EOFError:
        return None
    return fields


def told_moment(now: int, fields: Fields, tow: int) -> int | None:
    """The moment with this time of week that such a message tells; None if it is passed over."""
    if "week" in fields:
        return moment_of_week(now, fields["week"], 1024, reference_time(fields), tow)
    if "system_week" in fields:
        _, _, weeks, first = OTHER_EPHEMERIDES[fields["number"]]
        return moment_of_week(now, (fields["system_week"] + first) % weeks, weeks, reference_time(fields), tow)
    day, second = fields["day"], fields["second"]
    if day < FIRST_DAY + 7 or second > 86_400 or day > FIRST_DAY + now // DAY_MS + 1:
        return None
    at = utc_moment(fields)
    # within half a week, and of two alike the later
    [told] = [it for it in moments_around(at, tow) if -HALF_WEEK_MS < it - at <= HALF_WEEK_MS]
    return told


def reference_time(fields: Fields) -> int:
    """That of an ephemeris, in ms of the week. The 14 s between the clock of BeiDou and GPS time are left out."""
    return (16_000 if "week" in fields else OTHER_EPHEMERIDES[fields["number"]][1]) * fields["toe"]


def moment_of_week(now: int, week: int, apart: int, toe: int, tow: int) -> int | None:
    """In the latest of the weeks so far apart that is not after now's; None if the reference time is of another week."""
    if abs(toe - tow) > HALF_WEEK_MS:
        return None
    weeks = [it for it in range(week, now // WEEK_MS + 1, apart)]
    return WEEK_MS * weeks[-1] + tow if weeks else None


def moments_around(at: int, tow: int) -> list[int]:
    """The moments with a time of week in the week of another moment and in the weeks beside it."""
    return [WEEK_MS * (at // WEEK_MS + week) + tow for week in (-1, 0, 1)]


def dated(near: int, tow: int) -> int:
    """The date of a time of week: within half a week, and of two alike the earlier."""
    [date] = [it for it in moments_around(near, tow) if -HALF_WEEK_MS <= it - near < HALF_WEEK_MS]
    return date


# ---------------------------------------------------------------- one capture


class Capture(NamedTuple):
    """The messages of a capture in their order: each one that is read, or the fields of one with a date."""

    read: list[Message | Fields]
    places: list[int]  # the byte at which the frame of each begins
    frames: int
    equipped: set[int]  # the stations of which messages tell an antenna
    orbits: list[tuple[int, int]]  # the slots and the channels of 1020
    dating: str  # the systems whose observations tell the station, dates and spans

    @classmethod
    @lru_cache(64)
    def of(cls, text: bytes, dating: str) -> Capture:
        read: list[Message | Fields] = []
        places: list[int] = []
        frames = frames_of(text)
        equipped = {it[0] for frame in frames for it in [equipment_of(frame.payload)] if it}
        orbits = [it for frame in frames for it in [orbit_of(frame.payload)] if it]
        for frame in frames:
            message = read_frame(frame.payload)
            date = date_of(frame.payload)
            if isinstance(message, Refusal) and date is None:
                continue
            read.append(date if isinstance(message, Refusal) else message)
            places.append(frame.place)
        return cls(read, places, len(frames), equipped, orbits, dating)

    def messages(self) -> list[Message]:
        return [it for it in self.read if isinstance(it, Message)]

    def observing(self) -> list[int]:
        """The stations with observations, in the order in which they come."""
        return [it.header["station"] for it in self.messages() if self.has_observation(it)]

    def has_observation(self, message: Message) -> bool:
        """A range, a phase or a strength of a system that tells dates, which in a 1004 may be SBAS."""
        return any(letter_of_name(it) in self.dating for it in names_in(message))

    def observes(self, station: int, entry: Message | Fields) -> bool:
        return isinstance(entry, Message) and entry.header["station"] == station and self.has_observation(entry)

    def of_station(self, station: int) -> list[Message]:
        return [it for it in self.messages() if it.header["station"] == station]

    def sent(self, station: int) -> Sent:
        """What it has of the station."""
        own = [it for it in self.read if not isinstance(it, Message) and it["number"] == 1013 and it["station"] == station]
        return Sent(self.of_station(station), [it["leap_seconds"] for it in own])

    def is_of_station(self, station: int) -> bool:
        """Whether a message of it came, be it one with observations, with a position, with a date, or with an antenna."""
        return station in self.equipped or any(it.get("station") == station for it in map(fields_of, self.read))

    def positions(self, station: int) -> list[tuple[int, ...]]:
        """All positions that the station tells. Zeros are none."""
        points = [tuple(it.header[axis] for axis in "xyz") for it in self.of_station(station) if "x" in it.header]
        return [it for it in points if any(it)]

    def points(self, station: int) -> list[tuple[int, ...]]:
        """The first of them, and the first one that is far from it."""
        known = self.positions(station)
        return [*known[:1], *[it for it in known if dist(it, known[0]) > METRES_100][:1]]

    def times(self, station: int) -> list[int]:
        """The times of week of the station's messages that have an observation."""
        return [it.header["tow"] for it in self.messages() if self.observes(station, it)]


def fields_of(entry: Message | Fields) -> Fields:
    return entry.header if isinstance(entry, Message) else entry


class Told(NamedTuple):
    """What a message tells: the moment of the first epoch."""

    first: int
    fields: Fields
    at: int  # the place of the message among those that are read


WAITING = 64  # how many messages before the first epoch are looked at,
WAITING_WEEKS = 16  # and how many 1042, 1045 and 1046 beside them


def dates_beside(capture: Capture, station: int) -> list[tuple[Fields, int, int | None, int]]:
    """The messages that are looked at, each with the time of week of the last epoch before it, or else of the first one; with that of
    the epoch behind it, if one comes; and how many epochs come before it."""
    times = capture.times(station)
    beside, epochs, waits = [], 0, {at for at, _ in waiting_in(capture)}
    for place, entry in enumerate(capture.read):
        epochs += capture.observes(station, entry)
        if not isinstance(entry, Message) and times and (epochs > 0 or place in waits):
            beside.append((entry, times[max(epochs - 1, 0)], times[epochs] if epochs < len(times) else None, epochs))
    return beside


def tellings(now: int, capture: Capture, station: int) -> list[Told]:
    """What each message tells. Its date is that of the last epoch before it, or else of the first one."""
    times = capture.times(station)
    told, epochs, waits = [], 0, {at for at, _ in waiting_in(capture)}
    for place, entry in enumerate(capture.read):
        epochs += capture.observes(station, entry)
        if isinstance(entry, Message) or not times:
            continue
        if epochs == 0 and place not in waits:
            continue
        at = max(epochs - 1, 0)
        date = told_moment(now, entry, times[at])
        first = None if date is None else date_of_first(times[: at + 1], date)
        if first is not None and FIRST_NEAR <= first <= LAST_NEAR:
            told.append(Told(first, entry, place))
    return told


def date_of_first(times: list[int], last: int) -> int | None:
    """The moment of the first of these epochs, if the last one is at this moment: back from epoch to epoch. None if an epoch
    lies more than a week from the first, since that capture must be given in parts."""
    moments = [last]
    for before in times[-2::-1]:
        near = moments[-1]
        [at] = [it for it in moments_around(near, before) if dated(it, near % WEEK_MS) == near]
        moments.append(at)
    return moments[-1]


def counting(told: list[Told], station: int) -> list[Told]:
    """Those that count by their rank; but those by 1042, 1045 and 1046 count before those by 1019, if they tell that the week of
    a 1019 is an earlier one."""
    ranked = by_rank(told, station)
    return systems_in(told) if ranked and "week" in ranked[0].fields and is_rolled_over(told) else ranked


def by_rank(told: list[Told], station: int) -> list[Told]:
    """Those of the station by 1013 and 1029; if there are none, those by 1019; if none, those of other stations; if none, those by
    1042, 1045 and 1046."""
    own = [it for it in told if it.fields.get("station") == station]
    weeks = [it for it in told if "week" in it.fields]
    others = [it for it in told if "station" in it.fields and it not in own]
    return own or weeks or others or systems_in(told)


def systems_in(told: list[Told]) -> list[Told]:
    return [it for it in told if "system_week" in it.fields]


def is_rolled_over(told: list[Told]) -> bool:
    """A 1042, 1045 or 1046 tells a moment before that of a 1019, by one or more times the weeks after which that begins anew, and
    not half a week more or less."""
    steps = [week.first - it.first for it in systems_in(told) for week in told if "week" in week.fields]
    return any(-HALF_WEEK_MS <= step - times * 1024 * WEEK_MS < HALF_WEEK_MS for step in steps for times in range(1, 7))


def second_begins(capture: Capture, told: list[Told], station: int) -> int | None:
    """The byte at which a second date of the station begins: that of its first message; or of the first message of an epoch before it, if
    no epoch between the last message of the first date and the first epoch behind that message steps back, or on by more than 60 s, by more.
    None without a second date, and if it came before all epochs."""
    own = [it for it in told if it.fields.get("station") == station]
    others = [it for it in own if it.first != own[0].first]
    epochs = [at for at, it in enumerate(capture.read) if capture.observes(station, it)]
    if not others or epochs[0] > others[0].at:
        return None
    second = others[0].at
    last = max(it.at for it in own if it.at < second)
    times = [capture.read[at].header["tow"] for at in epochs]
    moments = chain(WEEK_MS * 1024 + times[0], times)
    steps = [(after - before, at) for before, after, at in zip(moments, moments[1:], epochs[1:]) if after != before and at > last]
    behind = next((at for _, at in steps if at > second), len(capture.read))
    breaks = [(abs(step), at) for step, at in steps if at <= behind and not 0 <= step <= 60_000]
    break_at = max(breaks, default=(0, None))[1]
    return capture.places[second if break_at is None else min(second, chain_start(capture, station, epochs[0], break_at))]


# pins: is_within_minute
def chain_start(capture: Capture, station: int, first: int, last: int) -> int:
    """The place of the first message of the chain of the station in which the last of these stands, behind the first one. A chain ends
    with a message behind which no other follows, and before one that is more than 60 s from its first in the time of day, or is of the
    system of this and tells another time of day."""
    start: tuple[int, str | None, int] | None = None
    for at in range(first + 1, last + 1):
        it = capture.read[at]
        if not isinstance(it, Message) or "tow" not in it.header or it.header["station"] != station:
            continue
        letter, (_, time) = letter_of(it), clock_of_message(it) or ("", it.header["tow"])
        if start is None or start[1] == letter and (start[2] - time) % DAY_MS or (start[2] - time + 60_000) % DAY_MS > 120_000:
            start = at, letter, time
        begun = start[0]
        if not it.header.get("multiple_message", it.header.get("synchronous")):
            start = None
    return begun


def passed_over(told: list[Told], station: int) -> tuple[list[Told], list[Told], list[Told]]:
    """Those by 1019, if the station tells its own date, which counts, or if another system tells an earlier week; those of other
    stations, if the station or a 1019 tells one; and those by 1042, 1045 and 1046, if others count."""
    own = [it for it in told if it.fields.get("station") == station]
    weeks = [it for it in told if "week" in it.fields]
    others = [it for it in told if "station" in it.fields and it not in own]
    systems = systems_in(told)
    return weeks if own or is_rolled_over(told) else [], others if own or weeks else [], [] if counting(told, station) == systems else systems


def chain(first: int, times: list[int]) -> list[int]:
    """The moments of epochs, each dated near the one before it."""
    moments = [first]
    for tow in times[1:]:
        moments.append(dated(moments[-1], tow))
    return moments


# ---------------------------------------------------------------- all captures


class Stopped(Exception):
    """Why nothing can be converted: the cause, and what belongs to it."""

    def __init__(self, cause: str, *about: object) -> None:
        super().__init__(cause, *about)
        self.cause, self.about = cause, about


class Found(NamedTuple):
    """What a conversion of captures is told."""

    station: int
    chosen: Chosen
    near: int
    by: Fields | None  # the message that told the date
    links: list[list[int]]  # the captures of each, by their places
    epochs: list[list[int]]  # the moments of the station's epochs, by capture
    without: list[int]  # captures without an epoch of the station
    skipped: list[int]  # captures without a message of it
    few: list[str]  # codes with few phases
    stray: tuple[int, list[int]] | None  # an epoch more than a day after all others, and the captures that have it
    is_long: bool  # GLONASS is asked for, and 1012 with a value are not dated right near any moment
    unnamed: list[int]  # captures without an epoch that name no date, and have clocks that are converted and no word dates
    falling: list[int]  # captures in which a clock of these falls, and no epoch
    days: dict[int, Told]  # by capture what names the day of its 1012, if the capture has no epoch and no date of the station
    cut_off: int  # chains of which the end is lost


def station_of(captures: list[Capture], named: int | None) -> int:
    stations = {it for capture in captures for it in capture.observing()}
    if not stations:
        raise Stopped("no observation")
    if named not in (None, *stations):
        raise Stopped("no such station", *sorted(stations))
    if named is None and len(stations) > 1:
        raise Stopped("several stations", *sorted(stations))
    return stations.pop() if named is None else named


def first_told(now: int, captures: list[Capture], station: int) -> dict[int, Told]:
    """By capture the first epoch that is told."""
    all_told = [tellings(now, capture, station) for capture in captures]
    counted = [counting(told, station) for told in all_told]
    if any(len({it.first for it in told}) > 1 for told in counted):
        begins = [second_begins(capture, told, station) for capture, told in zip(captures, all_told)]
        parted = [(at, byte) for at, byte in enumerate(begins) if byte is not None]
        if parted:
            raise Stopped("two dates", *parted[0])
        raise Stopped("dates differ", "-", *sorted(it.first for told in counted for it in told))
    return {place: told[0] for place, told in enumerate(counted) if told}


def waiting_in(capture: Capture) -> list[tuple[int, Fields]]:
    """The dates that are looked at in a capture without an epoch, with their places."""
    dates = [(at, it) for at, it in enumerate(capture.read) if not isinstance(it, Message)]
    weeks = [it for it in dates if "system_week" in it[1]]
    return sorted([it for it in dates if it not in weeks][:WAITING] + weeks[:WAITING_WEEKS], key=lambda it: it[0])


def named_moment(now: int, capture: Capture, station: int) -> Told | None:
    """The earliest moment that a date names in a capture without an epoch, chosen as among those that tell a first epoch."""
    named = [Told(moment, it, at) for at, it in waiting_in(capture) for moment in [moment_named(now, it)] if moment is not None]
    counted = counting([it for it in named if FIRST_NEAR <= it.first <= LAST_NEAR], station)
    return min(counted, key=lambda it: it.first, default=None)


def tellings_near(now: int, capture: Capture, near: int) -> list[Told]:
    """What the dates of a capture without an epoch tell of one at this moment."""
    told = [(told_moment(now, it, near % WEEK_MS), it, at) for at, it in waiting_in(capture)]
    return [Told(first, it, at) for first, it, at in told if first is not None and FIRST_NEAR <= first <= LAST_NEAR]


def moment_named(now: int, fields: Fields) -> int | None:
    """That of its day and second, or the reference time of an ephemeris in its week."""
    if "toe" in fields:
        return told_moment(now, fields, reference_time(fields)) if reference_time(fields) < WEEK_MS else None
    return None if told_moment(now, fields, 0) is None else utc_moment(fields)


# pins: ephemeris_to_come, system_week_to_come
def to_come(now: int, fields: Fields) -> int | None:
    """The moment that a message names, if it tells nothing because that is to come: a day more than one after that of the present,
    or a week after that of the present."""
    if "day" in fields:
        is_after = fields["day"] > FIRST_DAY + max(6, now // DAY_MS + 1) and fields["second"] <= 86_400
        return utc_moment(fields) if is_after else None
    _, _, apart, first = OTHER_EPHEMERIDES.get(fields["number"], (None, None, 1024, 0))
    week = fields["week"] if "week" in fields else fields["system_week"] + first
    at = WEEK_MS * week + reference_time(fields)
    weeks = range(week % apart, now // WEEK_MS + 1, apart)
    return at if not weeks and FIRST_NEAR <= at <= LAST_NEAR else None


def first_to_come(now: int, capture: Capture) -> tuple[Fields, int] | None:
    """The first such message, with its moment."""
    dates = [(it, to_come(now, it)) for it in capture.read if not isinstance(it, Message)]
    return next(((it, at) for it, at in dates if at is not None), None)


def utc_moment(fields: Fields) -> int:
    """That of a day and a second."""
    return DAY_MS * (fields["day"] - FIRST_DAY) + 1000 * fields["second"]


# pins: is_far_from_epoch
def far_date(now: int, capture: Capture, station: int) -> tuple[Fields, int] | None:
    """The first 1013 or 1029 of the station that tells a time more than half a day from the epoch before it and the one behind it, as
    it dates them, with the one before it. Of several between two epochs the last counts. One before the first epoch has that alone."""
    beside = [it for it in dates_beside(capture, station) if it[0].get("station") == station]
    fars: dict[int, tuple[Fields, int, int | None]] = {}
    for entry, tow, behind, epochs in beside:
        date = far_moment(now, entry, tow)
        if date is not None and epochs == 0:
            return entry, date
        if date is not None:
            fars[epochs] = entry, date, behind
    for entry, date, behind in fars.values():
        if behind is None or far_moment(now, entry, behind) is not None:
            return entry, date
    return None


def far_moment(now: int, fields: Fields, tow: int) -> int | None:
    """An epoch at this time of week as a 1013 or 1029 dates it, if it is more than half a day from its time."""
    date = told_moment(now, fields, tow)
    return date if date is not None and abs(date - utc_moment(fields)) > DAY_MS // 2 else None


def far_from_clocks(now: int, capture: Capture, station: int) -> Far | None:
    """The same of a capture without epochs, by the messages of GLONASS and BeiDou beside the date."""
    return followed(marked_in(capture, station, [], own_dates(now, capture, station, None)))[1]


def stray_of(epochs: list[list[int]], places: list[int]) -> tuple[int, list[int]] | None:
    """An epoch that is more than a day after all others, and the captures that have it; they are at these places."""
    *others, last = sorted(set().union(*epochs))
    if not others or last <= others[-1] + DAY_MS:
        return None
    return last, [at for at, of in zip(places, epochs) if last in of]


def station_of_cells(capture: Capture, named: int | None) -> int | None:
    """The station whose phases of other systems than GPS are counted: the one that is named, else the first that has a cell of one."""
    if named is not None:
        return named
    has_cell = (it for it in capture.messages() if any(satellite[0] != "G" for satellite, _, _ in cells_in(it)))
    return next((it.header["station"] for it in has_cell), None)


def few_phases(captures: list[Capture], station: int, named: int | None, chosen: Chosen) -> list[str]:
    """The codes that have fewer than half of the phases that their satellites have in the code that has most. Of a 1004 or a 1012
    and an MSM of one epoch the phases of a code are counted once."""
    cells = [
        (it.header["number"], satellite, name_of_code(satellite[0], code), cell)
        for capture in captures
        for is_counted in [station_of_cells(capture, named) == station]
        for it in capture.of_station(station)
        if it.header["number"] in chosen.numbers
        for satellite, code, cell in cells_in(it)
        if satellite[0] == "G" or is_counted
    ]
    shown = {(satellite, name) for _, satellite, name, cell in cells if has_value(cell)}
    by_number = Counter((number, satellite, name) for number, satellite, name, cell in cells if cell.phase is not None)
    phases: dict[tuple[str, str], int] = {}
    for (_, *of), count in by_number.items():
        phases[(*of,)] = max(phases.get((*of,), 0), count)

    def count(name: str, other: str) -> int:
        return sum(n for (satellite, it), n in phases.items() if it == other and (satellite, name) in shown)

    others = {name for _, name in phases}
    return [name for name in chosen.names if 2 * count(name, name) < max((count(name, other) for other in others), default=0)]


def stop_without_rates(kinds: dict[str, int], wanted: Wanted) -> None:
    """Doppler is asked for, and a system that is converted has a kind of MSM without rates: the first one is told."""
    without = [letter for letter in LETTERS if letter in kinds and kinds[letter] not in (5, 7)]
    if wanted.doppler and without:
        raise Stopped("no rates", without[0])


def stop_if_apart(near: int, links: list[list[int]], points: list[tuple[int, ...]]) -> None:
    """Nothing is converted if the first epoch is out of range, if there are too many links, and if positions are far apart."""
    if not FIRST_NEAR <= near <= LAST_NEAR:
        raise Stopped("outside the dates")
    if len(links) > MOST_LINKS:
        raise Stopped("too many links", len(links))
    if any(dist(a, b) > METRES_100 for a, b in combinations(points, 2)):
        raise Stopped("positions differ")


def find(texts: list[bytes], now: int, wanted: Wanted = Wanted()) -> Found:
    """What is found in these captures by what is asked for."""
    everything, near = [Capture.of(text, wanted.dating) for text in texts], wanted.near
    if not any(it.frames for it in everything):
        raise Stopped("no frame")
    number = station_of(everything, wanted.station)
    skipped = [at for at, it in enumerate(everything) if not it.is_of_station(number)]
    if skipped and not wanted.skip_empty:
        raise Stopped("nothing of the station", *skipped)
    captures = [it for at, it in enumerate(everything) if at not in skipped]
    times = [capture.times(number) for capture in captures]
    told = {} if near is not None else first_told(now, captures, number)
    named = [it for capture, of in zip(captures, times) if not of for it in [named_moment(now, capture, number)] if it is not None]
    dating = [*told.values()] or ([] if near is not None else by_rank(named, number))
    if near is None and not dating:
        raise Stopped("no date")
    base = near if near is not None else min(it.first for it in dating)
    if len({"week" in it.fields for it in told.values()}) > 1 and any(it.first - base > HALF_WEEK_MS for it in told.values()):
        raise Stopped("dates differ", "-", *sorted(it.first for it in told.values()))
    firsts = [told[at].first if at in told else dated(base, of[0]) if of else None for at, of in enumerate(times)]
    epochs = [[] if first is None else chain(first, of) for first, of in zip(firsts, times)]
    near = min(first for first in firsts if first is not None) // 1000 * 1000
    if any(not -HALF_WEEK_MS <= it - near < HALF_WEEK_MS for of in epochs for it in of):
        raise Stopped("give them in parts")
    by = min(dating, default=None, key=lambda it: it.first)
    every = [it for of in epochs for it in of]
    span, sent = (min(every), max(every)), [it.sent(number) for it in captures]
    leap = leap_of(sent, span, near, wanted)
    seconds = leap_seconds_at(near) if leap is None else leap
    dates = [own_dates(now, capture, number, wanted.near) for capture in captures]
    clocks = [clocks_in(capture, number, of, own) for capture, of, own in zip(captures, epochs, dates)]
    owns = [None if of else named_moment(now, capture, number) for capture, of in zip(captures, epochs)]
    named = [None if own is None else in_week_of(wanted.near, own.first) for own in owns]
    half = sum(span) // 2
    leap_now = leap_seconds_at(near)
    alone = [[at for it, its in of.items() for at in placed(it, its, own, half, leap_now)] for of, own in zip(clocks, named)]
    links = links_of([of or other for of, other in zip(epochs, alone)], wanted.as_given)
    moments = [{it: placed(it, its, own, half, seconds) for it, its in of.items()} for of, own in zip(clocks, named)]
    middle = near_with_1012(every, clocks, moments)
    orbits = [it for capture in everything for it in capture.orbits]
    allowed = Allowed(span, near, middle is not None)
    chosen = choose(sent, links, orbits, allowed, wanted)
    if not chosen.names:
        raise Stopped("no code", *chosen.clocks)
    if FIRST_NEAR <= near <= LAST_NEAR:
        stop_without_rates(chosen.kinds, wanted)
        stop_if_far(middle if chosen.with_1012 and middle is not None else near, chosen.letters, clocks, moments)
    stop_if_apart(near, links, [] if wanted.as_given else [point for capture in captures for point in capture.points(number)])
    near = middle if chosen.with_1012 and middle is not None else near
    places = [at for at in range(len(texts)) if at not in skipped]
    messages = [it for capture in captures for it in capture.of_station(number)]
    letters = {*chosen.letters, *[DAY] * chosen.with_1012}
    taken = [{it: its for it, its in of.items() if it in letters} for of in clocks]
    leaves_1012 = middle is None and GLONASS.letter in wanted.letters and any(has_value_of_1012(it) for it in messages)
    has_day = [DAY in clock and not clock[DAY].has_day and (chosen.with_1012 or leaves_1012) for clock in clocks]
    by_words = wanted.near is not None  # which tells the week, and so not the day of 1012
    undated = [own is None and not of and (has or bool(it) and not by_words) for own, of, it, has in zip(owns, epochs, taken, has_day)]
    days = {at: it for at, it, has in zip(places, owns, has_day) if has and it is not None and it.fields.get("station") != number}
    return Found(
        number, chosen, near, None if by is None else by.fields, [[places[at] for at in link] for link in links], epochs,
        [places[at] for at, of in enumerate(epochs) if not of], skipped, few_phases(captures, number, wanted.station, chosen), stray_of(epochs, places),
        leaves_1012, [at for at, is_undated in zip(places, undated) if is_undated],
        [at for at, of, it in zip(places, epochs, taken) if any(its.falls for its in it.values()) and of == sorted(of)], days,
        sum(len(parted(it.messages)[1]) for it in sent),
    )


def in_week_of(near: int | None, at: int) -> int:
    """The moment, or if one is given the moment with its time of week near that."""
    return at if near is None else dated(near, at % WEEK_MS)


def own_dates(now: int, capture: Capture, station: int, near: int | None) -> dict[int, int]:
    """The moments that 1013 and 1029 of the station name, by their places. If a moment is given, it tells the week of the first."""
    named = {at: moment_named(now, it) for at, it in waiting_in(capture) if it.get("station") == station}
    dates = {at: it for at, it in named.items() if it is not None and FIRST_NEAR <= it <= LAST_NEAR}
    steps = [in_week_of(near, it) - it for it in dates.values()]
    return {at: it + steps[0] for at, it in dates.items()}


def clocks_in(capture: Capture, station: int, epochs: list[int], dates: dict[int, int]) -> dict[str, Going]:
    """How the clocks of GLONASS and BeiDou of the station go that have a message with a value."""
    return followed(marked_in(capture, station, epochs, dates))[0]


def marked_in(capture: Capture, station: int, epochs: list[int], dates: dict[int, int]) -> list[Marked]:
    """The messages of the station with the moments of its epochs, and the dates that it names."""
    dated_by = iter(epochs)
    entries = []
    for at, it in enumerate(capture.read):
        if at in dates:
            entries.append(Marked(None, date=dates[at], fields=fields_of(it)))
        elif isinstance(it, Message) and it.header["station"] == station:
            entries.append(Marked(it, next(dated_by) if capture.observes(station, it) else None))
    return entries


# pins: middle_up, middle_second, can_date, dates_ends
def near_with_1012(epochs: list[int], clocks: list[dict[str, Going]], moments: list[dict[str, list[int]]]) -> int | None:
    """The moment near which the station's 1012 are dated right, if there is one: all MSM of GLONASS lie near it, too."""
    of_glonass = (GLONASS.letter, DAY)
    every = [*epochs, *(it for of in moments for clock in of_glonass for it in of.get(clock, []))]
    middle = near_of_span(min(every), max(every))
    if any(clock in of and of[clock].is_wide for of in clocks for clock in of_glonass):
        return None
    return middle if middle is not None and FIRST_NEAR <= middle <= LAST_NEAR else None


def stop_if_far(near: int, letters: str, clocks: list[dict[str, Going]], moments: list[dict[str, list[int]]]) -> None:
    """Nothing is converted if a message of GLONASS or BeiDou that is converted would be dated otherwise."""
    for of, its in zip(clocks, moments):
        for clock in {*of} & {*letters}:
            if of[clock].is_wide or any(not -HALF_WEEK_MS <= it - near < HALF_WEEK_MS for it in its[clock]):
                raise Stopped("give them in parts")


def links_of(epochs: list[list[int]], as_given: bool = False) -> list[list[int]]:
    """The captures by links, each by its place: the earlier ones first, and each behind the first link that has ended when it
    begins, by their epochs, or else by their clocks. Those without either come before all of the first link."""
    if as_given:
        return [[at] for at in range(len(epochs))]
    order = sorted((min(of), max(of), at) for at, of in enumerate(epochs) if of)
    links: list[list[int]] = []
    ends: list[int] = []
    for begin, end, at in order:
        joined = next((link for link, last in enumerate(ends) if last <= begin), len(links))
        if joined == len(links):
            links.append([])
            ends.append(end)
        links[joined].append(at)
        ends[joined] = end
    without = [at for at, of in enumerate(epochs) if not of]
    if links:
        links[0][:0] = without
    return links


def main() -> None:
    now, names = moment(sys.argv[1]), sys.argv[2:]
    try:
        found = find([Path(name).read_bytes() for name in names], now)
    except Stopped as stopped:
        about = [civil(it) if stopped.cause == "dates differ" and n else it for n, it in enumerate(stopped.about)]
        sys.exit(f"{stopped.cause}: {' '.join(map(str, about))}")
    by = found.by["number"] if found.by else "-"
    chosen = found.chosen
    print(f"station {found.station} msm {chosen.msm} codes {','.join(chosen.names)} near {civil(found.near):%Y-%m-%dT%H:%M:%S}")
    print(f"by {by} links {found.links} from {civil(min(map(min, filter(None, found.epochs))))}")


if __name__ == "__main__":
    main()
