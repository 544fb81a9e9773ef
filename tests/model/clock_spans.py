"""The slow model: when the clocks of GLONASS and BeiDou of a station go, which give no epoch.

Each clock is followed message by message. The 1012 and the MSM of GLONASS are of one clock, and a 1012 is dated near the last of
these MSM, too. Moments of GLONASS are of UTC, until leap seconds are added at the end.
"""

from __future__ import annotations

from typing import Iterable, NamedTuple

from clocks import DAY_MS, MOSCOW_MS, UNKNOWN_DAY, glonass_parts
from model import dated
from msm import LEGACY_GLONASS, letter_of
from systems import BEIDOU, GLONASS
from valued import names_in
from wire import WEEK_MS, Fields, Message

HALF_WEEK_MS = WEEK_MS // 2
UNDATED = 1024 * WEEK_MS
DAY = "day"  # the clock of GLONASS without a day
CLOCKS = (GLONASS.letter, BEIDOU.letter, DAY)


class Marked(NamedTuple):
    """A message, with the moment of the epoch that it gives if it gives one; or a date that the station names, with its fields."""

    message: Message | None
    epoch: int | None = None
    date: int | None = None
    fields: Fields | None = None


class Going(NamedTuple):
    """The moments of the messages of a clock with values, in their order, whether epochs or dates of the station date them, and
    whether an MSM of GLONASS tells the day of these 1012."""

    moments: list[int]
    is_dated: bool
    has_day: bool

    @property
    def falls(self) -> bool:
        return self.moments != sorted(self.moments)

    @property
    def is_wide(self) -> bool:
        return any(abs(it - self.moments[0]) > WEEK_MS for it in self.moments)


# pins: followed_by
def clock_of_message(message: Message) -> tuple[str, int] | None:
    """The clock of a message of GLONASS or BeiDou, and the time that it tells."""
    letter = letter_of(message) if "tow" in message.header else None
    if letter == BEIDOU.letter:
        return letter, (message.header["tow"] + 14_000) % WEEK_MS
    if letter != GLONASS.letter:
        return None
    day, time_of_day = glonass_parts(message.header["tow"])
    if message.header["number"] == LEGACY_GLONASS or day == UNKNOWN_DAY:
        return DAY, (time_of_day - MOSCOW_MS) % DAY_MS
    return letter, (DAY_MS * day + time_of_day - MOSCOW_MS) % WEEK_MS


# pins: dated_in_day, clock_moment
def nearest(clock: str, at: int, time: int) -> int:
    """The moment nearest to another one at which a clock tells a time, of two alike the earlier."""
    if clock != DAY:
        return dated(at, time % WEEK_MS)
    first = at - DAY_MS // 2
    return first + (time - first) % DAY_MS


class Clock:
    """A clock while the messages come."""

    def __init__(self, clock: str) -> None:
        self.clock, self.moments = clock, list[int]()
        self.seen: int | None = None  # the last epoch or date before the last message
        self.beside: int | None = None  # of 1012 the MSM of GLONASS behind the last of them
        self.has_day = False
        self.by_dates = False  # a date of the station dates the last message
        self.dated_by: int | None = None  # what dates the last 1012, if some came before it and no MSM of GLONASS behind it

    def last(self) -> int:
        return self.moments[-1] if self.beside is None else self.beside

    # pins: moved_moment, last_moved
    def move_near(self, at: int) -> None:
        """The last message near a moment, and the others with it."""
        last = self.last()
        steps = nearest(GLONASS.letter if self.has_day else self.clock, at, last) - last
        if self.by_dates:
            steps = min(steps, nearest(GLONASS.letter, at, last) - last)
        self.moments = [it + steps for it in self.moments]
        self.beside = None if self.beside is None else self.beside + steps

    def anchor(self, marks: Marks) -> None:
        """Messages before the first epoch or date are near it; those that a date dates keep their day of the week, if the last
        of them does not come after it by this day."""
        if self.moments and self.seen is None and marks.first is not None:
            self.move_near(marks.first)

    def base(self, marks: Marks) -> int:
        """The moment near which the next message is: the last epoch or date if it came last, else the last message."""
        return self.last() if marks.last in (None, self.seen) else marks.last

    def redate(self, marks: Marks, near: int) -> None:
        """The last 1012 near an epoch or an MSM behind it, if it seems to come before what dates it, and this is nearer in the time of
        day."""
        is_beside = self.has_day if marks.first is None else self.seen is not None
        if self.dated_by is None or not is_beside or any(abs(it - self.moments[0]) > WEEK_MS for it in self.moments):
            return
        at = nearest(DAY, near, self.moments[-1])
        if abs(at - near) < self.dated_by - self.moments[-1]:
            self.moments[-1] = at

    def take(self, marks: Marks, time: int, week: Clock | None = None) -> None:
        """A message more. The first 1012 may be behind MSM of GLONASS."""
        if marks.last not in (None, self.seen):
            self.redate(marks, marks.last)
        self.anchor(marks)
        self.dated_by = None
        if self.moments:
            self.dated_by = self.base(marks) if self.clock == DAY else None
            self.moments.append(nearest(self.clock, self.base(marks), time))
        elif week is not None and week.moments:
            week.anchor(marks)
            self.moments, self.has_day = [nearest(self.clock, week.base(marks), time)], True
        else:
            self.moments = [UNDATED + time if marks.last is None else nearest(self.clock, marks.last, time)]
        self.seen, self.beside, self.by_dates = marks.last, None, marks.fields is not None

    def take_msm(self, marks: Marks, at: int) -> None:
        """An MSM of GLONASS behind these 1012 tells their day."""
        self.redate(marks, at)
        self.dated_by = None
        self.anchor(marks)
        if self.moments:
            if marks.last is None and not self.has_day:
                self.move_near(at)
            self.seen, self.beside, self.by_dates, self.has_day = marks.last, at, marks.fields is not None, True

    def is_beside(self, marks: Marks) -> bool:
        """A message came behind the last date, or at most half a day before it."""
        self.anchor(marks)
        return bool(self.moments) and (self.seen == marks.last or abs(self.last() - marks.last) <= DAY_MS // 2)


class Marks:
    """The first and the last epoch; as long as none came, the first and the last date."""

    def __init__(self) -> None:
        self.first: int | None = None
        self.last: int | None = None
        self.fields: Fields | None = None
        self.are_epochs = False

    def take(self, mark: Marked) -> bool:
        """Whether the epochs begin."""
        begins = mark.epoch is not None and not self.are_epochs
        if begins:
            self.first, self.fields, self.are_epochs = None, None, True
        at = mark.epoch if self.are_epochs else mark.date
        if at is not None:
            self.first, self.last, self.fields = at if self.first is None else self.first, at, mark.fields
        return begins


Far = tuple[Fields, int]  # a date, and a message beside it


# pins: are_half_day_apart
def followed(entries: Iterable[Marked]) -> tuple[dict[str, Going], Far | None]:
    """How the clocks go in the messages of a station, between its epochs, or before the first of them between its dates; and if no
    epoch comes the first date that is more than half a day from the messages beside it, or before the one before it."""
    clocks, marks, far = {it: Clock(it) for it in CLOCKS}, Marks(), None
    for entry in entries:
        if marks.take(entry):
            for it in clocks.values():
                it.seen = None
        if entry.message is None or entry.epoch is not None:
            continue
        told = clock_of_message(entry.message)
        if told is None or not names_in(entry.message):
            continue
        clock = clocks[told[0]]
        is_met = marks.last is None or any([it.is_beside(marks) for it in clocks.values()])
        before = next((it.last() for it in clocks.values() if it.moments), None)
        clock.take(marks, told[1], clocks[GLONASS.letter] if told[0] == DAY else None)
        if told[0] == GLONASS.letter:
            clocks[DAY].take_msm(marks, clock.moments[-1])
        if far is None and not is_met and marks.fields is not None:
            if abs(clock.moments[-1] - marks.last) > DAY_MS // 2:
                far = marks.fields, clock.moments[-1]
            elif before is not None and before > marks.last:
                far = marks.fields, before
    goings = {}
    for it, clock in clocks.items():
        if marks.last not in (None, clock.seen):
            clock.redate(marks, marks.last)
        clock.anchor(marks)
        goings[it] = Going(clock.moments, marks.first is not None, clock.has_day)
    heard = [it for it in clocks.values() if it.moments]
    if far is None and heard and marks.fields is not None and not any([it.is_beside(marks) for it in heard]):
        far = marks.fields, heard[0].last()
    return {it: of for it, of in goings.items() if of.moments}, far


# pins: clock_lead, placed_clock_span, placed_in_middle, midway, middle_of_span
def placed(clock: str, it: Going, told: int | None, middle: int, seconds: int) -> list[int]:
    """The moments of a clock. If nothing dates them, the first is near the moment that another message tells, or else their middle is
    near that of the epochs."""
    moments, half = it.moments, (min(it.moments) + max(it.moments)) // 2
    near = GLONASS.letter if it.has_day else clock
    if not it.is_dated:
        steps = nearest(near, middle, half) - half if told is None else nearest(near, told, moments[0]) - moments[0]
        moments = [at + steps for at in moments]
    return [at + 1000 * seconds * (clock != BEIDOU.letter) for at in moments]
