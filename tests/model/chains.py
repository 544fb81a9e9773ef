"""The slow model, part of summaries and of `auto`: how far the clocks of systems are apart in chains of messages, and the weeks of
Galileo and BeiDou that messages name."""

from __future__ import annotations

from collections import Counter
from typing import Iterable, NamedTuple, Optional

from clocks import DAY_MS, glonass_moment, glonass_parts, leap_seconds_at
from model import dated
from msm import letter_of
from systems import BEIDOU, BY_LETTER, GLONASS
from wire import WEEK_MS, BitReader, Message

MOST_CLOCKS = 32  # so many clocks of a chain are compared
MOST_OFFSETS = 8  # so many offsets of a system are counted
MOST_OF_DAYS = 16  # and of GLONASS so many that differ, or are of days of UTC that differ
HALF_SECOND_MS = 500

# The systems whose clocks others are compared with, in their order, and those of which a summary has a line.
TIMING = "GEJSI"
WITH_LINE = "ECJSI"

# Of each message with a week: its bits, and the width of the week, which stands behind a number and a satellite.
WEEKS = {1042: (511, 13), 1045: (496, 12), 1046: (504, 12)}


class Date(NamedTuple):
    """What clocks of GLONASS are dated by: a moment within half a week of them, and leap seconds if some are given. Where none are
    given, they are those of the day that the message tells, or if `own` is false of that moment alone."""

    near: int
    leap: Optional[int] = None
    own: bool = True


def chains_of(messages: Iterable[Message]) -> list[list[Message]]:
    """The observations of the chains that ended."""
    return parted(messages)[0]


def parted(messages: Iterable[Message]) -> tuple[list[list[Message]], list[list[Message]]]:
    """The observations of the chains that ended, and of those that were cut off: an epoch begins with a system that has told another time
    of day in the chain, so its end is lost, and which of its messages are of one epoch is not known."""
    ended: list[list[Message]] = []
    cut: list[list[Message]] = []
    chain: list[Message] = []
    for message in messages:
        if "tow" not in message.header:
            continue
        if any(letter_of(it) == letter_of(message) and _time_of_day(it) != _time_of_day(message) for it in chain):
            cut.append(chain)
            chain = []
        if len(chain) < MOST_CLOCKS:
            chain.append(message)
        if not message.header.get("multiple_message", message.header.get("synchronous")):
            ended.append(chain)
            chain = []
    return ended, cut


def _time_of_day(message: Message) -> int:
    """That of the clock. A leap second of GLONASS is the first one of the next day."""
    clock = message.header["tow"]
    return (glonass_parts(clock)[1] if letter_of(message) == GLONASS.letter else clock) % DAY_MS


def _ahead(message: Message, base: int, date: Date | None) -> int | None:
    """How far the clock of a message is ahead of this time of week, modulo a week; unknown of GLONASS without a date."""
    clock = message.header["tow"]
    letter = letter_of(message)
    if letter == BEIDOU.letter:
        return (clock + 14_000 - base) % WEEK_MS
    if letter != GLONASS.letter:
        return (clock - base) % WEEK_MS
    if date is None:
        return None
    moment = dated(date.near, base)
    leap = date.leap
    if leap is None:
        leap = leap_seconds_at(_noon_of(clock, moment, date.near) if date.own else date.near)
    return (glonass_moment(clock, moment, leap) - moment) % WEEK_MS


def _noon_of(clock: int, moment: int, near: int) -> int:
    """Noon of the day of UTC that a clock of GLONASS tells, the one that lies nearest to a moment."""
    day = glonass_moment(clock, moment, 0) % WEEK_MS // DAY_MS
    return dated(near, DAY_MS * day + DAY_MS // 2)


Offsets = dict[str, "Counter[int]"]  # by letters of systems; each is modulo a week


def _kept_as(message: Message, base: int, date: Date | None) -> tuple[int, int]:
    """By what a clock is kept: by how much it is ahead, that of GLONASS in UTC, and by the day of UTC."""
    if letter_of(message) != GLONASS.letter or date is None:
        return (_ahead(message, base, date) or 0, 0)
    ahead = (glonass_moment(message.header["tow"], dated(date.near, base), 0) - base) % WEEK_MS
    return (ahead, (base + ahead) % WEEK_MS // DAY_MS if date.own else 0)


def offsets_of(messages: Iterable[Message], date: Date | None = None) -> Offsets:
    """How often the clock of each system is ahead by each offset."""
    offsets: Offsets = {letter: Counter() for letter in BY_LETTER}
    kept: dict[str, set[tuple[int, int]]] = {letter: set() for letter in BY_LETTER}
    for chain in chains_of(messages):
        at = min(range(len(chain)), key=lambda at: (f"{TIMING}CR".index(letter_of(chain[at]) or ""), at))
        base = chain.pop(at)
        if letter_of(base) not in TIMING:
            continue
        for message in chain:
            letter, tow = letter_of(message) or "", base.header["tow"]
            ahead = _ahead(message, tow, date)
            most = MOST_OF_DAYS if letter == GLONASS.letter and date is not None and date.own else MOST_OFFSETS
            if len(kept[letter]) < most:
                kept[letter].add(_kept_as(message, tow, date))
            if ahead is not None and _kept_as(message, tow, date) in kept[letter]:
                offsets[letter][ahead] += 1
    return offsets


def signed(ahead: int) -> int:
    """An offset modulo a week, from half a week behind to half a week ahead."""
    return ahead if ahead <= WEEK_MS // 2 else ahead - WEEK_MS


def told_offset(counted: Counter[int]) -> int | None:
    """The most frequent offset that is not 0; of two that are as frequent the one nearer to 0, and then the lesser."""
    told = [ahead for ahead in counted if ahead]
    return min(told, key=lambda ahead: (-counted[ahead], abs(signed(ahead)), signed(ahead)), default=None)


def is_wrong(counted: Counter[int]) -> bool:
    """Whether a clock is most often half a second off or more."""
    told = told_offset(counted)
    return told is not None and abs(signed(told)) >= HALF_SECOND_MS and counted[told] > counted[0]


def offset_lines(letter: str, counted: Counter[int]) -> list[str]:
    """The line of a system whose clock is not always right."""
    told = told_offset(counted)
    if told is None:
        return []
    ms = abs(signed(told))
    sign = "+" if signed(told) > 0 else "-"
    return [f" clock {letter} {sign}{ms // 1000}.{ms % 1000:03} {counted[told]} of {sum(counted.values())}"]


def is_first_timing(letter: str, messages: Iterable[Message]) -> bool:
    """Whether others are compared with a system, and none that goes before it is sent."""
    sent = {letter_of(it) for it in messages}
    return letter in TIMING and not any(it in sent for it in TIMING[: TIMING.index(letter)])


def unchecked(messages: list[Message], letters: Iterable[str], offsets: Offsets) -> list[str]:
    """The systems of these that are sent and that no chain compares, but for the first one that others are compared with."""
    sent = {letter_of(it) for it in messages}
    return [it for it in letters if it in sent and not offsets[it] and not is_first_timing(it, messages)]


def clock_lines(messages: list[Message], letters: list[str], near: int | None) -> list[str]:
    """The lines of a summary, of these systems, which have values; the station's first date is this moment."""
    offsets = offsets_of(messages, None if near is None else Date(near, own=False))
    lines = [line for letter in f"R{WITH_LINE}" for line in offset_lines(letter, offsets[letter])]
    with_values = [it for it in messages if letter_of(it) in letters]
    return lines + [f" unchecked {letter}" for letter in unchecked(with_values, letters, offsets)]


def week_lines(payloads: list[bytes]) -> list[str]:
    """The weeks that 1042, 1045 and 1046 name."""
    lines = []
    for number, (size, width) in WEEKS.items():
        weeks = Counter(it for payload in payloads for it in _weeks_in(payload, number, size, width))
        lines += [f"week {week} {number} {weeks[week]}" for week in sorted(weeks)]
    return lines


def _weeks_in(payload: bytes, number: int, size: int, width: int) -> list[int]:
    bits = BitReader(payload)
    if 8 * len(payload) < size or bits.take(12) != number:
        return []
    bits.take(6)
    return [bits.take(width)]
