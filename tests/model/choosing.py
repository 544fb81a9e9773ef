"""The slow model of `auto`: what is converted of each system, and what its messages tell of clocks and channels."""

from __future__ import annotations

from collections import Counter
from itertools import groupby
from typing import Iterable, NamedTuple, Optional

from chains import Date, Offsets, is_wrong, offset_lines, offsets_of, signed, told_offset, unchecked
from channels import Slots, slots_of, told_by, told_by_orbits
from clocks import DAY_MS, LEAP_ROWS, glonass_parts, leap_seconds_at
from msm import LEGACY, LEGACY_GLONASS, letter_of
from systems import BY_LETTER, GLONASS, GPS, KINDS, LETTERS, SBAS, number_of
from valued import NAMES, letter_of_name, names_in, shown_in
from wire import WEEK_MS, Message

DEFAULT_KIND = 4
MOST_LEAP_SECONDS = 99
NOT_TOLD = 255  # leap seconds of a 1013
DATING = "GEJSI"  # the systems whose observations can tell the station, the dates and the spans of captures


class Wanted(NamedTuple):
    """What the words of `auto` ask for, nothing where a word is not given: the station, the date, whether each capture is a link,
    whether captures without the station are left out, the letters of systems, the names of codes, the kind of MSM, channels of
    GLONASS, leap seconds, and whether Doppler is asked for."""

    station: Optional[int] = None
    near: Optional[int] = None
    as_given: bool = False
    skip_empty: bool = False
    systems: Optional[str] = None
    names: Optional[tuple[str, ...]] = None
    msm: Optional[int] = None
    channels: Optional[dict[int, int]] = None
    leap: Optional[int] = None
    doppler: bool = False

    @property
    def letters(self) -> str:
        """The systems that may be converted, in the order of a file."""
        if self.names is not None:
            asked = {letter_of_name(it) for it in self.names}
        else:
            asked = set(LETTERS if self.systems is None else self.systems)
        return "".join(it for it in LETTERS if it in asked)

    @property
    def dating(self) -> str:
        """The systems whose observations tell the station, dates and spans: those that are asked for, or else all that can."""
        return "".join(it for it in DATING if it in self.letters) or DATING


class Sent(NamedTuple):
    """What a capture has of the station: its messages in their order, and what its 1013 tell."""

    messages: list[Message]
    leap_seconds: list[int]


class Chosen(NamedTuple):
    """What is converted, and what is told of it: the names of codes, the kind of each of their systems, the slots of GLONASS if a
    code of it is listed, the leap seconds that are given, the lines of clocks, the systems that a wrong clock leaves out, those that no
    chain compares, and whether 1012 are converted."""

    names: tuple[str, ...]
    kinds: dict[str, int]
    slots: Optional[Slots]
    leap: Optional[int]
    clocks: list[str]
    wrong: str
    unchecked: str
    with_1012: bool

    @property
    def letters(self) -> str:
        """The systems of the codes, in the order of a file."""
        return "".join(it for it in LETTERS if it in {letter_of_name(name) for name in self.names})

    @property
    def msm(self) -> str:
        """The kinds in words: that of the first system, and exceptions."""
        first, *others = self.letters
        exceptions = [f"{it}{self.kinds[it]}" for it in others if self.kinds[it] != self.kinds[first]]
        return ",".join([str(self.kinds[first]), *exceptions])

    @property
    def numbers(self) -> set[int]:
        return numbers_of(self.kinds, self.with_1012)


def numbers_of(kinds: dict[str, int], with_1012: bool) -> set[int]:
    """The numbers of the observations that are taken with these kinds."""
    of_legacy = GPS.letter in kinds or SBAS.letter in kinds
    legacy = [LEGACY] * of_legacy + [LEGACY_GLONASS] * (with_1012 and GLONASS.letter in kinds)
    return {*legacy, *(number_of(BY_LETTER[it], kind) for it, kind in kinds.items())}


# ---------------------------------------------------------------- kinds and codes


def told_time(message: Message) -> int:
    """The time of week that a clock tells. In GLONASS the unknown day is Sunday, and a leap second is the first one of the next day."""
    if letter_of(message) != GLONASS.letter:
        return message.header["tow"]
    day, time_of_day = glonass_parts(message.header["tow"])
    return (DAY_MS * day + time_of_day) % WEEK_MS


def epochs_with_value(messages: Iterable[Message], number: int) -> int:
    """How many epochs of a number have a value, where its time changes."""
    return len(list(groupby(told_time(it) for it in messages if it.header["number"] == number and names_in(it))))


def kind_of(links: list[list[Message]], letter: str) -> int | None:
    """The kind of MSM with most epochs with a value on one of the links, of two alike the greater; nothing if there is none."""
    system = BY_LETTER[letter]
    epochs = {kind: max((epochs_with_value(link, number_of(system, kind)) for link in links), default=0) for kind in KINDS}
    return max(KINDS, key=lambda kind: (epochs[kind], kind)) if any(epochs.values()) else None


def names_shown(messages: Iterable[Message], numbers: set[int]) -> list[str]:
    """The codes with a value in messages of these numbers, in the order of a file."""
    found = {name for it in messages if it.header["number"] in numbers for name in names_in(it)}
    return [it for it in NAMES if it in found]


# ---------------------------------------------------------------- clocks


# pins: compared_systems, kinds_in_order, times_chains, timing_before, is_glonass_system, has_gps_messages
def total_offsets(captures: list[Sent], date: Date) -> Offsets:
    """How often each clock is ahead by each offset, in all captures."""
    totals: Offsets = {letter: Counter() for letter in LETTERS}
    for capture in captures:
        for letter, counted in offsets_of(capture.messages, date).items():
            totals[letter].update(counted)
    return totals


def right_leap_seconds(captures: list[Sent], first: int, last: int, date: Date) -> int | None:
    """The leap seconds by which GLONASS, which is off everywhere by the same whole seconds, is right; nothing if it is not so, if the
    table has a row between the first and the last epoch, and if a 1013 tells others."""
    offsets = [offsets_of(it.messages, date)[GLONASS.letter] for it in captures]
    told = {told_offset(it) if is_wrong(it) else None for it in offsets if it}
    ahead = told.pop() if len(told) == 1 else None
    if ahead is None or ahead % 1000 or any(first < row <= last for row, _ in LEAP_ROWS):
        return None
    leap = leap_seconds_at(date.near) - signed(ahead) // 1000
    others = {it for capture in captures for it in capture.leap_seconds} - {leap, NOT_TOLD}
    return leap if 0 <= leap <= MOST_LEAP_SECONDS and not others else None


def leap_of(captures: list[Sent], span: tuple[int, int], near: int, wanted: Wanted) -> int | None:
    """The leap seconds that are given, or those by which GLONASS is right; nothing if the table has them."""
    if wanted.leap is not None or GLONASS.letter not in wanted.letters:
        return wanted.leap
    date = Date(near)
    is_off = is_wrong(total_offsets(captures, date)[GLONASS.letter])
    return right_leap_seconds(captures, *span, date) if is_off else None


# ---------------------------------------------------------------- all of it


def slots_shown(messages: Iterable[Message], numbers: set[int]) -> list[int]:
    """The slots of GLONASS with a value, also of a code that is not listed: `convert` reports the slots of its messages without
    looking at their codes."""
    taken = [it for it in messages if it.header["number"] in numbers and letter_of(it) == GLONASS.letter]
    return [int(satellite[1:]) for it in taken for satellite, _ in shown_in(it)]


# pins: flag_of, in_both, flags_listed, dating_among
def names_chosen(messages: list[Message], numbers: set[int], letters: Iterable[str], wanted: Wanted) -> tuple[str, ...]:
    """The codes that are named, or else those of these systems that have a value, in the order of a file."""
    shown = (it for it in names_shown(messages, numbers) if letter_of_name(it) in letters)
    return tuple(sorted(wanted.names or shown, key=lambda it: LETTERS.index(letter_of_name(it))))


class Allowed(NamedTuple):
    """The first and the last epoch of captures, the moment near which they are dated, and whether 1012 may be converted."""

    span: tuple[int, int]
    near: int
    with_1012: bool


def choose(captures: list[Sent], links: list[list[int]], orbits: list[tuple[int, int]], allowed: Allowed, wanted: Wanted) -> Chosen:
    """What is converted of these captures, whose places the links have. The slots and channels of 1020 name no station, so those of
    captures that are left out count too."""
    span, near, with_1012 = allowed
    messages = [it for capture in captures for it in capture.messages]
    of_links = [[it for at in link for it in captures[at].messages] for link in links]
    leap = leap_of(captures, span, near, wanted)
    offsets = total_offsets(captures, Date(near, leap))
    compared = [it for it in wanted.letters if it != GPS.letter]
    wrong = "".join(it for it in compared if wanted.names is None and is_wrong(offsets[it]))
    letters = [it for it in wanted.letters if it not in wrong]
    kinds = {it: wanted.msm or kind_of(of_links, it) or DEFAULT_KIND for it in letters}
    names = names_chosen(messages, numbers_of(kinds, with_1012), letters, wanted)
    kinds = {it: kind for it, kind in kinds.items() if it in map(letter_of_name, names)}
    lines = [line for it in compared for line in offset_lines(it, offsets[it])]
    alone = unchecked(messages, kinds, offsets)
    chosen = Chosen(names, kinds, None, leap, lines, wrong, "".join(alone), False)
    if GLONASS.letter not in kinds:
        return chosen
    chosen = chosen._replace(with_1012=with_1012 and any(has_value_of_1012(it) for it in messages))
    return chosen._replace(slots=slots_chosen(messages, orbits, chosen, wanted))


def has_value_of_1012(message: Message) -> bool:
    return message.header["number"] == LEGACY_GLONASS and bool(names_in(message))


# pins: is_slot_in, IsToldChannel, channel_fields
def slots_chosen(messages: list[Message], orbits: list[tuple[int, int]], chosen: Chosen, wanted: Wanted) -> Slots:
    """The channels of GLONASS."""
    shown = slots_shown(messages, chosen.numbers)
    return slots_of(shown, told_by(messages), told_by_orbits(orbits), wanted.channels)
