"""Mixed files that chance makes: heads, and records of the satellites of their systems."""

from __future__ import annotations

from random import Random
from typing import NamedTuple

from mixed_files import MixedSetup, Shown, mixed_header, record
from model import civil, moment
from systems import BY_LETTER, GLONASS, LETTERS, SATELLITES

PRINTABLE = [chr(it) for it in range(0x20, 0x7F)]
FIRST_DAY, LAST_MS = 0, moment("2100-12-31T23:59:59") + 999


class MixedTable(NamedTuple):
    """A header's lines and the lines of records."""

    header: list[str]
    records: list[str]

    @property
    def text(self) -> bytes:
        return "".join(f"{line}\n" for line in self.header + self.records).encode()


def some_codes(rng: Random, letters: str) -> dict[str, tuple[str, ...]]:
    """Codes of some of these systems, in any order within a system; of some systems all."""
    codes = {}
    for letter in rng.sample(letters, min(len(letters), rng.choice((1, 1, 2, 2, 3, 4, 5, 7)))):
        known = BY_LETTER[letter].codes
        codes[letter] = tuple(rng.sample(known, rng.choice((1, rng.randint(1, len(known)), len(known)))))
    return codes


def some_channels(rng: Random) -> dict[int, int]:
    """Channels of no slot, of each, or of some; eight, sixteen and twenty-four fill their lines."""
    count = rng.choice((0, 1, 7, 8, 9, 16, 17, 24, 25, 27, rng.randint(0, 27)))
    return {slot: rng.randint(-7, 6) for slot in rng.sample(range(1, 28), count)}


def some_time(rng: Random) -> int:
    return rng.choice((FIRST_DAY, LAST_MS, rng.randint(FIRST_DAY, LAST_MS), moment("2024-05-17T12:00:00") + rng.randrange(10_000)))


def some_setup(rng: Random, letters: str) -> MixedSetup:
    marker = rng.choice(PRINTABLE[1:]) + "".join(rng.choices(PRINTABLE, k=rng.choice((0, 3, 59))))
    made = some_time(rng) // 1000 * 1000
    codes, channels = some_codes(rng, letters), some_channels(rng)
    return MixedSetup(moment("2024-05-17T12:00:00"), made, marker, codes, channels, doppler=rng.random() < 0.3)


def some_header(rng: Random, setup: MixedSetup, first: int) -> list[str]:
    place = {axis: rng.choice((0, -1, -(2**37), 2**37 - 1, rng.randrange(-(2**37), 2**37))) for axis in "xyz"}
    stations = {1006: {**place, "height": rng.choice((0, 65_535, rng.randrange(65_536)))}}
    return mixed_header(setup, first, rng.choice((0, 9, 10, 18, 99)), stations)


def some_shown(rng: Random, may_have_phase: bool) -> Shown:
    value = rng.choice((rng.randint(1, 10**11), -999_999_999_999, 9_999_999_999_999, rng.randint(-(10**6), -1)))
    phase = rng.choice((None, rng.randint(1, 10**12), 9_999_999_999_999)) if may_have_phase else None
    strength = rng.choice((None, 250 * rng.randint(1, 255), 6000, 5750, 54_000))
    digit = rng.choice("  123") if phase is not None else " "
    shift = rng.choice((None, -1, 1, 9_999_999_999_999, rng.randint(-(10**8), 10**8))) if may_have_phase else None
    return Shown(rng.choice((None, value, value)), phase, strength, digit, shift)


def some_epoch(rng: Random, setup: MixedSetup) -> dict[str, dict[str, Shown]]:
    """Values of some satellites of the listed systems; of GLONASS phases where the slot has a channel alone."""
    names = [name for name in SATELLITES if name[0] in setup.codes]
    chosen = rng.sample(names, min(len(names), rng.choice((1, 2, 5, len(names) if rng.random() < 0.1 else 8))))
    epoch = {}
    for name in chosen:
        has_channel = name[0] != GLONASS.letter or int(name[1:]) in setup.channels
        epoch[name] = {code: some_shown(rng, has_channel) for code in setup.codes[name[0]] if rng.random() < 0.8}
    return epoch


def some_table(rng: Random, letters: str = LETTERS) -> MixedTable:
    """A head of these systems and up to four records; most tables have some."""
    setup = some_setup(rng, letters)
    time = min(some_time(rng), LAST_MS - 4000)
    records, first = [], None
    for _ in range(rng.choice((0, 1, 2, 4))):
        lines = record(setup, time, some_epoch(rng, setup))
        if lines:
            first = time if first is None else first
            records += lines
        time += rng.choice((1, 999, 1000))
    assert civil(time)
    return MixedTable(some_header(rng, setup, time if first is None else first), records)
