"""The slow model: the frequency channels of GLONASS that messages tell, and what is taken of them."""

from __future__ import annotations

from collections import Counter
from typing import Iterable, NamedTuple, Optional

from messages import set_bits
from msm import LEGACY_GLONASS, letter_of
from systems import GLONASS
from wire import BitReader, Message, paired

ORBIT, ORBIT_BITS = 1020, 360
TELLS_NONE = 15  # the field of an MSM that tells no channel
LAST_FIELD = 20  # that of the greatest channel, +13, which messages can tell
LAST_CHANNEL = 6  # the greatest one that a file can have
MOST_ALIKE = 2  # so many slots may have one channel, on opposite sides of their orbit
LAST_OF_ORBITS = 24  # the slots from here on are of spare satellites

Told = dict[int, "Counter[int]"]  # by slots, how often each channel is told


def told_of_rows(message: Message) -> list[tuple[int, int]]:
    """The slots of 1 to 27 of a message of GLONASS, each with the channel that its entry tells, if it tells one. Of entries of a 1012
    with one slot the first one counts, which alone gives cells."""
    if message.header["number"] == LEGACY_GLONASS:
        told = [*{row["slot"]: row["channel"] for row in message.satellites[::-1]}.items()]
    else:
        rows = paired(set_bits(message.header["satellite_mask"], 64), message.satellites)
        told = [(slot, row["extended"]) for slot, row in rows if row.get("extended", TELLS_NONE) != TELLS_NONE]
    return [(slot, field - 7) for slot, field in told if GLONASS.name(slot) and field <= LAST_FIELD]


def phase_channels(message: Message) -> dict[int, int]:
    """A channel of each slot, on which phases of a message of GLONASS are counted: the one that it tells, else 0. Whether it gives a
    phase depends on no channel."""
    told = dict(told_of_rows(message)) if letter_of(message) == GLONASS.letter else {}
    return {slot: told[slot] if slot in told and told[slot] <= LAST_CHANNEL else 0 for slot in range(1, 28)}


def told_by(messages: Iterable[Message]) -> Told:
    """The channels that observations of GLONASS tell."""
    told: Told = {}
    for message in messages:
        if letter_of(message) == GLONASS.letter:
            for slot, channel in told_of_rows(message):
                told.setdefault(slot, Counter())[channel] += 1
    return told


def orbit_of(payload: bytes) -> tuple[int, int] | None:
    """The slot and the channel of a 1020, if it tells one."""
    bits = BitReader(payload)
    if 8 * len(payload) < ORBIT_BITS or bits.take(12) != ORBIT:
        return None
    slot, field = bits.take(6), bits.take(5)
    return (slot, field - 7) if GLONASS.name(slot) and field <= LAST_FIELD else None


def told_by_orbits(orbits: Iterable[tuple[int, int]]) -> Told:
    told: Told = {}
    for slot, channel in orbits:
        told.setdefault(slot, Counter())[channel] += 1
    return told


def most_told(counted: Counter[int]) -> int | None:
    """The channel that is told most often, of those that a file can have, and of two alike the lesser."""
    return min((it for it in counted if it <= LAST_CHANNEL), key=lambda channel: (-counted[channel], channel), default=None)


class Slots(NamedTuple):
    """The channels of slots, and what is told of them: the slots whose channel a 1020 tells, those without one, those with several,
    those that are alike, and those of which observations tell others than the one that is given."""

    channels: dict[int, int]
    by_orbits: list[int]
    without: list[int]
    several: dict[int, list[int]]
    alike: dict[int, list[int]]
    others: dict[int, list[int]]


def alike_of(told: dict[int, Optional[int]]) -> dict[int, list[int]]:
    """The channels of more than two slots, with these slots."""
    slots = {channel: [slot for slot, its in sorted(told.items()) if its == channel and slot <= LAST_OF_ORBITS] for channel in range(-7, 7)}
    return {channel: its for channel, its in slots.items() if len(its) > MOST_ALIKE}


def slots_of(shown: Iterable[int], by_rows: Told, by_orbits: Told, given: Optional[dict[int, int]]) -> Slots:
    """What is found of the slots that have a cell: a given channel, else that of most entries of observations, else that of most 1020.
    Of slots that are alike by observations a 1020 goes before these."""
    shown = sorted(set(shown))
    nothing: Counter[int] = Counter()
    own = {slot: most_told(by_rows.get(slot, nothing)) for slot in shown}
    alike = alike_of(own)
    doubted = {slot for its in alike.values() for slot in its}
    channels, from_orbits = dict(given or {}), []
    for slot in (it for it in shown if it not in channels):
        channel = own[slot]
        of_orbit = most_told(by_orbits.get(slot, nothing))
        is_by_orbit = of_orbit is not None and (channel is None or slot in doubted)
        found = of_orbit if is_by_orbit else channel
        from_orbits += [slot] * is_by_orbit
        if found is not None:
            channels[slot] = found
    listed = {slot: {*by_rows.get(slot, nothing)} for slot in shown}
    for slot in shown:
        listed[slot] |= {*by_orbits.get(slot, nothing)} if own[slot] is None or slot in doubted else set()
    several = {slot: sorted(its) for slot, its in listed.items() if len(its) > 1}
    others = {slot: sorted(by_rows[slot]) for slot, its in listed.items() if slot in by_rows and channels.get(slot, min(its)) not in its}
    return Slots(channels, from_orbits, [slot for slot in shown if slot not in channels], several, alike, others)
