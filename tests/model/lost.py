"""The slow model of `auto`: what captures have and no file can show."""

from __future__ import annotations

from collections import Counter

from clocks import UNKNOWN_DAY, glonass_parts
from finding import Capture, Found
from messages import Refusal, cells_of, frames_of
from mixed_cells import all_cells, sbas_of_1004
from msm import LEGACY, LEGACY_GLONASS, letter_of, read_frame, system_of
from systems import BY_LETTER, GLONASS, GPS, SBAS, number_of
from wire import Fields, Message


# pins: refused_number_line, numberless_line, refused_lines
def refused_lines(found: Found, texts: list[bytes], names: list[str]) -> list[str]:
    """The frames of each capture that can't be read, by fault and number; without 1012 also MSM of GLONASS that tell no day."""
    lines = []
    for text, name in zip(texts, names):
        read = [read_frame(it.payload) for it in frames_of(text)]
        refused = Counter((it.fault, 0, it.number or 0) for it in read if isinstance(it, Refusal) and it.fault != "M2")
        if not found.chosen.with_1012:
            numbers = [it.header["number"] for it in read if isinstance(it, Message) and has_no_day(it)]
            refused.update(("M4", 1, it) for it in numbers if it in found.chosen.numbers)
        lines += [f" refused {fault} {number or '-'} {refused[fault, at, number]} in {name}" for fault, at, number in sorted(refused)]
    return lines


def has_no_day(message: Message) -> bool:
    """Whether it is an MSM of GLONASS whose day is unknown."""
    is_msm = system_of(message) is GLONASS and message.header["number"] != LEGACY_GLONASS
    return is_msm and glonass_parts(message.header["tow"])[0] == UNKNOWN_DAY


# pins: is_nameless_id, has_value_on_l2, is_nameless_slot, cells_sent_by_four, has_cells_left, nameless_beside_msm, nameless_words, nameless_line
def nameless_lines(found: Found, messages: list[Message]) -> list[str]:
    """How many messages of each system that is converted have cells of a satellite or a signal that has no name. A satellite of a 1004
    that is neither of GPS nor of SBAS counts as GPS, or as SBAS if GPS is not converted."""
    lines, letters = [], found.chosen.letters
    legacy = {GPS.letter if GPS.letter in letters else SBAS.letter: LEGACY}
    legacy |= {GLONASS.letter: LEGACY_GLONASS} if found.chosen.with_1012 else {}
    for letter in letters:
        numbers = {number_of(BY_LETTER[letter], found.chosen.kinds[letter]), legacy.get(letter)}
        count = sum(it.header["number"] in numbers and has_nameless(it) for it in messages)
        lines += [f" without-name {letter} {count}"] * (count > 0)
    return lines


def has_nameless(message: Message) -> bool:
    number = message.header["number"]
    if number == LEGACY:
        return any(not 1 <= row["satellite"] <= 32 and sbas_of_1004(row) is None for row in message.satellites)
    if number == LEGACY_GLONASS:
        return any(GLONASS.name(row["slot"]) is None or (row["l2_code"] > 1 and has_l2(row)) for row in message.satellites)
    named = cells_of(message) if letter_of(message) == GPS.letter else all_cells(message, {})
    return len(named) < len(message.cells)


def has_l2(row: Fields) -> bool:
    """Whether an entry of a 1012 has a range, a phase or a strength of L2."""
    return row["l2_range"] != -(2**13) or row["l2_offset"] != -(2**19) or row["l2_cnr"] != 0


# pins: are_other, other_position_line
def position_lines(found: Found, captures: list[Capture], names: list[str]) -> list[str]:
    """The captures that tell another position than the first one, in the order of the links."""
    told = [it.positions(found.station) for it in captures]
    first = next((point for link in found.links for at in link for point in told[at]), None)
    return [f" other-position {name}" for points, name in zip(told, names) if {*points} - {first}]
