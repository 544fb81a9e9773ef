"""Systems of satellites, by the letters that RINEX gives them: the codes, the kinds of MSM and the channels of a row, in the words of
`convert`."""

from __future__ import annotations

import re
from typing import Dict, Mapping, Optional, Sequence

LETTERS = "GRECJSI"  # GPS, GLONASS, Galileo, BeiDou, QZSS, SBAS, NavIC, in the order of a file
GPS, GLONASS, MIXED = "G", "R", "M"
TYPES = tuple(f"{it}O" for it in LETTERS + MIXED)  # of data, in the names of files
MOST_CODES = 16  # of a system
CODE = rf"[{LETTERS}]?[0-9][A-Z]"
DEFAULT_KIND = "4"  # of MSM, if no word says another one
KINDS = rf"[4-7](?:,([{LETTERS}])[4-7](?!.*,\1))*"  # one for all systems, and an exception for a system at most
NO_KINDS = "not like 7 or 7,E4,C4, with kinds from 4 to 7 and each system once"
SLOT = r"([1-9]|1[0-9]|2[0-7]):(?:-[1-7]|[0-6])"
WITH_1012 = "with-1012"  # the word of a row that takes GLONASS of 1012 too
NO_CHANNELS, AUTO = "none", "auto"  # in place of channels: there are none, or captures tell them


def system_of(code: str) -> str:
    """The system of a code: one of GPS has two characters, and another one begins with the letter of its system."""
    return code[0] if len(code) == 3 else GPS


def systems_of(codes: Sequence[str]) -> str:
    """The systems of these codes, in the order of a file."""
    found = set(map(system_of, codes))
    return "".join(it for it in LETTERS if it in found)


def type_of_data(codes: Sequence[str]) -> str:
    """The type of data that the name of a file with these codes has: that of their system, or MO of several ones."""
    systems = systems_of(codes)
    return f"{systems if len(systems) == 1 else MIXED}O"


def kinds_of(words: str, codes: Sequence[str]) -> Dict[str, str]:
    """The kind of MSM of each system of these codes, by words like 7,E4: one for all, and exceptions."""
    every, *exceptions = words.split(",")
    others = {it[0]: it[1] for it in exceptions}
    return {it: others.get(it, every) for it in systems_of(codes)}


def words_of_kinds(kinds: Mapping[str, str]) -> str:
    """The words of these kinds: that of the first system, and the exceptions. So words that mean the same are the same."""
    every = next(iter(kinds.values()), DEFAULT_KIND)
    return ",".join([every, *(f"{system}{kind}" for system, kind in kinds.items() if kind != every)])


def by_slots(channels: str) -> str:
    """Channels in the order of their slots, so that words that mean the same are the same."""
    if channels in (NO_CHANNELS, AUTO):
        return channels
    return ",".join(sorted(channels.split(","), key=lambda it: int(it.partition(":")[0])))


def channels_of(words: str) -> Dict[int, int]:
    """The channel of each slot, by words like 1:1,9:-6; none of other words."""
    pairs = [it.split(":") for it in words.split(",") if re.fullmatch(SLOT, it)]
    return {int(slot): int(channel) for slot, channel in pairs}


def words_of_channels(channels: Mapping[int, int]) -> str:
    """The words of these channels, in the order of their slots."""
    return ",".join(f"{slot}:{channel}" for slot, channel in sorted(channels.items())) or NO_CHANNELS


def first_twice(words: Sequence[str]) -> str:
    """The first word that stands twice; nothing if none does."""
    return next((it for at, it in enumerate(words) if it in words[:at]), "")


def fault_of_codes(text: str) -> str:
    """What is wrong with codes, but for names that no system has, which the program alone knows."""
    if not re.fullmatch(rf"{CODE}(?:,{CODE})*", text):
        return f"codes {text!r} are not like 1C,2W or 1C,R1C,E5X"
    codes = text.split(",")
    if twice := first_twice(codes):
        return f"codes {text!r} have {twice} twice"
    counts = {it: sum(system_of(code) == it for code in codes) for it in systems_of(codes)}
    many = next((it for it, count in counts.items() if count > MOST_CODES), "")
    return f"codes {text!r} have {counts[many]} of {many}, and a system may have {MOST_CODES}" if many else ""


def fault_of_channels(channels: Optional[str], codes: Sequence[str]) -> str:
    """What is wrong with the word channels= of a row with these codes; nothing if there is no such word."""
    if channels is None:
        return ""
    if GLONASS not in systems_of(codes):
        return f"channels={channels} is there without a code of R"
    words = [] if channels in (NO_CHANNELS, AUTO) else channels.split(",")
    for word in words:
        if not re.fullmatch(SLOT, word):
            return f"channels={channels}: {word!r} is no slot from 1 to 27 with a channel from -7 to 6, like 9:-6"
    twice = first_twice([it.partition(":")[0] for it in words])
    return f"channels={channels} has the slot {twice} twice" if twice else ""
