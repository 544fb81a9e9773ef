"""The slow model of several systems, first part: satellites, signals, codes and carriers of each system.

Written from the tables of RTCM 10403.3 and RINEX 3.05 alone; nothing here comes from the crates under test.
"""

from __future__ import annotations

from typing import NamedTuple, Optional


class System(NamedTuple):
    """A system: its letter, the number before that of its MSM1, how many bits of a satellite mask name a satellite, the number
    that bit 1 has in a satellite's name, its codes in their order, each with its signal, and the codes that no MSM has."""

    letter: str
    before_msm1: int
    satellites: int
    first_name: int
    signals: dict[str, Optional[int]]

    @property
    def codes(self) -> tuple[str, ...]:
        return tuple(self.signals)

    def name(self, bit: int) -> str | None:
        """The satellite of a bit of the mask, which is 1 to 64; nothing if it names none."""
        return f"{self.letter}{self.first_name + bit - 1:02}" if 1 <= bit <= self.satellites else None

    def code(self, signal: int) -> str | None:
        """The code of a signal; nothing if no code is the signal's."""
        return next((code for code, its in self.signals.items() if its == signal), None)


def signals(text: str) -> dict[str, Optional[int]]:
    """The codes of a text, each after its signal or a dash."""
    words = text.split()
    return {code: None if signal == "-" else int(signal) for signal, code in zip(words[::2], words[1::2])}


GPS = System("G", 1070, 32, 1, signals(
    "2 1C 3 1P 4 1W 30 1S 31 1L 32 1X 8 2C - 2D 9 2P 10 2W 15 2S 16 2L 17 2X 22 5I 23 5Q 24 5X"))  # fmt: skip
GLONASS = System("R", 1080, 27, 1, signals("2 1C 3 1P 8 2C 9 2P"))
GALILEO = System("E", 1090, 36, 1, signals(
    "2 1C 4 1B 5 1X 8 6C 10 6B 11 6X 14 7I 15 7Q 16 7X 18 8I 19 8Q 20 8X 22 5I 23 5Q 24 5X"))  # fmt: skip
BEIDOU = System("C", 1120, 63, 1, signals(
    "2 2I 3 2Q 4 2X 8 6I 9 6Q 10 6X 14 7I 15 7Q 16 7X 22 5D 23 5P 24 5X 25 7D 30 1D 31 1P 32 1X"))  # fmt: skip
QZSS = System("J", 1110, 10, 1, signals(
    "2 1C 9 6S 10 6L 11 6X 15 2S 16 2L 17 2X 22 5I 23 5Q 24 5X 30 1S 31 1L 32 1X"))  # fmt: skip
SBAS = System("S", 1100, 39, 20, signals("2 1C 22 5I 23 5Q 24 5X"))
NAVIC = System("I", 1130, 14, 1, signals("22 5A"))

# In the order of the lines of a file.
SYSTEMS = (GPS, GLONASS, GALILEO, BEIDOU, QZSS, SBAS, NAVIC)
BY_LETTER = {system.letter: system for system in SYSTEMS}
LETTERS = "".join(BY_LETTER)

# All satellites in the order of the lines of a record, and the place of each, from 1.
SATELLITES = [f"{it.letter}{it.first_name + at:02}" for it in SYSTEMS for at in range(it.satellites)]
INDEX = {name: at for at, name in enumerate(SATELLITES, 1)}

KINDS = (4, 5, 6, 7)


def number_of(system: System, kind: int) -> int:
    """The number of a system's MSM4 to MSM7."""
    return system.before_msm1 + kind


# The system and the kind of each number.
TYPES = {number_of(system, kind): (system, kind) for system in SYSTEMS for kind in KINDS}

# The carriers in Hz, by the band of a code.
CARRIERS = {
    "G": {"1": 1_575_420_000, "2": 1_227_600_000, "5": 1_176_450_000},
    "E": {"1": 1_575_420_000, "5": 1_176_450_000, "6": 1_278_750_000, "7": 1_207_140_000, "8": 1_191_795_000},
    "C": {
        **{"1": 1_575_420_000, "2": 1_561_098_000, "5": 1_176_450_000},
        **{"6": 1_268_520_000, "7": 1_207_140_000},
    },
    "J": {"1": 1_575_420_000, "2": 1_227_600_000, "5": 1_176_450_000, "6": 1_278_750_000},
    "S": {"1": 1_575_420_000, "5": 1_176_450_000},
    "I": {"5": 1_176_450_000},
}
GLONASS_CARRIERS = {"1": (1_602_000_000, 562_500), "2": (1_246_000_000, 437_500)}


def carrier(system: System, code: str, channel: int | None) -> int | None:
    """The carrier of a code in Hz; that of a code of GLONASS depends on the satellite's channel, and is unknown without one."""
    if system is not GLONASS:
        return CARRIERS[system.letter][code[0]]
    first, step = GLONASS_CARRIERS[code[0]]
    return None if channel is None else first + step * channel
