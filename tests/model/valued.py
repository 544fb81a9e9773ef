"""The slow model: of which satellites and codes a message tells a value, which is a range, a phase or a strength."""

from __future__ import annotations

from functools import lru_cache

from channels import phase_channels
from messages import Cell, cells_of
from mixed_cells import MixedCell, all_cells, cells_of_1004, cells_of_1012
from msm import LEGACY, LEGACY_GLONASS, system_of
from systems import GPS, SYSTEMS
from wire import Message


def has_value(cell: Cell) -> bool:
    return (cell.range, cell.phase, cell.strength) != (None, None, None)


def cells_in(message: Message) -> list[MixedCell]:
    """The cells of observations, none of a message of the station. A phase of GLONASS counts on any channel."""
    system, number = system_of(message), message.header["number"]
    if system is None:
        return []
    if number == LEGACY:
        return cells_of_1004(message, True)
    if system is GPS:
        return [(f"G{satellite:02}", code, cell) for satellite, code, cell in cells_of(message)]
    channels = phase_channels(message)
    return cells_of_1012(message, channels) if number == LEGACY_GLONASS else all_cells(message, channels)


@lru_cache(10_000)
def shown_in(message: Message) -> list[tuple[str, str]]:
    """The satellites and codes with a value."""
    return [(satellite, code) for satellite, code, cell in cells_in(message) if has_value(cell)]


def name_of_code(letter: str, code: str) -> str:
    """A code as lists have it: without the letter of its system if that is GPS."""
    return code if letter == GPS.letter else letter + code


def names_in(message: Message) -> set[str]:
    """The names of the codes that have a value."""
    return {name_of_code(satellite[0], code) for satellite, code in shown_in(message)}


# The names of all codes in the order of a file.
NAMES = [name_of_code(system.letter, code) for system in SYSTEMS for code in system.codes]


def letter_of_name(name: str) -> str:
    """The letter of the system of a code of a list."""
    return name[0] if len(name) == 3 else GPS.letter
