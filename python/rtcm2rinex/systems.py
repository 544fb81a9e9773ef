"""The satellite systems by their letters, in the order in which a file has them."""

from __future__ import annotations

from typing import Dict, Iterable, List, Mapping, NamedTuple, Sequence, Tuple

GPS, GLONASS = "G", "R"


class System(NamedTuple):
    """The numbers in the names of its satellites, and its codes."""

    numbers: range
    codes: Tuple[str, ...]


def system(first: int, last: int, codes: str) -> System:
    """The system with these satellites and codes."""
    return System(range(first, last + 1), tuple(codes.split()))


SYSTEMS: Dict[str, System] = {
    GPS: system(1, 32, "1C 1P 1W 1S 1L 1X 2C 2D 2P 2W 2S 2L 2X 5I 5Q 5X"),
    GLONASS: system(1, 27, "1C 1P 2C 2P"),
    "E": system(1, 36, "1C 1B 1X 6C 6B 6X 7I 7Q 7X 8I 8Q 8X 5I 5Q 5X"),
    "C": system(1, 63, "2I 2Q 2X 6I 6Q 6X 7I 7Q 7X 5D 5P 5X 7D 1D 1P 1X"),
    "J": system(1, 10, "1C 6S 6L 6X 2S 2L 2X 5I 5Q 5X 1S 1L 1X"),
    "S": system(20, 58, "1C 5I 5Q 5X"),
    "I": system(1, 14, "5A"),
}
# The satellites by their names, each with its place in the order of a record, which counts from 1
PLACES = {name: at for at, name in enumerate((f"{letter}{it:02}" for letter, own in SYSTEMS.items() for it in own.numbers), 1)}

Columns = Mapping[str, Sequence[str]]  # the codes of each system of a file, by the letters of the systems


def names_of(columns: Columns) -> Tuple[str, ...]:
    """The names of these codes, as `convert` takes them: a code of GPS, or the letter of another system and a code of it."""
    return tuple(code if letter == GPS else letter + code for letter, codes in columns.items() for code in codes)


def columns_of(names: Iterable[str]) -> Columns:
    """The codes with these names, by the letters of their systems."""
    columns: Dict[str, List[str]] = {}
    for name in names:
        columns.setdefault(name[0] if len(name) == 3 else GPS, []).append(name[-2:])
    return columns


def count_of_satellites(letters: Iterable[str]) -> int:
    """How many satellites these systems have."""
    return sum(len(SYSTEMS[letter].numbers) for letter in letters)
