"""RINEX files as they are read here: the header by its labels, and the lines of each epoch. The program alone judges a file."""

from __future__ import annotations

import re
import zlib
from collections import Counter
from io import TextIOWrapper
from itertools import islice
from pathlib import Path
from typing import Dict, Iterator, List, NamedTuple, Optional, Set, Tuple

from .captures import opened, pieces_of, sum_of_pieces
from .ends import Again
from .systems import GPS

MOST_HEADER_LINES = 60
KEY = 29  # columns of an epoch's line up to the end of its seconds
CELL, FIRST_CELL = 16, 3  # columns
TYPES = 3  # of a code: range, phase and strength
END_OF_HEADER = rb"(?m)^.{60}END OF HEADER.*\n"
EPOCH = rb"\n>.{12}(..) (..)(.{11})"  # the hour, minute and second of its line, behind the end of the line before, which is found fast
FIELDS = {  # by the options of `label`: the label of the line, and the columns
    "run-by": ("PGM / RUN BY / DATE", 20, 40),
    "marker-number": ("MARKER NUMBER", 0, 20),
    "observer": ("OBSERVER / AGENCY", 0, 20),
    "agency": ("OBSERVER / AGENCY", 20, 60),
    "receiver-number": ("REC # / TYPE / VERS", 0, 20),
    "receiver-type": ("REC # / TYPE / VERS", 20, 40),
    "receiver-version": ("REC # / TYPE / VERS", 40, 60),
    "antenna-number": ("ANT # / TYPE", 0, 20),
    "antenna-type": ("ANT # / TYPE", 20, 40),
    "delta-height": ("ANTENNA: DELTA H/E/N", 0, 14),
    "delta-east": ("ANTENNA: DELTA H/E/N", 14, 28),
    "delta-north": ("ANTENNA: DELTA H/E/N", 28, 42),
}


class Header:
    """What a header says.

    `codes` has the codes of each system by its letter, as `--codes` of `convert` names them. `fields` has what a label fills, by the names
    of the options of `label`. An offset counts only with the sign that `label` gives it, since a station tells its height without one.
    `position` is in metres, and None if it is zeros. `made` is as `--made` takes it.
    """

    def __init__(self) -> None:
        self.marker = ""
        self.made = ""
        self.position: Optional[Tuple[float, ...]] = None
        self.codes: Dict[str, List[str]] = {}
        self.fields: Dict[str, str] = {}

    @property
    def all_codes(self) -> Tuple[str, ...]:
        """The codes of all systems, in the order of the file."""
        return tuple(code for codes in self.codes.values() for code in codes)

    def put_codes(self, line: str) -> None:
        """Adds the codes of a line of types. A line that begins with a blank goes on with the system of the line before."""
        system = line[0] if line[0] != " " else next(reversed(list(self.codes)), GPS)
        names = [word[1:] for word in line[6:60].split() if word[0] == "C"]
        self.codes.setdefault(system, []).extend(names if system == GPS else [system + it for it in names])


def lines_of(path: Path) -> Iterator[str]:
    """The lines of a file, which may be gzipped, and may be whole again at another try."""
    try:
        with TextIOWrapper(opened(path), encoding="latin-1") as file:
            yield from file
    except (EOFError, zlib.error, OSError) as fault:
        if getattr(fault, "errno", None):
            raise
        raise Again(f"can't read {path}: {fault}") from None


def as_far(lines: Iterator[str]) -> Iterator[str]:
    """The same, as far as they can be read."""
    try:
        yield from lines
    except Again:
        return


def read_header(path: Path) -> Header:
    """The header of a file, as far as it can be read."""
    found = Header()
    lines: Dict[str, str] = {}
    for line in as_far(islice(lines_of(path), MOST_HEADER_LINES)):
        label = line[60:].strip()
        lines.setdefault(label, line[:60])
        if label == "SYS / # / OBS TYPES":
            found.put_codes(line)
        if label == "END OF HEADER":
            break
    found.marker = lines.get("MARKER NAME", "").strip()
    if match := re.match(r".{40}(\d{4})(\d\d)(\d\d) (\d\d)(\d\d)(\d\d) UTC", lines.get("PGM / RUN BY / DATE", "")):
        found.made = "{}-{}-{}T{}:{}:{}".format(*match.groups())
    if match := re.match(r" *(-?\d+\.\d{4}) *(-?\d+\.\d{4}) *(-?\d+\.\d{4}) ", lines.get("APPROX POSITION XYZ", "")):
        place = tuple(float(it) for it in match.groups())
        found.position = place if any(place) else None
    for name, (label, begin, end) in FIELDS.items():
        text = lines.get(label, "")[begin:end].strip()
        if text and (not name.startswith("delta") or text[0] in "+-"):
            found.fields[name] = text
    return found


def records_of(path: Path) -> Iterator[str]:
    """The lines behind the header."""
    lines = lines_of(path)
    for line in lines:
        if line[60:73] == "END OF HEADER":
            break
    yield from lines


def epochs_of(path: Path) -> Iterator[Tuple[str, Dict[str, str]]]:
    """Each epoch of a file: its time as its line has it, and the lines of its satellites by their names."""
    key = ""
    satellites: Dict[str, str] = {}
    for line in records_of(path):
        if line[0] == ">":
            if key:
                yield key, satellites
            key, satellites = line[:KEY], {}
        else:
            satellites[line[:FIRST_CELL]] = line
    if key:
        yield key, satellites


def ends_of(path: Path) -> Tuple[str, str]:
    """The times of the first and the last epoch of a file, to the second; nothing if it has none."""
    first = last = ""
    for line in records_of(path):
        if line[0] == ">":
            last = line[2:21]
            first = first or last
    return text_of_key(first), text_of_key(last)


def text_of_key(key: str) -> str:
    """A time of an epoch's line like 2024-05-17T12:00:00."""
    return re.sub(r"(....) (..) (..) (..) (..) (..)", r"\1-\2-\3T\4:\5:\6", key).replace(" ", "0")


def count_epochs(path: Path) -> int:
    """How many epochs the records of a file have, as far as they can be read."""
    return sum(line[0] == ">" for line in as_far(records_of(path)))


def count_values(path: Path) -> int:
    """How many numbers the records of a file have, beside the seconds of their epochs, as far as they can be read."""
    return sum(line.count(".") - (line[0] == ">") for line in as_far(records_of(path)))


def counts_of_systems(path: Path, systems: str) -> Tuple[int, int]:
    """How many epochs have satellites of these systems, and how many numbers these have."""
    epochs = values = 0
    is_new = False
    for line in records_of(path):
        if line[0] == ">":
            is_new = True
        elif line[0] in systems:
            epochs, is_new = epochs + is_new, False
            values += line.count(".")
    return epochs, values


def codes_with_values(path: Path) -> Set[str]:
    """The codes of a file of which at least one satellite has a value."""
    header = read_header(path)
    left = set(header.all_codes)
    for line in records_of(path):
        for rank, code in enumerate(header.codes.get(line[0], [])):
            if code in left and any(cell_of(line, rank).values):
                left.remove(code)
        if not left:
            break
    return set(header.all_codes) - left


class Measure:
    """What one reading of a new file tells: its size and sum, how many numbers its records have, beside the seconds of their epochs, and
    the step from epoch to epoch in ms that is most frequent, the least of several alike; None of fewer than two epochs. All epochs are of
    one day."""

    def __init__(self, path: Path) -> None:
        self.values, self.left, self.has_header = 0, b"", False
        self.times: List[int] = []
        self.sum = sum_of_pieces(self.seen(path))

    def seen(self, path: Path) -> Iterator[bytes]:
        """Looks at the whole lines of each piece, and passes the pieces on."""
        for piece in pieces_of(path):
            lines, end, self.left = (self.left + piece).rpartition(b"\n")
            self.look_at(lines + end)
            yield piece

    def look_at(self, lines: bytes) -> None:
        """Counts in lines, of which a header is in one piece."""
        if not self.has_header:
            header = re.search(END_OF_HEADER, lines)
            lines, self.has_header = lines[header.end():] if header else b"", bool(header)
        times = re.findall(EPOCH, b"\n" + lines)
        self.values += lines.count(b".") - len(times)
        self.times += [(int(hour) * 3600 + int(minute) * 60) * 1000 + round(float(second) * 1000) for hour, minute, second in times]

    @property
    def step(self) -> Optional[int]:
        """The step that is most frequent."""
        counts = Counter(now - last for last, now in zip(self.times, self.times[1:]))
        return min(counts, key=lambda step: (-counts[step], step)) if counts else None


class Cell(NamedTuple):
    """What a line of a satellite has of a code: range, phase and strength as they stand, or nothing, and the loss-of-lock digit of the
    phase (LLI: bit 0 is a slip, bit 1 a half cycle)."""

    values: Tuple[str, str, str]
    lli: str

    @property
    def has_phase(self) -> bool:
        """Whether there is a phase."""
        return bool(self.values[1])

    @property
    def is_slip(self) -> bool:
        """Whether the receiver lost the phase before it."""
        return self.lli in ("1", "3")


def cell_of(line: str, rank: int) -> Cell:
    """The cell of the code with this rank among those of its system in the header, the first one being 0."""
    begins = [FIRST_CELL + CELL * (TYPES * rank + it) for it in range(TYPES)]
    values = [line[at : at + 14] if line[at + 10 : at + 11] == "." else "" for at in begins]
    return Cell((values[0], values[1], values[2]), line[begins[1] + 14 : begins[1] + 15])
