"""The slow model of several systems, fifth part: the lines of a mixed file, and the file of some messages."""

from __future__ import annotations

from dataclasses import dataclass, field
from typing import Iterable, Mapping, NamedTuple

from clocks import leap_seconds_at, moment_of
from messages import Cell, Refusal, fixed
from mixed_cells import Channels, all_cells
from model import Step, civil, columns_of, epoch_line, observation, step
from msm import read_any, type_of
from systems import BY_LETTER, INDEX, LETTERS, TYPES
from wire import Fields

TYPES_IN_A_LINE = 13
SLOTS_IN_A_LINE = 8


@dataclass(frozen=True)
class MixedSetup:
    """What a mixed file is made with; times in ms of GPS time."""

    near: int
    made: int
    marker: str
    codes: Mapping[str, tuple[str, ...]]  # by the letters of the systems
    channels: Channels = field(default_factory=dict)
    leap: int | None = None
    station: int = 1
    doppler: bool = False

    @property
    def letters(self) -> str:
        """The systems in the order of the file."""
        return "".join(letter for letter in LETTERS if self.codes.get(letter))


def header_line(text: str, label: str) -> str:
    assert len(text) <= 60 and len(label) <= 20
    return f"{text:60}{label:20}"


def types_lines(letter: str, codes: Iterable[str], doppler: bool = False) -> list[str]:
    """The types of a system: range, phase, perhaps Doppler, and strength of each code, thirteen on a line."""
    types = [kind + code for code in codes for kind in ("CLDS" if doppler else "CLS")]
    begins = [f"{letter}  {len(types):3}"] + [" " * 6] * len(types)
    rows = [types[at : at + TYPES_IN_A_LINE] for at in range(0, len(types), TYPES_IN_A_LINE)]
    return [begin + "".join(f" {it}" for it in row) for begin, row in zip(begins, rows)]


def slots_lines(channels: Channels) -> list[str]:
    """The slots of GLONASS with their channels, eight on a line."""
    words = [f"R{slot:02} {channels[slot]:2} " for slot in sorted(channels)]
    rows = [words[at : at + SLOTS_IN_A_LINE] for at in range(0, max(1, len(words)), SLOTS_IN_A_LINE)]
    return [(f"{len(words):3} " if at == 0 else " " * 4) + "".join(row) for at, row in enumerate(rows)]


def time_columns(time: int) -> str:
    date = "".join(f"{part:6}" for part in civil(time).timetuple()[:5])
    return f"{date}{fixed(time % 60_000, 3) + '0000':>13}     GPS"


def mixed_header(setup: MixedSetup, first: int, leap: int, stations: Mapping[int, Fields] | None = None) -> list[str]:
    """The lines of a header: what 1005 and 1006 tell of the station, and the leap seconds of the first record."""
    stations = stations or {}
    letters = setup.letters
    place = stations.get(1006, stations.get(1005, {}))
    heights = [stations.get(1006, {}).get("height", 0), 0, 0]
    lines = [
        (f"{'3.05':>9}{'':11}{'OBSERVATION DATA':20}{letters if len(letters) == 1 else 'M'}", "RINEX VERSION / TYPE"),
        (f"{'rtcm2rinex':40}{civil(setup.made):%Y%m%d %H%M%S} UTC", "PGM / RUN BY / DATE"),
        (setup.marker, "MARKER NAME"),
        ("GEODETIC", "MARKER TYPE"),
        *[("", label) for label in ("OBSERVER / AGENCY", "REC # / TYPE / VERS", "ANT # / TYPE")],
        ("".join(f"{fixed(place.get(axis, 0), 4):>14}" for axis in "xyz"), "APPROX POSITION XYZ"),
        ("".join(f"{fixed(height, 4):>14}" for height in heights), "ANTENNA: DELTA H/E/N"),
    ]
    for letter in letters:
        lines += [(line, "SYS / # / OBS TYPES") for line in types_lines(letter, setup.codes[letter], setup.doppler)]
    lines += [("DBHZ", "SIGNAL STRENGTH UNIT"), (time_columns(first), "TIME OF FIRST OBS")]
    lines += [(letter, "SYS / PHASE SHIFT") for letter in letters]
    if "R" in letters:
        lines += [(line, "GLONASS SLOT / FRQ #") for line in slots_lines(setup.channels)]
        lines += [("", "GLONASS COD/PHS/BIS"), (f"{leap:6}", "LEAP SECONDS")]
    return [header_line(text, label) for text, label in [*lines, ("", "END OF HEADER")]]


class Shown(NamedTuple):
    """What a line shows of a code: thousandths, and the loss-of-lock digit; a file without Doppler shows none."""

    range: int | None
    phase: int | None
    strength: int | None
    digit: str = " "
    doppler: int | None = None

    def columns(self, with_doppler: bool) -> str:
        """C, L, perhaps D, and S."""
        plain = columns_of(self.range, self.phase, self.strength, self.digit)
        return plain[:32] + observation(self.doppler, "  ") * with_doppler + plain[32:]


def satellite_line(name: str, codes: Iterable[str], shown: Mapping[str, Shown], doppler: bool = False) -> str | None:
    """The line of a satellite, as wide as the types of its system; nothing if no code has a value."""
    nothing = Shown(None, None, None)
    line = "".join(shown.get(code, nothing).columns(doppler) for code in codes)
    return f"{name}{line}".rstrip() if line.strip() else None


Epoch = Mapping[str, Mapping[str, Shown]]  # by satellites and their codes


def record(setup: MixedSetup, time: int, epoch: Epoch) -> list[str]:
    """The lines of an epoch, none if no satellite has a value."""
    names = sorted((name for name in epoch if setup.codes.get(name[0])), key=INDEX.__getitem__)
    made = [satellite_line(name, setup.codes[name[0]], epoch[name], setup.doppler) for name in names]
    lines = [line for line in made if line is not None]
    return [epoch_line(time, len(lines)), *lines] if lines else []


class Digits:
    """The loss of lock of each phase of a satellite and a code."""

    def __init__(self) -> None:
        self.last: dict[tuple[str, str], Step] = {}

    def shown(self, time: int, name: str, code: str, cell: Cell) -> Shown:
        """What a line shows of the cell, which follows those of the epochs before."""
        if cell.phase is None:
            return Shown(cell.range, None, cell.strength, doppler=cell.doppler)
        slip, rolls = step(self.last.get((name, code)), time, cell, code)
        self.last[name, code] = Step(time, cell, rolls)
        digit = str(slip + 2 * cell.half) if slip or cell.half else " "
        return Shown(cell.range, cell.phase + 1_500_000 * rolls, cell.strength, digit, cell.doppler)


def taken_cells(setup: MixedSetup, payloads: Iterable[bytes]) -> dict[int, dict[str, dict[str, Cell]]]:
    """Of the station's MSM of the listed systems the cells of listed codes, by epochs, satellites and codes: the first of each."""
    numbers = frozenset(number for number, (system, _) in TYPES.items() if system.letter in setup.letters)
    epochs: dict[int, dict[str, dict[str, Cell]]] = {}
    for payload in payloads:
        message = read_any(payload, numbers)
        if isinstance(message, Refusal) or message.header["number"] not in numbers or message.header["station"] != setup.station:
            continue
        system, _ = type_of(message)
        time = moment_of(system, message.header["tow"], setup.near, setup.leap)
        epoch = epochs.setdefault(time, {})
        for name, code, cell in all_cells(message, setup.channels, setup.doppler):
            if code in setup.codes[system.letter]:
                epoch.setdefault(name, {}).setdefault(code, cell)
    return epochs


def records_of(setup: MixedSetup, epochs: Mapping[int, Mapping[str, Mapping[str, Cell]]]) -> dict[int, list[str]]:
    """The lines of each epoch that has some, from its cells of listed codes by satellites and codes."""
    digits = Digits()
    records = {}
    for time, epoch in sorted(epochs.items()):
        shown = {
            name: {code: digits.shown(time, name, code, cell) for code, cell in cells.items()}
            for name, cells in epoch.items()
        }
        records[time] = record(setup, time, shown)
    return {time: lines for time, lines in records.items() if lines}


def text_of(setup: MixedSetup, records: Mapping[int, list[str]], stations: Mapping[int, Fields] | None = None) -> str:
    """The file of these records: the leap seconds of its header are those of the first one."""
    first = min(records, default=setup.near)
    leap = leap_seconds_at(first) if setup.leap is None else setup.leap
    lines = mixed_header(setup, first, leap, stations) + [line for lines in records.values() for line in lines]
    return "".join(f"{line}\n" for line in lines)


def mixed_file(setup: MixedSetup, payloads: Iterable[bytes]) -> str:
    """The file of MSM that come in time, whatever their order."""
    return text_of(setup, records_of(setup, taken_cells(setup, payloads)))


def listed(names: str) -> dict[str, tuple[str, ...]]:
    """The codes of a list, by the letters of their systems: a name of two characters is of GPS."""
    codes: dict[str, tuple[str, ...]] = {}
    for name in names.split(","):
        letter, code = (name[0], name[1:]) if len(name) == 3 else ("G", name)
        assert code in BY_LETTER[letter].codes, name
        codes[letter] = (*codes.get(letter, ()), code)
    return codes
