"""The slow model, second part: the file and the report of a list of links, by the rules alone.

It keeps all that came and looks back over it; nothing is closed, written early or forgotten.
"""
# refuses: a body of a conversion that is wrong in the same way as its definition, at the values of 12,000 captures

from __future__ import annotations

from collections import Counter
from dataclasses import dataclass
from datetime import datetime, timedelta
from typing import Iterator, NamedTuple, Sequence

from messages import FREQUENCY, LIGHT, Cell, CellOf, Placed, Refusal, cells_of, fixed, read_message, scan
from wire import WEEK_MS, Fields, Message, paired

READ_SIZE = 512
KINDS = ("other", "refused", "foreign", "taken", "repeat", "conflict", "late")
COUNTS = ("frames", *KINDS, "epochs")


@dataclass(frozen=True)
class Setup:
    """The options of a conversion; times in ms of GPS time."""

    station: int
    near: int
    made: int
    marker: str
    codes: tuple[str, ...]
    window: int
    msm: int | None = None

    @property
    def msm_number(self) -> int:
        """The MSM that is taken."""
        return 1070 + (self.msm or 4)

    def words(self) -> list[str]:
        return [
            f"--station={self.station}",
            f"--near={civil(self.near):%Y-%m-%dT%H:%M:%S}",
            f"--made={civil(self.made):%Y-%m-%dT%H:%M:%S}",
            f"--marker={self.marker}",
            f"--codes={','.join(self.codes)}",
            f"--window={self.window}",
            *([] if self.msm is None else [f"--msm={self.msm}"]),
        ]

    def read(self, payload: bytes) -> Message | Refusal:
        """What a payload says."""
        return read_message(payload, (self.msm_number,))

    def time_of(self, message: Message) -> int | None:
        """The moment of observations."""
        tow = message.header.get("tow")
        return None if tow is None else dated(self.near, tow)

    def cells_of(self, message: Message) -> list[CellOf]:
        return cells_of(message)

    def name_of(self, satellite: int) -> str:
        return f"G{satellite:02}"


FIRST_DAY = datetime(1980, 1, 6)
# The carriers in Hz by which rolls of the messages before MSM are counted, by their numbers and by bands. A channel of GLONASS changes
# little, so they are those of channel 0.
ROLLING = {1004: FREQUENCY, 1012: {"1": 1_602_000_000, "2": 1_246_000_000}}


def civil(time: int) -> datetime:
    return FIRST_DAY + timedelta(milliseconds=time)


def moment(text: str) -> int:
    """The time of a reading to the second."""
    return (datetime.fromisoformat(text) - FIRST_DAY) // timedelta(milliseconds=1)


def dated(near: int, tow: int) -> int:
    """The moment with this time of week, from half a week before the reference on."""
    first = near - WEEK_MS // 2
    return first + (tow - first) % WEEK_MS


class Found(NamedTuple):
    """A frame with the number of its link, from 0, and what its payload says."""

    link: int
    frame: Placed
    message: Message | Refusal


class Link:
    """A capture that is read piece by piece."""

    def __init__(self, number: int, text: bytes, setup: Setup) -> None:
        self.number = number
        self.text = text
        self.setup = setup
        self.taken = 0  # bytes that were read
        self.pending = 0  # the place from which they wait for more
        self.newest = -1  # the greatest observation epoch of the station
        self.is_open = True

    def read(self) -> list[Found]:
        """The frames that the next read brings to light; one of no bytes closes the link."""
        piece = self.text[self.taken : self.taken + READ_SIZE]
        self.taken += len(piece)
        self.is_open = piece != b""
        frames, end = scan(self.text[self.pending : self.taken], ended=not self.is_open)
        moved = [Placed(self.pending + frame.place, frame.payload) for frame in frames]
        self.pending += end
        found = [Found(self.number, it, self.setup.read(it.payload)) for it in moved]
        for _, _, message in found:
            self.newest = max(self.newest, self.epoch_of(message))
        return found

    def epoch_of(self, message: Message | Refusal) -> int:
        """-1 if it has none, or isn't of the station."""
        if isinstance(message, Refusal) or message.header["station"] != self.setup.station:
            return -1
        time = self.setup.time_of(message)
        return -1 if time is None else time


def found_frames(setup: Setup, texts: list[bytes]) -> Iterator[Found]:
    """All frames in the order of reading: next comes the open link whose newest epoch is least, and
    of such links the first."""
    links = [Link(number, text, setup) for number, text in enumerate(texts)]
    while any(link.is_open for link in links):
        open_links = [link for link in links if link.is_open]
        yield from min(open_links, key=lambda link: link.newest).read()


CellKey = tuple[int, str, int]  # satellite, code and the message's number


class Judged(NamedTuple):
    """A frame with its class and its lines of the report."""

    found: Found
    kind: str
    lines: list[str]


class Kept:
    """What came in time, the first under each key."""

    def __init__(self, setup: Setup) -> None:
        self.setup = setup
        self.came: set[int] = set()  # all observation epochs, late ones too
        self.stations: dict[int, Fields] = {}
        self.epochs: dict[int, dict[CellKey, Cell]] = {}

    def judge(self, found: Found) -> Judged:
        message = found.message
        link = f"link {found.link + 1}"
        if isinstance(message, Refusal):
            if message.fault == "M2":
                return Judged(found, "other", [])
            return Judged(found, "refused", [f"{link} refused {message}"])
        if message.header["station"] != self.setup.station:
            return Judged(found, "foreign", [])
        time = self.setup.time_of(message)
        kind, told = self._station(message.header) if time is None else self._observation(message, time)
        number = message.header["number"]
        return Judged(found, kind, [f"{link} {case} {number} {rest}" for case, rest in told])

    def is_late(self, epoch: int) -> bool:
        return sum(other > epoch for other in self.came) >= self.setup.window

    def _station(self, header: Fields) -> tuple[str, list[tuple[str, str]]]:
        held = self.stations.get(header["number"])
        if held == header:
            return "repeat", []
        if self.is_late(-1):
            return "late", [("late", "-")]
        if held is not None:
            return "conflict", [("conflict", "-")]
        self.stations[header["number"]] = header
        return "taken", []

    def _observation(self, message: Message, epoch: int) -> tuple[str, list[tuple[str, str]]]:
        time = f"{civil(epoch):%Y-%m-%d %H:%M:%S}.{epoch % 1000:03}"
        is_late = self.is_late(epoch)
        self.came.add(epoch)
        if is_late:
            return "late", [("late", time)]
        is_new = epoch not in self.epochs
        kept = self.epochs.setdefault(epoch, {})
        told = []
        for satellite, code, cell in self.setup.cells_of(message):
            key = (satellite, code, cell.source)
            is_new |= key not in kept
            if kept.setdefault(key, cell) != cell:
                told.append(("conflict", f"{time} {self.setup.name_of(satellite)} {code}"))
        return "taken" if is_new else "conflict" if told else "repeat", told

    def shown_cells(self, epoch: int) -> dict[tuple[int, str], Cell]:
        """One cell for each satellite and code: if an MSM tells it, then the cell of the MSM."""
        rising = sorted(self.epochs[epoch].items(), key=lambda item: item[0][2])
        return {(satellite, code): cell for (satellite, code, _), cell in rising}


class Step(NamedTuple):
    """The last phase of a satellite and a code."""

    epoch: int
    cell: Cell
    rolls: int


def rolls_between(before: Cell, now: Cell, code: str) -> int:
    """By how many times 1500 cycles the phase jumped, as the offset fields tell."""
    if before.offset is None or now.offset is None:
        return 0
    # the change in cycles times c: more than half of 1500 cycles is a jump
    change = (now.offset - before.offset) * ROLLING[now.source][code[0]]
    half = 750 * 2000 * LIGHT
    return -1 if change > half else 1 if change < -half else 0


def step(before: Step | None, epoch: int, cell: Cell, code: str) -> tuple[bool, int]:
    """Whether a phase follows a loss of lock, and its count of rolls."""
    if before is None:
        return False, 0
    shorter = cell.source == before.cell.source and cell.lock_time < before.cell.lock_time
    slip = shorter or cell.lock_time < epoch - before.epoch
    if slip or cell.source not in ROLLING or before.cell.source != cell.source:
        return slip, 0
    return slip, before.rolls + rolls_between(before.cell, cell, code)


def observation(value: int | None, digits: str) -> str:
    """A value in thousandths with its two digits, or blanks."""
    if not value or not -999_999_999_999 <= value <= 9_999_999_999_999:
        return " " * 16
    return f"{fixed(value, 3):>14}{digits}"


def columns_of(value: int | None, phase: int | None, strength: int | None, lli: str) -> str:
    """C, L and S of a code."""
    digit = " " if strength is None else str(min(max(strength // 6000, 1), 9))
    return (
        observation(value, " " + digit)
        + observation(phase, lli + digit)
        + observation(strength, "  ")
    )


def epoch_line(epoch: int, satellites: int) -> str:
    seconds = fixed(epoch % 60_000, 3) + "0000"
    return f"> {civil(epoch):%Y %m %d %H %M}{seconds:>11}  0{satellites:3}"


class Records:
    """The records of epochs, rising."""

    def __init__(self, codes: tuple[str, ...]) -> None:
        self.codes = codes
        self.last: dict[tuple[int, str], Step] = {}

    def record(self, epoch: int, cells: dict[tuple[int, str], Cell]) -> list[str]:
        """The lines of an epoch, none if no satellite has a value."""
        columns = {
            (satellite, code): self._columns(epoch, (satellite, code), cell)
            for (satellite, code), cell in cells.items()
        }
        lines = []
        for satellite in sorted({satellite for satellite, _ in cells}):
            line = "".join(columns.get((satellite, code), " " * 48) for code in self.codes)
            if line.strip():
                lines.append(f"G{satellite:02}{line}".rstrip())
        return [epoch_line(epoch, len(lines)), *lines] if lines else []

    def _columns(self, epoch: int, key: tuple[int, str], cell: Cell) -> str:
        lli, phase = " ", None
        if cell.phase is not None:
            slip, rolls = step(self.last.get(key), epoch, cell, key[1])
            self.last[key] = Step(epoch, cell, rolls)
            phase = cell.phase + 1_500_000 * rolls
            lli = str(slip + 2 * cell.half) if slip or cell.half else " "
        return columns_of(cell.range, phase, cell.strength, lli)


def header(setup: Setup, stations: dict[int, Fields], first: int) -> list[str]:
    """The header's lines."""
    station = stations.get(1006, stations.get(1005, {}))
    position = [station.get(axis, 0) for axis in "xyz"]
    antenna = [stations.get(1006, {}).get("height", 0), 0, 0]
    types = [kind + code for code in setup.codes for kind in "CLS"]
    rows = [types[at : at + 13] for at in range(0, len(types), 13)]
    begins = [f"G  {len(types):3}"] + [" " * 6] * (len(rows) - 1)
    time = civil(first)
    date = "".join(f"{part:6}" for part in time.timetuple()[:5])
    seconds = fixed(first % 60_000, 3) + "0000"
    lines = [
        (f"{'3.05':>9}{'':11}{'OBSERVATION DATA':20}G", "RINEX VERSION / TYPE"),
        (f"{'rtcm2rinex':40}{civil(setup.made):%Y%m%d %H%M%S} UTC", "PGM / RUN BY / DATE"),
        (setup.marker, "MARKER NAME"),
        ("GEODETIC", "MARKER TYPE"),
        ("", "OBSERVER / AGENCY"),
        ("", "REC # / TYPE / VERS"),
        ("", "ANT # / TYPE"),
        ("".join(f"{fixed(value, 4):>14}" for value in position), "APPROX POSITION XYZ"),
        ("".join(f"{fixed(value, 4):>14}" for value in antenna), "ANTENNA: DELTA H/E/N"),
        *(
            (begin + "".join(" " + name for name in row), "SYS / # / OBS TYPES")
            for begin, row in paired(begins, rows)
        ),
        ("DBHZ", "SIGNAL STRENGTH UNIT"),
        (f"{date}{seconds:>13}     GPS", "TIME OF FIRST OBS"),
        ("G", "SYS / PHASE SHIFT"),
        ("", "END OF HEADER"),
    ]
    return [f"{text:60}{label:20}" for text, label in lines]


def report_of(judged: list[Judged], epochs: int, more: Sequence[str] = ()) -> str:
    """A line for what is not taken, frame by frame; these lines; and the counts."""
    counts = Counter(frame.kind for frame in judged)
    counts.update(frames=len(judged), epochs=epochs)
    lines = [line for frame in judged for line in frame.lines]
    lines += more
    return "".join(f"{line}\n" for line in lines + [f"{name} {counts[name]}" for name in COUNTS])


class Conversion(NamedTuple):
    """What `convert` is due to write, and to which end each frame came."""

    file: str
    report: str
    frames: list[Judged]
    epochs: int
    closed: int  # of the epochs, those that nothing can be added to any more


def convert(setup: Setup, texts: list[bytes]) -> Conversion:
    kept = Kept(setup)
    judged = [kept.judge(found) for found in found_frames(setup, texts)]
    records = Records(setup.codes)
    all_records = {
        epoch: records.record(epoch, kept.shown_cells(epoch)) for epoch in sorted(kept.epochs)
    }
    written = {epoch: lines for epoch, lines in all_records.items() if lines}
    lines = header(setup, kept.stations, min(written, default=setup.near))
    lines += [line for record in written.values() for line in record]
    file = "".join(f"{line}\n" for line in lines)
    closed = sum(kept.is_late(epoch) for epoch in written)
    return Conversion(file, report_of(judged, len(written)), judged, len(written), closed)
