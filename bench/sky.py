"""Captures of any length: what a station receives of satellites that rise and set. Ranges change smoothly, phases slip now and
then, lock times grow. The same seed gives the same captures. Whole rows and columns are packed at once: `payload_of` packs field by
field, which takes several times as long."""

from __future__ import annotations

from bisect import bisect_right
from collections.abc import Iterator
from functools import cached_property, lru_cache
from math import sin
from operator import and_, lshift
from random import Random
from typing import NamedTuple

from clocks import clock_of
from messages import COARSE, FINE, FINE_LOCK_TIMES, LIGHT, legacy_lock_time, msm_lock_time
from model import moment
from station import header, mask
from systems import BY_LETTER, TYPES, carrier, number_of
from wire import HEADERS, LEGACY_SATELLITE, MSM_CELL, MSM_SATELLITE, WEEK_MS, BitWriter, Table, frame_of

METRES = LIGHT / 1000  # a millisecond of light
# ms from one rise of a satellite to the next, and how many of these it is up: of 32 satellites 10 to 12 are
PERIOD, PASS = 43_082_000, 14_400_000
BETWEEN_SLIPS = 7_200_000  # ms, the mean
UNLOCKED = 10_000  # ms after a rise in which L2 has no values yet
HALF_CYCLES = 3_000  # ms of lock in which half a cycle may be missing

# Of each system how many satellites rise, and its two codes. Those of GPS are as a 1004 tells them.
HEARD = {"G": (32, ("1C", "2W")), "R": (24, ("1C", "2P")), "E": (30, ("1C", "7Q")), "C": (35, ("2I", "7I"))}
SIGNALS = {letter: tuple(BY_LETTER[letter].signals[it] for it in codes) for letter, (_, codes) in HEARD.items()}
CHANNELS = {slot: 5 * slot % 14 - 7 for slot in range(1, 25)}  # of GLONASS
WEEK = moment("2024-05-12T00:00:00")  # in which all times lie
SEVERAL = "".join(HEARD)  # the letters of the systems

LEGACY_TIMES = [legacy_lock_time(it) for it in range(128)]
COARSE_TIMES = [msm_lock_time(it) for it in range(16)]
FINE_TIMES = FINE_LOCK_TIMES[:705]  # the others are reserved


class Cell(NamedTuple):
    """Of a satellite and band."""

    range: float  # m
    phase: float  # m
    lock: int  # ms since the last slip
    strength: float  # dB-Hz


class Heard(NamedTuple):
    """A satellite, how many m its range grows in a second, and its cells: L1, and L2 if it is locked."""

    satellite: int
    rate: float
    cells: list[Cell]


def step_of(times: list[int], lock: int) -> int:
    """The lock time indicator: the last one whose least lock time has passed."""
    return bisect_right(times, lock) - 1


class Packer:
    """Rows of a table as numbers."""

    def __init__(self, fields: Table) -> None:
        self.masks = [(1 << entry.width) - 1 for entry in fields]
        self.width = sum(entry.width for entry in fields)
        self.shifts = [sum(it.width for it in fields[at + 1 :]) for at in range(len(fields))]

    def number(self, *values: int) -> int:
        return sum(map(lshift, map(and_, values, self.masks), self.shifts))


LEGACY = Packer(LEGACY_SATELLITE)
NO_L2 = (-8192, -524_288, 0, 0)


def legacy_row(it: Heard) -> int:
    first = it.cells[0]
    whole, rest = divmod(first.range, METRES)
    l1_range = int(rest / 0.02)
    length = whole * METRES + l1_range * 0.02

    def offset(cell: Cell) -> int:
        return round((cell.phase - length) / 0.0005)

    l2 = NO_L2
    if len(it.cells) > 1:
        last = it.cells[1]
        l2_range = round((last.range - length) / 0.02)
        l2 = l2_range, offset(last), step_of(LEGACY_TIMES, last.lock), round(4 * last.strength)
    lock, strength = step_of(LEGACY_TIMES, first.lock), round(4 * first.strength)
    return LEGACY.number(it.satellite, 0, l1_range, offset(first), lock, int(whole), strength, 3, *l2)


def like(number: int) -> int:
    """The MSM of GPS that has the same fields."""
    return number if number == 1004 else 1070 + number % 10


def satellite_row(it: Heard, number: int) -> tuple[int, ...]:
    """The whole ms of the rough range and its 1024th parts; in an MSM that has them, with the extended information, which is a
    channel, and the rough rate."""
    whole, part = divmod(round(it.cells[0].range / METRES * 1024), 1024)
    extended = CHANNELS[it.satellite] + 7 if letter_of(number) == "R" else 0
    return (whole, extended, part, round(it.rate)) if number % 2 else (whole, part)


def letter_of(number: int) -> str:
    return "G" if number == 1004 else TYPES[number][0].letter


def cell_rows(it: Heard, number: int) -> Iterator[tuple[int, ...]]:
    """Of each cell the fine range and phase, the lock time indicator, half a cycle, the strength, and the fine rate."""
    scale, times, strengths = (FINE, FINE_TIMES, 16) if number % 10 >= 6 else (COARSE, COARSE_TIMES, 1)
    range_scale, phase_scale = scale.range_units / METRES, scale.phase_units / METRES
    rough = round(it.cells[0].range / METRES * 1024)
    rough_range, rough_phase = scale.range_units // 1024 * rough, scale.phase_units // 1024 * rough
    rates = (round((it.rate - round(it.rate)) * 10_000),) if number % 2 else ()
    for range, phase, lock, strength in it.cells:
        fine_range, fine_phase = round(range * range_scale) - rough_range, round(phase * phase_scale) - rough_phase
        yield fine_range, fine_phase, step_of(times, lock), lock < HALF_CYCLES, round(strengths * strength), *rates


@lru_cache
def head_of(number: int, satellites: tuple[int, ...], more: int) -> tuple[int, int, int]:
    """The width of a header, its bits at a clock of 0, and how many of them stand after the clock."""
    if number == 1004:
        told = {"synchronous": more, "satellites": len(satellites)}
    else:
        masks = {"satellite_mask": mask(satellites, 64), "signal_mask": mask(SIGNALS[letter_of(number)], 32)}
        told = {"multiple_message": more, **masks}
    fields = HEADERS[like(number)]
    packer = Packer(fields)
    place = [entry.name for entry in fields].index("tow")
    values = header(like(number), **told) | {"number": number}
    return packer.width, packer.number(*values.values()), packer.shifts[place]


def put_columns(bits: BitWriter, fields: Table, rows: list[tuple[int, ...]]) -> None:
    """Each field of all rows before the next field."""
    assert all(len(row) == len(fields) for row in rows)
    for entry, values in zip(fields, zip(*rows)):
        width, most, column = entry.width, (1 << entry.width) - 1, 0
        for value in values:
            column = column << width | value & most
        bits.put(width * len(values), column)


class Epoch:
    """What is heard of a system at a reading of its clock, in the order of the satellites."""

    def __init__(self, clock: int, heard: list[Heard]) -> None:
        self.clock = clock
        self.heard = heard
        self.satellites = tuple(it.satellite for it in heard)

    def begun(self, number: int, more: int = 0) -> BitWriter:
        """A message of which the header is written."""
        width, head, place = head_of(number, self.satellites, more)
        bits = BitWriter()
        bits.put(width, head | self.clock << place)
        return bits

    @cached_property
    def legacy_rows(self) -> list[int]:
        return [legacy_row(it) for it in self.heard]

    def legacy(self, more: int = 0) -> bytes:
        """A frame of a 1004, which says whether more messages of this epoch follow."""
        bits = self.begun(1004, more)
        for row in self.legacy_rows:
            bits.put(LEGACY.width, row)
        return frame_of(bits.to_bytes())

    def msm(self, number: int, more: int = 0) -> bytes:
        """A frame of an MSM, which says whether more messages of this epoch follow."""
        bits = self.begun(number, more)
        for it in self.heard:
            bits.put(2, 0b11 if len(it.cells) > 1 else 0b10)
        put_columns(bits, MSM_SATELLITE[like(number)], [satellite_row(it, number) for it in self.heard])
        put_columns(bits, MSM_CELL[like(number)], [row for it in self.heard for row in cell_rows(it, number)])
        return frame_of(bits.to_bytes())


class Band:
    """The lock of a satellite's band, which begins at its rise and again at each slip."""

    def __init__(self, rng: Random, wave: float) -> None:
        self.rng = rng
        self.wave = wave
        self.start = self.slip = -PERIOD

    def lock(self, ms: int, rise: int) -> int:
        """How long it has lasted, of a satellite that is up."""
        if self.start < rise:
            self.begin(rise)
        if ms >= self.slip:
            self.begin(ms)
        return ms - self.start

    def begin(self, ms: int) -> None:
        self.start = ms
        self.slip = ms + 1 + int(self.rng.expovariate(1 / BETWEEN_SLIPS))
        self.cycles = self.rng.randint(-40, 40) * self.wave


class Sky:
    """The satellites of a system, which rise at different times."""

    def __init__(self, seed: int, letter: str = "G") -> None:
        self.rng = Random(f"sky {seed}" if letter == "G" else f"sky {seed} {letter}")
        count, codes = HEARD[letter]
        places = list(range(count))
        self.rng.shuffle(places)
        self.shifts = [int(PERIOD * (place + self.rng.random()) / count) for place in places]
        carriers = [[carrier(BY_LETTER[letter], code, CHANNELS.get(at + 1)) or 0 for code in codes] for at in range(count)]
        self.bands = [[Band(self.rng, LIGHT / it) for it in both] for both in carriers]
        # of the ionosphere, as multiples of that of the first band
        self.delays = [[(both[0] / it) ** 2 for it in both] for both in carriers]

    def heard(self, ms: int) -> Iterator[Heard]:
        clock = 300 * sin(ms / 4e6)  # of the receiver, in m
        for at, shift in enumerate(self.shifts):
            since = (ms + shift) % PERIOD
            if since < PASS:
                yield self.satellite(at, ms, since, clock)

    def satellite(self, at: int, ms: int, since: int, clock: float) -> Heard:
        """One that rose so many ms ago. Its range and the ionosphere's delay are least in the middle of its pass."""
        place = 2 * since / PASS - 1
        away = place * place
        length = 20.3e6 + 3.4e6 * away + clock
        noise = self.rng.getrandbits(40)
        strength = 50 - 15 * away + (noise >> 32) / 256
        cells = []
        for number, band in enumerate(self.bands[at][: 1 if since < UNLOCKED else 2]):
            lock = band.lock(ms, ms - since)
            delay = (3 + 9 * away) * self.delays[at][number]
            range = length + delay + (noise & 255) / 400
            phase = length - delay + band.cycles + (noise >> 8 & 255) / 60_000
            cells.append(Cell(range, phase, lock, strength - 4 * number))
            noise >>= 16
        return Heard(at + 1, 4 * 3.4e6 * place / (PASS / 1000), cells)


def epochs(seed: int, count: int, first: int, letter: str = "G") -> Iterator[Epoch]:
    """So many epochs, each a second after the one before, from a time of week on."""
    assert first + 1000 * count <= WEEK_MS
    sky = Sky(seed, letter)
    for ms in range(0, 1000 * count, 1000):
        yield Epoch(clock_of(BY_LETTER[letter], WEEK + first + ms), list(sky.heard(ms)))


def words_of(letters: str) -> list[str]:
    """The words of `convert` that list the codes of these systems, and tell the channels that they need."""
    codes = [code if it == "G" else it + code for it in letters for code in HEARD[it][1]]
    return ["--codes", ",".join(codes), *channels_of(letters)]


def channels_of(letters: str) -> list[str]:
    return ["--channels", ",".join(f"{slot}:{it}" for slot, it in CHANNELS.items())] if "R" in letters else []


def together(systems: dict[str, Epoch], kind: int) -> bytes:
    """The frames of one epoch of several systems, an MSM of this kind for each."""
    last = len(systems) - 1
    return b"".join(its.msm(number_of(BY_LETTER[it], kind), int(at < last)) for at, (it, its) in enumerate(systems.items()))
