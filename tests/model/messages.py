"""The slow model, first part: the frames of a text, what a payload says, and its cells.

Each rule is written as it is told and not as a program would do it in one pass.
"""

from __future__ import annotations

from functools import lru_cache
from typing import NamedTuple

from wire import HEADERS, LEGACY_SATELLITE, MSM_CELL, MSM_SATELLITE, MSMS, PREAMBLE, WEEK_MS
from wire import BitReader, Fields, Message, is_frame, ones, paired, size_at


class Placed(NamedTuple):
    """A frame of a text: where it begins, and its payload."""

    place: int
    payload: bytes

    @property
    def end(self) -> int:
        return self.place + 6 + len(self.payload)


def scan(text: bytes, ended: bool) -> tuple[list[Placed], int]:
    """The frames from left to right, none over another, and the place from which bytes wait for
    more: the first preamble whose frame would reach past the text. In an ended text none waits."""
    frames = []
    place = text.find(PREAMBLE)
    while place >= 0:
        size = size_at(text, place)
        is_whole = size is not None and place + size <= len(text)
        if not is_whole and not ended:
            return frames, place
        if is_whole and is_frame(text[place : place + size]):
            frames.append(Placed(place, text[place + 3 : place + size - 3]))
            place += size
        else:
            place += 1
        place = text.find(PREAMBLE, place)
    return frames, len(text)


def frames_of(text: bytes) -> list[Placed]:
    return scan(text, ended=True)[0]


class Refusal(NamedTuple):
    """Why a payload is no message that is read."""

    fault: str
    number: int | None

    def __str__(self) -> str:
        return f"{self.fault} {'-' if self.number is None else self.number}"


@lru_cache(1000)  # links tell the same
def read_message(payload: bytes, msms: tuple[int, ...] = (1074,)) -> Message | Refusal:
    """The message that a payload begins with, or the first cause why there is none. Of the MSM
    these are read."""
    if 8 * len(payload) < 12:
        return Refusal("M1", None)
    number = BitReader(payload).take(12)
    if number not in HEADERS or number in MSMS and number not in msms:
        return Refusal("M2", number)
    bits = BitReader(payload)
    try:
        header = bits.take_row(HEADERS[number])
        if header.get("tow", 0) >= WEEK_MS:
            return Refusal("M4", number)
        if number in MSMS and _cell_mask_width(header) > 64:
            return Refusal("M5", number)
        return _read_rest(bits, header)
    except EOFError:
        return Refusal("M3", number)


def _cell_mask_width(header: Fields) -> int:
    return ones(header["satellite_mask"]) * ones(header["signal_mask"])


def _read_rest(bits: BitReader, header: Fields) -> Message:
    """What stands after the header."""
    message = Message(header)
    number = header["number"]
    if number == 1004:
        message.satellites = [bits.take_row(LEGACY_SATELLITE) for _ in range(header["satellites"])]
    if number in MSMS:
        message.cell_mask = [bits.take(1) for _ in range(_cell_mask_width(header))]
        satellites = ones(header["satellite_mask"])
        message.satellites = bits.take_columns(MSM_SATELLITE[number], satellites)
        message.cells = bits.take_columns(MSM_CELL[number], sum(message.cell_mask))
    return message


def fixed(value: int, decimals: int) -> str:
    """A whole number of 10^-decimals, as a decimal number."""
    whole, part = divmod(abs(value), 10**decimals)
    return f"{'-' if value < 0 else ''}{whole}.{part:0{decimals}}"


def show_line(payload: bytes, msm_number: int = 1074) -> str:
    """The line of a payload if of all MSM those of this number are read."""
    message = read_message(payload, (msm_number,))
    if isinstance(message, Refusal):
        return f"{message.number} other" if message.fault == "M2" else f"refused {message}"
    header = message.header
    begin = f"{header['number']} station {header['station']}"
    if header["number"] == 1004:
        return f"{begin} tow {header['tow']} satellites {header['satellites']}"
    if header["number"] in MSMS:
        masks = f"satellites {ones(header['satellite_mask'])} signals {ones(header['signal_mask'])}"
        return f"{begin} tow {header['tow']} {masks} cells {sum(message.cell_mask)}"
    position = " ".join(f"{axis} {fixed(header[axis], 4)}" for axis in "xyz")
    height = f" height {fixed(header['height'], 4)}" if "height" in header else ""
    return f"{begin} {position}{height}"


CODES = "1C 1P 1W 1S 1L 1X 2C 2D 2P 2W 2S 2L 2X 5I 5Q 5X".split()
SIGNALS = {
    **{2: "1C", 3: "1P", 4: "1W", 8: "2C", 9: "2P", 10: "2W", 15: "2S", 16: "2L", 17: "2X"},
    **{22: "5I", 23: "5Q", 24: "5X", 30: "1S", 31: "1L", 32: "1X"},
}
L1_CODES = ("1C", "1P")
L2_CODES = ("2X", "2P", "2D", "2W")
FREQUENCY = {"1": 1_575_420_000, "2": 1_227_600_000, "5": 1_176_450_000}
LIGHT = 299_792_458


class Cell(NamedTuple):
    """What a message tells of a satellite and a code. Two cells agree if all of it is equal."""

    range: int | None  # mm
    phase: int | None  # millicycles
    strength: int | None  # thousandths of a dB-Hz
    lock_time: int  # ms
    half: bool
    source: int  # the message's number
    offset: int | None  # of a phase of a 1004 or a 1012: in 0.0005 m from the L1 range
    doppler: int | None = None  # thousandths of a Hz, if it is asked for


CellOf = tuple[int, str, Cell]  # with its satellite and code


def rounded(numerator: int, denominator: int) -> int:
    """The nearest whole number, ties away from zero."""
    magnitude = (2 * abs(numerator) + denominator) // (2 * denominator)
    return -magnitude if numerator < 0 else magnitude


def legacy_lock_time(indicator: int) -> int:
    """The least lock time in ms at an indicator of 0 to 127."""
    if indicator == 127:
        return 937_000
    for first, factor, less in ((120, 32, 3096), (96, 16, 1176), (72, 8, 408), (48, 4, 120)):
        if indicator >= first:
            return 1000 * (factor * indicator - less)
    return 1000 * (2 * indicator - 24 if indicator >= 24 else indicator)


def msm_lock_time(indicator: int) -> int:
    """The same of a 1074 or a 1075, at an indicator of 0 to 15."""
    return 0 if indicator == 0 else 2 ** (indicator + 4)


def _fine_lock_times() -> list[int]:
    """The same of a 1076 or a 1077, at each indicator of 0 to 1023: 64 of them are a ms apart, the
    next 32 of them two, the next 32 four, and so on. Those above 704 are reserved: they tell nothing."""
    times = [0]
    for indicator in range(704):
        times.append(times[-1] + 2 ** max(0, indicator // 32 - 1))
    return times + [0] * 319


FINE_LOCK_TIMES = _fine_lock_times()


@lru_cache(1000)
def cells_of(message: Message) -> list[CellOf]:
    """The cells of satellites 1 to 32 and known signals, in the order of the message."""
    if message.header["number"] == 1004:
        return _legacy_cells(message)
    return _msm_cells(message)


def _legacy_cells(message: Message) -> list[CellOf]:
    cells: list[CellOf] = []
    seen = set()
    for row in message.satellites:
        satellite = row["satellite"]
        if 1 <= satellite <= 32 and satellite not in seen:
            cells.append((satellite, L1_CODES[row["l1_code"]], legacy_cell(row, "1")))
            cells.append((satellite, L2_CODES[row["l2_code"]], legacy_cell(row, "2")))
        seen.add(satellite)
    return cells


def _l1_range(row: Fields) -> int:
    """In 0.0005 m."""
    return 40 * row["l1_range"] + 2 * LIGHT * row["modulus_ambiguity"]


def legacy_cell(row: Fields, band: str) -> Cell:
    """Of L1 or L2, whose phase stands beside the L1 range. If L1 has no phase, it has no range either."""
    offset, lock, cnr = (row[f"l{band}_{name}"] for name in ("offset", "lock", "cnr"))
    has_phase = offset != -(1 << 19)
    has_range = has_phase if band == "1" else row["l2_range"] != -(1 << 13)
    length = _l1_range(row) + (0 if band == "1" else 40 * row["l2_range"])
    # 0.0005 m in millicycles is f / (2 c), f in Hz
    phase = rounded((_l1_range(row) + offset) * FREQUENCY[band], 2 * LIGHT)
    return Cell(
        range=rounded(length, 2) if has_range else None,
        phase=phase if has_phase else None,
        strength=250 * cnr or None,
        lock_time=legacy_lock_time(lock),
        half=False,
        source=1004,
        offset=offset if has_phase else None,
    )


def set_bits(mask: int, width: int) -> list[int]:
    """The identifiers of a mask, whose first bit is identifier 1."""
    return [i for i in range(1, width + 1) if mask >> width - i & 1]


def _msm_cells(message: Message) -> list[CellOf]:
    satellites = set_bits(message.header["satellite_mask"], 64)
    signals = set_bits(message.header["signal_mask"], 32)
    pairs = [(at, signal) for at in range(len(satellites)) for signal in signals]
    set_pairs = [pair for pair, is_set in paired(pairs, message.cell_mask) if is_set]
    cells: list[CellOf] = []
    for (at, signal), row in paired(set_pairs, message.cells):
        if satellites[at] <= 32 and signal in SIGNALS:
            code = SIGNALS[signal]
            cell = _msm_cell(message.satellites[at], row, code, message.header["number"])
            cells.append((satellites[at], code, cell))
    return cells


class Scale(NamedTuple):
    """Of an MSM how many of the units of its fine range and of its fine phase a ms has, and the
    values of these that are none."""

    range_units: int
    phase_units: int
    no_range: int
    no_phase: int


COARSE = Scale(1 << 24, 1 << 29, -16_384, -2_097_152)
FINE = Scale(1 << 29, 1 << 31, -524_288, -8_388_608)


def fine_strength(cnr: int) -> int | None:
    """The nearest 250 thousandths, a tie up, from 250 to 63,750; the unit is a sixteenth."""
    return min(max((2 * 1000 * cnr + 16 * 250) // (2 * 16 * 250), 1), 255) * 250 if cnr else None


def _msm_cell(satellite: Fields, row: Fields, code: str, number: int) -> Cell:
    is_fine = number >= 1076
    scale = FINE if is_fine else COARSE
    rough = 1024 * satellite["rough_ms"] + satellite["rough_fraction"]  # 1024 a ms

    def value(fine: int, units: int, each: int) -> int:
        """Of rough and fine range together, of which each ms is so much."""
        return rounded((rough * units // 1024 + fine) * each, units)

    has_rough = satellite["rough_ms"] != 255
    has_range = has_rough and row["fine_range"] != scale.no_range
    has_phase = has_rough and row["fine_phase"] != scale.no_phase
    frequency = FREQUENCY[code[0]]
    return Cell(
        range=value(row["fine_range"], scale.range_units, LIGHT) if has_range else None,
        phase=value(row["fine_phase"], scale.phase_units, frequency) if has_phase else None,
        strength=fine_strength(row["cnr"]) if is_fine else 1000 * row["cnr"] or None,
        lock_time=FINE_LOCK_TIMES[row["lock"]] if is_fine else msm_lock_time(row["lock"]),
        half=row["half_cycle"] == 1,
        source=number,
        offset=None,
    )
