"""The slow model of several systems, fourth part: what a message tells of its satellites and codes, in exact fractions."""

from __future__ import annotations

from fractions import Fraction
from typing import Iterator, Mapping

from messages import FINE_LOCK_TIMES, LIGHT, Cell, cells_of, legacy_cell, legacy_lock_time, msm_lock_time, set_bits
from msm import LEGACY, LEGACY_GLONASS, type_of
from systems import GLONASS, SBAS, carrier
from wire import Fields, Message, paired

Channels = Mapping[int, int]  # slots of GLONASS with their channels, -7 to 6
MixedCell = tuple[str, str, Cell]  # with its satellite and code

NO_CHANNEL, CONTRADICTED = 15, 14  # in place of a channel + 7
NOT_SENT = (15,)
NO_CHANNEL_1012, CONTRADICTED_1012 = 31, 30
NOT_SENT_1012 = (*range(21, 30), 31)


def nearest(value: Fraction) -> int:
    """The nearest whole number, ties away from zero."""
    size = int(abs(value) + Fraction(1, 2))
    return size if value >= 0 else -size


def normal_channel(sent: int | None, due: int | None) -> int:
    """What stands for the channel of a satellite in an MSM: the given channel + 7, unless none is given or the message tells
    another one."""
    if due is None:
        return NO_CHANNEL
    return due + 7 if sent is None or sent in (*NOT_SENT, due + 7) else CONTRADICTED


def normal_channel_1012(sent: int, due: int | None) -> int:
    """The same in a 1012, whose field is wider."""
    if due is None:
        return NO_CHANNEL_1012
    return due + 7 if sent in (*NOT_SENT_1012, due + 7) else CONTRADICTED_1012


def normal_channels(message: Message, channels: Channels) -> dict[int, int]:
    """Of a message of GLONASS, what stands for the channel of each slot of its mask."""
    slots = set_bits(message.header["satellite_mask"], 64)
    sent = {slot: row.get("extended") for slot, row in paired(slots, message.satellites)}
    return {slot: normal_channel(sent[slot], channels.get(slot)) for slot in slots}


def marked_slots(message: Message, channels: Channels) -> tuple[set[int], set[int]]:
    """Of a message of GLONASS the slots that tell another channel than the given one, and those without a given one."""
    if message.header["number"] == LEGACY_GLONASS:
        normal = [(row["slot"], normal_channel_1012(row["channel"], channels.get(row["slot"]))) for row in message.satellites]
        marks = (CONTRADICTED_1012, NO_CHANNEL_1012)
    else:
        normal = [*normal_channels(message, channels).items()]
        marks = (CONTRADICTED, NO_CHANNEL)
    contradicted, missing = ({slot for slot, channel in normal if channel == mark} for mark in marks)
    return contradicted, missing


def all_cells(message: Message, channels: Channels, with_doppler: bool = False) -> list[MixedCell]:
    """The cells of known satellites and signals of an MSM, in the order of the message."""
    _, kind = type_of(message)
    cells = []
    for name, code, satellite, row, frequency in known_rows(message, channels):
        cell = _cell(kind, message.header["number"], satellite, row, frequency)
        cells.append((name, code, cell._replace(doppler=doppler(satellite, row, frequency) if with_doppler else None)))
    return cells


def known_rows(message: Message, channels: Channels) -> Iterator[tuple[str, str, Fields, Fields, int | None]]:
    """The same cells by their fields: those of the satellite and those of the cell, and the carrier in Hz."""
    system, _ = type_of(message)
    bits = set_bits(message.header["satellite_mask"], 64)
    signals = set_bits(message.header["signal_mask"], 32)
    rows = dict(paired(bits, message.satellites))
    normal = normal_channels(message, channels) if system is GLONASS else {}
    pairs = [(bit, signal) for bit in bits for signal in signals]
    set_pairs = [pair for pair, is_set in paired(pairs, message.cell_mask) if is_set]
    for (bit, signal), row in paired(set_pairs, message.cells):
        name, code = system.name(bit), system.code(signal)
        if name is not None and code is not None:
            told = normal.get(bit, NO_CHANNEL)
            yield name, code, rows[bit], row, carrier(system, code, None if told >= CONTRADICTED else told - 7)


def exact_doppler(satellite: Fields, row: Fields, frequency: int | None) -> Fraction | None:
    """The Doppler shift in Hz: the rate in 0.0001 m/s by the carrier, with the other sign. A message without rates tells none, nor does
    the least value of a field."""
    rough, fine = satellite.get("rough_rate", -(2**13)), row.get("fine_rate", -(2**14))
    if frequency is None or rough == -(2**13) or fine == -(2**14):
        return None
    return -Fraction(10_000 * rough + fine, 10_000) * frequency / LIGHT


def doppler(satellite: Fields, row: Fields, frequency: int | None) -> int | None:
    """The same in thousandths of a Hz, the nearest to the exact fraction, where 0 is none."""
    exact = exact_doppler(satellite, row, frequency)
    return None if exact is None else nearest(1000 * exact) or None


def _cell(kind: int, number: int, satellite: Fields, row: Fields, frequency: int | None) -> Cell:
    is_fine = kind >= 6
    range_width, phase_width = (20, 24) if is_fine else (15, 22)
    range_unit, phase_unit = (Fraction(1, 2**29), Fraction(1, 2**31)) if is_fine else (Fraction(1, 2**24), Fraction(1, 2**29))

    def travel(fine: int, width: int, unit: Fraction) -> Fraction | None:
        """The travel time in ms; the least value of a field tells none."""
        if satellite["rough_ms"] == 255 or fine == -(2 ** (width - 1)):
            return None
        return satellite["rough_ms"] + Fraction(satellite["rough_fraction"], 1024) + fine * unit

    of_code = travel(row["fine_range"], range_width, range_unit)
    of_carrier = travel(row["fine_phase"], phase_width, phase_unit)
    return Cell(
        range=None if of_code is None else nearest(of_code * LIGHT),
        phase=None if of_carrier is None or frequency is None else nearest(of_carrier * frequency),
        strength=strength(kind, row["cnr"]),
        lock_time=FINE_LOCK_TIMES[row["lock"]] if is_fine else msm_lock_time(row["lock"]),
        half=row["half_cycle"] == 1,
        source=number,
        offset=None,
    )


def strength(kind: int, cnr: int) -> int | None:
    """Thousandths of a dB-Hz: whole dB-Hz, or the quarter that is nearest to so many sixteenths (a tie up), from 0.25 to 63.75."""
    if cnr == 0:
        return None
    quarters = (Fraction(cnr, 4) + Fraction(1, 2)).__floor__() if kind >= 6 else 4 * cnr
    return 250 * min(max(quarters, 1), 255)


# The messages before MSM.


def cells_of_1012(message: Message, channels: Channels) -> list[MixedCell]:
    """The cells of the first entry of each slot of a 1012."""
    cells: list[MixedCell] = []
    seen = set()
    for row in message.satellites:
        slot = row["slot"]
        name = GLONASS.name(slot)
        if name is not None and slot not in seen:
            told = normal_channel_1012(row["channel"], channels.get(slot))
            channel = None if told >= CONTRADICTED_1012 else told - 7
            cells.append((name, ("1C", "1P")[row["l1_code"]], _cell_1012(row, "1", channel)))
            if row["l2_code"] < 2:
                cells.append((name, ("2C", "2P")[row["l2_code"]], _cell_1012(row, "2", channel)))
        seen.add(slot)
    return cells


def _cell_1012(row: Fields, band: str, channel: int | None) -> Cell:
    """Of L1 or L2. All lengths are in m; the L1 range is the base of the other three."""
    l1_range = Fraction(row["l1_range"], 50) + row["modulus_ambiguity"] * Fraction(599_584_916, 1000)
    offset = row[f"l{band}_offset"]
    has_phase = offset != -(2**19)
    has_range = has_phase if band == "1" else row["l2_range"] != -(2**13)
    length = l1_range + (0 if band == "1" else Fraction(row["l2_range"], 50))
    frequency = carrier(GLONASS, band, channel)
    cycles = (l1_range + offset * Fraction(1, 2000)) * (frequency or 0) / LIGHT
    return Cell(
        range=nearest(1000 * length) if has_range else None,
        phase=nearest(1000 * cycles) if has_phase and frequency is not None else None,
        strength=250 * row[f"l{band}_cnr"] or None,
        lock_time=legacy_lock_time(row[f"l{band}_lock"]),
        half=False,
        source=1012,
        offset=offset if has_phase and frequency is not None else None,
    )


def sbas_of_1004(row: Fields) -> tuple[str, str] | None:
    """The satellite and the code of an entry of a 1004 that is of SBAS, whose L1 fields alone are used."""
    return (f"{SBAS.letter}{row['satellite'] - 20}", "1C") if 40 <= row["satellite"] <= 58 else None


def has_sbas(message: Message) -> bool:
    """Whether a message is a 1004 with a satellite of SBAS."""
    return message.header["number"] == LEGACY and any(sbas_of_1004(row) for row in message.satellites)


def cells_of_1004(message: Message, with_sbas: bool) -> list[MixedCell]:
    """The cells of GPS, and those of the first entry of each satellite of SBAS, in the order of the message."""
    cells: list[MixedCell] = []
    seen = set()
    for row in message.satellites:
        satellite, sbas = row["satellite"], sbas_of_1004(row)
        if satellite not in seen:
            cells += [(f"G{it:02}", code, cell) for it, code, cell in cells_of(message) if it == satellite]
            cells += [(*sbas, legacy_cell(row, "1"))] if with_sbas and sbas else []
        seen.add(satellite)
    return cells
