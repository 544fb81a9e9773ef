"""Messages of one station, made of the values of their fields: those that are not named are 0.
All captures but those of chance are made of them."""

from __future__ import annotations

from collections.abc import Iterable

from finding import SYSTEM_PARAMETERS
from wire import HEADERS, LEGACY_SATELLITE, MSM_CELL, MSM_SATELLITE, BitWriter, Fields, Message, Table
from wire import frame_of, payload_of

STATION = 2003
NOON = 475_200_000  # 2024-05-17 12:00:00 in ms of its week
PLACE = {"x": 11_141_045_999, "y": -48_507_297_108, "z": 39_755_214_643}


def row(fields: Table, values: Fields) -> Fields:
    return {entry.name: 0 for entry in fields} | values


def header(number: int, **values: int) -> Fields:
    return row(HEADERS[number], {"number": number, "station": STATION} | values)


def point(number: int = 1005, **values: int) -> Message:
    """A 1005 or a 1006."""
    return Message(header(number, **PLACE | values))


def legacy_of(tow: int, entries: Iterable[Fields], **values: int) -> Message:
    """A 1004 of these satellites."""
    rows = [row(LEGACY_SATELLITE, it) for it in entries]
    return Message(header(1004, **{"tow": tow, "satellites": len(rows)} | values), rows)


def mask(identifiers: Iterable[int], width: int) -> int:
    return sum(1 << width - identifier for identifier in identifiers)


def msm_of(
    tow: int,
    rough: dict[int, tuple[int, int]],
    cells: dict[tuple[int, int], Fields],
    number: int = 1074,
) -> Message:
    """An MSM: of each satellite the whole ms and the fraction of its rough range, and the cells by
    satellite and signal."""
    satellites = {it: dict(zip(("rough_ms", "rough_fraction"), rough[it])) for it in sorted(rough)}
    signals = sorted({signal for _, signal in cells})
    masks = {"satellite_mask": mask(rough, 64), "signal_mask": mask(signals, 32)}
    return Message(
        header(number, tow=tow, **masks),
        [row(MSM_SATELLITE[number], it) for it in satellites.values()],
        [(satellite, signal) in cells for satellite in satellites for signal in signals],
        [row(MSM_CELL[number], cells[it]) for it in sorted(cells)],
    )


def capture(*messages: Message) -> bytes:
    """Their frames."""
    return b"".join(frame_of(payload_of(message)) for message in messages)


def frame_of_row(fields: Table, **values: int) -> bytes:
    """The frame of a message that is one row of fields."""
    bits = BitWriter()
    bits.put_row(fields, row(fields, values))
    return frame_of(bits.to_bytes())


def date(second: int = 43_200, day: int = 60_447, station: int = STATION) -> bytes:
    """The frame of a 1013. Day 60,447 is 2024-05-17; it has no more than 18 leap seconds to tell."""
    return frame_of_row(SYSTEM_PARAMETERS, number=1013, station=station, day=day, second=second, leap_seconds=18)
