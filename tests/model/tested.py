"""What the tests of the slow model share: each test is a function that raises if something is not as it is due."""

from __future__ import annotations

from typing import Callable

import worked_rows as rows
from clocks import clock_of, glonass_parts
from model import moment
from msm import HEADER_1012, LEGACY_GLONASS, SATELLITE_1012, message_of, payload_of_1012, payload_of_msm
from station import row
from systems import GLONASS, SYSTEMS, System, number_of
from wire import Fields, Message, frame_of

NOON = moment(rows.NOON)
TESTS: list[Callable[[], object]] = []


def test(function: Callable[[], object]) -> Callable[[], object]:
    TESTS.append(function)
    return function


def same(what: object, got: object, due: object) -> None:
    assert got == due, f"{what}: {got!r} where {due!r} is due"


def ms(text: str) -> int:
    """The time of a reading to the ms."""
    return moment(text[:19]) + int(text[20:] or 0)


def message_of_row(row: rows.Row, extended: int | None = None) -> Message:
    """The message of a row by its fields alone."""
    system = next(it for it in SYSTEMS if it.letter == row.name[0])
    bit = int(row.name[1:]) - system.first_name + 1
    rates = {"rough_rate": -300, "extended": row.extended if extended is None else extended}
    header = {"number": number_of(system, row.kind), "station": 1, "tow": clock_of(system, NOON)}
    satellite = {"rough_ms": row.rough[0], "rough_fraction": row.rough[1], **rates}
    cell = {"fine_range": row.fine[0], "fine_phase": row.fine[1], "lock": row.lock[0], "cnr": row.cnr, "fine_rate": 100}
    return message_of(header, {bit: satellite}, {(bit, row.signal): cell})


def row_named(name: str) -> rows.Row:
    return next(row for row in rows.ROWS if row.name == name)


def one_cell(system: System, kind: int, time: int, bit: int, signal: int, more: int = 0, channel: int = 0, **values: int) -> bytes:
    """The frame of an MSM of one cell, whose rough range is 70 ms, and which says whether more of its epoch follow."""
    header = {"number": number_of(system, kind), "station": 1, "tow": clock_of(system, time), "multiple_message": more}
    return frame_of(payload_of_msm(message_of(header, {bit: {"rough_ms": 70, "extended": channel}}, {(bit, signal): values})))


def of_1012(time_of_day: int, *entries: Fields, station: int = 1, more: int = 0) -> bytes:
    """The frame of a 1012 of these entries at a time of day in Moscow, which says whether more of its epoch follow."""
    head = {"number": LEGACY_GLONASS, "station": station, "clock": time_of_day, "synchronous": more, "satellites": len(entries)}
    return frame_of(payload_of_1012(Message(row(HEADER_1012, head), [row(SATELLITE_1012, it) for it in entries])))


def of_1012_at(time: int, *entries: Fields, more: int = 0) -> bytes:
    """The same at a GPS time."""
    return of_1012(glonass_parts(clock_of(GLONASS, time))[1], *entries, more=more)


def without_cells(system: System, kind: int, clock: int) -> bytes:
    """The frame of an MSM without satellites."""
    return frame_of(payload_of_msm(message_of({"number": number_of(system, kind), "station": 1, "tow": clock}, {}, {})))


def run_tests() -> int:
    """Prints a line for each test, and last 'N passed, M failed'."""
    failed = 0
    for function in TESTS:
        try:
            function()
            print(f"ok {function.__name__}")
        except AssertionError as fault:
            failed += 1
            print(f"FAILED {function.__name__}: {fault}")
    print(f"{len(TESTS) - failed} passed, {failed} failed")
    return failed > 0
