"""Made MSM of all systems: each signal of each table, in each kind, with values that are drawn or at their ends.

    made_messages.py FOLDER    writes FOLDER/stdin and FOLDER/stdout, which crates/example_cells has
"""

from __future__ import annotations

import sys
from pathlib import Path
from random import Random

import worked_rows
from cell_lines import cell_lines
from clocks import clock_of, glonass_clock
from model import moment
from msm import CELL, SATELLITE, message_of, payload_of_msm
from systems import BEIDOU, GLONASS, GPS, KINDS, SYSTEMS, System, number_of
from wire import Field, Fields, Message, Table, frame_of

NOON = moment(worked_rows.NOON)
STATION = 1


def value_of(rng: Random, entry: Field) -> int:
    """A value of a field: one of three is at an end or in the middle."""
    if rng.random() < 2 / 3:
        return rng.randint(entry.least, entry.most)
    return rng.choice((entry.least, entry.least + 1, 0, 1, entry.most - 1, entry.most))


def row_of(rng: Random, fields: Table) -> Fields:
    return {entry.name: value_of(rng, entry) for entry in fields}


def made_message(rng: Random, system: System, kind: int, bits: list[int], signals: list[int], time: int) -> Message:
    """A message of these satellites by the bits of their mask, each with a cell of each signal. Those of GLONASS tell channel
    `slot - 14` where there is one, so that messages agree."""
    satellites = {bit: row_of(rng, SATELLITE[kind]) for bit in bits}
    for bit, row in satellites.items():
        row["rough_ms"] = rng.randint(60, 140) if rng.random() < 0.9 else row["rough_ms"]
        if system is GLONASS and "extended" in row:
            row["extended"] = (bit - 1) % 14
    cells = {(bit, signal): row_of(rng, CELL[kind]) for bit in bits for signal in signals}
    header = {"number": number_of(system, kind), "station": STATION, "tow": clock_of(system, time)}
    return message_of(header, satellites, cells)


def all_signals(rng: Random) -> list[Message]:
    """Of each system and kind a message whose signals are all that have a code and one that has none, of the first satellite, the
    last one, and one that has no cell. The kinds that tell channels come first."""
    messages = []
    for kind in (7, 5, 4, 6):
        for system in SYSTEMS:
            known = sorted(it for it in system.signals.values() if it is not None)
            other = next(it for it in range(1, 33) if it not in known)
            bits = [1, system.satellites, min(system.satellites + 1, 64)]
            fitting = bits if len(known) < 16 else bits[:2]
            messages.append(made_message(rng, system, kind, fitting, sorted([*known, other]), NOON))
    return messages


def odd_ones(rng: Random) -> list[Message]:
    """Slots 25 to 27; satellites without a cell alone; a slot whose channel is contradicted, then not told; clocks that are none."""
    spare = made_message(rng, GLONASS, 7, [24, 25, 26, 27, 28], [2, 8], NOON)
    nobody = [made_message(rng, it, 7, [it.satellites + 1], [22, 31], NOON) for it in SYSTEMS]
    channels = []
    for told in (0, 14, 15, 9):
        message = made_message(rng, GLONASS, 5, [10], [2, 3, 8, 9], NOON)
        message.satellites[0]["extended"] = told
        channels.append(message)
    channels.append(made_message(rng, GLONASS, 6, [10, 20], [2, 9], NOON))
    clocks = []
    of_glonass = [glonass_clock(*it) for it in ((7, 0), (0, 86_401_000), (6, 86_400_999))]
    told = [(GPS, 604_800_000), (BEIDOU, 604_799_999), *((GLONASS, it) for it in of_glonass), (BEIDOU, 604_800_000)]
    for system, clock in told:
        message = made_message(rng, system, 4, [1], [2], NOON)
        message.header["tow"] = clock
        clocks.append(message)
    return [spare, *nobody, *channels, *clocks]


def leap_messages(rng: Random) -> list[Message]:
    """GLONASS about a leap second, which has the clock of the second after it."""
    first = moment("2017-01-01T00:00:18")
    return [made_message(rng, GLONASS, 5, [1], [2], first + off) for off in (-1001, -1000, -1, 0, 30_000)]


def text_of(messages: list[Message]) -> str:
    return "".join(f"{frame_of(payload_of_msm(it)).hex()}\n" for it in messages)


def made_input() -> str:
    """Lines before a time is told and one that is no hex text; the worked rows; and made messages."""
    rng = Random(67)
    rows = [frame_of(bytes.fromhex(row.payload)).hex() for row in worked_rows.ROWS]
    other = frame_of(bytes.fromhex("4CE0010000")).hex()  # a 1230
    station = frame_of(bytes.fromhex("3ED7D30202980EDEEF34B4BD62AC0941986F33360B98")).hex()
    begin = [rows[0], f"near {NOON}", *rows, "D3 00", other, station, other[:-2] + rows[1], rows[2][:40]]
    text = "".join(f"{line}\n" for line in begin)
    text += text_of(all_signals(rng)) + text_of(odd_ones(rng))
    for near in ("2017-01-01T00:00:00", "2017-01-02T00:00:00"):
        text += f"near {moment(near)}\n" + text_of(leap_messages(rng))
    return text


def main() -> None:
    folder = Path(sys.argv[1])
    text = made_input()
    (folder / "stdin").write_text(text)
    (folder / "stdout").write_text(cell_lines(text))


if __name__ == "__main__":
    main()
