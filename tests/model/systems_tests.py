"""Tests of the slow model of several systems against the worked rows, and against cases at the ends of its tables.

Prints a line for each test, and last 'N passed, M failed'.
"""

from __future__ import annotations

import sys
from dataclasses import replace
from pathlib import Path
from random import Random

import mixed_cases
import worked_rows as rows
from cell_lines import cell_lines
from checker import fault
from clocks import DAY_MS, LEAP_ROWS, UNKNOWN_DAY, clock_of, glonass_clock, is_clock, moment_of, near_of_span
from messages import Cell, Refusal, frames_of, legacy_cell
from mixed_cells import all_cells, cells_of_1012, normal_channel_1012, normal_channels, sbas_of_1004
from mixed_checker import header_fault, mixed_fault
from mixed_damages import damaged_mixed
from mixed_files import MixedSetup, listed, mixed_file, mixed_header, slots_lines, types_lines
from mixed_tables import some_table
from model import civil, moment, rolls_between
from msm import HEADER_1012, SATELLITE_1012, message_of, payload_of_msm, read_1012, read_any
from systems import GLONASS, GPS, INDEX, KINDS, LETTERS, SATELLITES, SYSTEMS, TYPES, carrier, number_of
from tested import NOON, message_of_row, ms, row_named, run_tests, same, test
from wire import LEGACY_SATELLITE, BitWriter, Fields, Message

ALL = frozenset(TYPES)


@test
def rows_are_spelled_and_read() -> None:
    for row in rows.ROWS:
        message = message_of_row(row)
        payload = bytes.fromhex(row.payload)
        same(row.name, payload_of_msm(message).hex(), payload.hex())
        read = read_any(payload, ALL)
        assert isinstance(read, Message), f"{row.name}: {read}"
        for part in ("header", "satellites", "cell_mask", "cells"):
            same(f"{row.name}, {part}", getattr(read, part), getattr(message, part))
        same(f"{row.name}, cut short", read_any(payload[:-1], ALL), Refusal("M3", message.header["number"]))


@test
def rows_have_their_cells() -> None:
    for row in rows.ROWS:
        read = read_any(bytes.fromhex(row.payload), ALL)
        channels = {} if row.channel is None else {int(row.name[1:]): row.channel}
        [(name, code, cell)] = all_cells(read, channels)
        got = (name, code, (cell.range, cell.phase, cell.strength), cell.lock_time, cell.half)
        same(row.name, got, (row.name, row.code, row.due, row.lock[1], False))


@test
def rows_have_their_doppler() -> None:
    for row in rows.ROWS:
        read = read_any(bytes.fromhex(row.payload), ALL)
        assert isinstance(read, Message)
        channels = {} if row.channel is None else {int(row.name[1:]): row.channel}
        [(_, _, plain)] = all_cells(read, channels)
        [(_, _, cell)] = all_cells(read, channels, True)
        same(row.name, (plain.doppler, cell.doppler), (None, rows.DOPPLER.get(row.name) if row.kind == 7 else None))
        same(f"{row.name}, otherwise", cell._replace(doppler=None), plain)


@test
def doppler_of_both_fields() -> None:
    for rough, fine, due in rows.RATES:
        message = message_of_row(row_named("G05"))
        message.satellites[0]["rough_rate"], message.cells[0]["fine_rate"] = rough, fine
        for kind in (5, 7):
            header = {**message.header, "number": number_of(GPS, kind)}
            made = message_of(header, {5: message.satellites[0]}, {(5, 2): message.cells[0]})
            [(_, _, cell)] = all_cells(made, {}, True)
            same(f"{rough} {fine}", cell.doppler, due)


@test
def doppler_of_glonass_by_its_channel() -> None:
    for given, sent, due in ((-5, 2, 1_244_632), (-7, 0, 1_243_757), (-7, 15, 1_243_757), (-5, 14, None), (None, 2, None)):
        [(_, _, cell)] = all_cells(message_of_row(row_named("R10"), sent), {} if given is None else {10: given}, True)
        same(f"{given} {sent}", cell.doppler, due)


@test
def cells_of_real_streams() -> None:
    for it in rows.REAL_CELLS:
        _, kind = TYPES[it.number]
        row = rows.Row(it.name, it.code, it.signal, kind, it.channel, it.rough, it.fine, (0, 0), it.cnr, it.due, "")
        channels = {} if it.channel is None else {int(it.name[1:]): it.channel}
        [(name, code, cell)] = all_cells(message_of_row(row, 15), channels)
        same(f"{it.stream} {it.number}", (name, code, (cell.range, cell.phase, cell.strength)), (it.name, it.code, it.due))


@test
def cells_of_fine_fields() -> None:
    def cell(rough: tuple[int, int], fine: tuple[int, int], lock: int, cnr: int) -> Cell:
        row = rows.Row("G05", "1C", 2, 7, None, rough, fine, (lock, 0), cnr, (0, 0, 0), "")
        [(_, _, cell)] = all_cells(message_of_row(row), {})
        return cell

    for fine, due in rows.FINE:
        it = cell((70, 512), fine, 0, 0)
        same(f"{fine}", (it.range, it.phase, it.strength), (*due, None))
    rough, due = rows.TIE
    same("a tie", cell(rough, (0, 0), 0, 0).range, due)
    it = cell((255, 0), (0, 0), 0, 4)
    same("no rough range", (it.range, it.phase, it.strength), (None, None, 250))
    for cnr, due in rows.STRENGTHS:
        same(f"strength {cnr}", cell((70, 512), (0, 0), 0, cnr).strength, due)
    for lock, due in rows.LOCK_TIMES:
        same(f"lock {lock}", cell((70, 512), (0, 0), lock, 0).lock_time, due)


def message_1012(entry: Fields) -> Message:
    """A 1012 of one entry, which is spelled and read; what isn't given is 0."""
    bits = BitWriter()
    header = {"number": 1012, "station": 1, "clock": 0, "synchronous": 0, "satellites": 1, "smoothing": 0, "smoothing_interval": 0}
    bits.put_row(HEADER_1012, header)
    bits.put_row(SATELLITE_1012, {**{it.name: 0 for it in SATELLITE_1012}, **entry})
    same("bits of a 1012 with one entry", bits.width, 61 + 130)
    message = read_1012(bits.to_bytes())
    assert isinstance(message, Message), message
    return message


@test
def cells_of_1012_and_of_sbas() -> None:
    for (entry, *due), channel in ((rows.BNDM, -1), (rows.TESTGLO, -7)):
        cells = cells_of_1012(message_1012(entry), {entry["slot"]: channel})
        got = [(code, cell.range, cell.phase, cell.strength) for _, code, cell in cells]
        same(f"slot {entry['slot']}", got, due)
    row = {**{it.name: 0 for it in LEGACY_SATELLITE}, **rows.OF_SBAS}
    cell = legacy_cell(row, "1")
    same("SBAS in a 1004", (*sbas_of_1004(row), cell.range, cell.phase, cell.strength), rows.OF_SBAS_DUE)
    for band, rise, due in rows.ROLLS:
        at, ahead = (Cell(0, 0, None, 0, False, 1012, offset) for offset in (0, rise))
        same(f"a rise of {rise}", (rolls_between(at, ahead, f"{band}C"), rolls_between(ahead, at, f"{band}C")), (due, -due))


@test
def channels() -> None:
    for name, given, sent, normal, phase in rows.CHANNELS:
        row = row_named(name)
        message = message_of_row(row, sent)
        [(_, _, cell)] = all_cells(message, given)
        slot = int(name[1:])
        got = (normal_channels(message, given), cell.range, cell.phase, cell.strength)
        same(f"{name} with {sent} and {given}", got, ({slot: normal}, row.due[0], phase, row.due[2]))
    entry, *due = rows.BNDM
    for given, sent, normal in rows.CHANNELS_1012:
        cells = cells_of_1012(message_1012({**entry, "channel": sent}), given)
        phases = [it[2] if normal == 6 else None for it in due]
        same(f"1012 with {sent} and {given}", normal_channel_1012(sent, given.get(12)), normal)
        same(f"its cells", [(it[2].range, it[2].phase) for it in cells], list(zip([it[1] for it in due], phases)))
    # A slot that a message tells has the same normal form when that is made again.
    for sent in range(16):
        for given in ({10: 3}, {}):
            message = message_of_row(row_named("R10"), sent)
            once = normal_channels(message, given)
            message.satellites[0]["extended"] = once[10]
            same(f"{sent} again", normal_channels(message, given), once)


@test
def clocks() -> None:
    for number, clock, near, due in rows.CLOCKS:
        system, _ = TYPES[number]
        clock = glonass_clock(*clock) if isinstance(clock, tuple) else clock
        got = moment_of(system, clock, moment(near)) if is_clock(system, clock) else None
        same(f"{number} {clock} near {near}", got, None if due is None else ms(due))
    clock, near, leap, due = rows.CLOCK_OF_GIVEN_LEAP
    same("leap seconds that are given", moment_of(GLONASS, clock, moment(near), leap), ms(due))
    for time, near, due in rows.TIMES_OF_DAY:
        clock = glonass_clock(UNKNOWN_DAY, time)
        same(f"{time} of no day near {near}", moment_of(GLONASS, clock, moment(near)), ms(due))
        same("a clock without a day", (is_clock(GLONASS, clock), is_clock(GLONASS, clock, True)), (False, True))
    for first, last, due in rows.SPANS:
        same(f"from {first} to {last}", near_of_span(ms(first), ms(last)), None if due is None else moment(due))


@test
def clocks_at_the_leap_seconds() -> None:
    """Within 5 s of each, and with references up to 200,000 s away, the moment is the true one; a leap second is dated as the
    second after it."""
    for first, leap in LEAP_ROWS:
        same(f"{leap} from the first ms of a day of UTC on", (first - 1000 * leap) % DAY_MS, 0)
        for off in (-5000, -1001, -1000, -999, -1, 0, 1, 999, 1000, 5000):
            for near in (-200_000, -43_200, -1, 0, 1, 86_400, 200_000):
                time = first + off
                due = time + 1000 if -1000 <= off < 0 else time
                got = moment_of(GLONASS, clock_of(GLONASS, time), time // 1000 * 1000 + 1000 * near)
                same(f"{off} ms from {civil(first)} near {near}", got, due)
    same("the last row", (civil(LEAP_ROWS[-1][0]).isoformat(), LEAP_ROWS[-1][1]), ("2017-01-01T00:00:18", 18))
    same("no leap second in 1980", moment_of(GLONASS, glonass_clock(0, 10_800_000), 14 * DAY_MS), 14 * DAY_MS)


@test
def satellites_and_codes() -> None:
    ends = {"G": (1, 32), "R": (33, 59), "E": (60, 95), "C": (96, 158), "J": (159, 168), "S": (169, 207), "I": (208, 221)}
    got = {letter: [INDEX[name] for name in SATELLITES if name[0] == letter] for letter in LETTERS}
    same("places", {letter: (places[0], places[-1]) for letter, places in got.items()}, ends)
    names = "G01 G32 R01 R27 E01 E36 C01 C63 J01 J10 S20 S58 I01 I14".split()
    same("names", [SATELLITES[at - 1] for pair in ends.values() for at in pair], names)
    same("codes", [len(it.codes) for it in SYSTEMS], [16, 4, 15, 16, 13, 4, 1])
    frequencies = [carrier(it, code, k) for it in SYSTEMS for code in it.codes for k in range(-7, 7)]
    assert all(it % 4 == 0 and it < 2**32 for it in frequencies)
    same("numbers", sorted(TYPES), [10 * tens + kind for tens in (107, 108, 109, 110, 111, 112, 113) for kind in KINDS])
    for letter, signal in (("E", 3), ("E", 6), ("E", 9), ("E", 12), ("R", 22), ("S", 30), ("G", 25), ("C", 33)):
        same(f"{letter} {signal}", next(it for it in SYSTEMS if it.letter == letter).code(signal), None)


@test
def satellites_without_a_cell() -> None:
    """Slots 25 to 27 have cells; E37, C64, J11, bit 40 of SBAS, I15, slots from 28 on and satellites from 33 on have none."""
    last = {"G": 32, "R": 27, "E": 36, "C": 63, "J": 10, "S": 39, "I": 14}
    for system in SYSTEMS:
        signal = next(iter(system.signals.values()))
        bits = sorted({1, last[system.letter] - 2, last[system.letter], last[system.letter] + 1, 64} & set(range(1, 65)))
        header = {"number": number_of(system, 7), "station": 1, "tow": 0}
        message = message_of(header, {bit: {} for bit in bits}, {(bit, signal): {} for bit in bits})
        read = read_any(payload_of_msm(message), ALL)
        cells = all_cells(read, {slot: 0 for slot in range(1, 28)})
        due = [system.name(bit) for bit in bits if bit <= last[system.letter]]
        same(system.letter, [name for name, _, _ in cells], due)
    same("slots 25 to 27", [GLONASS.name(bit) for bit in (25, 26, 27, 28)], ["R25", "R26", "R27", None])


@test
def greatest_phases() -> None:
    for kind, fine, due in ((7, 2**23 - 1, 409_375_328_246), (6, 2**23 - 1, 409_375_328_246), (5, 2**21 - 1, 409_375_328_244),
            (4, 2**21 - 1, 409_375_328_244)):  # fmt: skip
        row = rows.Row("R01", "1C", 2, kind, 6, (254, 1023), (0, fine), (0, 0), 0, (0, 0, 0), "")
        [(_, _, cell)] = all_cells(message_of_row(row, 13), {1: 6})
        same(f"MSM{kind}", cell.phase, due)
    most = {"slot": 1, "channel": 13, "l1_range": 2**25 - 1, "l1_offset": 2**19 - 1, "modulus_ambiguity": 127}
    same("1012", cells_of_1012(message_1012(most), {1: 6})[0][2].phase, 411_360_302_855)


@test
def refusals() -> None:
    """In the order in which they are looked for: the header is whole, the clock, the cells, the rest."""
    for system in SYSTEMS:
        for kind in KINDS:
            number = number_of(system, kind)
            header = {"number": number, "station": 1, "tow": 604_800_000 if system is not GLONASS else glonass_clock(7, 0)}
            message = message_of(header, {bit: {} for bit in range(1, 14)}, {(1, signal): {} for signal in range(1, 6)})
            payload = payload_of_msm(message)
            same("short", read_any(payload[:21], ALL), Refusal("M3", number))
            same("a clock", read_any(payload[:22], ALL), Refusal("M4", number))
            message.header["tow"] = 0
            same("65 cells", read_any(payload_of_msm(message)[:22], ALL), Refusal("M5", number))
            same("none that is read", read_any(payload, ALL - {number}), Refusal("M2", number))


def setup_of(codes: str, channels: dict[int, int]) -> MixedSetup:
    return MixedSetup(NOON, moment("2024-05-17T13:00:00"), "BASE", listed(codes), channels)


@test
def a_whole_file() -> None:
    setup = setup_of(rows.CODES, {10: -5})
    payloads = [bytes.fromhex(row.payload) for row in rows.ROWS if row.kind == 7]
    same("its messages", len(payloads), 7)
    for turn in range(7):
        same("the file", mixed_file(setup, payloads[turn:] + payloads[:turn]), rows.FILE)
    same("its check", mixed_fault(rows.FILE.encode()), None)


@test
def a_whole_file_with_doppler() -> None:
    setup = replace(setup_of(rows.CODES, {10: -5}), doppler=True)
    payloads = [bytes.fromhex(row.payload) for row in rows.ROWS if row.kind == 7]
    due = mixed_cases.with_doppler(rows.FILE)
    same("the file", mixed_file(setup, payloads), due)
    same("its check", mixed_fault(due.encode()), None)


@test
def header_lines() -> None:
    same("types", types_lines("C", rows.TYPES_OF_BEIDOU.split()), rows.TYPES_LINES)
    same("slots", slots_lines(rows.SLOTS), rows.SLOTS_LINES)
    same("no slots", slots_lines({}), ["  0 "])
    every = ",".join(("" if it.letter == "G" else it.letter) + code for it in SYSTEMS for code in it.codes)
    lines = mixed_header(setup_of(every, {slot: -7 for slot in range(1, 28)}), NOON, 99)
    same("the longest header", (len(lines), sum(len(line) + 1 for line in lines)), (43, 3483))
    same("its check", header_fault("".join(f"{line}\n" for line in lines).encode())[3:], (99, False))
    lines = mixed_header(replace(setup_of(every, {slot: -7 for slot in range(1, 28)}), doppler=True), NOON, 99)
    same("the longest header with Doppler", (len(lines), sum(len(line) + 1 for line in lines)), (49, 3969))
    same("its check", header_fault("".join(f"{line}\n" for line in lines).encode())[3:], (99, True))
    for system in SYSTEMS:
        name = ("" if system.letter == "G" else system.letter) + system.codes[0]
        lines = mixed_header(setup_of(name, {}), NOON, 18)
        same("the only system", lines[0][40], system.letter)
        same("its check", mixed_fault("".join(f"{line}\n" for line in lines).encode()), None)


@test
def changed_files() -> None:
    for case, due in mixed_cases.HEADER_CASES + mixed_cases.RECORD_CASES:
        same(case, mixed_fault(mixed_cases.changed(case)), due)
    for case, due in mixed_cases.DOPPLER_CASES:
        same(case, mixed_fault(mixed_cases.changed_with_doppler(case)), due)
    text = rows.FILE.encode()
    same("nothing", mixed_fault(b""), (1, mixed_cases.C5))
    same("no last LF", mixed_fault(text[:-1]), (37, mixed_cases.C5))
    same("no record", mixed_fault(text[: text.index(b"> ")]), None)


@test
def files_that_chance_makes() -> None:
    """Each table is a file; of a file of GPS the two checkers find the same fault, wherever it is."""
    for number in range(300):
        rng = Random(number)
        of_gps = number % 3 == 0
        text = some_table(rng, "G" if of_gps else LETTERS).text
        same(f"{number}", mixed_fault(text), None)
        text = damaged_mixed(rng, text)
        if of_gps and text[40:41] not in b"RECJSIM" and text[744:745] != b"D":
            same(f"{number}, changed", mixed_fault(text), fault(text))


@test
def lines_of_the_example() -> None:
    """What crates/example_cells is to print: each signal of each system stands in an MSM of each kind."""
    text, due = (Path(__file__).resolve().parents[2].joinpath("crates/example_cells", it).read_text() for it in ("stdin", "stdout"))
    same("its lines", cell_lines(text).splitlines(), due.splitlines())
    told = set()
    for frame in frames_of(bytes.fromhex("".join(it for it in text.splitlines() if it[:2] == "d3"))):
        message = read_any(frame.payload, ALL)
        if isinstance(message, Message) and message.header["number"] in TYPES:
            told |= {(message.header["number"], name[0], code) for name, code, _ in all_cells(message, {})}
    every = {(number, it.letter, code) for number, (it, _) in TYPES.items() for code, signal in it.signals.items() if signal}
    same("signals", every - told, set())


@test
def files_of_one_system() -> None:
    for letter in LETTERS:
        text = mixed_cases.file_of_one(letter)
        same(letter, mixed_fault(text), None)
        same(f"{letter} with Doppler", mixed_fault(mixed_cases.with_doppler(text.decode()).encode()), None)
        # A line of another system is not due, and its satellites have no types.
        other = "E" if letter != "E" else "G"
        records = text.count(b"\n")
        lines = text.splitlines()
        lines[-1] = other.encode() + lines[-1][1:]
        same(f"{other} in a file of {letter}", mixed_fault(b"\n".join(lines) + b"\n"), (records, mixed_cases.C2))
    same("the checker of GPS", fault(mixed_cases.file_of_one("G")), None)


if __name__ == "__main__":
    sys.exit(run_tests())
