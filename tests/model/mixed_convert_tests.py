"""Tests of the slow model of `convert` for several systems, against rows that were worked by hand.

Prints a line for each test, and last 'N passed, M failed'.
"""

from __future__ import annotations

import sys
from collections import Counter
from dataclasses import replace

import mixed_cases
import worked_rows as rows
from captures import capture_of
from clocks import UNKNOWN_DAY, clock_of, glonass_clock
from mixed_model import Options, convert_mixed, kinds_of
from model import COUNTS, Conversion, convert, moment
from msm import message_of, payload_of_msm
from station import legacy_of
from systems import BEIDOU, GALILEO, GLONASS, GPS, LETTERS, QZSS
from tested import NOON, message_of_row, one_cell, row_named, run_tests, same, test, without_cells
from wire import Fields, frame_of, payload_of

MADE = moment("2024-05-17T13:00:00")
TOLD = "2024-05-17 12:00:00.000"


def options_of(codes: str, msm: str | None = None, channels: dict[int, int] | None = None, leap: int | None = None) -> Options:
    return Options(1, NOON, MADE, "BASE", tuple(codes.split(",")), 64, msm, channels, leap)


def report(lines: list[str], **counts: int) -> str:
    """Lines of a report, and its counts; those that are not named are 0."""
    return "".join(f"{line}\n" for line in [*lines, *(f"{name} {counts.get(name, 0)}" for name in COUNTS)])


def legacy(time: int) -> bytes:
    fields: Fields = {"satellite": 5, "l1_range": 5_000_000, "modulus_ambiguity": 70}
    return frame_of(payload_of(legacy_of(time % 604_800_000, [fields], station=1)))


def lines_of(conversion: Conversion) -> list[str]:
    """The lines of the report before its counts."""
    return conversion.report.splitlines()[: -len(COUNTS)]


@test
def a_whole_file_and_its_report() -> None:
    frames = [frame_of(bytes.fromhex(row.payload)) for row in rows.ROWS if row.kind == 7]
    for turn in range(7):
        links = [b"".join(frames[turn:]), b"".join(frames[:turn])]
        got = convert_mixed(options_of(rows.CODES, "7", {10: -5}), links)
        same("the file", got.file, rows.FILE)
        same("the report", got.report, report(["other-channel -", "no-channel -"], frames=7, taken=7, epochs=1))


@test
def a_whole_file_with_doppler() -> None:
    frames = [frame_of(bytes.fromhex(row.payload)) for row in rows.ROWS if row.kind == 7]
    options = replace(options_of(rows.CODES, "7", {10: -5}), doppler=True)
    same("words", options.words()[-1], "--doppler")
    got = convert_mixed(options, [b"".join(frames)])
    same("the file", got.file, mixed_cases.with_doppler(rows.FILE))
    same("the report", got.report, report(["other-channel -", "no-channel -"], frames=7, taken=7, epochs=1))


@test
def rates_count_with_doppler_alone() -> None:
    """Two messages whose rates differ are copies without the option; with it they conflict, if their shifts differ."""
    row = row_named("R10")
    for doppler, end, told in ((False, "B8", {"repeat": 1}), (True, "94", {"repeat": 1}), (True, "B8", {"conflict": 1})):
        links = [frame_of(bytes.fromhex(row.payload)) + frame_of(bytes.fromhex(row.payload[:-2] + end))]
        options = replace(options_of("R2P", "7", {10: -5}), doppler=doppler)
        lines = [f"link 1 conflict 1087 {TOLD} R10 2P"] * ("conflict" in told) + ["other-channel -", "no-channel -"]
        same(f"{doppler}", convert_mixed(options, links).report, report(lines, frames=2, taken=1, epochs=1, **told))


@test
def gps_alone_is_as_before() -> None:
    for number in range(66):
        capture = capture_of(20260524, number)
        it = capture.setup
        msm = None if it.msm is None else str(it.msm)
        options = Options(it.station, it.near, it.made, it.marker, it.codes, it.window, msm)
        same("words", options.words(), it.words())
        due, got = convert(it, capture.links), convert_mixed(options, capture.links)
        same(f"{number}", (got.file, got.report, got.epochs, got.closed), (due.file, due.report, due.epochs, due.closed))


@test
def beidou_on_gps_time_makes_others_late() -> None:
    """257 epochs at 1 Hz with a clock of BeiDou 14 s ahead: of each other system so many messages are late, by windows."""
    sent = ((GPS, 2, 0), (GLONASS, 2, 0), (QZSS, 2, 0), (BEIDOU, 2, 14_000))
    text = b"".join(one_cell(it, 7, NOON + 1000 * at + ahead, 1, signal) for at in range(257) for it, signal, ahead in sent)
    for window, due in ((4, 253), (13, 244), (14, 0)):
        options = Options(1, NOON, MADE, "BASE", ("1C", "R1C", "J1C", "C2I"), window, "7", {1: 1})
        late = Counter(line.split(" ")[3] for line in lines_of(convert_mixed(options, [text])) if " late " in line)
        same(f"late with a window of {window}", late, Counter({it: due for it in ("1077", "1087", "1117")} if due else {}))


@test
def channels_in_the_file_and_in_the_report() -> None:
    for name, given, sent, normal, phase in rows.CHANNELS:
        row = row_named(name)
        text = frame_of(payload_of_msm(message_of_row(row, sent)))
        got = convert_mixed(options_of(f"R{row.code}", str(row.kind), given), [text])
        due = [f"other-channel {name if normal == 14 else '-'}", f"no-channel {name if normal == 15 else '-'}"]
        same(f"{name} with {sent} and {given}", lines_of(got), due)
        shown = [it for it in got.file.splitlines() if it.startswith(name)]
        value = None if phase is None else f"{phase // 1000}.{phase % 1000:03}"
        same("its phase", [it[20:33].strip() for it in shown], [value or ""])


@test
def slots_of_the_report() -> None:
    """The slots rise; late messages count; slots above 27 have no name; and only a message of the station is looked at."""
    bits = {it: {"rough_ms": 70, "extended": 3} for it in (28, 27, 3, 9, 1)}
    cells = {(it, 2): {} for it in bits}
    header = {"number": 1087, "station": 1, "tow": clock_of(GLONASS, NOON)}
    message = message_of(header, bits, cells)
    text = frame_of(payload_of_msm(message))
    ends = ["other-channel R03 R27", "no-channel R01"]
    given = {27: 6, 3: -7, 9: -4}
    same("slots", lines_of(convert_mixed(options_of("R1C", "7", given), [text])), ends)
    newer = b"".join(without_cells(GLONASS, 7, clock_of(GLONASS, NOON + 1000 * at)) for at in (1, 2))
    options = Options(1, NOON, MADE, "BASE", ("R1C",), 2, "7", given)
    same("late", lines_of(convert_mixed(options, [newer + text])), [f"link 1 late 1087 {TOLD}", *ends])
    message.header["station"] = 2
    foreign = frame_of(payload_of_msm(message))
    got = convert_mixed(options, [foreign]).report
    same("foreign", got, report(["other-channel -", "no-channel -", "no-message R"], frames=1, foreign=1))


@test
def systems_without_a_message() -> None:
    gps, galileo = one_cell(GPS, 4, NOON, 5, 2), one_cell(GALILEO, 4, NOON, 5, 2)
    cases = (
        ("1C", b"", []),
        ("1C,E1C", gps + galileo, []),
        ("1C,E1C", gps, ["no-message E"]),
        ("1C,E1C", galileo, ["no-message G"]),
        ("E1C", gps, ["no-message E"]),
        ("I5A,J1C,1C,C2I", galileo, ["no-message G C J I"]),
        ("E1C", one_cell(GALILEO, 7, NOON, 5, 2), ["no-message E"]),  # which is of another kind
        ("E5X", galileo, []),  # its message is taken, without a listed cell
        ("1C,E1C", gps + without_cells(GALILEO, 4, NOON % 604_800_000), ["no-message E"]),  # which opens no epoch, and is a repeat
    )
    for codes, text, due in cases:
        same(codes, lines_of(convert_mixed(options_of(codes), [text])), due)


@test
def messages_of_systems_that_are_not_listed() -> None:
    text = legacy(NOON) + one_cell(GPS, 4, NOON, 5, 2) + one_cell(GALILEO, 4, NOON, 5, 2)
    same("of GPS", convert_mixed(options_of("E1C"), [text]).report, report([], frames=3, other=2, taken=1, epochs=1))
    same("of Galileo", convert_mixed(options_of("1C"), [text]).report, report([], frames=3, other=1, taken=2, epochs=1))
    cut = frame_of(payload_of(legacy_of(0, [{"satellite": 5}], station=1))[:-1])
    same("a 1004 that is cut", convert_mixed(options_of("E1C"), [cut]).report, report(["no-message E"], frames=1, other=1))


@test
def a_message_without_cells_opens_an_epoch() -> None:
    """Two epochs are opened so, and close the one before: a message of GPS comes too late then."""
    empty = b"".join(without_cells(GLONASS, 7, clock_of(GLONASS, NOON + 1000 * at)) for at in (1, 1, 2))
    options = Options(1, NOON, MADE, "BASE", ("1C", "R1C"), 2, "7", {})
    got = convert_mixed(options, [empty + one_cell(GPS, 7, NOON, 5, 2)])
    lines = [f"link 1 late 1077 {TOLD}", "other-channel -", "no-channel -", "no-message G"]
    same("report", got.report, report(lines, frames=4, taken=2, repeat=1, late=1))


@test
def kinds() -> None:
    same("a kind for all", kinds_of("7"), dict.fromkeys(LETTERS, 7))
    same("exceptions", kinds_of("7,E4,C5"), {**dict.fromkeys(LETTERS, 7), "E": 4, "C": 5})
    text = b"".join(one_cell(GALILEO, kind, NOON, 10 + kind, 2) for kind in (4, 5, 6, 7))
    for msm, due in ((None, "E14"), ("7", "E17"), ("7,E4", "E14"), ("4,E6", "E16")):
        got = convert_mixed(options_of("E1C", msm), [text])
        same(msm, got.report, report([], frames=4, other=3, taken=1, epochs=1))
        same(msm, [line[:3] for line in got.file.splitlines() if line.startswith("E1")], [due])


@test
def conflicts_name_satellite_and_code() -> None:
    """Also of a code that is not listed. In the leap second GLONASS has the clock of the second after it."""
    texts = [one_cell(BEIDOU, 7, NOON, 5, 14, cnr=cnr) for cnr in (160, 320)]
    got = convert_mixed(options_of("C2I", "7"), [b"".join(texts)])
    same("a conflict", got.report, report([f"link 1 conflict 1127 {TOLD} C05 7I"], frames=2, taken=1, conflict=1))
    near = moment("2017-01-01T00:00:00")
    options = Options(1, near, MADE, "BASE", ("R1C",), 64, "7", {1: 1})
    text = b"".join(one_cell(GLONASS, 7, near + 17_000 + 1000 * at, 1, 2, cnr=160 + 16 * at) for at in (-1, 0, 1))
    got = convert_mixed(options, [text])
    same("a leap second", lines_of(got)[0], "link 1 conflict 1087 2017-01-01 00:00:18.000 R01 1C")
    same("its records", [it[:29] for it in got.file.splitlines() if it[0] == ">"], [f"> 2017 01 01 00 00 {at}.0000000" for at in (16, 18)])
    same("its leap seconds", [it[:6] for it in got.file.splitlines() if "LEAP" in it], ["    17"])


@test
def refused_messages() -> None:
    text = b"".join(without_cells(GLONASS, 7, glonass_clock(*it)) for it in ((UNKNOWN_DAY, 0), (6, 86_401_000)))
    text += without_cells(GALILEO, 7, 604_800_000) + without_cells(BEIDOU, 7, 604_800_000)
    due = [f"link 1 refused M4 {number}" for number in (1087, 1087, 1097)]
    got = convert_mixed(options_of("R1C,E1C", "7", {}), [text])
    lines = [*due, "other-channel -", "no-channel -", "no-message R E"]
    same("clocks", got.report, report(lines, frames=4, other=1, refused=3))


@test
def leap_seconds_of_the_header() -> None:
    """Those of the first record, of the reference if there is none, or the given ones."""
    text = one_cell(GLONASS, 7, moment("2016-12-31T23:59:00"), 1, 2, cnr=160)
    cases = (
        ("2017-01-01T12:00:00", text, None, 17), ("2017-01-01T12:00:00", b"", None, 18), ("2016-12-31T12:00:00", b"", None, 17),
        ("2017-01-01T12:00:00", text, 18, 18), ("2017-01-01T12:00:00", b"", 0, 0), ("1980-01-13T00:00:00", b"", None, 0),
    )  # fmt: skip
    for near, link, leap, due in cases:
        options = Options(1, moment(near), MADE, "BASE", ("R1C",), 64, "7", {1: 1}, leap)
        got = convert_mixed(options, [link]).file.splitlines()
        same(near, [line[:6] for line in got if line[60:].startswith("LEAP SECONDS")], [f"{due:6}"])


if __name__ == "__main__":
    sys.exit(run_tests())
